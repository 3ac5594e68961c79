//! `bench alike SEED COUNT` holds the optimised program to the proved library, number by number.
//! `bench count CASE WHO STEPS` does STEPS steps of a case, for a tool that counts instructions.
//! `bench cases` prints the cases and how many steps of each are to be counted.
//! `bench report COUNTS` times everything and prints the page; COUNTS is a file of instructions
//! counted for one step, a line `CASE WHO NUMBER` each.

mod alike;
mod inputs;
mod report;
mod rival;
mod time;
mod work;

use std::process::exit;

fn main() {
    let words: Vec<String> = std::env::args().skip(1).collect();
    let words: Vec<&str> = words.iter().map(String::as_str).collect();
    match words[..] {
        ["alike", seed, count] => {
            let (seed, count) = (number(seed), number(count));
            alike::check(seed, count);
            println!("{count} sheets and runs of seed {seed}: both programs alike");
        }
        ["cases"] => {
            for case in work::cases() {
                println!("{} {}", case.name, case.counted);
            }
        }
        ["count", name, who, steps] => {
            let case = work::cases().into_iter().find(|case| case.name == name);
            match (case, work::who(who)) {
                (Some(case), Some(who)) => {
                    let steps = case.steps(who, number(steps) as usize);
                    case.work(who, &case.ready(), steps);
                }
                _ => usage(),
            }
        }
        ["report", counts] => report::print(counts),
        _ => usage(),
    }
}

fn number(word: &str) -> u64 {
    word.parse().unwrap_or_else(|_| usage())
}

fn usage() -> ! {
    eprintln!("usage: bench alike SEED COUNT | cases | count CASE WHO STEPS | report COUNTS");
    exit(2);
}

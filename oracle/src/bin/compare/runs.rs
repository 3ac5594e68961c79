//! Scripts of runs: what each call answers and leaves.

use crate::program::{differences, Case, Difference};
use oracle::examples;
use oracle::script::Script;
use oracle::scripts::random_script;
use std::io;

impl Case for Script {
    fn text(&self) -> String {
        Script::text(self)
    }

    fn expected(&self) -> Vec<String> {
        self.answers()
    }
}

pub fn compare(seed: u64, count: u64, program: &[String]) -> io::Result<bool> {
    let mut scripts = examples::scripts();
    let examples = scripts.len();
    scripts.extend((0..count).map(|n| random_script(seed, n)));
    let differences = differences(&scripts, program)?;
    let shortest = differences.iter().min_by_key(|one| scripts[one.case].len());
    match shortest {
        None => {
            println!("{examples} numbered and {count} random scripts of seed {seed} run alike");
        }
        Some(one) => {
            println!("{} of {} scripts differ", differences.len(), scripts.len());
            report(&scripts[one.case], program)?;
        }
    }
    Ok(shortest.is_none())
}

/// Prints the smallest script that is found to differ.
fn report(script: &Script, program: &[String]) -> io::Result<()> {
    let script = smallest(script.clone(), program)?;
    match difference(&script, program)? {
        None => print!("one differs only after others:\n{}", script.text()),
        Some(one) => {
            print!("the smallest found:\n{}", script.text());
            one.print();
        }
    }
    Ok(())
}

fn difference(script: &Script, program: &[String]) -> io::Result<Option<Difference>> {
    Ok(differences(&[script.clone()], program)?.pop())
}

/// Leaves out stretches of commands, long ones first, as long as what is left still differs.
fn smallest(mut script: Script, program: &[String]) -> io::Result<Script> {
    let mut stretch = script.len();
    while stretch > 0 {
        let mut from = 0;
        while from < script.len() {
            let shorter = script.without(from, stretch);
            match difference(&shorter, program)? {
                Some(_) => script = shorter,
                None => from += stretch,
            }
        }
        stretch /= 2;
    }
    Ok(script)
}

//! The page: what was timed, on which machine, and the ratios.

use crate::time;
use crate::work::{cases, Case, Kind, Who, ALL};
use std::fs;

const ROUNDS: usize = 15;

/// The proved library by the optimised program, at most.
const TARGET: f64 = 2.0;

const HEAD: &str = "# Speed

`bench/run` writes this page. Three programs do the same work in one process:

- proved: the library of this project, linked from `crates/clib/out/libclib.a` and called through `crates/clib`;
- optimised: a Rust program with the same method, the same layout of the run's slice and the same checks, the test of
  refusal 14 among them, written for speed (`bench/src/rival`). Before anything is timed it is held to the proved
  library on random sheets and runs, number by number;
- literal: the oracle, which keeps the whole history. Its work grows with the slots done, so it is given the first slots
  of a run, and the others those after slot 1,000: that ratio is of unlike slots. For a verdict it decides what comes past
  the tables by a division, so it does not walk to 115,841.

Both sides are built for release, for x86-64 and no particular model of it. The programs take turns; each time is the least
of its rounds. A ratio is the proved library's time by the other's.
";

pub fn print(counts: &str) {
    let counts = fs::read_to_string(counts).unwrap_or_default();
    let all = cases();
    let times: Vec<[f64; 3]> = all.iter().map(|case| time::of_case(case, ROUNDS)).collect();
    println!("{HEAD}");
    machine();
    println!("\n## Time\n");
    println!("| one verdict or one slot | proved | optimised | literal | proved : optimised | proved : literal |");
    println!("|---|---|---|---|---|---|");
    for (case, each) in all.iter().zip(&times) {
        let [proved, optimised, literal] = *each;
        println!(
            "| {} | {} | {} | {} | {:.2} | {} |",
            case.what,
            microseconds(proved),
            microseconds(optimised),
            microseconds(literal),
            proved / optimised,
            ratio(proved / literal)
        );
    }
    slots_per_second(&all, &times);
    instructions(&all, &counts);
    early_and_late();
    targets(&all, &times, &counts);
}

fn machine() {
    let about = fs::read_to_string("/proc/cpuinfo").unwrap_or_default();
    let name = about.lines().find(|line| line.starts_with("model name"));
    let name = name.and_then(|line| line.split(": ").nth(1));
    let cores = about.lines().filter(|line| line.starts_with("processor"));
    println!(
        "Machine: {}, {} cores; {ROUNDS} rounds. The inputs stand in `bench/src/inputs.rs`.",
        name.unwrap_or("not known"),
        cores.count()
    );
}

fn microseconds(seconds: f64) -> String {
    let micro = seconds * 1e6;
    match micro {
        _ if micro < 1.0 => format!("{:.0} ns", 1e3 * micro),
        _ if micro < 10.0 => format!("{micro:.2} µs"),
        _ if micro < 1_000.0 => format!("{micro:.0} µs"),
        _ => format!("{:.1} ms", micro / 1e3),
    }
}

fn ratio(value: f64) -> String {
    match value < 10.0 {
        true => format!("{value:.2}"),
        false => format!("{value:.0}"),
    }
}

fn slots_per_second(all: &[Case], times: &[[f64; 3]]) {
    println!("\nSlots in a second:\n");
    println!("| | proved | optimised | literal |\n|---|---|---|---|");
    for (case, each) in all.iter().zip(times) {
        if let Kind::Slots(_, few) = &case.kind {
            let [proved, optimised, literal] = each.map(|seconds| thousands(1.0 / seconds));
            let what = case.what.trim_start_matches("slot: ");
            println!("| {what} | {proved} | {optimised} | {literal} (first {few} slots) |");
        }
    }
}

/// Rounded to three digits, with commas.
fn thousands(value: f64) -> String {
    let unit = 10f64.powf((value.log10().floor() - 2.0).max(0.0));
    let digits = format!("{:.0}", (value / unit).round() * unit);
    let mut grouped = String::new();
    for (place, digit) in digits.chars().enumerate() {
        if place > 0 && (digits.len() - place) % 3 == 0 {
            grouped.push(',');
        }
        grouped.push(digit);
    }
    grouped
}

/// The number of a line `CASE WHO NUMBER`.
fn counted(counts: &str, case: &Case, who: Who) -> Option<f64> {
    let lines = counts.lines().map(|line| line.split_whitespace());
    let mut found = lines.filter_map(|mut words| {
        let named = words.next() == Some(case.name) && words.next() == Some(who.word());
        words
            .next()
            .filter(|_| named)
            .and_then(|word| word.parse().ok())
    });
    found.next()
}

fn instructions(all: &[Case], counts: &str) {
    if counts.is_empty() {
        return;
    }
    println!("\n## Instructions\n");
    println!("Counted by `valgrind --tool=callgrind`, for one verdict or one slot: steadier than times on a busy machine.\n");
    println!("| | proved | optimised | literal | proved : optimised |\n|---|---|---|---|---|");
    for case in all {
        let each = ALL.map(|who| counted(counts, case, who));
        let told = each.map(|one| one.map_or("-".to_string(), thousands));
        let by = match (each[0], each[1]) {
            (Some(proved), Some(optimised)) => format!("{:.2}", proved / optimised),
            _ => "-".to_string(),
        };
        println!(
            "| {} | {} | {} | {} | {by} |",
            case.what, told[0], told[1], told[2]
        );
    }
}

fn early_and_late() {
    let [proved, optimised] = time::early_and_late(ROUNDS);
    println!("\n## The cost of a slot does not grow\n");
    println!("The flooded full sheet, one slot, on average over slots 1,001 to 2,000 and over slots 999,001 to 1,000,000:\n");
    println!("| | early | late | late : early |\n|---|---|---|---|");
    for (who, [early, late]) in [("proved", proved), ("optimised", optimised)] {
        println!(
            "| {who} | {} | {} | {:.2} |",
            microseconds(early),
            microseconds(late),
            late / early
        );
    }
}

/// A case misses where either measure is above the target.
fn targets(all: &[Case], times: &[[f64; 3]], counts: &str) {
    println!("\n## Targets\n");
    println!("Verdict and slot at most {TARGET} times the optimised program, by time and by instructions. Missed in this run:\n");
    let mut missed = 0;
    for (case, each) in all.iter().zip(times) {
        let time = each[0] / each[1];
        let pair = [Who::Proved, Who::Optimised].map(|who| counted(counts, case, who));
        let instructions = match pair {
            [Some(proved), Some(optimised)] => proved / optimised,
            _ => 0.0,
        };
        if time > TARGET || instructions > TARGET {
            missed += 1;
            println!(
                "- {}: {time:.1} by time, {instructions:.1} by instructions.",
                case.what
            );
        }
    }
    if missed == 0 {
        println!("- nothing.");
    }
}

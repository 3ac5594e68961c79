//! `compare sheets SEED COUNT PROGRAM ..` hands COUNT random sheets of a seed to a program that
//! takes sheets as lines of hex digits, and holds what it writes, the reading and the verdict, to
//! this implementation's.
//! `compare runs SEED COUNT PROGRAM ..` does the same with scripts for a program that opens runs
//! and runs their slots: the numbered examples, and COUNT random ones.
//! `compare streams SEED COUNT PROGRAM ..` hands COUNT random streams, a sheet and its slots, to a
//! program like `slotrun`, one a call, and holds its print-out and its words on standard error to
//! this implementation's.
//! Where one differs it prints the shortest such sheet, script or stream and ends with status 1.

mod program;
mod runs;
mod sheets;
mod streams;

use std::io;

fn main() -> io::Result<()> {
    let arguments: Vec<String> = std::env::args().skip(1).collect();
    let (seed, count) = match (number(&arguments, 1), number(&arguments, 2)) {
        (Some(seed), Some(count)) if arguments.len() > 3 => (seed, count),
        _ => usage(),
    };
    let program = &arguments[3..];
    let alike = match arguments[0].as_str() {
        "sheets" => sheets::compare(seed, count, program)?,
        "runs" => runs::compare(seed, count, program)?,
        "streams" => streams::compare(seed, count, program)?,
        _ => usage(),
    };
    if !alike {
        std::process::exit(1);
    }
    Ok(())
}

fn usage() -> ! {
    eprintln!("usage: compare sheets|runs|streams SEED COUNT PROGRAM ..");
    std::process::exit(2);
}

fn number(arguments: &[String], at: usize) -> Option<u64> {
    arguments.get(at)?.parse().ok()
}

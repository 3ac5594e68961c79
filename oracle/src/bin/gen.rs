//! `gen SEED N` writes case N of a seed as raw bytes: the sheet and the stream after it.
//! `gen SEED N sheet` writes the sheet alone, for a reading or a verdict.

use std::io::{self, Write};

fn main() -> io::Result<()> {
    let arguments: Vec<String> = std::env::args().skip(1).collect();
    let numbers: Vec<u64> = arguments
        .iter()
        .take(2)
        .flat_map(|one| one.parse())
        .collect();
    let sheet_alone = match arguments.get(2).map(String::as_str) {
        None => false,
        Some("sheet") => true,
        Some(_) => usage(),
    };
    let (seed, number) = match numbers.as_slice() {
        &[seed, number] => (seed, number),
        _ => usage(),
    };
    let case = oracle::gen::case(seed, number);
    let mut output = io::stdout().lock();
    output.write_all(&case.sheet)?;
    if !sheet_alone {
        output.write_all(&case.stream)?;
    }
    output.flush()
}

fn usage() -> ! {
    eprintln!("usage: gen SEED N [sheet]");
    std::process::exit(2);
}

//! `slotrun` reads a sheet and slots from standard input and prints the run, and on standard error
//! why it was refused. With the argument `read` or `verdict` the input is one sheet, and only its
//! reading or its verdict is printed.

use oracle::run::MOST_SLOTS;
use oracle::stream::{read_line, slotrun, verdict_line};
use std::io::{self, BufReader, BufWriter, Read, Write};

fn main() -> io::Result<()> {
    let mut input = BufReader::new(io::stdin().lock());
    let mut output = BufWriter::new(io::stdout().lock());
    let argument = std::env::args().nth(1);
    let mut words = String::new();
    match argument.as_deref() {
        None => words = slotrun(&mut input, &mut output, MOST_SLOTS)?,
        Some("read") => {
            let bytes = all_bytes(&mut input)?;
            writeln!(output, "{}", read_line(&bytes))?;
        }
        Some("verdict") => {
            let bytes = all_bytes(&mut input)?;
            writeln!(output, "{}", verdict_line(&bytes))?;
        }
        Some(_) => {
            eprintln!("usage: slotrun [read | verdict]");
            std::process::exit(2);
        }
    }
    output.flush()?;
    io::stderr().write_all(words.as_bytes())
}

fn all_bytes(input: &mut dyn Read) -> io::Result<Vec<u8>> {
    let mut bytes = Vec::new();
    input.read_to_end(&mut bytes)?;
    Ok(bytes)
}

//! Whole streams, a sheet and its slots: the complete print-out, and the words on standard error.

use crate::program::{written, Difference, Written};
use oracle::inputs::random_input;
use oracle::run::MOST_SLOTS;
use oracle::script::as_text;
use oracle::stream::slotrun;
use std::io;

/// A stream with what the program must write for it and what it wrote.
struct Differing {
    stream: Vec<u8>,
    expected: Written,
    given: Written,
}

pub fn compare(seed: u64, count: u64, program: &[String]) -> io::Result<bool> {
    let mut differing = Vec::new();
    for n in 0..count {
        let stream = random_input(seed, n);
        let (expected, given) = (expected(&stream), written(&stream, program)?);
        if expected != given {
            differing.push(Differing {
                stream,
                expected,
                given,
            });
        }
    }
    match differing.iter().min_by_key(|one| one.stream.len()) {
        None => println!("{count} random streams of seed {seed} are printed and told alike"),
        Some(shortest) => {
            println!("{} of {count} random streams differ", differing.len());
            shortest.print();
        }
    }
    Ok(differing.is_empty())
}

fn expected(stream: &[u8]) -> Written {
    let mut output = Vec::new();
    let words = slotrun(&mut &stream[..], &mut output, MOST_SLOTS);
    Written {
        output: String::from_utf8(output).expect("the print-out is plain text"),
        errors: words.expect("a slice and a list do not fail"),
    }
}

impl Differing {
    /// Prints the stream, and of each output that differs its name and its first such line.
    fn print(&self) {
        println!("the shortest: {}", as_text(&self.stream));
        let (expected, given) = (&self.expected, &self.given);
        for (name, expected, given) in [
            ("standard output", &expected.output, &given.output),
            ("standard error", &expected.errors, &given.errors),
        ] {
            if expected != given {
                println!("{name} differs");
                difference(expected, given).print();
            }
        }
    }
}

/// An end of line that is missing shows as a line that is.
fn difference(expected: &str, given: &str) -> Difference {
    let lines = |text: &str| text.split('\n').map(str::to_string).collect();
    Difference {
        case: 0,
        expected: lines(expected),
        given: lines(given),
    }
}

//! Random sheets: their reading and their verdict.

use crate::program::{differences, Case};
use oracle::gen::case;
use oracle::script::as_text;
use oracle::stream::{read_line, verdict_line};
use std::io;

struct Sheet(Vec<u8>);

impl Case for Sheet {
    fn text(&self) -> String {
        as_text(&self.0) + "\n"
    }

    /// The reading and, if it reads, the verdict.
    fn expected(&self) -> Vec<String> {
        let mut lines = vec![read_line(&self.0)];
        if lines[0].starts_with("read") {
            lines.push(verdict_line(&self.0));
        }
        lines
    }
}

pub fn compare(seed: u64, count: u64, program: &[String]) -> io::Result<bool> {
    let sheets: Vec<Sheet> = (0..count).map(|n| Sheet(case(seed, n).sheet)).collect();
    let differences = differences(&sheets, program)?;
    let shortest = differences
        .iter()
        .min_by_key(|one| sheets[one.case].0.len());
    match shortest {
        None => println!("{count} random sheets of seed {seed} are read and judged alike"),
        Some(one) => {
            println!("{} of {count} random sheets differ", differences.len());
            print!("the shortest: {}", sheets[one.case].text());
            one.print();
        }
    }
    Ok(shortest.is_none())
}

//! Cases handed to the program that is compared, many in one text, and where it differs.

use oracle::script::LONGEST_TEXT;
use std::io::{self, Write};
use std::process::{Command, Stdio};

/// Some lines of the program's input, and the lines that it must write for them.
pub trait Case {
    fn text(&self) -> String;
    fn expected(&self) -> Vec<String>;
}

/// What differs: which case it is, the lines expected and the lines given.
pub struct Difference {
    pub case: usize,
    pub expected: Vec<String>,
    pub given: Vec<String>,
}

impl Difference {
    /// Prints the first line that differs.
    pub fn print(&self) {
        let lines = self.expected.len().max(self.given.len());
        let line =
            |of: &[String], at: usize| of.get(at).map_or("nothing".to_string(), String::clone);
        for at in 0..lines {
            let (expected, given) = (line(&self.expected, at), line(&self.given, at));
            if expected != given {
                println!("line {}\nexpected: {expected}\ngiven: {given}", at + 1);
                return;
            }
        }
    }
}

/// The cases that differ.
pub fn differences<C: Case>(cases: &[C], program: &[String]) -> io::Result<Vec<Difference>> {
    let mut differences = Vec::new();
    let mut text = String::new();
    let mut first = 0;
    for (next, case) in cases.iter().enumerate() {
        let lines = case.text();
        if text.len() + lines.len() >= LONGEST_TEXT {
            differences.append(&mut piece(first, &cases[first..next], &text, program)?);
            first = next;
            text.clear();
        }
        text.push_str(&lines);
    }
    differences.append(&mut piece(first, &cases[first..], &text, program)?);
    Ok(differences)
}

/// Runs the program on a piece of the cases and holds its lines to the expected ones; the last
/// case has all lines that are left. What comes on standard error is passed on.
fn piece<C: Case>(
    first: usize,
    cases: &[C],
    text: &str,
    program: &[String],
) -> io::Result<Vec<Difference>> {
    let written = written(text.as_bytes(), program)?;
    eprint!("{}", written.errors);
    let mut lines = written.output.lines();
    let mut differences = Vec::new();
    for (n, case) in cases.iter().enumerate() {
        let expected = case.expected();
        let given: Vec<String> = match n + 1 == cases.len() {
            true => lines.by_ref().map(str::to_string).collect(),
            false => lines
                .by_ref()
                .take(expected.len())
                .map(str::to_string)
                .collect(),
        };
        if expected != given {
            differences.push(Difference {
                case: first + n,
                expected,
                given,
            });
        }
    }
    Ok(differences)
}

/// What a program writes to standard output and to standard error.
#[derive(PartialEq, Eq)]
pub struct Written {
    pub output: String,
    pub errors: String,
}

/// What the program writes on some bytes. Whoever does not compare its standard error passes it
/// on, so that its troubles are seen.
pub fn written(bytes: &[u8], program: &[String]) -> io::Result<Written> {
    let mut child = Command::new(&program[0])
        .args(&program[1..])
        .stdin(Stdio::piped())
        .stdout(Stdio::piped())
        .stderr(Stdio::piped())
        .spawn()?;
    let mut input = child.stdin.take().expect("a piped input");
    let whole = bytes.to_vec();
    let writer = std::thread::spawn(move || input.write_all(&whole));
    let output = child.wait_with_output()?;
    match writer.join().expect("a writer that ends") {
        // A program may end before it has read all.
        Err(broken) if broken.kind() == io::ErrorKind::BrokenPipe => {}
        other => other?,
    }
    let text = |bytes: &[u8]| String::from_utf8_lossy(bytes).into_owned();
    Ok(Written {
        output: text(&output.stdout),
        errors: text(&output.stderr),
    })
}

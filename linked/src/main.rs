//! `linked SEED COUNT` links the proved library and holds it to the oracle number by number: the
//! numbered examples, COUNT random sheets, COUNT random scripts of runs, and COUNT runs with
//! numbers changed. Where one differs it says which, and ends with a status other than 0.

mod damaged;
mod image;
mod runs;
mod sheets;

use oracle::examples;
use oracle::rng::Rng;
use oracle::scripts::random_script;

fn main() {
    let words: Vec<u64> = std::env::args()
        .skip(1)
        .filter_map(|word| word.parse().ok())
        .collect();
    if words.len() != 2 {
        eprintln!("usage: linked SEED COUNT");
        std::process::exit(2);
    }
    let (seed, count) = (words[0], words[1]);
    println!("linked: seed {seed}");
    for number in 0..count {
        let _name = Name("sheet", number);
        sheets::compare(seed, number);
    }
    println!("{count} random sheets judged alike, number by number");
    let mut slots = 0;
    for (number, script) in examples::scripts().iter().enumerate() {
        let _name = Name("example", number as u64);
        slots += runs::compare(script, Rng::new(seed, number as u64));
    }
    for number in 0..count {
        let _name = Name("script", number);
        let script = random_script(seed, number);
        slots += runs::compare(&script, Rng::new(seed, number));
    }
    println!("{count} random scripts with {slots} slots run alike, number by number");
    let mut tried = damaged::Count::default();
    for number in 0..count {
        let _name = Name("changed slice", number);
        damaged::compare(&mut Rng::new(seed, number), &mut tried);
    }
    println!(
        "{} slots on changed slices refused with nothing changed, {} done within their part",
        tried.refused, tried.done
    );
}

/// Says which case it was where a comparison fails.
struct Name(&'static str, u64);

impl Drop for Name {
    fn drop(&mut self) {
        if std::thread::panicking() {
            println!("{} {} differs", self.0, self.1);
        }
    }
}

/// Fails at the first number that differs.
pub fn same(what: &str, given: &[u32], expected: &[u32]) {
    assert_eq!(given.len(), expected.len(), "{what}: length");
    let differs = given.iter().zip(expected).position(|(a, b)| a != b);
    if let Some(place) = differs {
        let (is, not) = (given[place], expected[place]);
        panic!("{what}: number {place} is {is} and not {not}");
    }
}

/// Numbers that no call writes, each unlike its neighbours.
pub fn filled(length: usize) -> Vec<u32> {
    (0..length)
        .map(|place| 0xA5A5_0000 + place as u32)
        .collect()
}

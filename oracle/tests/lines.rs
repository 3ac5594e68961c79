//! The random streams that the proved program is compared on reach every line of the rules' table
//! of words, and nothing else is told.

mod common;

use common::*;
use oracle::inputs::random_input;
use oracle::run::MOST_SLOTS;
use std::collections::BTreeMap;

/// The seed and the number of the streams that the proved program is compared on.
const SEED: u64 = 20261115;
const STREAMS: u64 = 2_000;

/// The lines of the rules' table with the numbers of their refusals, but for 17's, which needs a
/// million slots. Words in capitals stand for numbers, KIND for `service` or `envelope`. Where the
/// rules give one line two forms both are here, and what is told belongs to the first it matches.
const TABLE: [(u32, &str); 18] = [
    (1, "the input ends after N bytes: a sheet has at least 8"),
    (1, "a length of L, at byte 0: at least 4 bytes follow"),
    (2, "a length of L, at byte 0: at most 4212 bytes follow"),
    (2, "a length of L, at byte 0: N bytes follow"),
    (3, "a version of V, at byte 4: 1 is right"),
    (4, "a capacity c of V, at byte 5: 1 to 64 are right"),
    (5, "a period of V, at byte 6: 1 to 16 are right"),
    (6, "a number of sessions of V, at byte 7: 1 to 16 are right"),
    (
        7,
        "session I, at byte B: 7 bytes are needed and N are left: \
         a larger length, fewer sessions or shorter tables",
    ),
    (
        7,
        "session I, at byte B: NEEDED bytes are needed and N are left: \
         a larger length, fewer sessions or shorter tables",
    ),
    (
        8,
        "session I, KIND: a table of N values, at byte B: P to 64 are right",
    ),
    (
        9,
        "session I, service: a rate of R, at byte B: 1 to 256 are right",
    ),
    (
        9,
        "session I, envelope: a rate of R, at byte B: 0 to 256 are right",
    ),
    (
        10,
        "session I, KIND: value N is V, at byte B: 0 to 500 are right",
    ),
    (
        10,
        "session I, KIND: value N is V and the one before it W, at byte B: a curve never falls",
    ),
    (
        10,
        "session I, KIND: V at the join is below W, at byte B: \
         a longer table, or a higher rate",
    ),
    (
        11,
        "N bytes after session M, at byte B: a smaller length, or more sessions",
    ),
    (
        12,
        "the sheet does not pass: in T slots the sessions can be owed more than the link sends, \
         C a slot: a later or smaller service, a smaller envelope, or a larger c",
    ),
];

/// The table with each KIND written out.
fn forms() -> Vec<(u32, String)> {
    let mut forms = Vec::new();
    for (number, line) in TABLE {
        for kind in ["service", "envelope"] {
            let form = (number, line.replace("KIND", kind));
            if forms.last() != Some(&form) {
                forms.push(form);
            }
        }
    }
    forms
}

/// Word by word: capitals stand for a number, and all else for itself.
fn matches(form: &str, line: &str) -> bool {
    let ends = [',', ':'];
    let same = |(form, word): (&str, &str)| {
        let (name, number) = (form.trim_end_matches(ends), word.trim_end_matches(ends));
        let digits = |word: &str| !word.is_empty() && word.bytes().all(|b| b.is_ascii_digit());
        match name.bytes().all(|byte| byte.is_ascii_uppercase()) {
            true => digits(number) && form[name.len()..] == word[number.len()..],
            false => form == word,
        }
    };
    form.split(' ').count() == line.split(' ').count()
        && form.split(' ').zip(line.split(' ')).all(same)
}

/// Every refusal has one line of the table, which names the place that is printed; all others
/// have none. And each line comes often enough for a comparison.
#[test]
fn random_streams_reach_every_line() {
    let forms = forms();
    let mut counts: BTreeMap<(u32, &str), u32> = BTreeMap::new();
    for n in 0..STREAMS {
        let (printed, words) = both_with(&random_input(SEED, n), MOST_SLOTS);
        let Some(refusal) = printed.strip_prefix("refused ") else {
            assert_eq!(words, "", "stream {n}");
            continue;
        };
        let line = words.strip_suffix('\n').expect("an end of line");
        let form = forms.iter().find(|(_, form)| matches(form, line));
        let (number, form) = form.unwrap_or_else(|| panic!("stream {n}: {line}"));
        *counts.entry((*number, form)).or_default() += 1;
        let place = match (number, line.split_once("at byte ")) {
            (12, _) => line.split(' ').nth(6).expect("a slot count"),
            (_, None) => "0",
            (_, Some((_, rest))) => rest.split(':').next().expect("a place"),
        };
        assert_eq!(refusal, format!("{number} {place}\n"), "stream {n}: {line}");
    }
    for (number, form) in &forms {
        let count = counts.get(&(*number, form.as_str())).copied().unwrap_or(0);
        println!("{count} of {number}: {form}");
        assert!(count >= 3, "only {count} of {number}: {form}");
    }
}

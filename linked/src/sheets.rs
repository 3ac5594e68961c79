//! Random sheets: the verdict, each number of its answer, and nothing past it.

use crate::{filled, same};
use linked::{judge, JUDGED_NUMBERS};
use oracle::gen::case;
use oracle::verdict::{verdict, Case};

/// Judges sheet N of a seed both ways.
pub fn compare(seed: u64, number: u64) {
    let bytes = case(seed, number).sheet;
    let mut answer = filled(JUDGED_NUMBERS + 5);
    let mut expected = answer.clone();
    expected[..JUDGED_NUMBERS].copy_from_slice(&judged(&bytes));
    assert!(judge(&bytes, &mut answer));
    same("answer", &answer, &expected);
    let mut short = filled(number as usize % JUDGED_NUMBERS);
    let before = short.clone();
    assert!(!judge(&bytes, &mut short));
    same("short answer", &short, &before);
}

fn judged(bytes: &[u8]) -> [u32; JUDGED_NUMBERS] {
    let answer = verdict(bytes);
    let case = match answer.case {
        Case::Passed { slack, at } => [0, slack, at],
        Case::Failed { at } => [1, at, 0],
        Case::Unreadable(refusal) => [2, refusal.number as u64, refusal.place],
    };
    let mut numbers = [0; JUDGED_NUMBERS];
    for (number, told) in numbers.iter_mut().zip(case.iter().chain(&answer.figures)) {
        *number = *told as u32;
    }
    numbers
}

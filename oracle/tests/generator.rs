//! The generator: a case is always the same, and its cases reach every refusal of the reading,
//! both sides of the border, and slacks and failures that lie late.

mod common;

use common::*;
use oracle::gen::case;
use oracle::sheet::read;
use oracle::stream::{read_line, verdict_line};
use oracle::verdict::{verdict, Case};
use std::collections::BTreeMap;

#[test]
fn a_case_is_always_the_same() {
    for number in 0..50 {
        let (first, second) = (case(5, number), case(5, number));
        assert_eq!((first.sheet, first.stream), (second.sheet, second.stream));
    }
    let streams: Vec<Vec<u8>> = (0..20).map(|number| case(6, number).stream).collect();
    assert!(streams
        .windows(2)
        .all(|two| two[0] != two[1] || two[0].is_empty()));
}

#[test]
fn every_refusal_of_the_reading_is_reached() {
    let mut places: BTreeMap<u32, Vec<u64>> = BTreeMap::new();
    let mut in_streams: BTreeMap<String, u32> = BTreeMap::new();
    for number in 0..4_000 {
        let one = case(1, number);
        if let Err(refusal) = read(&one.sheet) {
            places
                .entry(refusal.number)
                .or_default()
                .push(refusal.place);
            let printed = printed(&[one.sheet, one.stream].concat());
            let start: Vec<&str> = printed.split_whitespace().take(2).collect();
            *in_streams.entry(start.join(" ")).or_default() += 1;
        }
    }
    for number in 1..=11 {
        assert!(places[&number].len() > 10, "refusal {number} is rare");
        assert!(
            in_streams[&format!("refused {number}")] > 10,
            "refusal {number} is rare"
        );
    }
    for number in [7, 8, 9, 10, 11] {
        let some = &mut places.get_mut(&number).expect("seen");
        some.sort();
        some.dedup();
        assert!(some.len() > 5, "refusal {number} has few places");
    }
}

/// Refusal 10 for a join names a rate, that is the fourth or sixth byte of a record.
#[test]
fn joins_are_refused_for_both_curves() {
    let (mut service, mut envelope) = (0, 0);
    for number in 0..4_000 {
        let sheet = case(1, number).sheet;
        if let Some(place) = read_line(&sheet).strip_prefix("refused 10 ") {
            match place {
                "11" => service += 1,
                "13" => envelope += 1,
                _ => {}
            }
        }
    }
    assert!(service > 0 && envelope > 0, "{service} {envelope}");
}

#[test]
fn both_sides_of_the_border_are_reached() {
    let mut counts: BTreeMap<&str, u32> = BTreeMap::new();
    for number in 0..1_500 {
        let name = match verdict(&case(2, number).sheet).case {
            Case::Passed {
                slack: 0,
                at: 1..=8,
            } => "slack 0",
            Case::Passed {
                slack: 0,
                at: 9..=99,
            } => "slack 0 later",
            Case::Passed { slack: 0, .. } => "slack 0 late",
            Case::Passed { slack: 1, .. } => "slack 1",
            Case::Passed { .. } => "passed",
            Case::Failed { at: 1..=8 } => "failed",
            Case::Failed { at: 9..=150 } => "failed later",
            Case::Failed { .. } => "failed late",
            Case::Unreadable(_) => "unreadable",
        };
        *counts.entry(name).or_default() += 1;
    }
    println!("{counts:?}");
    assert_eq!(counts.len(), 9, "{counts:?}");
}

/// Whole print-outs end with a total that adds up.
#[test]
fn print_outs_add_up() {
    for number in 0..400 {
        let one = case(3, number);
        let passed = verdict_line(&one.sheet).starts_with("passed");
        let printed = printed(&[one.sheet, one.stream].concat());
        let last = printed.lines().last().expect("a line");
        if passed {
            let totals: Vec<u64> = last
                .split(' ')
                .skip(1)
                .map(|word| word.parse().expect("a number"))
                .collect();
            assert_eq!(totals[0], totals[1] + totals[2] + totals[3]);
            assert_eq!(totals[1], totals[4] + totals[5]);
            let sent = printed
                .lines()
                .filter(|line| line.as_bytes()[0].is_ascii_digit())
                .count();
            assert_eq!(sent as u64, totals[4]);
        } else {
            assert!(last.starts_with("refused"));
        }
    }
}

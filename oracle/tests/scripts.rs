//! Scripts of runs: the lines expected for the numbered examples, and what random scripts reach.

mod common;

use common::*;
use oracle::script::{Command, Script};
use oracle::scripts::random_script;
use oracle::tally::Tally;
use std::collections::BTreeMap;

fn answers(commands: Vec<Command>) -> Vec<String> {
    Script::new(commands).answers()
}

fn slot(offers: &[u8]) -> Command {
    Command::Slot(offers.to_vec())
}

#[test]
fn k2_and_k12_as_scripts() {
    let k2 = answers(vec![Command::Sheet(k1().bytes()), slot(&[3]), slot(&[3])]);
    let wanted = [
        "opened; kept",
        "sent 1; outcomes 3 0 0; packets 1 1 1; tally 3 3 0 0 1 2; kept",
        "sent 1; outcomes 1 2 0; packets 1 2 2; tally 6 4 2 0 2 2; kept",
    ];
    assert_eq!(k2, wanted);
    let mut commands = vec![Command::Sheet(K12.to_vec()), slot(&[2, 2])];
    commands.push(Command::Repeat(3, vec![0, 0]));
    let wanted = [
        "opened; kept",
        "sent 1; outcomes 2 0 0 2 0 0; packets 2 1 1; tally 4 4 0 0 1 3; kept",
        "sent 1; outcomes 0 0 0 0 0 0; packets 1 2 4; tally 4 4 0 0 4 0; kept",
    ];
    assert_eq!(answers(commands), wanted);
}

#[test]
fn the_earlier_refusal_is_given() {
    let full = Command::Tally(Tally::new([u32::MAX; 6]));
    let lent = |run, outcomes| Command::Lengths([run, outcomes, 3]);
    let k1 = Command::Sheet(k1().bytes());
    let given = answers(vec![
        full,
        lent(12_287, 2),
        slot(&[]),
        k1.clone(),
        lent(12_288, 2),
        slot(&[]),
        Command::Sheet(k4().bytes()),
        k1,
        slot(&[]),
        slot(&[1]),
        lent(12_288, 3),
        slot(&[1]),
        slot(&[0]),
    ]);
    let starts: Vec<&str> = given
        .iter()
        .map(|line| line.split(';').next().expect("a first part"))
        .collect();
    let wanted = [
        "refused 13 0",
        "refused 13 0",
        "refused 14 0",
        "refused 12 1",
        "opened",
        "refused 15 0",
        "refused 16 0",
        "refused 18 0",
        "sent 0",
    ];
    assert_eq!(starts, wanted);
}

#[test]
fn k11_ends_in_17() {
    let given = answers(vec![
        Command::Sheet(k1().bytes()),
        slot(&[3]),
        Command::Repeat(999_998, vec![0]),
        slot(&[4]),
        slot(&[0]),
    ]);
    let wanted = [
        "opened; kept",
        "sent 1; outcomes 3 0 0; packets 1 1 1; tally 3 3 0 0 1 2; kept",
        "sent 0; outcomes 0 0 0; packets; tally 3 3 0 0 3 0; kept",
        "sent 1; outcomes 3 1 0; packets 1 4 1000000; tally 7 6 1 0 4 2; kept",
        "refused 17 0; outcomes; packets; tally 7 6 1 0 4 2; kept",
    ];
    assert_eq!(given, wanted);
}

#[test]
fn random_scripts_reach_every_refusal() {
    let mut counts: BTreeMap<String, u32> = BTreeMap::new();
    for number in 0..600 {
        assert_eq!(
            random_script(4, number).text(),
            random_script(4, number).text()
        );
        for line in random_script(4, number).answers() {
            let name = match line.contains("outcomes") {
                true => "slot",
                false => "sheet",
            };
            let start = line.split([';', ' ']).take(2).collect::<Vec<_>>().join(" ");
            *counts.entry(format!("{name} {start}")).or_default() += 1;
        }
    }
    for number in 1..=13 {
        let name = format!("sheet refused {number}");
        assert!(counts[&name] > 10, "{name} is rare");
    }
    for number in 13..=18 {
        let name = format!("slot refused {number}");
        assert!(counts[&name] > 3, "{name} is rare");
    }
    assert!(counts["slot sent 1"] > 1_000);
}

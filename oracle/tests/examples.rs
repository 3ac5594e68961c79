//! The numbered examples K1 to K12 and the numbers that are known to be attained at most.

mod common;

use common::*;
use oracle::draft::Draft;
use oracle::run::Run;
use oracle::sheet::Refusal;
use oracle::stream::{read_line, verdict_line};
use oracle::tally::Tally;
use oracle::verdict::{verdict, Case};

fn judged(draft: &Draft) -> String {
    verdict_line(&draft.bytes())
}

#[test]
fn k1_and_k3_to_k8_get_their_verdicts() {
    assert_eq!(judged(&k1()), "passed 0 1 2");
    assert_eq!(judged(&k3()), "passed 0 1 3 2");
    assert!(judged(&k4()).starts_with("failed 1 "));
    assert!(judged(&k5()).starts_with("passed 0 1 "));
    assert!(judged(&k6()).starts_with("failed 5 "));
    assert!(judged(&k7()).starts_with("passed 0 1 "));
    assert!(judged(&k8()).starts_with("failed 65 "));
}

#[test]
fn the_record_has_sixteen_figures() {
    let answer = verdict(&k3().bytes());
    assert_eq!(answer.case, Case::Passed { slack: 0, at: 1 });
    assert_eq!(
        answer.figures,
        [3, 2, 0, 0, 0, 0, 0, 0, 0, 0, 0, 0, 0, 0, 0, 0]
    );
    let unreadable = verdict(&[]);
    assert_eq!(
        unreadable.case,
        Case::Unreadable(Refusal {
            number: 1,
            place: 0
        })
    );
    assert_eq!(unreadable.figures, [0; 16]);
    assert!(verdict(&k4().bytes()).figures[0] > 0);
}

#[test]
fn k2_takes_three_and_then_one() {
    let mut run = Run::open(&k1().bytes()).expect("K1 passes");
    let mut tally = Tally::default();
    let (outcomes, sent) = one_slot(&mut run, &[3], &mut tally);
    assert_eq!(outcomes, [3, 0, 0]);
    assert_eq!(sent, [1, 1, 1]);
    let deadlines: Vec<u64> = run.waiting().iter().map(|packet| packet.deadline).collect();
    assert_eq!(deadlines, [2, 3]);
    let (outcomes, sent) = one_slot(&mut run, &[3], &mut tally);
    assert_eq!(outcomes, [1, 2, 0]);
    assert_eq!(sent, [1, 2, 2]);
    let deadlines: Vec<u64> = run.waiting().iter().map(|packet| packet.deadline).collect();
    assert_eq!(deadlines, [3, 4]);
    assert_eq!(tally.to_string(), "total 6 4 2 0 2 2");
}

#[test]
fn k9_and_k10_stand_on_the_borders() {
    let mut draft = k1();
    draft.capacity = 64;
    assert!(read_line(&draft.bytes()).starts_with("read 64 "));
    draft.capacity = 65;
    assert_eq!(read_line(&draft.bytes()), "refused 4 5");
    let mut draft = k1();
    draft.sessions[0].envelope.table[0] = 500;
    assert_eq!(read_line(&draft.bytes()), "read 1 1 1: 8");
    draft.sessions[0].envelope.table[0] = 501;
    assert_eq!(read_line(&draft.bytes()), "refused 10 17");
}

#[test]
fn k12_is_the_sheet_of_k3_and_prints_its_run() {
    assert_eq!(k3().bytes(), K12);
    let mut stream = K12.to_vec();
    stream.extend([2, 2, 0, 0, 0, 0, 0, 0]);
    let wanted = "passed 0 1 3 2\n1 2 1 1\n2 1 1 2\n3 2 2 3\n4 1 2 4\ntotal 4 4 0 0 4 0\n";
    assert_eq!(printed(&stream), wanted);
}

#[test]
fn the_latest_first_failure() {
    let zeros = [0; 64];
    let mut sessions = vec![one((&zeros, 256), (&zeros, 256), 1); 4];
    sessions.push(one((&zeros, 1), (&zeros, 1), 1));
    let draft = Draft::new(64, 16, &sessions);
    assert_eq!(judged(&draft), "failed 115841 0 0 0 0 0");
    assert_eq!(printed(&draft.bytes()), "refused 12 115841\n");
}

#[test]
fn the_latest_slack_and_the_largest_figure() {
    let mut in_steps = vec![0; 15];
    in_steps.extend([131; 16]);
    let steady = one((&in_steps, 256), (&[500; 16], 256), 1);
    let mut late = vec![0; 48];
    late.extend([500; 16]);
    let slow = one((&[0; 64], 1), (&late, 0), 1);
    let mut sessions = vec![steady; 4];
    sessions.push(slow);
    let draft = Draft::new(64, 16, &sessions);
    let answer = verdict(&draft.bytes());
    assert_eq!(
        answer.case,
        Case::Passed {
            slack: 0,
            at: 8_112
        }
    );
    assert_eq!(answer.figures[4], 8_000);
    let figure = Draft::new(1, 16, &[one((&[0; 64], 1), (&[500; 16], 0), 1)]);
    assert_eq!(verdict(&figure.bytes()).figures[0], 8_048);
}

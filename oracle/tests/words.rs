//! The words on standard error: examples for each line of the rules' table, and what is told of
//! streams that are not refused.

mod common;

use common::*;
use oracle::draft::{set_length, Draft};
use oracle::run::MOST_SLOTS;
use oracle::sheet::Refusal;
use oracle::words::words;

/// What `slotrun` tells on standard error for these bytes.
fn told(bytes: &[u8]) -> String {
    both_with(bytes, MOST_SLOTS).1
}

/// What it tells for K12 with some bytes changed.
fn with(changes: &[(usize, u8)]) -> String {
    let mut bytes = K12.to_vec();
    for &(place, value) in changes {
        bytes[place] = value;
    }
    told(&bytes)
}

/// What it tells for other bytes after the length, which is made right.
fn with_length(bytes: &[u8]) -> String {
    let mut bytes = bytes.to_vec();
    set_length(&mut bytes);
    told(&bytes)
}

#[test]
fn bytes_that_are_too_few() {
    for (bytes, count) in [(&[][..], 0), (&K12[..3], 3), (&K12[..7], 7)] {
        let wanted = format!("the input ends after {count} bytes: a sheet has at least 8\n");
        assert_eq!(told(bytes), wanted);
    }
    for length in 0..4 {
        let wanted = format!("a length of {length}, at byte 0: at least 4 bytes follow\n");
        assert_eq!(with(&[(3, length)]), wanted);
        assert_eq!(
            told(&[&[0, 0, 0, length], &K12[..length as usize]].concat()),
            wanted
        );
    }
    // The input ends before the few bytes that the length asks for.
    assert_eq!(
        told(&[0, 0, 0, 2, 1]),
        "the input ends after 5 bytes: a sheet has at least 8\n"
    );
}

#[test]
fn lengths_that_are_wrong() {
    assert_eq!(
        with(&[(2, 0x10), (3, 0x75)]),
        "a length of 4213, at byte 0: at most 4212 bytes follow\n"
    );
    assert_eq!(
        with(&[(0, 255), (1, 255), (2, 255), (3, 255)]),
        "a length of 4294967295, at byte 0: at most 4212 bytes follow\n"
    );
    assert_eq!(
        with(&[(2, 0x10), (3, 0x74)]),
        "a length of 4212, at byte 0: 34 bytes follow\n"
    );
    assert_eq!(
        told(&K12[..37]),
        "a length of 34, at byte 0: 33 bytes follow\n"
    );
}

#[test]
fn the_head() {
    assert_eq!(with(&[(4, 2)]), "a version of 2, at byte 4: 1 is right\n");
    assert_eq!(
        with(&[(5, 65)]),
        "a capacity c of 65, at byte 5: 1 to 64 are right\n"
    );
    assert_eq!(
        with(&[(6, 0)]),
        "a period of 0, at byte 6: 1 to 16 are right\n"
    );
    assert_eq!(
        with(&[(7, 17)]),
        "a number of sessions of 17, at byte 7: 1 to 16 are right\n"
    );
}

#[test]
fn sessions_that_are_cut_off() {
    let advice = "a larger length, fewer sessions or shorter tables\n";
    assert_eq!(
        with(&[(7, 3)]),
        format!("session 3, at byte 38: 7 bytes are needed and 0 are left: {advice}")
    );
    assert_eq!(
        with_length(&K12[..29]),
        format!("session 2, at byte 23: 7 bytes are needed and 6 are left: {advice}")
    );
    assert_eq!(
        with_length(&K12[..30]),
        format!("session 2, at byte 23: 15 bytes are needed and 7 are left: {advice}")
    );
    assert_eq!(
        with(&[(8, 64)]),
        format!("session 1, at byte 8: 139 bytes are needed and 30 are left: {advice}")
    );
}

#[test]
fn table_lengths_and_rates() {
    assert_eq!(
        with(&[(8, 1)]),
        "session 1, service: a table of 1 values, at byte 8: 2 to 64 are right\n"
    );
    assert_eq!(
        with(&[(24, 65)]),
        "session 2, envelope: a table of 65 values, at byte 24: 2 to 64 are right\n"
    );
    assert_eq!(
        with(&[(12, 0)]),
        "session 1, service: a rate of 0, at byte 11: 1 to 256 are right\n"
    );
    assert_eq!(
        with(&[(28, 2)]),
        "session 2, envelope: a rate of 513, at byte 28: 0 to 256 are right\n"
    );
}

#[test]
fn values() {
    assert_eq!(
        with(&[(15, 1), (16, 0xF5)]),
        "session 1, service: value 1 is 501, at byte 15: 0 to 500 are right\n"
    );
    assert_eq!(
        with(&[(36, 255), (37, 255)]),
        "session 2, envelope: value 2 is 65535, at byte 36: 0 to 500 are right\n"
    );
    assert_eq!(
        with(&[(16, 2)]),
        "session 1, service: value 2 is 1 and the one before it 2, at byte 17: \
         a curve never falls\n"
    );
    assert_eq!(
        with(&[(37, 0)]),
        "session 2, envelope: value 2 is 0 and the one before it 2, at byte 36: \
         a curve never falls\n"
    );
}

#[test]
fn joins() {
    let advice = "a longer table, or a higher rate\n";
    assert_eq!(
        with(&[(18, 2)]),
        format!("session 1, service: 1 at the join is below 2, at byte 11: {advice}")
    );
    assert_eq!(
        with(&[(37, 4)]),
        format!("session 2, envelope: 3 at the join is below 4, at byte 28: {advice}")
    );
    // F(n+1-P) is neither the first value nor the last.
    let longer = one((&[1; 4], 1), (&[0, 20, 31, 40, 500], 256), 1);
    assert_eq!(
        told(&Draft::new(1, 3, &[longer]).bytes()),
        format!("session 1, envelope: 287 at the join is below 500, at byte 13: {advice}")
    );
}

#[test]
fn bytes_after_the_last_session() {
    assert_eq!(
        with_length(&[&K12[..], &[9, 9]].concat()),
        "2 bytes after session 2, at byte 38: a smaller length, or more sessions\n"
    );
    assert_eq!(
        with(&[(7, 1)]),
        "15 bytes after session 1, at byte 23: a smaller length, or more sessions\n"
    );
}

#[test]
fn a_sheet_that_fails() {
    let mut draft = k6();
    draft.sessions.extend(draft.sessions.clone());
    draft.capacity = 2;
    for (draft, capacity) in [(k6(), 1), (draft, 2)] {
        let wanted = format!(
            "the sheet does not pass: in 5 slots the sessions can be owed more than the link \
             sends, {capacity} a slot: a later or smaller service, a smaller envelope, or a \
             larger c\n"
        );
        assert_eq!(told(&draft.bytes()), wanted);
    }
}

/// A stream of a million slots is too long for here; fewer of them give the same refusal.
#[test]
fn a_slot_after_the_last() {
    let wanted = "a run has at most 1000000 slots, and they are done\n";
    let refusal = Refusal {
        number: 17,
        place: 0,
    };
    assert_eq!(words(&K12, refusal), wanted);
    let stream = [&K12[..], &[1, 1, 0, 0, 0, 0]].concat();
    assert_eq!(both_with(&stream, 2).1, wanted);
    assert_eq!(both_with(&stream, 3).1, "");
}

#[test]
fn nothing_is_told_of_a_stream_that_is_cut() {
    assert_eq!(told(&K12), "");
    assert_eq!(told(&[&K12[..], &[1, 1, 9]].concat()), "");
}

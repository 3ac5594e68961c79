//! Edge cases of the stream that `slotrun` reads.

mod common;

use common::*;

fn k12_and(rest: &[u8]) -> Vec<u8> {
    let mut bytes = K12.to_vec();
    bytes.extend(rest);
    bytes
}

#[test]
fn a_stream_that_ends_inside_the_sheet() {
    for length in 0..K12.len() {
        let number = if length < 8 { 1 } else { 2 };
        assert_eq!(printed(&K12[..length]), format!("refused {number} 0\n"));
    }
}

#[test]
fn a_length_below_four_is_a_short_sheet() {
    for length in 0..4 {
        let mut bytes = k12_and(&[1; 40]);
        bytes[3] = length;
        assert_eq!(printed(&bytes), "refused 1 0\n");
    }
    let mut bytes = K12.to_vec();
    bytes[3] = 4;
    assert_eq!(printed(&bytes), "refused 7 8\n");
}

#[test]
fn a_length_above_the_longest() {
    for length in [4_213_u32, 70_000, u32::MAX] {
        let mut bytes = length.to_be_bytes().to_vec();
        bytes.extend([1, 1, 1]);
        assert_eq!(printed(&bytes), "refused 1 0\n");
        bytes.push(1);
        assert_eq!(printed(&bytes), "refused 2 0\n");
        bytes.extend([0; 9_000]);
        assert_eq!(printed(&bytes), "refused 2 0\n");
    }
}

#[test]
fn the_sheet_ends_by_its_length() {
    // One byte of the slots is taken for the sheet when its length says so.
    let mut bytes = k12_and(&[5, 2, 2]);
    bytes[3] += 1;
    assert_eq!(printed(&bytes), "refused 11 38\n");
}

#[test]
fn no_slot_and_an_unfinished_slot() {
    assert_eq!(printed(&K12), "passed 0 1 3 2\ntotal 0 0 0 0 0 0\n");
    assert_eq!(
        printed(&k12_and(&[7])),
        "passed 0 1 3 2\ncut\ntotal 0 0 0 0 0 0\n"
    );
    let wanted = "passed 0 1 3 2\n1 2 1 1\ncut\ntotal 2 2 0 0 1 1\n";
    assert_eq!(printed(&k12_and(&[1, 1, 9])), wanted);
}

#[test]
fn offers_over_and_without_room() {
    let mut draft = k3();
    draft.sessions[1].room = 1;
    let mut bytes = draft.bytes();
    bytes.extend([255, 255]);
    assert_eq!(
        printed(&bytes),
        "passed 0 1 3 2\n1 2 1 1\ntotal 510 3 506 1 1 2\n"
    );
}

#[test]
fn the_slot_past_the_last_is_refused_and_ends_the_run() {
    let start = "passed 0 1 3 2\n1 2 1 1\n2 1 1 2\n";
    let total = "total 2 2 0 0 2 0\n";
    let two = [1, 1, 0, 0];
    assert_eq!(printed_with(&k12_and(&two), 2), format!("{start}{total}"));
    let half = [&two[..], &[1]].concat();
    assert_eq!(
        printed_with(&k12_and(&half), 2),
        format!("{start}cut\n{total}")
    );
    for rest in [&[0, 0][..], &[1, 1, 1], &[1, 1, 1, 1]] {
        let stream = [&two[..], rest].concat();
        assert_eq!(
            printed_with(&k12_and(&stream), 2),
            format!("{start}refused 17 0\n{total}")
        );
    }
}

#[test]
fn a_sheet_that_fails_gives_one_line() {
    let mut bytes = k6().bytes();
    bytes.extend([1; 20]);
    assert_eq!(printed(&bytes), "refused 12 5\n");
}

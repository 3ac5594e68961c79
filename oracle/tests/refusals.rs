//! Refusals 1 to 12 with their places and their order, and 15 to 18 of a slot, which must leave
//! everything as it was.

mod common;

use common::*;
use oracle::draft::{set_length, Draft};
use oracle::run::Run;
use oracle::sheet::{read, Refusal};
use oracle::stream::read_line;
use oracle::tally::Tally;

/// The refusal of K12 with some bytes changed.
fn with(changes: &[(usize, u8)]) -> String {
    let mut bytes = K12.to_vec();
    for &(place, value) in changes {
        bytes[place] = value;
    }
    read_line(&bytes)
}

#[test]
fn the_head_is_refused_in_order() {
    for length in 0..8 {
        assert_eq!(read_line(&K12[..length]), "refused 1 0");
    }
    assert_eq!(read_line(&K12[..8]), "refused 2 0");
    assert_eq!(with(&[(3, 0x23)]), "refused 2 0");
    assert_eq!(with(&[(0, 1), (4, 2)]), "refused 2 0");
    assert_eq!(with(&[(4, 0), (5, 0)]), "refused 3 4");
    assert_eq!(with(&[(4, 2)]), "refused 3 4");
    assert_eq!(with(&[(5, 0), (6, 0)]), "refused 4 5");
    assert_eq!(with(&[(5, 65)]), "refused 4 5");
    assert_eq!(with(&[(6, 0), (7, 0)]), "refused 5 6");
    assert_eq!(with(&[(6, 17)]), "refused 5 6");
    assert_eq!(with(&[(7, 0)]), "refused 6 7");
    assert_eq!(with(&[(7, 17)]), "refused 6 7");
}

#[test]
fn a_sheet_may_be_as_long_as_4216_bytes() {
    let table = [0; 64];
    let session = one((&table, 1), (&table, 0), 256);
    let mut bytes = Draft::new(64, 16, &vec![session; 16]).bytes();
    assert_eq!(bytes.len(), 4_216);
    assert!(read_line(&bytes).starts_with("read 64 16 16: 8 271 "));
    bytes.push(0);
    set_length(&mut bytes);
    assert_eq!(read_line(&bytes), "refused 2 0");
}

#[test]
fn a_record_past_the_end_is_placed_at_its_start() {
    for length in 8..K12.len() {
        let mut bytes = K12[..length].to_vec();
        set_length(&mut bytes);
        let place = if length < 23 { 8 } else { 23 };
        assert_eq!(read_line(&bytes), format!("refused 7 {place}"));
    }
    assert_eq!(with(&[(7, 3)]), "refused 7 38");
    // The first record grows over the second one, whose bytes then make up its table.
    assert_eq!(with(&[(8, 64)]), "refused 7 8");
}

#[test]
fn lengths_come_before_rates_and_rates_before_tables() {
    assert_eq!(with(&[(8, 1), (9, 1), (11, 255)]), "refused 8 8");
    assert_eq!(with(&[(8, 65)]), "refused 8 8");
    assert_eq!(with(&[(9, 0), (11, 255)]), "refused 8 9");
    assert_eq!(with(&[(24, 65)]), "refused 8 24");
    assert_eq!(with(&[(12, 0), (13, 255), (8, 64)]), "refused 9 11");
    assert_eq!(with(&[(11, 1), (12, 0)]), "read 1 2 2: 8 23");
    assert_eq!(with(&[(11, 1), (12, 1)]), "refused 9 11");
    assert_eq!(with(&[(13, 1), (14, 1), (8, 64)]), "refused 9 13");
    assert_eq!(with(&[(28, 2)]), "refused 9 28");
    // A fault in the first session is found before one in the second.
    assert_eq!(with(&[(15, 2), (24, 0)]), "refused 10 15");
}

#[test]
fn values_and_joins() {
    assert_eq!(with(&[(15, 1), (16, 0xF5)]), "refused 10 15");
    assert_eq!(with(&[(17, 2), (18, 0)]), "refused 10 17");
    // Falling: the later of the two values is named.
    assert_eq!(with(&[(16, 2), (18, 1)]), "refused 10 17");
    assert_eq!(with(&[(36, 3), (37, 1)]), "refused 10 36");
    // Joins: F(1) + rate below F(2); the service's comes before the envelope's values.
    assert_eq!(with(&[(18, 2)]), "refused 10 11");
    assert_eq!(with(&[(18, 2), (19, 9)]), "refused 10 11");
    assert_eq!(with(&[(22, 4)]), "refused 10 13");
    assert_eq!(with(&[(22, 3)]), "read 1 2 2: 8 23");
    assert_eq!(with(&[(37, 4)]), "refused 10 28");
}

#[test]
fn bytes_after_the_last_session() {
    let mut bytes = K12.to_vec();
    bytes.extend([9, 9]);
    set_length(&mut bytes);
    assert_eq!(read_line(&bytes), "refused 11 38");
    let mut bytes = K12.to_vec();
    bytes[7] = 1;
    assert_eq!(read_line(&bytes), "refused 11 23");
}

#[test]
fn opening_refuses_what_does_not_read_and_what_does_not_pass() {
    let refused = |bytes: &[u8]| Run::open(bytes).err();
    assert_eq!(
        refused(&k8().bytes()),
        Some(Refusal {
            number: 12,
            place: 65
        })
    );
    assert_eq!(
        refused(&k4().bytes()),
        Some(Refusal {
            number: 12,
            place: 1
        })
    );
    assert_eq!(
        refused(&K12[..37]),
        Some(Refusal {
            number: 2,
            place: 0
        })
    );
    let run = Run::open(&K12).expect("K12 passes");
    assert_eq!(run.slots_done(), 0);
    assert_eq!(run.taken_in(1), [0]);
    assert!(run.waiting().is_empty());
}

/// Calls a slot that must be refused with this number and must not write anything.
fn refused_slot(run: &mut Run, offers: &[u8], lengths: (usize, usize), tally: Tally) -> u32 {
    let before = (
        run.slots_done(),
        run.waiting().to_vec(),
        run.taken_in(1).to_vec(),
    );
    let (mut outcomes, mut sent) = (vec![77; lengths.0], vec![88; lengths.1]);
    let mut lent = tally;
    let refusal = run
        .slot(offers, &mut outcomes, &mut sent, &mut lent)
        .expect_err("refused");
    assert_eq!(refusal.place, 0);
    assert!(outcomes.iter().all(|&number| number == 77));
    assert!(sent.iter().all(|&number| number == 88));
    assert_eq!(lent, tally);
    let after = (
        run.slots_done(),
        run.waiting().to_vec(),
        run.taken_in(1).to_vec(),
    );
    assert_eq!(before, after);
    refusal.number
}

#[test]
fn a_refused_slot_is_no_slot() {
    let mut run = Run::open_with_most_slots(&K12, 2).expect("K12 passes");
    let zero = Tally::default();
    let full = Tally {
        offered: u32::MAX,
        ..zero
    };
    assert_eq!(refused_slot(&mut run, &[1], (0, 0), full), 15);
    assert_eq!(refused_slot(&mut run, &[1, 1, 1], (6, 3), zero), 15);
    assert_eq!(refused_slot(&mut run, &[1, 1], (5, 3), full), 16);
    assert_eq!(refused_slot(&mut run, &[1, 1], (6, 2), zero), 16);
    assert_eq!(refused_slot(&mut run, &[1, 1], (6, 3), full), 18);
    let mut tally = zero;
    one_slot(&mut run, &[2, 2], &mut tally);
    one_slot(&mut run, &[0, 0], &mut tally);
    assert_eq!(tally.to_string(), "total 4 4 0 0 2 2");
    assert_eq!(refused_slot(&mut run, &[0, 0], (6, 3), full), 17);
    assert_eq!(refused_slot(&mut run, &[0, 0], (6, 2), full), 16);
}

/// K1 with room 2: offers 5 give taken in 2, over 2, no room 1, sent 1.
fn room_of_two() -> Run {
    let mut draft = k1();
    draft.sessions[0].room = 2;
    Run::open(&draft.bytes()).expect("passes")
}

#[test]
fn each_added_total_is_tested_and_waiting_is_set() {
    let max = u32::MAX;
    let highest = [max - 5, max - 2, max - 2, max - 1, max - 1, max];
    for place in 0..5 {
        let mut one_more = highest;
        one_more[place] += 1;
        let mut run = room_of_two();
        let number = refused_slot(&mut run, &[5], (3, 3), Tally::new(one_more));
        assert_eq!(number, 18);
    }
    let mut run = room_of_two();
    let mut tally = Tally::new(highest);
    one_slot(&mut run, &[5], &mut tally);
    assert_eq!(tally, Tally::new([max, max, max, max, max, 1]));
}

#[test]
fn numbers_past_the_results_stay() {
    let mut run = Run::open(&K12).expect("K12 passes");
    let (mut outcomes, mut sent) = ([77; 9], [88; 8]);
    let mut tally = Tally::default();
    assert_eq!(
        run.slot(&[0, 0], &mut outcomes, &mut sent, &mut tally),
        Ok(0)
    );
    assert_eq!(outcomes, [0, 0, 0, 0, 0, 0, 77, 77, 77]);
    assert_eq!(sent, [88; 8]);
    assert_eq!(
        run.slot(&[3, 1], &mut outcomes, &mut sent, &mut tally),
        Ok(1)
    );
    assert_eq!(outcomes, [2, 1, 0, 1, 0, 0, 77, 77, 77]);
    assert_eq!(sent, [2, 1, 2, 88, 88, 88, 88, 88]);
    assert!(read(&K12).is_ok());
}

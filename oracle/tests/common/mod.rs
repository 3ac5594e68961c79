//! The sheets of the numbered examples and small functions shared by the tests.
#![allow(dead_code, unused_imports)]

use oracle::draft::SessionDraft;
pub use oracle::examples::*;
use oracle::run::{Run, MOST_SLOTS};
use oracle::stream::slotrun;
use oracle::tally::Tally;

pub fn one(service: (&[u16], u16), envelope: (&[u16], u16), room: u16) -> SessionDraft {
    SessionDraft::new(service, envelope, room)
}

/// What `slotrun` prints for these bytes.
pub fn printed(bytes: &[u8]) -> String {
    printed_with(bytes, MOST_SLOTS)
}

pub fn printed_with(bytes: &[u8], most_slots: u64) -> String {
    both_with(bytes, most_slots).0
}

/// What `slotrun` prints for these bytes, and what it tells on standard error.
pub fn both_with(mut bytes: &[u8], most_slots: u64) -> (String, String) {
    let mut output = Vec::new();
    let words = slotrun(&mut bytes, &mut output, most_slots).expect("slices don't fail");
    (String::from_utf8(output).expect("plain text"), words)
}

/// One slot with result slices of the right length: the outcomes and the packets sent.
pub fn one_slot(run: &mut Run, offers: &[u8], tally: &mut Tally) -> (Vec<u32>, Vec<u32>) {
    let mut outcomes = vec![0; 3 * run.sheet().sessions.len()];
    let mut sent = vec![0; 3 * run.sheet().capacity as usize];
    let count = run
        .slot(offers, &mut outcomes, &mut sent, tally)
        .expect("a good slot");
    sent.truncate(3 * count);
    (outcomes, sent)
}

//! Random streams of offers for the sessions of a sheet: quiet, crowded and in between, so that
//! envelopes, rooms and deadlines all bind in some of them.

use crate::rng::Rng;
use crate::run::{headroom, Run};
use crate::tally::Tally;

/// Stretches of idling, bursts together, floods, trickles and anything; now and then the last
/// slot is unfinished.
pub fn random_stream(rng: &mut Rng, sessions: usize, slots: usize) -> Vec<u8> {
    let mut stream = Vec::new();
    while stream.len() < sessions * slots {
        let kind = rng.between(0, 6);
        let alone = rng.between(0, sessions as u64 - 1) as usize;
        for slot in 0..rng.between(1, 16) {
            for session in 0..sessions {
                stream.push(one_offer(rng, kind, slot, session == alone));
            }
        }
    }
    stream.truncate(sessions * slots);
    if rng.one_in(4) {
        let missing = rng.between(0, sessions as u64 - 1) as usize;
        stream.truncate(stream.len().saturating_sub(missing));
    }
    stream
}

/// Offers close to what the envelopes allow, slot by slot: none, some, all of the headroom or one
/// more, with idle slots between.
pub fn close_stream(rng: &mut Rng, mut run: Run, slots: usize) -> Vec<u8> {
    let mut stream = Vec::new();
    let mut tally = Tally::default();
    for _ in 0..slots {
        let idle = rng.one_in(3);
        let sessions = run.sheet().sessions.iter().enumerate();
        let offers: Vec<u8> = sessions
            .map(|(i, session)| match idle {
                true => 0,
                false => close_offer(rng, headroom(session, run.taken_in(i + 1))),
            })
            .collect();
        run.slot(&offers, &mut [0; 48], &mut [0; 192], &mut tally)
            .expect("a slot of the right lengths");
        stream.extend(offers);
    }
    stream
}

fn close_offer(rng: &mut Rng, headroom: u64) -> u8 {
    let offer = match rng.between(0, 3) {
        0 => 0,
        1 => rng.between(0, headroom),
        2 => headroom,
        _ => headroom + 1,
    };
    offer.min(255) as u8
}

fn one_offer(rng: &mut Rng, kind: u64, slot: u64, alone: bool) -> u8 {
    let offer = match (kind, slot, alone) {
        (0, _, _) => 0,
        (1, 0, _) => rng.pick(&[3, 20, 255]),
        (1, _, _) => 0,
        (2, _, _) => 255,
        (3, _, true) => 255,
        (3, _, false) | (4, _, _) => rng.between(0, 1),
        (5, _, _) => rng.between(0, 4),
        _ => rng.between(0, 255),
    };
    offer as u8
}

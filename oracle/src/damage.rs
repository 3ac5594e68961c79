//! Damage to good sheets, so that every refusal from 1 to 11 is met, at many places and now and
//! then two at once, which tries the order of the tests.

use crate::draft::{set_length, Draft};
use crate::rng::Rng;

/// The draft's bytes with damage that aims at one of the refusals 1 to 11, or at two of them.
pub fn damaged(rng: &mut Rng, draft: &Draft) -> Vec<u8> {
    let aim = rng.between(1, 12);
    let mut bytes = match aim {
        12 => falling_join(rng, draft).bytes(),
        _ => draft.bytes(),
    };
    if rng.one_in(4) {
        let other = rng.between(2, 11);
        damage(rng, draft, &mut bytes, other);
    }
    damage(rng, draft, &mut bytes, aim);
    bytes
}

fn damage(rng: &mut Rng, draft: &Draft, bytes: &mut Vec<u8>, aim: u64) {
    if bytes.len() < 8 {
        return;
    }
    match aim {
        1 => bytes.truncate(rng.between(0, 7) as usize),
        2 => wrong_length(rng, bytes),
        3 => bytes[4] = rng.pick(&[0, 2, 255]),
        4 => bytes[5] = rng.pick(&[0, 65, 128, 255]),
        5 => bytes[6] = rng.pick(&[0, 17, 64, 255]),
        6 => bytes[7] = rng.pick(&[0, 17, 64, 255]),
        7 => cut_record(rng, bytes),
        11 => {
            for _ in 0..rng.between(1, 9) {
                bytes.push(rng.between(0, 255) as u8);
            }
            set_length(bytes);
        }
        8..=10 => in_session(rng, draft, bytes, aim),
        _ => {}
    }
}

fn wrong_length(rng: &mut Rng, bytes: &mut Vec<u8>) {
    match rng.between(0, 4) {
        0 => bytes[3] ^= 1 << rng.between(0, 7),
        1 => bytes[rng.between(0, 3) as usize] ^= 255,
        2 => {
            bytes.resize(4_217, 0);
            set_length(bytes);
        }
        3 => bytes[..4].copy_from_slice(&[0, 0, 0, rng.between(0, 3) as u8]),
        _ => {
            bytes.pop();
        }
    }
}

/// Takes bytes off the end, or names one session more than there are.
fn cut_record(rng: &mut Rng, bytes: &mut Vec<u8>) {
    if rng.one_in(4) && bytes[7] < 16 {
        bytes[7] += 1;
        return;
    }
    let most = (bytes.len() - 1).max(8);
    let left = if rng.one_in(2) {
        rng.between(8, most as u64) as usize
    } else {
        most
    };
    bytes.truncate(left);
    set_length(bytes);
}

/// A table length (8), a rate (9) or a value (10) in one of the sessions.
fn in_session(rng: &mut Rng, draft: &Draft, bytes: &mut [u8], aim: u64) {
    let number = rng.between(0, draft.sessions.len() as u64 - 1) as usize;
    let start = draft.starts()[number];
    let session = &draft.sessions[number];
    if aim == 8 {
        let place = start + rng.between(0, 1) as usize;
        set_byte(bytes, place, rng.pick(&[0, draft.period - 1, 65, 255]));
    } else if aim == 9 {
        let (place, rates): (usize, &[u16]) = match rng.one_in(2) {
            true => (start + 3, &[0, 257, 512, 65_535]),
            false => (start + 5, &[257, 512, 65_535]),
        };
        let rate = rng.pick(rates);
        set_two(bytes, place, rate);
    } else {
        let values = session.service.table.len() + session.envelope.table.len();
        let place = start + 7 + 2 * rng.between(0, values as u64 - 1) as usize;
        let value = rng.pick(&[0, 1, 500, 501, 501, 65_535]);
        set_two(bytes, place, value);
    }
}

/// A draft with one curve whose table ends above its tail. It stays as it was if the period
/// is 1 or the values leave no space for that.
fn falling_join(rng: &mut Rng, draft: &Draft) -> Draft {
    let mut draft = draft.clone();
    let period = draft.period as usize;
    let curve = draft.any_curve(rng);
    let last = curve.table.len() - 1;
    let lowest = curve.table[last + 1 - period] + curve.rate + 1;
    if period > 1 && lowest <= 500 {
        curve.table[last] = curve.table[last].max(lowest);
    }
    draft
}

fn set_byte(bytes: &mut [u8], place: usize, value: u8) {
    if place < bytes.len() {
        bytes[place] = value;
    }
}

fn set_two(bytes: &mut [u8], place: usize, value: u16) {
    let [high, low] = value.to_be_bytes();
    set_byte(bytes, place, high);
    set_byte(bytes, place + 1, low);
}

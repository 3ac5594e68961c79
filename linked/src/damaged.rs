//! Slices that no run of slots leads to: numbers of a run are changed, and slots are tried on what
//! is left. A slot is refused and changes nothing, or it ends and stays within its part.

use crate::image::{
    holds_a_run, BLOCK_NUMBERS, CAPACITY, DEADLINES, DONE, HEAD_NUMBERS, RING, SENT, SERVICE_AHEAD,
    SESSIONS, TAKEN,
};
use crate::{filled, same};
use linked::{open, slot, ANSWER_NUMBERS, TALLY_NUMBERS};
use oracle::gen::{small_draft, valid_draft};
use oracle::rng::Rng;
use oracle::script::SLICES;

/// What became of the slots that were tried.
#[derive(Default)]
pub struct Count {
    pub refused: u64,
    pub done: u64,
}

/// Damages runs of a sheet several times and tries slots on each.
pub fn compare(rng: &mut Rng, count: &mut Count) {
    let mut run = filled(SLICES[0]);
    loop {
        let draft = match rng.one_in(2) {
            true => valid_draft(rng),
            false => small_draft(rng),
        };
        open(&draft.bytes(), &mut run, &mut [0; ANSWER_NUMBERS]);
        if holds_a_run(&run) {
            break;
        }
    }
    for _ in 0..rng.between(0, 40) {
        try_slot(rng, &mut run, count);
    }
    for _ in 0..8 {
        let mut damaged = run.clone();
        for _ in 0..rng.between(1, 3) {
            damage(rng, &mut damaged);
        }
        for _ in 0..rng.between(1, 6) {
            try_slot(rng, &mut damaged, count);
        }
    }
}

/// Changes one number: in the head, in a block's fields, or anywhere in a block.
fn damage(rng: &mut Rng, run: &mut [u32]) {
    let sessions = run[SESSIONS].clamp(1, 16) as u64;
    let block = HEAD_NUMBERS + BLOCK_NUMBERS * rng.between(0, sessions - 1) as usize;
    let place = match rng.between(0, 5) {
        0 => rng.between(0, 5) as usize,
        1 => block + rng.between(0, 7) as usize,
        2 => block + SENT,
        3 => block + TAKEN,
        _ => block + rng.between(0, BLOCK_NUMBERS as u64 - 1) as usize,
    };
    let number = run[place];
    run[place] = match rng.between(0, 8) {
        0 => number.wrapping_add(1),
        1 => number.wrapping_sub(1),
        2 => number ^ (1 << rng.between(0, 31)),
        3 => u32::MAX - rng.between(0, 3) as u32,
        4 => rng.number() as u32,
        5 => rng.between(0, 600) as u32,
        6 => rng.between(999_990, 1_000_010) as u32,
        7 => rng.between(64_000_990, 64_001_010) as u32,
        _ => run[place + 1],
    };
}

fn try_slot(rng: &mut Rng, run: &mut [u32], count: &mut Count) {
    let before = run.to_vec();
    let sessions = match before[SESSIONS] {
        many @ 0..=16 => many as usize,
        _ => 16,
    };
    let most = rng.pick(&[1, 4, 255]);
    let offers: Vec<u8> = (0..sessions).map(|_| rng.between(0, most) as u8).collect();
    let [mut outcomes, mut sent] = [filled(SLICES[1]), filled(SLICES[2])];
    let [outcomes_before, sent_before] = [outcomes.clone(), sent.clone()];
    let mut tally = [0; TALLY_NUMBERS];
    let mut answer = [9; ANSWER_NUMBERS];
    assert!(slot(
        run,
        &offers,
        &mut outcomes,
        &mut sent,
        &mut tally,
        &mut answer
    ));
    let [number, value] = answer;
    assert_eq!(number == 14, !holds_a_run(&before));
    if number != 0 {
        count.refused += 1;
        assert!([14, 17].contains(&number) && value == 0);
        same("run", run, &before);
        same("outcomes", &outcomes, &outcomes_before);
        same("sent", &sent, &sent_before);
        same("tally", &tally, &[0; TALLY_NUMBERS]);
        return;
    }
    count.done += 1;
    assert!(value <= before[CAPACITY]);
    let (written, notes) = (3 * sessions, 3 * value as usize);
    same(
        "outcomes",
        &outcomes[written..],
        &outcomes_before[written..],
    );
    same("sent", &sent[notes..], &sent_before[notes..]);
    let offered: u32 = offers.iter().map(|&one| one as u32).sum();
    assert_eq!(outcomes[..written].iter().sum::<u32>(), offered);
    assert_eq!((tally[0], tally[4]), (offered, value));
    within(run, &before, sessions);
}

/// A slot changes the slots done, what is taken in and sent, what lies ahead and the deadlines.
fn within(run: &[u32], before: &[u32], sessions: usize) {
    assert_eq!(run[DONE], before[DONE] + 1);
    same("head", &run[..DONE], &before[..DONE]);
    let head_end = DONE + 1..HEAD_NUMBERS;
    same("head", &run[head_end.clone()], &before[head_end]);
    let end = HEAD_NUMBERS + BLOCK_NUMBERS * sessions;
    for from in (HEAD_NUMBERS..end).step_by(BLOCK_NUMBERS) {
        for (a, b) in [
            (0, TAKEN),
            (SENT + 1, SERVICE_AHEAD),
            (DEADLINES + RING, BLOCK_NUMBERS),
        ] {
            same(
                "block",
                &run[from + a..from + b],
                &before[from + a..from + b],
            );
        }
    }
    same("past", &run[end..], &before[end..]);
}

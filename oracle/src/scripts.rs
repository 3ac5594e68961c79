//! Random scripts: sheets that pass, near the border and of every shape, with bursts together,
//! floods and idle stretches, and between them all that a call may be refused for, alone and
//! several at once. Script N of seed S is always the same.

use crate::damage::damaged;
use crate::draft::Draft;
use crate::examples::k3;
use crate::gen::{small_draft, valid_draft};
use crate::offers::{close_stream, random_stream};
use crate::rng::Rng;
use crate::run::{Run, MOST_SLOTS};
use crate::script::{Command, Script, RUN_NUMBERS, SLICES};
use crate::tally::Tally;

pub fn random_script(seed: u64, number: u64) -> Script {
    let mut rng = Rng::new(seed, number);
    let mut commands = Vec::new();
    let (draft, run) = passing(&mut rng);
    if rng.one_in(6) {
        trouble(&mut rng, &draft, &mut commands);
    }
    if rng.one_in(6) {
        commands.push(other_sheet(&mut rng, &draft));
    }
    if rng.one_in(100) {
        to_the_end(&mut rng, &mut commands);
        return Script::new(commands);
    }
    commands.push(Command::Sheet(draft.bytes()));
    let sessions = draft.sessions.len();
    let slots = rng.pick(&[8, 30, 60, 120]);
    let stream = match rng.one_in(2) {
        true => close_stream(&mut rng, run, slots),
        false => random_stream(&mut rng, sessions, slots),
    };
    for offers in stream.chunks(sessions) {
        slots_with(&mut rng, offers, &mut commands);
        between_slots(&mut rng, &draft, &mut commands);
    }
    Script::new(commands)
}

/// A sheet that passes, and its run before slot 1.
fn passing(rng: &mut Rng) -> (Draft, Run) {
    loop {
        let draft = match rng.one_in(3) {
            true => valid_draft(rng),
            false => small_draft(rng),
        };
        if let Ok(run) = Run::open(&draft.bytes()) {
            return (draft, run);
        }
    }
}

/// A sheet that may pass, may fail or may be unreadable.
fn other_sheet(rng: &mut Rng, draft: &Draft) -> Command {
    Command::Sheet(match rng.between(0, 3) {
        0 => draft.bytes(),
        1 => small_draft(rng).bytes(),
        _ => damaged(rng, draft),
    })
}

/// Usually one slot, now and then a stretch of them.
fn slots_with(rng: &mut Rng, offers: &[u8], commands: &mut Vec<Command>) {
    let offers = offers.to_vec();
    commands.push(match rng.one_in(8) {
        true => Command::Repeat(rng.between(1, 40), offers),
        false => Command::Slot(offers),
    });
}

/// Now and then something else than a slot; the run goes on or begins anew after it.
fn between_slots(rng: &mut Rng, draft: &Draft, commands: &mut Vec<Command>) {
    match rng.between(1, 60) {
        1..=4 => trouble(rng, draft, commands),
        5 => commands.push(other_sheet(rng, draft)),
        6 => {
            let place = rng.between(0, (SLICES[0] - RUN_NUMBERS - 1) as u64);
            commands.push(Command::PutPast(place as usize, rng.number() as u32));
        }
        7 => {
            commands.push(Command::Zeros);
            trouble(rng, draft, commands);
            commands.push(Command::Sheet(draft.bytes()));
        }
        8..=9 => commands.push(Command::Sheet(draft.bytes())),
        10..=11 => commands.push(Command::Tally(Tally::default())),
        _ => {}
    }
}

/// A slot that may be refused, for one reason or for several, now and then a sheet after it, and
/// all slices lent again; a tally near its end may stay.
fn trouble(rng: &mut Rng, draft: &Draft, commands: &mut Vec<Command>) {
    let (sessions, capacity) = (draft.sessions.len(), draft.capacity as usize);
    let run = rng.pick(&[SLICES[0], SLICES[0], RUN_NUMBERS, RUN_NUMBERS - 1, 0]);
    let outcomes = rng.pick(&[SLICES[1], 3 * sessions, 3 * sessions, 3 * sessions - 1, 0]);
    let sent = rng.pick(&[SLICES[2], 3 * capacity, 3 * capacity, 3 * capacity - 1, 0]);
    commands.push(Command::Lengths([run, outcomes, sent]));
    let full_tally = rng.one_in(2);
    if full_tally {
        commands.push(Command::Tally(Tally::new([(); 6].map(|_| total(rng)))));
    }
    let count = rng.pick(&[sessions, sessions, sessions, sessions - 1, sessions + 1, 0]);
    let most = rng.pick(&[0, 3, 255]);
    let offers = (0..count).map(|_| rng.between(0, most) as u8).collect();
    commands.push(Command::Slot(offers));
    if rng.one_in(4) {
        commands.push(other_sheet(rng, draft));
    }
    commands.push(Command::Lengths(SLICES));
    if full_tally && !rng.one_in(4) {
        commands.push(Command::Tally(Tally::default()));
    }
}

fn total(rng: &mut Rng) -> u32 {
    match rng.between(0, 3) {
        0 => u32::MAX,
        1 => u32::MAX - rng.between(0, 5) as u32,
        2 => u32::MAX - rng.between(0, 5_000) as u32,
        _ => 0,
    }
}

/// A run to its last slot, with few offers, since the whole history is gone through for each.
fn to_the_end(rng: &mut Rng, commands: &mut Vec<Command>) {
    let draft = k3();
    let idle = rng.between(MOST_SLOTS - 20, MOST_SLOTS - 1);
    commands.push(Command::Sheet(draft.bytes()));
    commands.push(Command::Repeat(idle, vec![0, 0]));
    for _ in 0..rng.between(0, 20) {
        let offers = [0, 1].map(|_| rng.between(0, 3) as u8);
        commands.push(Command::Slot(offers.to_vec()));
    }
    commands.push(Command::Repeat(20, vec![0, 0]));
    for _ in 0..8 {
        trouble(rng, &draft, commands);
    }
}

//! The run's slice: its places, opening it, and the test of refusal 14.

use super::sheet::{read, Table};
use super::verdict::{judge, Case};
use super::Refused;

pub const RUN_NUMBERS: usize = 12_288;
pub const HEAD_NUMBERS: usize = 256;
pub const BLOCK_NUMBERS: usize = 752;
const MARK: u32 = 1_396_917_572;

pub const SERVICE_LENGTH: usize = 0;
pub const ENVELOPE_LENGTH: usize = 1;
pub const ROOM: usize = 2;
pub const SERVICE_RATE: usize = 3;
pub const ENVELOPE_RATE: usize = 4;
pub const TAKEN: usize = 5;
pub const SENT: usize = 6;
pub const SERVICE: usize = 16;
pub const ENVELOPE: usize = 80;
pub const SERVICE_AHEAD: usize = 144;
pub const ENVELOPE_AHEAD: usize = 208;
pub const DEADLINES: usize = 272;
pub const RING: usize = 256;

pub type Block = [u32; BLOCK_NUMBERS];

pub fn open(bytes: &[u8], run: &mut [u32]) -> Result<(), Refused> {
    let run = run_of(run)?;
    match judge(bytes).0 {
        Case::Unreadable(refusal) => return Err(refusal),
        Case::Failed(t) => return Err((12, t)),
        Case::Passed(..) => {}
    }
    let sheet = read(bytes)?;
    run.fill(0);
    run[0] = MARK;
    run[1] = sheet.capacity;
    run[2] = sheet.period as u32;
    run[3] = sheet.count as u32;
    let blocks = run[HEAD_NUMBERS..].chunks_exact_mut(BLOCK_NUMBERS);
    for (block, session) in blocks.zip(&sheet.sessions[..sheet.count]) {
        block[SERVICE_LENGTH] = session.service.length as u32;
        block[ENVELOPE_LENGTH] = session.envelope.length as u32;
        block[ROOM] = session.room;
        block[SERVICE_RATE] = session.service.rate;
        block[ENVELOPE_RATE] = session.envelope.rate;
        for (at, table) in [
            (SERVICE, &session.service),
            (ENVELOPE, &session.envelope),
            (SERVICE_AHEAD, &session.service),
            (ENVELOPE_AHEAD, &session.envelope),
        ] {
            write(&mut block[at..], table);
        }
    }
    Ok(())
}

/// The numbers that a run lives in.
pub fn run_of(run: &mut [u32]) -> Result<&mut [u32; RUN_NUMBERS], Refused> {
    match run.len() < RUN_NUMBERS {
        true => Err((13, 0)),
        false => Ok((&mut run[..RUN_NUMBERS]).try_into().expect("its length")),
    }
}

fn write(places: &mut [u32], table: &Table) {
    places[..table.length].copy_from_slice(&table.values[..table.length]);
}

/// Refusal 14 is given where this fails.
pub fn holds_a_run(run: &[u32; RUN_NUMBERS]) -> bool {
    run[0] == MARK
        && within(run[1], 1, 64)
        && within(run[2], 1, 16)
        && within(run[3], 1, 16)
        && run[4] <= 1_000_000
        && run[HEAD_NUMBERS..]
            .chunks_exact(BLOCK_NUMBERS)
            .take(run[3] as usize)
            .all(|block| sound(block.try_into().expect("a block"), run[2], run[4]))
}

fn within(number: u32, low: u32, high: u32) -> bool {
    low <= number && number <= high
}

fn sound(block: &Block, period: u32, done: u32) -> bool {
    let (taken, sent) = (block[TAKEN], block[SENT]);
    if !(within(block[SERVICE_LENGTH], period, 64)
        && within(block[ENVELOPE_LENGTH], period, 64)
        && block[ROOM] <= 256
        && within(block[SERVICE_RATE], 1, 256)
        && block[ENVELOPE_RATE] <= 256
        && sent <= taken
        && sent <= 64 * done
        && taken - sent <= block[ROOM]
        && taken <= block[ENVELOPE_AHEAD])
    {
        return false;
    }
    let (service, envelope) = (
        block[SERVICE_LENGTH] as usize,
        block[ENVELOPE_LENGTH] as usize,
    );
    let period = period as usize;
    small(&block[SERVICE..SERVICE + service])
        && small(&block[ENVELOPE..ENVELOPE + envelope])
        && climbs(
            &block[SERVICE_AHEAD..SERVICE_AHEAD + service],
            period,
            block[SERVICE_RATE],
        )
        && climbs(
            &block[ENVELOPE_AHEAD..ENVELOPE_AHEAD + envelope],
            period,
            block[ENVELOPE_RATE],
        )
}

/// Without a way out of the loop, so that several numbers are looked at in one step.
fn small(table: &[u32]) -> bool {
    !table
        .iter()
        .fold(false, |amiss, &value| amiss | (value > 500))
}

fn climbs(table: &[u32], period: usize, rate: u32) -> bool {
    let last = table[table.len() - 1];
    let falls = table
        .iter()
        .zip(&table[1..])
        .fold(false, |falls, (a, b)| falls | (b < a));
    !falls && last <= 64_001_000 && last <= table[table.len() - period] + rate
}

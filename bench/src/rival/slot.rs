//! One slot: the refusals 13 to 18, the intake of all sessions, sending, and the tally.

use super::run::*;
use super::verdict::past_table;
use super::Refused;

#[derive(Clone, Copy, Default)]
struct Share {
    taken: u32,
    over: u32,
    no_room: u32,
}

pub fn slot(
    run: &mut [u32],
    offers: &[u8],
    outcomes: &mut [u32],
    sent: &mut [u32],
    tally: &mut [u32; 6],
) -> Result<u32, Refused> {
    let run = run_of(run)?;
    if !holds_a_run(run) {
        return Err((14, 0));
    }
    let (head, blocks) = run.split_at_mut(HEAD_NUMBERS);
    let [capacity, period, count, done] = [head[1], head[2], head[3], head[4]];
    let (capacity, period, count) = (capacity as usize, period as usize, count as usize);
    if offers.len() != count {
        return Err((15, 0));
    }
    if outcomes.len() < 3 * count || sent.len() < 3 * capacity {
        return Err((16, 0));
    }
    if done >= 1_000_000 {
        return Err((17, 0));
    }
    let blocks = &mut blocks[..BLOCK_NUMBERS * count];
    let mut shares = [Share::default(); 16];
    let mut sums = Share::default();
    let (mut offered, mut waiting) = (0, 0);
    let each = blocks.chunks_exact(BLOCK_NUMBERS);
    for ((share, block), &offer) in shares.iter_mut().zip(each).zip(offers) {
        *share = share_of(block, offer as u32);
        offered += offer as u32;
        waiting += block[TAKEN] - block[SENT];
        sums.taken += share.taken;
        sums.over += share.over;
        sums.no_room += share.no_room;
    }
    waiting += sums.taken;
    let leaving = waiting.min(capacity as u32);
    *tally = brought_up(
        tally,
        [offered, sums.taken, sums.over, sums.no_room, leaving],
        waiting - leaving,
    )
    .ok_or((18, 0))?;
    let each = blocks.chunks_exact_mut(BLOCK_NUMBERS);
    for ((block, share), three) in each.zip(&shares).zip(outcomes.chunks_exact_mut(3)) {
        three.copy_from_slice(&[share.taken, share.over, share.no_room]);
        intake(
            block.try_into().expect("a block"),
            period,
            done,
            share.taken,
        );
    }
    send(blocks, sent, leaving as usize);
    head[4] = done + 1;
    Ok(leaving)
}

fn share_of(block: &[u32], offered: u32) -> Share {
    let (taken, sent) = (block[TAKEN], block[SENT]);
    let within = offered.min(block[ENVELOPE_AHEAD] - taken);
    let taken = within.min(block[ROOM] - (taken - sent));
    Share {
        taken,
        over: offered - within,
        no_room: within - taken,
    }
}

fn brought_up(tally: &[u32; 6], added: [u32; 5], waiting: u32) -> Option<[u32; 6]> {
    let mut after = [waiting; 6];
    for i in 0..5 {
        after[i] = tally[i].checked_add(added[i])?;
    }
    Some(after)
}

fn intake(block: &mut Block, period: usize, done: u32, taken: u32) {
    let (service, envelope) = (
        block[SERVICE_LENGTH] as usize,
        block[ENVELOPE_LENGTH] as usize,
    );
    let (service_rate, envelope_rate) = (block[SERVICE_RATE], block[ENVELOPE_RATE]);
    append(block, period, done, taken);
    block[TAKEN] += taken;
    let total = block[TAKEN];
    let (own, ahead) = block.split_at_mut(SERVICE_AHEAD);
    let (service_ahead, envelope_ahead) = ahead.split_at_mut(ENVELOPE_AHEAD - SERVICE_AHEAD);
    advance(
        &own[SERVICE..],
        service_ahead,
        service,
        period,
        service_rate,
        total,
    );
    advance(
        &own[ENVELOPE..],
        envelope_ahead,
        envelope,
        period,
        envelope_rate,
        total,
    );
}

/// The deadlines never fall, so the search for the next goes on where it stopped.
fn append(block: &mut Block, period: usize, done: u32, taken: u32) {
    let length = block[SERVICE_LENGTH] as usize;
    let rate = block[SERVICE_RATE];
    let before = block[TAKEN];
    let (own, deadlines) = block.split_at_mut(DEADLINES);
    let ahead = &own[SERVICE_AHEAD..SERVICE_AHEAD + length];
    let mut m = ahead.partition_point(|&value| value <= before);
    for packet in before + 1..=before + taken {
        while m < length && ahead[m] < packet {
            m += 1;
        }
        let slots = match m < length {
            true => m + 1,
            false => past_table(ahead, period, rate, packet),
        };
        deadlines[(packet as usize - 1) % RING] = done + slots as u32;
    }
}

/// What lies ahead of a curve, one slot further.
fn advance(own: &[u32], ahead: &mut [u32], n: usize, period: usize, rate: u32, total: u32) {
    let (own, ahead) = (&own[..n], &mut ahead[..n]);
    let join = ahead[n - period] + rate;
    for j in 0..n - 1 {
        ahead[j] = ahead[j + 1].min(total + own[j]);
    }
    ahead[n - 1] = join.min(total + own[n - 1]);
}

/// The first waiting packet of each session is one number, deadline above session, so that the
/// least of them goes next.
fn send(blocks: &mut [u32], sent: &mut [u32], leaving: usize) {
    let mut heads = [u64::MAX; 16];
    let each = blocks.chunks_exact(BLOCK_NUMBERS);
    let count = each.len();
    for (i, (head, block)) in heads.iter_mut().zip(each).enumerate() {
        *head = first_waiting(block, i);
    }
    let heads = &mut heads[..count];
    for three in sent.chunks_exact_mut(3).take(leaving) {
        let least = heads.iter().fold(u64::MAX, |least, &head| least.min(head));
        let i = least as u32 as usize;
        let block = &mut blocks[BLOCK_NUMBERS * i..BLOCK_NUMBERS * (i + 1)];
        block[SENT] += 1;
        three.copy_from_slice(&[i as u32 + 1, block[SENT], (least >> 32) as u32]);
        heads[i] = first_waiting(block, i);
    }
}

fn first_waiting(block: &[u32], i: usize) -> u64 {
    match block[SENT] < block[TAKEN] {
        true => (block[DEADLINES + block[SENT] as usize % RING] as u64) << 32 | i as u64,
        false => u64::MAX,
    }
}

//! Random cases for comparison runs: sheets on both sides of the border, damaged sheets, and
//! a stream of offers after each. Case N of seed S is always the same.

use crate::damage::damaged;
use crate::draft::{CurveDraft, Draft, SessionDraft};
use crate::offers::random_stream;
use crate::rng::Rng;
use crate::sheet::{read, HIGHEST_RATE, HIGHEST_VALUE, LONGEST_TABLE};
use crate::verdict::{judge, Case};

pub struct RandomCase {
    pub sheet: Vec<u8>,
    pub stream: Vec<u8>,
}

/// Bounds for a random sheet.
#[derive(Clone, Copy)]
struct Shape {
    sessions: u64,
    period: u64,
    table: u64,
    value: u64,
    rate: u64,
}

const SMALL: Shape = Shape {
    sessions: 4,
    period: 4,
    table: 8,
    value: 12,
    rate: 8,
};
const MIDDLE: Shape = Shape {
    sessions: 6,
    period: 16,
    table: 24,
    value: 80,
    rate: 40,
};
const LARGE: Shape = Shape {
    sessions: 16,
    period: 16,
    table: 64,
    value: 500,
    rate: 256,
};

pub fn case(seed: u64, number: u64) -> RandomCase {
    let mut rng = Rng::new(seed, number);
    if rng.one_in(4) {
        let shape = rng.pick(&[SMALL, SMALL, MIDDLE, LARGE]);
        let draft = random_draft(&mut rng, shape);
        let sheet = damaged(&mut rng, &draft);
        let slots = rng.pick(&[0, 20]);
        let stream = random_stream(&mut rng, draft.sessions.len(), slots);
        return RandomCase { sheet, stream };
    }
    let draft = valid_draft(&mut rng);
    let slots = rng.pick(&[12, 60, 60, 250]);
    let stream = random_stream(&mut rng, draft.sessions.len(), slots);
    RandomCase {
        sheet: draft.bytes(),
        stream,
    }
}

/// A sheet that reads: near the border, tightened, with a long tail, or anything.
pub fn valid_draft(rng: &mut Rng) -> Draft {
    match rng.between(0, 9) {
        0..=3 => {
            let draft = random_draft(rng, SMALL);
            tightened(rng, draft)
        }
        4..=5 => near_border(rng, MIDDLE),
        6 => near_border(rng, LARGE),
        7 => random_draft(rng, LARGE),
        8 => late_slack(rng),
        _ => long_tails(rng),
    }
}

/// A small sheet that reads, for tests that walk far.
pub fn small_draft(rng: &mut Rng) -> Draft {
    let draft = random_draft(rng, SMALL);
    match rng.one_in(2) {
        true => tightened(rng, draft),
        false => draft,
    }
}

fn random_draft(rng: &mut Rng, shape: Shape) -> Draft {
    let period = rng.between(1, shape.period);
    let count = rng.between(1, shape.sessions);
    let sessions: Vec<SessionDraft> = (0..count)
        .map(|_| random_session(rng, shape, period))
        .collect();
    Draft::new(rng.pick(&[1, 1, 2, 3, 5, 17, 64]), period as u8, &sessions)
}

fn random_session(rng: &mut Rng, shape: Shape, period: u64) -> SessionDraft {
    let service = random_curve(rng, shape, period, 1);
    let envelope = random_curve(rng, shape, period, 0);
    let room = rng.pick(&[1, 2, 4, 20, 255, 256]);
    SessionDraft {
        service,
        envelope,
        room,
    }
}

/// Steps, a line with a wait or a burst, or zeros.
fn random_curve(rng: &mut Rng, shape: Shape, period: u64, least_rate: u16) -> CurveDraft {
    let length = rng.between(period, shape.table.max(period));
    let highest_rate = rng.pick(&[2, shape.rate / 4 + 1, shape.rate]);
    let rate = rng.between(0, highest_rate);
    let table: Vec<u64> = match rng.between(0, 4) {
        0 => vec![0; length as usize],
        1 => {
            let mut steps: Vec<u64> = (0..length).map(|_| rng.between(0, shape.value)).collect();
            steps.sort();
            steps
        }
        2 => {
            let burst = rng.between(0, shape.value);
            (1..=length).map(|x| burst + x * rate / period).collect()
        }
        _ => {
            let wait = rng.between(0, length);
            (1..=length)
                .map(|x| x.saturating_sub(wait) * rate / period)
                .collect()
        }
    };
    let table = table
        .iter()
        .map(|&value| value.min(HIGHEST_VALUE as u64) as u16)
        .collect();
    let mut curve = CurveDraft {
        table,
        rate: (rate as u16).max(least_rate),
    };
    mend(&mut curve, period as usize);
    curve
}

/// Lowers the table and raises the rate until the join doesn't fall.
fn mend(curve: &mut CurveDraft, period: usize) {
    let joint = curve.table[curve.table.len() - period];
    for value in curve.table.iter_mut() {
        *value = (*value).min(joint + HIGHEST_RATE);
    }
    let last = curve.table[curve.table.len() - 1];
    curve.rate = curve.rate.max(last - joint);
}

fn verdict_of(draft: &Draft) -> Case {
    judge(&read(&draft.bytes()).expect("a draft of the generator reads"))
}

fn passes(draft: &Draft) -> bool {
    matches!(verdict_of(draft), Case::Passed { .. })
}

/// Gives the draft the least c at which it passes; 64 if there is none.
fn set_least_capacity(draft: &mut Draft) {
    let (mut low, mut high) = (1, 64);
    while low < high {
        draft.capacity = (low + high) / 2;
        match passes(draft) {
            true => high = draft.capacity,
            false => low = draft.capacity + 1,
        }
    }
    draft.capacity = low;
}

fn near_border(rng: &mut Rng, shape: Shape) -> Draft {
    let mut draft = random_draft(rng, shape);
    set_least_capacity(&mut draft);
    match rng.between(0, 5) {
        0 => draft.capacity = (draft.capacity - 1).max(1),
        1 => draft.capacity = (draft.capacity + 1).min(64),
        _ => {}
    }
    draft
}

/// Raises single values and rates while the sheet passes, until the slack is 0 or the tries are
/// used up. Now and then the raise that fails is kept.
fn tightened(rng: &mut Rng, mut draft: Draft) -> Draft {
    set_least_capacity(&mut draft);
    for _ in 0..40 {
        let mut raised = draft.clone();
        raise(rng, &mut raised);
        match verdict_of(&raised) {
            Case::Passed { slack: 0, .. } if rng.one_in(2) => return raised,
            Case::Passed { .. } => draft = raised,
            _ if rng.one_in(12) => return raised,
            _ => {}
        }
    }
    draft
}

fn raise(rng: &mut Rng, draft: &mut Draft) {
    let period = draft.period as usize;
    let curve = draft.any_curve(rng);
    if rng.one_in(4) {
        curve.rate = (curve.rate + 1).min(HIGHEST_RATE);
        return;
    }
    let from = rng.between(0, curve.table.len() as u64 - 1) as usize;
    let raised = (curve.table[from] + 1).min(HIGHEST_VALUE);
    for value in &mut curve.table[from..] {
        *value = (*value).max(raised);
    }
    mend(curve, period);
}

/// Zeros and then a rate, with the rates adding up to c*P or one beside it: such sheets fail
/// late or never.
fn long_tails(rng: &mut Rng) -> Draft {
    let period = rng.between(1, 16);
    let capacity = rng.pick(&[1, 1, 2, 4, 16, 64]);
    let mut left = (capacity * period + rng.between(0, 2)).max(2) - 1;
    let mut sessions = Vec::new();
    while left > 0 && sessions.len() < 16 {
        let most = left.min(HIGHEST_RATE as u64);
        let rate = if rng.one_in(2) {
            most
        } else {
            rng.between(1, most)
        };
        left -= rate;
        sessions.push(long_tail(rng, period, rate as u16));
    }
    Draft::new(capacity as u8, period as u8, &sessions)
}

/// A session of flat tables whose lower rate is the one given.
fn long_tail(rng: &mut Rng, period: u64, rate: u16) -> SessionDraft {
    let steep = (rate + rng.between(0, 3) as u16).min(HIGHEST_RATE);
    let (service_rate, envelope_rate) = rng.pick(&[(rate, steep), (steep, rate)]);
    let length = |rng: &mut Rng| rng.between(period, LONGEST_TABLE as u64) as usize;
    let zeros = vec![0; length(rng)];
    let flat = vec![rng.pick(&[0, 0, 3, 500]); length(rng)];
    let room = rng.pick(&[1, 16, 256]);
    SessionDraft::new((&zeros, service_rate), (&flat, envelope_rate), room)
}

/// Steady sessions use the whole link but for a head start, and a slow session with a burst eats
/// that up packet by packet: the slack comes late, or the sheet fails late.
fn late_slack(rng: &mut Rng) -> Draft {
    let period = rng.between(1, 16);
    let (count, each) = (rng.between(1, 3), rng.between(1, 8));
    let wait = rng.between(0, LONGEST_TABLE as u64 - period - 1);
    let last = wait + period;
    let table: Vec<u16> = (1..=last)
        .map(|x| (each * x.saturating_sub(wait)) as u16)
        .collect();
    let room = rng.pick(&[1, 16, 256]);
    let most = vec![HIGHEST_VALUE; period as usize];
    let rate = (each * period) as u16;
    let steady = SessionDraft::new((&table, rate), (&most, HIGHEST_RATE), room);
    let head_start = count * each * wait;
    let burst = (head_start + rng.between(0, 2))
        .saturating_sub(1)
        .min(HIGHEST_VALUE as u64);
    let zeros = vec![0; rng.between(period, LONGEST_TABLE as u64) as usize];
    let flat = vec![burst as u16; rng.between(period, LONGEST_TABLE as u64) as usize];
    let mut sessions = vec![steady; count as usize];
    let place = rng.between(0, count) as usize;
    let slow_rate = rng.between(1, 2) as u16;
    sessions.insert(
        place,
        SessionDraft::new((&zeros, slow_rate), (&flat, 0), room),
    );
    Draft::new((count * each) as u8, period as u8, &sessions)
}

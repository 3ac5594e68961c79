//! The verdict by the proved library's method: a walk over slot counts, shares of up to 64 slots
//! for either curve, and the same rule for its end. The values of both curves just behind the
//! slot count stand in a window, so no value is computed twice and the inner loop is one sum and
//! one comparison for each share.

use super::sheet::{read, Session, Sheet, Table, LONGEST_TABLE, MOST_SESSIONS};
use super::Refused;

#[derive(Clone, Copy, PartialEq, Eq, Debug)]
pub enum Case {
    Passed(u32, u32),
    Failed(u32),
    Unreadable(Refused),
}

const WALK_END: usize = 131_216;
const BOTH_TABLES: usize = 128;

/// The values at t - 64 .. t.
const WINDOW: usize = LONGEST_TABLE + 1;
/// A window moves along a stretch and is copied back to its start at the end.
const STRETCH: usize = 4 * WINDOW;
/// Stands for a value before slot count 0; no sum of two wraps.
const NONE: i32 = 1 << 29;

pub fn judge(bytes: &[u8]) -> (Case, [u32; MOST_SESSIONS]) {
    match read(bytes) {
        Err(refusal) => (Case::Unreadable(refusal), [0; MOST_SESSIONS]),
        Ok(sheet) => (search(&sheet), figures(&sheet)),
    }
}

struct Walk {
    /// The curve's values at 64 .. 0.
    first: [i32; WINDOW],
    recent: [i32; STRETCH],
}

impl Walk {
    fn new(table: &Table, period: usize) -> Walk {
        let mut first = [0; WINDOW];
        for x in 1..WINDOW {
            first[WINDOW - 1 - x] = match x <= table.length {
                true => table.values[x - 1] as i32,
                false => first[WINDOW - 1 - x + period] + table.rate as i32,
            };
        }
        let mut recent = [NONE; STRETCH];
        recent[WINDOW - 1] = 0;
        Walk { first, recent }
    }

    /// The value at t goes behind the window, whose last place was `at`.
    fn step(&mut self, table: &Table, period: usize, t: usize, at: usize) {
        self.recent[at + 1] = match t <= table.length {
            true => table.values[t - 1] as i32,
            false => self.recent[at + 1 - period] + table.rate as i32,
        };
    }

    fn back(&mut self) {
        self.recent.copy_within(STRETCH - WINDOW.., 0);
    }

    fn window(&self, at: usize) -> &[i32; WINDOW] {
        let window = &self.recent[at + 1 - WINDOW..at + 1];
        window.try_into().expect("a window")
    }
}

fn search(sheet: &Sheet) -> Case {
    let (period, capacity) = (sheet.period, sheet.capacity as usize);
    let sessions = &sheet.sessions[..sheet.count];
    let mut walks: Vec<[Walk; 2]> = sessions
        .iter()
        .map(|one| {
            [
                Walk::new(&one.envelope, period),
                Walk::new(&one.service, period),
            ]
        })
        .collect();
    let mut loads = [0usize; 16];
    let mut slack = capacity + 1;
    let mut first = 0;
    let mut steady = 0;
    let mut at = WINDOW - 1;
    for t in 1..=WALK_END {
        if at + 1 == STRETCH {
            for [b, s] in &mut walks {
                b.back();
                s.back();
            }
            at = WINDOW - 1;
        }
        let mut load = 0;
        for (session, [b, s]) in sessions.iter().zip(&mut walks) {
            b.step(&session.envelope, period, t, at);
            s.step(&session.service, period, t, at);
            load += least(b, s, at + 1) as usize;
        }
        at += 1;
        let most = capacity * t;
        if most < load {
            return Case::Failed(t as u32);
        }
        if most - load < slack {
            slack = most - load;
            first = t;
        }
        if BOTH_TABLES < t {
            if load <= loads[(t - period) % 16] + capacity * period {
                steady += 1;
                if steady == period {
                    break;
                }
            } else {
                steady = 0;
            }
        }
        loads[t % 16] = load;
    }
    Case::Passed(slack as u32, first as u32)
}

/// The least over x = 0..64 of b(x) + S(t - x) and b(t - x) + S(x).
fn least(b: &Walk, s: &Walk, at: usize) -> i32 {
    let (b_recent, s_recent) = (b.window(at), s.window(at));
    let mut best = NONE;
    for j in 0..WINDOW {
        let one = b.first[j] + s_recent[j];
        let two = s.first[j] + b_recent[j];
        best = best.min(one).min(two);
    }
    best
}

fn figures(sheet: &Sheet) -> [u32; MOST_SESSIONS] {
    let mut figures = [0; MOST_SESSIONS];
    for (figure, session) in figures.iter_mut().zip(&sheet.sessions[..sheet.count]) {
        *figure = delay_figure(session, sheet.period);
    }
    figures
}

/// The envelope never falls, so the search in the service table goes on where it stopped.
fn delay_figure(session: &Session, period: usize) -> u32 {
    let (service, envelope) = (&session.service, &session.envelope);
    let mut largest = 0;
    let mut m = 0;
    for x in 1..=envelope.length {
        let wanted = envelope.values[x - 1];
        while m < service.length && service.values[m] < wanted {
            m += 1;
        }
        let due = match m < service.length {
            true => m + 1,
            false => past_table(
                &service.values[..service.length],
                period,
                service.rate,
                wanted,
            ),
        };
        largest = largest.max(due.saturating_sub(x));
    }
    largest as u32
}

/// The least number of slots past a table's end by which its curve gives `wanted` packets.
pub fn past_table(table: &[u32], period: usize, rate: u32, wanted: u32) -> usize {
    let n = table.len();
    let periods = (wanted - table[n - 1] + rate - 1) / rate;
    let up = periods * rate;
    let last = &table[n - period..];
    let k = last.iter().position(|&value| wanted <= value + up);
    n - period + k.expect("the last is enough") + 1 + periods as usize * period
}

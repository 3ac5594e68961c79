//! The verdict on a sheet: passed with its slack, failed with the least failing t, or
//! unreadable, and beside it the delay figures of the sessions.

use crate::convolution::Convolution;
use crate::sheet::{read, Refusal, Session, Sheet};
use crate::{Packets, Slots};
use std::fmt;

#[derive(Clone, Copy, Debug, PartialEq, Eq)]
pub enum Case {
    /// The least of c*t - L(t) over all t >= 1, and the least t that gives it.
    Passed {
        slack: Packets,
        at: Slots,
    },
    /// The least t with L(t) > c*t.
    Failed {
        at: Slots,
    },
    Unreadable(Refusal),
}

#[derive(Clone, Copy, Debug, PartialEq, Eq)]
pub struct Answer {
    pub case: Case,
    pub figures: [Slots; 16],
}

pub fn verdict(bytes: &[u8]) -> Answer {
    match read(bytes) {
        Ok(sheet) => Answer {
            case: judge(&sheet),
            figures: figures(&sheet),
        },
        Err(refusal) => Answer {
            case: Case::Unreadable(refusal),
            figures: [0; 16],
        },
    }
}

/// Decides for every t >= 1 at once. Write L(t) for the sum of (b*S)(t) over the sessions, T for
/// the last of their settled points and R for the sum of their rises; the gap is c*t - L(t).
/// Every session rises by its own share of R from T on, so gap(t + P) = gap(t) + c*P - R there.
///
/// Up to T + P - 1 the gaps are looked at one by one. If one is below 0, the first is the answer.
/// If none is and R <= c*P, then every later gap is at least the gap of the same remainder in
/// T..T+P-1: the sheet passes, and the least gap with its least t has been seen. If R > c*P,
/// each remainder loses R - c*P in a period, its first gap below 0 is found by a division, and
/// the least of those P slot counts is the answer.
pub fn judge(sheet: &Sheet) -> Case {
    let parts = convolutions(sheet);
    let settled = parts
        .iter()
        .map(Convolution::settled)
        .max()
        .expect("a session");
    let mut slack = i64::MAX;
    let mut slack_at = 0;
    for t in 1..settled + sheet.period {
        let gap = gap(sheet, &parts, t);
        if gap < 0 {
            return Case::Failed { at: t as Slots };
        }
        if gap < slack {
            slack = gap;
            slack_at = t as Slots;
        }
    }
    let rise: Packets = parts.iter().map(Convolution::rise).sum();
    let sent = sheet.capacity * sheet.period as Packets;
    if rise <= sent {
        return Case::Passed {
            slack: slack as Packets,
            at: slack_at,
        };
    }
    let at = first_below_zero(sheet, &parts, settled, (rise - sent) as usize);
    Case::Failed { at: at as Slots }
}

pub fn convolutions(sheet: &Sheet) -> Vec<Convolution> {
    sheet
        .sessions
        .iter()
        .map(|one| Convolution::of(one, sheet.period))
        .collect()
}

/// c*t - L(t).
pub fn gap(sheet: &Sheet, parts: &[Convolution], t: usize) -> i64 {
    let sum: Packets = parts.iter().map(|part| part.at(t)).sum();
    (sheet.capacity * t as u64) as i64 - sum as i64
}

/// The least failing t when no gap before settled + P is below 0 and each loses `loss` a period.
fn first_below_zero(sheet: &Sheet, parts: &[Convolution], settled: usize, loss: usize) -> usize {
    let remainders = settled..settled + sheet.period;
    let firsts = remainders.map(|t| {
        let periods = gap(sheet, parts, t) as usize / loss + 1;
        t + periods * sheet.period
    });
    firsts.min().expect("a period has a slot")
}

/// The figures of all sessions, zeros past the last.
pub fn figures(sheet: &Sheet) -> [Slots; 16] {
    let mut figures = [0; 16];
    for (figure, session) in figures.iter_mut().zip(&sheet.sessions) {
        *figure = delay_figure(session);
    }
    figures
}

/// The largest, over the envelope's table positions x, of the least d >= 0 with b(x) <= S(x + d).
fn delay_figure(session: &Session) -> Slots {
    let mut largest = 0;
    for x in 1..=session.envelope.table_length() {
        let wanted = session.envelope.at(x);
        let mut d = 0;
        while session.service.at(x + d) < wanted {
            d += 1;
        }
        largest = largest.max(d);
    }
    largest as Slots
}

/// The verdict as one line; `sessions` says how many figures are printed.
pub struct Line {
    pub answer: Answer,
    pub sessions: usize,
}

impl fmt::Display for Line {
    fn fmt(&self, to: &mut fmt::Formatter) -> fmt::Result {
        match self.answer.case {
            Case::Passed { slack, at } => write!(to, "passed {slack} {at}")?,
            Case::Failed { at } => write!(to, "failed {at}")?,
            Case::Unreadable(refusal) => return write!(to, "{refusal}"),
        }
        for figure in &self.answer.figures[..self.sessions] {
            write!(to, " {figure}")?;
        }
        Ok(())
    }
}

//! A run of slots over a sheet that passes, with every A(t) and every waiting packet kept. The
//! run is a value of its own and no slice of numbers, so refusals 13 and 14 can't arise here.

use crate::sheet::{read, Refusal, Session, Sheet};
use crate::tally::Tally;
use crate::verdict::{judge, Case};
use crate::{Packets, Slots};

pub const MOST_SLOTS: Slots = 1_000_000;

/// A packet that waits. The order of the fields is the order of sending: least deadline first,
/// ties to the lower session, then to the lower packet.
#[derive(Clone, Copy, Debug, PartialEq, Eq, PartialOrd, Ord)]
pub struct Waiting {
    pub deadline: Slots,
    pub session: usize,
    pub packet: Packets,
}

/// What became of one session's offers in one slot.
#[derive(Clone, Copy, Debug, Default, PartialEq, Eq)]
pub struct Outcome {
    pub taken_in: Packets,
    pub over: Packets,
    pub no_room: Packets,
}

#[derive(Clone, Debug)]
pub struct Run {
    sheet: Sheet,
    most_slots: Slots,
    /// For each session A(0), A(1), ... up to the last slot done.
    taken: Vec<Vec<Packets>>,
    waiting: Vec<Waiting>,
}

impl Run {
    /// Opens a run before slot 1: the reading's refusals, then 12 with the least failing t.
    pub fn open(bytes: &[u8]) -> Result<Run, Refusal> {
        Run::open_with_most_slots(bytes, MOST_SLOTS)
    }

    /// The same with another number of slots after which 17 is given.
    pub fn open_with_most_slots(bytes: &[u8], most_slots: Slots) -> Result<Run, Refusal> {
        let sheet = read(bytes)?;
        if let Case::Failed { at } = judge(&sheet) {
            return Err(Refusal {
                number: 12,
                place: at,
            });
        }
        let taken = vec![vec![0]; sheet.sessions.len()];
        Ok(Run {
            sheet,
            most_slots,
            taken,
            waiting: Vec::new(),
        })
    }

    pub fn sheet(&self) -> &Sheet {
        &self.sheet
    }

    pub fn slots_done(&self) -> Slots {
        self.taken[0].len() as Slots - 1
    }

    /// A(0), A(1), ... of a session, counted from 1.
    pub fn taken_in(&self, session: usize) -> &[Packets] {
        &self.taken[session - 1]
    }

    pub fn waiting(&self) -> &[Waiting] {
        &self.waiting
    }

    /// One slot. It writes (taken in, over, no room) for each session and (session, packet,
    /// deadline) for each packet sent, and answers how many it sent. If it refuses, nothing
    /// is written.
    pub fn slot(
        &mut self,
        offers: &[u8],
        outcomes: &mut [u32],
        sent: &mut [u32],
        tally: &mut Tally,
    ) -> Result<usize, Refusal> {
        self.check(offers, outcomes, sent)?;
        let results: Vec<Outcome> = offers
            .iter()
            .enumerate()
            .map(|(i, &offered)| self.outcome(i, offered))
            .collect();
        let (leaving, staying) = self.send(&results);
        let slot = slot_tally(offers, &results, leaving.len(), staying.len());
        *tally = tally.after(&slot).ok_or(refused(18))?;
        write_outcomes(&results, outcomes);
        write_sent(&leaving, sent);
        self.waiting = staying;
        for (taken, result) in self.taken.iter_mut().zip(&results) {
            taken.push(taken[taken.len() - 1] + result.taken_in);
        }
        Ok(leaving.len())
    }

    /// Refusals 15 to 17.
    fn check(&self, offers: &[u8], outcomes: &[u32], sent: &[u32]) -> Result<(), Refusal> {
        let sessions = self.sheet.sessions.len();
        let capacity = self.sheet.capacity as usize;
        if offers.len() != sessions {
            return Err(refused(15));
        }
        if outcomes.len() < 3 * sessions || sent.len() < 3 * capacity {
            return Err(refused(16));
        }
        if self.slots_done() >= self.most_slots {
            return Err(refused(17));
        }
        Ok(())
    }

    /// Rule 4: of all waiting packets, the new ones included, the first c in the order of sending
    /// leave and the others stay.
    fn send(&self, results: &[Outcome]) -> (Vec<Waiting>, Vec<Waiting>) {
        let mut leaving = self.waiting.clone();
        for (i, result) in results.iter().enumerate() {
            leaving.extend(self.new_packets(i, result.taken_in));
        }
        leaving.sort();
        let count = leaving.len().min(self.sheet.capacity as usize);
        let staying = leaving.split_off(count);
        (leaving, staying)
    }

    /// Rules 1 and 2: offers above the headroom are over, and those left above what the room
    /// still holds find no room. Where none is offered neither needs to be looked up.
    fn outcome(&self, i: usize, offered: u8) -> Outcome {
        let offered = offered as Packets;
        if offered == 0 {
            return Outcome::default();
        }
        let session = &self.sheet.sessions[i];
        let within = offered.min(headroom(session, &self.taken[i]));
        let waiting = self
            .waiting
            .iter()
            .filter(|packet| packet.session == i + 1)
            .count();
        let taken_in = within.min(session.room - waiting as Packets);
        Outcome {
            taken_in,
            over: offered - within,
            no_room: within - taken_in,
        }
    }

    /// Rule 3: the packets that session i takes in during the next slot, with their deadlines.
    fn new_packets(&self, i: usize, taken_in: Packets) -> Vec<Waiting> {
        if taken_in == 0 {
            return Vec::new();
        }
        let before = &self.taken[i];
        let u = before.len();
        let mut a = before.clone();
        a.push(a[u - 1] + taken_in);
        let service = &self.sheet.sessions[i].service;
        let one = |q: Packets| {
            let slots_with_intake = (1..=u).filter(|&k| a[k] > a[k - 1]);
            let dates =
                slots_with_intake.map(|k| k as Slots - 1 + service.delay(q + a[u - 1] - a[k - 1]));
            let deadline = dates.max().expect("slot u itself has intake");
            Waiting {
                deadline,
                session: i + 1,
                packet: a[u - 1] + q,
            }
        };
        (1..=taken_in).map(one).collect()
    }
}

/// A slot's refusals all have place 0.
fn refused(number: u32) -> Refusal {
    Refusal { number, place: 0 }
}

/// The least of A(s) + b(t - s) - A(t - 1) over s = 0..t-1, where `a` holds A(0) to A(t - 1).
/// It is never below 0, since every earlier slot kept to its own headroom.
pub fn headroom(session: &Session, a: &[Packets]) -> Packets {
    let t = a.len();
    let sums = (0..t).map(|s| a[s] + session.envelope.at(t - s));
    sums.min().expect("s = 0 is always there") - a[t - 1]
}

fn slot_tally(offers: &[u8], results: &[Outcome], sent: usize, waiting: usize) -> Tally {
    let total = |part: fn(&Outcome) -> Packets| results.iter().map(part).sum::<Packets>() as u32;
    Tally {
        offered: offers.iter().map(|&o| o as u32).sum(),
        taken_in: total(|one| one.taken_in),
        over: total(|one| one.over),
        no_room: total(|one| one.no_room),
        sent: sent as u32,
        waiting: waiting as u32,
    }
}

fn write_outcomes(results: &[Outcome], to: &mut [u32]) {
    for (three, one) in to.chunks_exact_mut(3).zip(results) {
        three[0] = one.taken_in as u32;
        three[1] = one.over as u32;
        three[2] = one.no_room as u32;
    }
}

fn write_sent(leaving: &[Waiting], to: &mut [u32]) {
    for (three, one) in to.chunks_exact_mut(3).zip(leaving) {
        three[0] = one.session as u32;
        three[1] = one.packet as u32;
        three[2] = one.deadline as u32;
    }
}

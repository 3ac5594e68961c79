//! What is timed and counted: verdicts, and stretches of slots, by each of the three programs.

use crate::{alike, inputs, rival};
use oracle::draft::Draft;
use oracle::run::Run;
use oracle::script::RUN_NUMBERS;
use oracle::tally::Tally;
use oracle::verdict::verdict;

#[derive(Clone, Copy, PartialEq, Eq)]
pub enum Who {
    Proved,
    Optimised,
    Literal,
}

pub const ALL: [Who; 3] = [Who::Proved, Who::Optimised, Who::Literal];

pub fn who(word: &str) -> Option<Who> {
    ALL.into_iter().find(|one| one.word() == word)
}

impl Who {
    pub fn word(self) -> &'static str {
        match self {
            Who::Proved => "proved",
            Who::Optimised => "optimised",
            Who::Literal => "literal",
        }
    }
}

pub enum Kind {
    /// One verdict is one step.
    Verdict,
    /// One slot is one step: the offers, in turn, and how many slots the literal program is given.
    Slots(Vec<Vec<u8>>, usize),
}

pub struct Case {
    pub name: &'static str,
    pub what: &'static str,
    pub draft: Draft,
    pub kind: Kind,
    /// How many steps are timed together, and how many are counted.
    pub timed: usize,
    pub counted: usize,
}

pub fn cases() -> Vec<Case> {
    vec![
        Case {
            name: "verdict-short",
            what: "verdict: 16 sessions, 64-entry tables, passes, walk of 144 slot counts",
            draft: inputs::full(),
            kind: Kind::Verdict,
            timed: 20,
            counted: 2,
        },
        Case {
            name: "verdict-long",
            what: "verdict: 16 sessions, 64-entry tables, passes, walk of some 8,000 slot counts",
            draft: inputs::long_walk(),
            kind: Kind::Verdict,
            timed: 1,
            counted: 1,
        },
        Case {
            name: "verdict-fails",
            what: "verdict: 5 sessions, fails at 115,841",
            draft: inputs::late_failure(),
            kind: Kind::Verdict,
            timed: 1,
            counted: 1,
        },
        Case {
            name: "verdict-small",
            what: "verdict: example K3, 2 sessions, 2-entry tables",
            draft: inputs::small(),
            kind: Kind::Verdict,
            timed: 200,
            counted: 20,
        },
        Case {
            name: "slot-flood",
            what: "slot: 16 sessions, 64 packets a slot, floods",
            draft: inputs::full(),
            kind: Kind::Slots(inputs::flood(), 200),
            timed: 1_000,
            counted: 200,
        },
        Case {
            name: "slot-mixed",
            what: "slot: 16 sessions, offers of 0 to 12, a third of the slots idle",
            draft: inputs::full(),
            kind: Kind::Slots(inputs::mixed(16, 12), 200),
            timed: 1_000,
            counted: 200,
        },
        Case {
            name: "slot-small",
            what: "slot: example K3, 2 sessions, 1 packet a slot",
            draft: inputs::small(),
            kind: Kind::Slots(inputs::mixed(2, 3), 1_000),
            timed: 10_000,
            counted: 1_000,
        },
    ]
}

/// A run's slice and what is lent beside it.
#[derive(Clone)]
pub struct Lent {
    pub run: Vec<u32>,
    outcomes: [u32; 48],
    sent: [u32; 192],
    tally: [u32; 6],
}

impl Lent {
    pub fn opened(bytes: &[u8]) -> Lent {
        let mut run = vec![0; RUN_NUMBERS];
        let mut answer = [9; 2];
        assert!(linked::open(bytes, &mut run, &mut answer));
        assert_eq!(answer, [0, 0]);
        Lent {
            run,
            outcomes: [0; 48],
            sent: [0; 192],
            tally: [0; 6],
        }
    }

    /// So many slots, with the offers in turn.
    pub fn slots(&mut self, who: Who, offers: &[Vec<u8>], count: usize) {
        self.tally = [0; 6];
        let in_turn = offers.iter().cycle().take(count);
        match who {
            Who::Proved => in_turn.for_each(|one| self.proved(one)),
            _ => in_turn.for_each(|one| self.optimised(one)),
        }
    }

    fn proved(&mut self, offers: &[u8]) {
        let mut answer = [9; 2];
        linked::slot(
            &mut self.run,
            offers,
            &mut self.outcomes,
            &mut self.sent,
            &mut self.tally,
            &mut answer,
        );
        assert_eq!(answer[0], 0);
    }

    fn optimised(&mut self, offers: &[u8]) {
        let answer = rival::slot::slot(
            &mut self.run,
            offers,
            &mut self.outcomes,
            &mut self.sent,
            &mut self.tally,
        );
        assert!(answer.is_ok());
    }
}

/// One case made ready: what it needs is made before the clock runs.
pub struct Ready {
    bytes: Vec<u8>,
    after: Option<Lent>,
    literal: Option<Run>,
}

/// Slots of a run that is some way on, so that rooms are full where they get full.
const BEFORE: usize = 1_000;

impl Case {
    pub fn ready(&self) -> Ready {
        let bytes = self.draft.bytes();
        let (after, literal) = match &self.kind {
            Kind::Verdict => (None, None),
            Kind::Slots(offers, _) => {
                let mut lent = Lent::opened(&bytes);
                lent.slots(Who::Proved, offers, BEFORE);
                (Some(lent), Run::open(&bytes).ok())
            }
        };
        Ready {
            bytes,
            after,
            literal,
        }
    }

    /// How many steps the literal program is given.
    pub fn steps(&self, who: Who, steps: usize) -> usize {
        match (&self.kind, who) {
            (Kind::Slots(_, few), Who::Literal) => steps.min(*few),
            _ => steps,
        }
    }

    /// So many steps by one of the programs.
    pub fn work(&self, who: Who, ready: &Ready, steps: usize) {
        match (&self.kind, who) {
            (Kind::Verdict, _) => (0..steps).for_each(|_| judge(who, &ready.bytes)),
            (Kind::Slots(offers, _), Who::Literal) => {
                let run = ready.literal.clone().expect("a run");
                literal_slots(run, offers, steps);
            }
            (Kind::Slots(offers, _), _) => {
                let mut lent = ready.after.clone().expect("a run");
                lent.slots(who, offers, steps);
                seen(&lent.run);
            }
        }
    }
}

fn judge(who: Who, bytes: &[u8]) {
    let bytes = seen(bytes);
    match who {
        Who::Proved => {
            let mut answer = [0; 19];
            assert!(linked::judge(bytes, &mut answer));
            seen(answer);
        }
        Who::Optimised => {
            seen(alike::judged(bytes));
        }
        Who::Literal => {
            seen(verdict(bytes));
        }
    }
}

/// The first slots of a run, since the literal program keeps its whole history.
fn literal_slots(mut run: Run, offers: &[Vec<u8>], count: usize) {
    let mut tally = Tally::default();
    for one in offers.iter().cycle().take(count) {
        let answer = run.slot(one, &mut [0; 48], &mut [0; 192], &mut tally);
        assert!(answer.is_ok());
    }
}

/// The value, in a way that the compiler cannot look through: nothing is left out because its
/// result is not used, and nothing is done once for all.
fn seen<T>(value: T) -> T {
    let kept = std::mem::ManuallyDrop::new(value);
    unsafe { std::ptr::read_volatile(&*kept) }
}

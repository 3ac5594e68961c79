//! Random scripts of calls: each answer, each number of every slice that is lent, and nothing
//! past what is written; a refused call changes nothing.

use crate::image::{image, Ring, RING};
use crate::{filled, same};
use linked::{open, slot, ANSWER_NUMBERS, TALLY_NUMBERS};
use oracle::rng::Rng;
use oracle::run::Run;
use oracle::script::{Command, Script, RUN_NUMBERS, SLICES};
use oracle::sheet::Refusal;
use oracle::tally::Tally;

/// The run with its whole history, and the deadlines of its packets.
struct Literal {
    run: Run,
    rings: Vec<Ring>,
}

/// What both sides hold.
struct World {
    run: Vec<u32>,
    literal: Option<Literal>,
    lengths: [usize; 3],
    tally: Tally,
    rng: Rng,
    slots: u64,
}

/// Runs a script both ways; the answer is how many slots it had.
pub fn compare(script: &Script, rng: Rng) -> u64 {
    let mut world = World {
        run: vec![0; SLICES[0]],
        literal: None,
        lengths: SLICES,
        tally: Tally::default(),
        rng,
        slots: 0,
    };
    for command in script.commands() {
        world.follow(command);
    }
    world.check_image();
    world.slots
}

impl World {
    fn follow(&mut self, command: &Command) {
        match command {
            Command::Sheet(bytes) => self.open(bytes),
            Command::Slot(offers) => self.slot(offers),
            Command::Repeat(times, offers) => {
                for _ in 0..*times {
                    self.slot(offers);
                }
            }
            Command::Lengths(lengths) => self.lengths = *lengths,
            Command::Tally(tally) => self.tally = *tally,
            Command::PutPast(place, value) => self.run[RUN_NUMBERS + place] = *value,
            Command::Zeros => {
                self.run.fill(0);
                self.literal = None;
            }
        }
    }

    fn open(&mut self, bytes: &[u8]) {
        let before = self.run.clone();
        let mut answer = filled(ANSWER_NUMBERS + 2);
        let mut expected = answer.clone();
        let lent = &mut self.run[..self.lengths[0]];
        assert!(!open(bytes, lent, &mut answer[..1]));
        same("short answer", &answer, &expected);
        assert!(open(bytes, lent, &mut answer));
        let opened = match self.lengths[0] < RUN_NUMBERS {
            true => Err(refused(13)),
            false => Run::open(bytes),
        };
        match opened {
            Err(refusal) => {
                expected[..2].copy_from_slice(&[refusal.number, refusal.place as u32]);
                same("run", &self.run, &before);
            }
            Ok(run) => {
                expected[..2].copy_from_slice(&[0, 0]);
                let rings = vec![[0; RING]; run.sheet().sessions.len()];
                self.literal = Some(Literal { run, rings });
                same("past", &self.run[RUN_NUMBERS..], &before[RUN_NUMBERS..]);
                self.check_image();
            }
        }
        same("answer", &answer, &expected);
    }

    fn slot(&mut self, offers: &[u8]) {
        self.slots += 1;
        let [mut outcomes, mut sent] = [filled(SLICES[1]), filled(SLICES[2])];
        let [mut outcomes_expected, mut sent_expected] = [outcomes.clone(), sent.clone()];
        let mut tally = filled(TALLY_NUMBERS + 2);
        tally[..TALLY_NUMBERS].copy_from_slice(&self.tally.totals());
        let mut answer = filled(ANSWER_NUMBERS + 2);
        let mut answer_expected = answer.clone();
        if self.rng.one_in(16) {
            self.too_short(offers, &mut outcomes, &mut sent, &mut tally, &mut answer);
        }
        let answered = self.literal_slot(offers, &mut outcomes_expected, &mut sent_expected);
        let mut tally_expected = tally.clone();
        tally_expected[..TALLY_NUMBERS].copy_from_slice(&self.tally.totals());
        let before = match answered {
            Ok(_) => self.run[RUN_NUMBERS..].to_vec(),
            Err(_) => self.run.clone(),
        };
        let [run_lent, outcomes_lent, sent_lent] = self.lengths;
        assert!(slot(
            &mut self.run[..run_lent],
            offers,
            &mut outcomes[..outcomes_lent.min(SLICES[1])],
            &mut sent[..sent_lent.min(SLICES[2])],
            &mut tally,
            &mut answer,
        ));
        let told = match answered {
            Ok(count) => [0, count as u32],
            Err(refusal) => [refusal.number, refusal.place as u32],
        };
        answer_expected[..ANSWER_NUMBERS].copy_from_slice(&told);
        same("answer", &answer, &answer_expected);
        same("outcomes", &outcomes, &outcomes_expected);
        same("sent", &sent, &sent_expected);
        same("tally", &tally, &tally_expected);
        match answered {
            Ok(_) => same("past", &self.run[RUN_NUMBERS..], &before),
            Err(_) => same("run", &self.run, &before),
        }
        if self.slots < 1_000 && self.rng.one_in(16) {
            self.check_image();
        }
    }

    fn literal_slot(
        &mut self,
        offers: &[u8],
        outcomes: &mut [u32],
        sent: &mut [u32],
    ) -> Result<usize, Refusal> {
        let [run_lent, outcomes_lent, sent_lent] = self.lengths;
        if run_lent < RUN_NUMBERS {
            return Err(refused(13));
        }
        let literal = self.literal.as_mut().ok_or(refused(14))?;
        let outcomes = &mut outcomes[..outcomes_lent.min(SLICES[1])];
        let sent = &mut sent[..sent_lent.min(SLICES[2])];
        let count = literal.run.slot(offers, outcomes, sent, &mut self.tally)?;
        for three in sent[..3 * count].chunks(3) {
            literal.note(three[0] as usize, three[1] as u64, three[2]);
        }
        for i in 0..literal.run.waiting().len() {
            let packet = literal.run.waiting()[i];
            literal.note(packet.session, packet.packet, packet.deadline as u32);
        }
        Ok(count)
    }

    /// A call whose tally or answer has no place changes nothing.
    fn too_short(
        &mut self,
        offers: &[u8],
        outcomes: &mut [u32],
        sent: &mut [u32],
        tally: &mut [u32],
        answer: &mut [u32],
    ) {
        let state = |parts: [&[u32]; 5]| -> Vec<Vec<u32>> {
            parts.iter().map(|one| one.to_vec()).collect()
        };
        let before = state([&self.run, outcomes, sent, tally, answer]);
        let (tally_lent, answer_lent) = match self.rng.one_in(2) {
            true => (self.rng.between(0, 5) as usize, ANSWER_NUMBERS),
            false => (TALLY_NUMBERS, self.rng.between(0, 1) as usize),
        };
        assert!(!slot(
            &mut self.run,
            offers,
            outcomes,
            sent,
            &mut tally[..tally_lent],
            &mut answer[..answer_lent],
        ));
        assert_eq!(state([&self.run, outcomes, sent, tally, answer]), before);
    }

    /// Every number that the run lives in.
    fn check_image(&self) {
        if let Some(literal) = &self.literal {
            let expected = image(&literal.run, &literal.rings);
            same("run", &self.run[..RUN_NUMBERS], &expected);
        }
    }
}

impl Literal {
    fn note(&mut self, session: usize, packet: u64, deadline: u32) {
        self.rings[session - 1][(packet as usize - 1) % RING] = deadline;
    }
}

fn refused(number: u32) -> Refusal {
    Refusal { number, place: 0 }
}

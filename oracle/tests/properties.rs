//! What must hold on every run of a sheet that passes: deadlines are met, S is kept, envelopes
//! bind, offers that keep to the envelope lose none for over, and the tally adds up.

mod common;

use common::*;
use oracle::gen::valid_draft;
use oracle::offers::random_stream;
use oracle::rng::Rng;
use oracle::run::Run;
use oracle::tally::Tally;

/// A run with the packets sent of each session beside it.
struct Watched {
    run: Run,
    tally: Tally,
    sent: Vec<u64>,
    over: u64,
}

impl Watched {
    fn new(run: Run) -> Watched {
        let sent = vec![0; run.sheet().sessions.len()];
        Watched {
            run,
            tally: Tally::default(),
            sent,
            over: 0,
        }
    }

    fn slot(&mut self, offers: &[u8]) {
        let waiting_before = self.run.waiting().len();
        let (outcomes, sent) = one_slot(&mut self.run, offers, &mut self.tally);
        let mut taken_in = 0;
        for (i, (three, &offered)) in outcomes.chunks(3).zip(offers).enumerate() {
            assert_eq!(three.iter().sum::<u32>(), offered as u32);
            taken_in += three[0] as usize;
            self.over += three[1] as u64;
            self.check_turned_away(i, three);
        }
        let capacity = self.run.sheet().capacity as usize;
        assert_eq!(sent.len() / 3, capacity.min(waiting_before + taken_in));
        for three in sent.chunks(3) {
            let session = three[0] as usize - 1;
            self.sent[session] += 1;
            assert_eq!(
                three[1] as u64, self.sent[session],
                "packets leave in their order"
            );
            let key = (three[2] as u64, three[0] as usize, three[1] as u64);
            let later = |one: &oracle::run::Waiting| (one.deadline, one.session, one.packet) > key;
            assert!(self.run.waiting().iter().all(later));
        }
        self.check();
    }

    /// None is turned away without need: over only if some stretch is full up to its envelope,
    /// no room only if the room is full. The packets of this slot are not yet counted as sent.
    fn check_turned_away(&self, i: usize, three: &[u32]) {
        let session = &self.run.sheet().sessions[i];
        let a = self.run.taken_in(i + 1);
        let t = a.len() - 1;
        if three[1] > 0 {
            let within = a[t] + three[2] as u64;
            assert!((0..t).any(|s| a[s] + session.envelope.at(t - s) == within));
        }
        if three[2] > 0 {
            assert_eq!(a[t] - self.sent[i], session.room);
        }
    }

    fn check(&self) {
        let t = self.run.slots_done() as usize;
        assert!(self
            .run
            .waiting()
            .iter()
            .all(|packet| packet.deadline > t as u64));
        for (i, session) in self.run.sheet().sessions.iter().enumerate() {
            let a = self.run.taken_in(i + 1);
            let promised = (0..=t).map(|s| a[s] + session.service.at(t - s)).min();
            assert!(self.sent[i] >= promised.expect("s = 0 is there"));
            assert!((0..t).all(|s| a[t] - a[s] <= session.envelope.at(t - s)));
            assert!(a[t] - self.sent[i] <= session.room);
        }
        let total = &self.tally;
        assert_eq!(total.offered, total.taken_in + total.over + total.no_room);
        assert_eq!(total.taken_in, total.sent + total.waiting);
        assert_eq!(total.waiting as usize, self.run.waiting().len());
    }
}

fn passing_runs(seed: u64, cases: u64, mut each: impl FnMut(&mut Rng, Run)) {
    let mut count = 0;
    for number in 0..cases {
        let mut rng = Rng::new(seed, number);
        let draft = valid_draft(&mut rng);
        if let Ok(run) = Run::open(&draft.bytes()) {
            each(&mut rng, run);
            count += 1;
        }
    }
    assert!(count * 3 > cases, "only {count} of {cases} sheets pass");
}

#[test]
fn any_offers() {
    let (mut turned_away, mut without_room) = (0, 0);
    passing_runs(21, 600, |rng, run| {
        let sessions = run.sheet().sessions.len();
        let stream = random_stream(rng, sessions, 120);
        let mut watched = Watched::new(run);
        for offers in stream.chunks_exact(sessions) {
            watched.slot(offers);
        }
        turned_away += watched.over;
        without_room += watched.tally.no_room;
    });
    assert!(turned_away > 0 && without_room > 0);
}

/// Floods in every slot take all that the envelopes and the rooms allow.
#[test]
fn floods() {
    passing_runs(22, 150, |_, run| {
        let offers = vec![255; run.sheet().sessions.len()];
        let mut watched = Watched::new(run);
        for _ in 0..200 {
            watched.slot(&offers);
        }
    });
}

/// The most a session may offer in slot t when all its offers so far are o(0) .. o(t-1) in sum.
fn conforming(offered: &[u64], envelope: &oracle::curve::Curve) -> u64 {
    let t = offered.len();
    let most = (0..t).map(|s| offered[s] + envelope.at(t - s)).min();
    (most.expect("s = 0 is there") - offered[t - 1]).min(255)
}

#[test]
fn offers_within_the_envelope_lose_none_for_over() {
    let mut without_room = 0;
    passing_runs(23, 400, |rng, run| {
        let sessions = run.sheet().sessions.clone();
        let mut sums = vec![vec![0]; sessions.len()];
        let mut watched = Watched::new(run);
        for _ in 0..120 {
            let mut offers = Vec::new();
            for (sum, session) in sums.iter_mut().zip(&sessions) {
                let most = conforming(sum, &session.envelope);
                let offer = if rng.one_in(3) {
                    most
                } else {
                    rng.between(0, most)
                };
                sum.push(sum[sum.len() - 1] + offer);
                offers.push(offer as u8);
            }
            watched.slot(&offers);
        }
        assert_eq!(watched.over, 0);
        without_room += watched.tally.no_room;
    });
    assert!(without_room > 0, "rooms must bind in some of these runs");
}

/// A slot without intake may be added to the slots k of a deadline without any change.
#[test]
fn slots_without_intake_change_no_deadline() {
    passing_runs(24, 100, |rng, run| {
        let sessions = run.sheet().sessions.len();
        let stream = random_stream(rng, sessions, 60);
        let mut watched = Watched::new(run);
        for offers in stream.chunks_exact(sessions) {
            watched.slot(offers);
            let u = watched.run.slots_done() as usize;
            for packet in watched.run.waiting() {
                let a = watched.run.taken_in(packet.session);
                if packet.packet <= a[u - 1] {
                    continue;
                }
                let service = &watched.run.sheet().sessions[packet.session - 1].service;
                let dates = (1..=u).map(|k| k as u64 - 1 + service.delay(packet.packet - a[k - 1]));
                assert_eq!(dates.max(), Some(packet.deadline));
            }
        }
    });
}

//! The sheets and the offers that are timed.

use oracle::draft::{Draft, SessionDraft};
use oracle::examples::k3;
use oracle::rng::Rng;

/// Sixteen sessions with tables of 64 values, c = 64, P = 16. Each is promised 4 packets a slot
/// after a wait of its own, so that together they fill the link.
pub fn full() -> Draft {
    let sessions: Vec<SessionDraft> = (0..16)
        .map(|i| {
            let service: Vec<u16> = (1..=64u16).map(|x| 4 * x.saturating_sub(i)).collect();
            let envelope: Vec<u16> = (1..=64u16).map(|x| (100 + 16 * x).min(500)).collect();
            SessionDraft::new((&service, 64), (&envelope, 256), 256)
        })
        .collect();
    Draft::new(64, 16, &sessions)
}

/// The same shape with fifteen sessions that use the whole link after a wait of 8 slots, and one
/// with a burst of 500 packets that is served by one packet each 16 slots: the walk goes on until
/// that burst has eaten up what the wait left.
pub fn long_walk() -> Draft {
    let mut sessions: Vec<SessionDraft> = (0..15)
        .map(|i| {
            let rate = if i == 0 { 72 } else { 68 };
            let service: Vec<u16> = (1..=64u16)
                .map(|x| x.saturating_sub(8) * rate / 16)
                .collect();
            SessionDraft::new((&service, rate), (&[500; 64], 256), 256)
        })
        .collect();
    sessions.push(SessionDraft::new((&[0; 64], 1), (&[500; 64], 0), 256));
    Draft::new(64, 16, &sessions)
}

/// The latest first failure, at slot count 115,841.
pub fn late_failure() -> Draft {
    let zeros = [0; 64];
    let mut sessions = vec![SessionDraft::new((&zeros, 256), (&zeros, 256), 1); 4];
    sessions.push(SessionDraft::new((&zeros, 1), (&zeros, 1), 1));
    Draft::new(64, 16, &sessions)
}

/// Example K3: two sessions, c = 1.
pub fn small() -> Draft {
    k3()
}

/// All that a byte can offer, to each of sixteen sessions in every slot.
pub fn flood() -> Vec<Vec<u8>> {
    vec![vec![255; 16]]
}

/// Offers of 0 to `most`, and idle slots between.
pub fn mixed(sessions: usize, most: u64) -> Vec<Vec<u8>> {
    let mut rng = Rng::new(1, most);
    (0..997)
        .map(|_| {
            let idle = rng.one_in(3);
            let offer = |rng: &mut Rng| match idle {
                true => 0,
                false => rng.between(0, most) as u8,
            };
            (0..sessions).map(|_| offer(&mut rng)).collect()
        })
        .collect()
}

//! Before anything is timed: the proved library and the optimised program give the same answers
//! and leave the same numbers, on random sheets, on their runs, and on slices with numbers changed.

use crate::rival;
use crate::rival::verdict::Case;
use oracle::gen::{case, valid_draft};
use oracle::rng::Rng;
use oracle::script::{RUN_NUMBERS, SLICES};

pub fn check(seed: u64, count: u64) {
    for number in 0..count {
        same_verdict(&case(seed, number).sheet);
        let mut rng = Rng::new(seed, number);
        let bytes = valid_draft(&mut rng).bytes();
        same_verdict(&bytes);
        let mut pair = Pair::new(&bytes);
        for _ in 0..60 {
            pair.slot(&mut rng);
        }
        for _ in 0..rng.between(1, 3) {
            pair.change(&mut rng);
        }
        for _ in 0..6 {
            pair.slot(&mut rng);
        }
    }
}

/// The verdict as the numbers that the library answers with.
pub fn judged(bytes: &[u8]) -> [u32; 19] {
    let (case, figures) = rival::verdict::judge(bytes);
    let mut numbers = [0; 19];
    let told = match case {
        Case::Passed(slack, t) => [0, slack, t],
        Case::Failed(t) => [1, t, 0],
        Case::Unreadable((number, place)) => [2, number, place],
    };
    numbers[..3].copy_from_slice(&told);
    numbers[3..].copy_from_slice(&figures);
    numbers
}

fn same_verdict(bytes: &[u8]) {
    let mut answer = [0; 19];
    assert!(linked::judge(bytes, &mut answer));
    assert_eq!(answer, judged(bytes));
}

/// Two slices that must stay alike.
struct Pair {
    proved: Vec<u32>,
    rival: Vec<u32>,
    sessions: usize,
}

impl Pair {
    fn new(bytes: &[u8]) -> Pair {
        let [mut proved, mut rival] = [vec![7; SLICES[0]], vec![7; SLICES[0]]];
        let mut answer = [0; 2];
        assert!(linked::open(bytes, &mut proved, &mut answer));
        let opened = rival::run::open(bytes, &mut rival).err().unwrap_or((0, 0));
        assert_eq!(answer, [opened.0, opened.1]);
        assert_eq!(proved, rival);
        Pair {
            proved,
            rival,
            sessions: bytes[7] as usize,
        }
    }

    fn slot(&mut self, rng: &mut Rng) {
        let most = rng.pick(&[0, 1, 4, 255]);
        let offers: Vec<u8> = (0..self.sessions)
            .map(|_| rng.between(0, most) as u8)
            .collect();
        let [mut a, mut b] = [vec![9; 48], vec![9; 48]];
        let [mut d, mut e] = [vec![9; 192], vec![9; 192]];
        let start = rng.pick(&[0, u32::MAX - 9]);
        let [mut x, mut y] = [[start; 6], [start; 6]];
        let mut answer = [0; 2];
        assert!(linked::slot(
            &mut self.proved,
            &offers,
            &mut a,
            &mut d,
            &mut x,
            &mut answer
        ));
        let answered = rival::slot::slot(&mut self.rival, &offers, &mut b, &mut e, &mut y);
        let told = match answered {
            Ok(count) => [0, count],
            Err((number, place)) => [number, place],
        };
        assert_eq!(answer, told);
        assert_eq!((a, d, x), (b, e, y));
        assert_eq!(self.proved, self.rival);
    }

    fn change(&mut self, rng: &mut Rng) {
        let place = rng.between(0, RUN_NUMBERS as u64 - 1) as usize;
        let number = match rng.between(0, 2) {
            0 => self.proved[place] ^ (1 << rng.between(0, 31)),
            1 => rng.between(0, 600) as u32,
            _ => self.proved[place].wrapping_add(1),
        };
        self.proved[place] = number;
        self.rival[place] = number;
    }
}

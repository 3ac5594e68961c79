//! Times in turn: one program after the other, many rounds, and the least of each.

use crate::inputs;
use crate::work::{Case, Lent, Who, ALL};
use std::time::Instant;

/// Seconds for one step of each program.
pub fn of_case(case: &Case, rounds: usize) -> [f64; 3] {
    let ready = case.ready();
    let mut least = [f64::INFINITY; 3];
    for _ in 0..rounds {
        for (best, who) in least.iter_mut().zip(ALL) {
            let steps = case.steps(who, case.timed);
            let start = Instant::now();
            case.work(who, &ready, steps);
            *best = best.min(start.elapsed().as_secs_f64() / steps as f64);
        }
    }
    least
}

/// Seconds for one slot from slot 1,001 on and up to slot 1,000,000, of the flooded full sheet.
pub fn early_and_late(rounds: usize) -> [[f64; 2]; 2] {
    let offers = inputs::flood();
    let mut early = Lent::opened(&inputs::full().bytes());
    early.slots(Who::Optimised, &offers, 1_000);
    let mut late = early.clone();
    late.slots(Who::Optimised, &offers, 998_000);
    let mut least = [[f64::INFINITY; 2]; 2];
    for _ in 0..rounds {
        for (two, who) in least.iter_mut().zip(ALL) {
            for (best, from) in two.iter_mut().zip([&early, &late]) {
                let mut lent = from.clone();
                let start = Instant::now();
                lent.slots(who, &offers, 1_000);
                *best = best.min(start.elapsed().as_secs_f64() / 1_000.0);
            }
        }
    }
    least
}

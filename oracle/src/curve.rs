//! Curves: a table, a rate for each period, and the rule that carries the table on for ever.
//! A curve turns slots into packets; `delay` is the look-up back from packets to slots.

use crate::{Packets, Slots};
use std::cell::RefCell;

#[derive(Clone, Debug)]
pub struct Curve {
    table_length: usize,
    rate: Packets,
    period: usize,
    /// F(0), F(1), ... as far as they have been asked for.
    known: RefCell<Vec<Packets>>,
    /// D(0), D(1), ... as far as they have been asked for.
    delays: RefCell<Vec<Slots>>,
}

impl Curve {
    /// The table must hold at least one period of values.
    pub fn new(table: &[Packets], rate: Packets, period: usize) -> Curve {
        assert!(period >= 1 && table.len() >= period);
        let mut known = vec![0];
        known.extend_from_slice(table);
        Curve {
            table_length: table.len(),
            rate,
            period,
            known: RefCell::new(known),
            delays: RefCell::new(vec![1]),
        }
    }

    pub fn table_length(&self) -> usize {
        self.table_length
    }

    pub fn rate(&self) -> Packets {
        self.rate
    }

    /// F(x): 0 at 0, the table's value up to its length n, and F(x - P) + r past it.
    pub fn at(&self, x: usize) -> Packets {
        let mut known = self.known.borrow_mut();
        while known.len() <= x {
            let next = known.len();
            let value = known[next - self.period] + self.rate;
            known.push(value);
        }
        known[x]
    }

    /// F(0) to F(last), for loops that look at many of them.
    pub fn values(&self, last: usize) -> Vec<Packets> {
        self.at(last);
        self.known.borrow()[..=last].to_vec()
    }

    /// The least x from which F(x + P) = F(x) + r holds at every later x too. The rule speaks of
    /// arguments x + P > n, so this is n + 1 - P, which is at least 1.
    pub fn tail_start(&self) -> usize {
        self.table_length + 1 - self.period
    }

    /// D(q): the least m >= 1 with F(m) >= q. The rate must be at least 1. A curve never falls,
    /// so the search for q may begin where the search for q - 1 ended.
    pub fn delay(&self, q: Packets) -> Slots {
        assert!(self.rate >= 1);
        let mut delays = self.delays.borrow_mut();
        while delays.len() as Packets <= q {
            let wanted = delays.len() as Packets;
            let mut m = delays[delays.len() - 1];
            while self.at(m as usize) < wanted {
                m += 1;
            }
            delays.push(m);
        }
        delays[q as usize]
    }
}

#[cfg(test)]
mod tests {
    use super::*;

    #[test]
    fn the_rule_carries_the_table_on() {
        let curve = Curve::new(&[0, 1, 5], 7, 2);
        let first: Vec<Packets> = (0..9).map(|x| curve.at(x)).collect();
        assert_eq!(first, [0, 0, 1, 5, 8, 12, 15, 19, 22]);
        assert_eq!(curve.values(4), [0, 0, 1, 5, 8]);
        assert_eq!(curve.tail_start(), 2);
        for x in curve.tail_start()..40 {
            assert_eq!(curve.at(x + 2), curve.at(x) + 7);
        }
    }

    #[test]
    fn a_delay_is_the_least_number_of_slots() {
        let curve = Curve::new(&[0, 0, 3], 2, 3);
        assert_eq!(curve.delay(0), 1);
        for q in 1..50 {
            let m = curve.delay(q) as usize;
            assert!(curve.at(m) >= q && (m == 1 || curve.at(m - 1) < q));
        }
    }
}

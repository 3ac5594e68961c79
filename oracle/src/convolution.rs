//! (b*S)(t) of one session for every t without an end: literal values up to a point that is
//! shown below to be far enough, and from there on a rise by the lower rate in every period.

use crate::curve::Curve;
use crate::sheet::Session;
use crate::Packets;

/// Why the values repeat. For a curve F write a(F) = n + 1 - P; then F(x + P) = F(x) + r(F) for
/// every x >= a(F). Let f be the one of b and S with the lower rate (either one if the rates are
/// equal) and g the other. (b*S)(t) is the least of f(x) + g(y) over x + y = t.
///
/// 1. Take a split with x >= a(f) and y >= a(g) + P. Moving P slots from g to f adds r(f) and
///    takes away r(g), so it makes the sum no larger, and x >= a(f) still holds. Going on until
///    y < a(g) + P shows that the least is reached by one of two groups of splits:
///    flat(t) = least of g(y) + f(t - y) over y < a(g) + P,
///    steep(t) = least of f(x) + g(t - x) over x < a(f).
/// 2. Let t >= a(f) + a(g) + P. In flat(t) every t - y is then at least a(f), and in steep(t)
///    every t - x is at least a(g). So flat(t + P) = flat(t) + r(f) and
///    steep(t + P) = steep(t) + r(g), and (b*S)(t) is the lesser of flat(t) and steep(t).
/// 3. With equal rates both rise alike, so (b*S)(t + P) = (b*S)(t) + r(f) for all such t.
/// 4. With r(f) < r(g), flat(t) <= steep(t) at one such t gives the same at t + P, t + 2P and on,
///    and there (b*S) = flat rises by r(f). The lead of steep over flat shrinks by at least 1 in
///    every period, so each of the P remainders gets there. The settled point is the first t
///    at which it has been reached by P slot counts running.
#[derive(Clone, Debug)]
pub struct Convolution {
    literal: Vec<Packets>,
    settled: usize,
    rise: Packets,
    period: usize,
}

impl Convolution {
    pub fn of(session: &Session, period: usize) -> Convolution {
        let (b, s) = (&session.envelope, &session.service);
        let settled = settled_point(b, s, period);
        let last = settled + period - 1;
        let (b_values, s_values) = (b.values(last), s.values(last));
        let literal = (0..=last)
            .map(|t| least_sum(&b_values, &s_values, t))
            .collect();
        Convolution {
            literal,
            settled,
            rise: b.rate().min(s.rate()),
            period,
        }
    }

    /// From here on a period more means `rise` packets more.
    pub fn settled(&self) -> usize {
        self.settled
    }

    /// The lower of the two rates.
    pub fn rise(&self) -> Packets {
        self.rise
    }

    /// (b*S)(t).
    pub fn at(&self, t: usize) -> Packets {
        if t < self.literal.len() {
            return self.literal[t];
        }
        let periods = (t - self.settled) / self.period;
        self.literal[t - periods * self.period] + periods as Packets * self.rise
    }
}

/// The definition: the least of b(s) + S(t - s) over s = 0..t.
pub fn least_sum(b: &[Packets], s: &[Packets], t: usize) -> Packets {
    let sums = b[..=t].iter().zip(s[..=t].iter().rev()).map(|(b, s)| b + s);
    sums.min().expect("s = 0 is always there")
}

fn settled_point(b: &Curve, s: &Curve, period: usize) -> usize {
    let (f, g) = if b.rate() <= s.rate() { (b, s) } else { (s, b) };
    let first = f.tail_start() + g.tail_start() + period;
    if f.rate() == g.rate() {
        return first;
    }
    let mut start = first;
    let mut t = first;
    while t < start + period {
        let flat = group(g, f, g.tail_start() + period, t);
        let steep = group(f, g, f.tail_start(), t);
        t += 1;
        if flat > steep {
            start = t;
        }
    }
    start
}

/// The least of near(x) + far(t - x) over x < limit.
fn group(near: &Curve, far: &Curve, limit: usize, t: usize) -> Packets {
    let sums = (0..limit).map(|x| near.at(x) + far.at(t - x));
    sums.min().expect("the limit is at least 1")
}

//! The words that a program tells of a refusal, one line for standard error. A refusal has only a
//! number and a place; which session and which field lie there, and the numbers that belong to
//! them, are found by a walk over the bytes that is apart from the reader's.

use crate::sheet::Refusal;

const HEAD_BYTES: usize = 8;
const FIXED_BYTES: usize = 7;

/// The line for a refusal of these bytes as a sheet, or of a slot of a run on them. The refusal
/// must be the one that the bytes are given: all that comes before its place is taken for right.
pub fn words(bytes: &[u8], refusal: Refusal) -> String {
    let place = refusal.place as usize;
    let line = match refusal.number {
        1 => too_short(bytes),
        2 => wrong_length(bytes),
        3 => format!("a version of {}, at byte 4: 1 is right", bytes[4]),
        4..=6 => head_field(bytes, place),
        7 => Record::holding(bytes, place).cut_off(),
        8 => Record::holding(bytes, place).wrong_table(place),
        9 => Record::holding(bytes, place).wrong_rate(place),
        10 => Record::holding(bytes, place).wrong_curve(place),
        11 => format!(
            "{} bytes after session {}, at byte {place}: a smaller length, or more sessions",
            bytes.len() - place,
            bytes[7]
        ),
        12 => format!(
            "the sheet does not pass: in {place} slots the sessions can be owed more than the \
             link sends, {} a slot: a later or smaller service, a smaller envelope, or a larger c",
            bytes[5]
        ),
        17 => "a run has at most 1000000 slots, and they are done".to_string(),
        other => unreachable!("a stream is never refused with {other}"),
    };
    line + "\n"
}

/// Fewer than 8 bytes: the input ended before the sheet did, or the length itself asked for no
/// more. The input may go on after a sheet that its length cuts short.
fn too_short(bytes: &[u8]) -> String {
    match length(bytes) {
        Some(length) if bytes.len() as u64 == 4 + length => {
            format!("a length of {length}, at byte 0: at least 4 bytes follow")
        }
        _ => format!(
            "the input ends after {} bytes: a sheet has at least 8",
            bytes.len()
        ),
    }
}

fn wrong_length(bytes: &[u8]) -> String {
    let length = length(bytes).expect("refusal 2 has 8 bytes or more");
    let follow = match length {
        0..=4_212 => format!("{}", bytes.len() - 4),
        _ => "at most 4212".to_string(),
    };
    format!("a length of {length}, at byte 0: {follow} bytes follow")
}

/// What the first four bytes say, if there are so many.
fn length(bytes: &[u8]) -> Option<u64> {
    let four = bytes.get(..4)?;
    Some(four.iter().fold(0, |sum, &byte| 256 * sum + byte as u64))
}

fn head_field(bytes: &[u8], place: usize) -> String {
    let (name, highest) = match place {
        5 => ("capacity c", 64),
        6 => ("period", 16),
        _ => ("number of sessions", 16),
    };
    let value = bytes[place];
    format!("a {name} of {value}, at byte {place}: 1 to {highest} are right")
}

/// A session's bytes where they lie in the sheet, right or wrong.
struct Record<'a> {
    bytes: &'a [u8],
    /// The session, counted from 1.
    session: usize,
    start: usize,
}

/// One of a session's two curves: its table is in from..end.
struct Part {
    kind: &'static str,
    least_rate: u32,
    from: usize,
    end: usize,
}

impl Record<'_> {
    /// The record with the byte at `place`, or the one that should start there. Its table lengths
    /// are looked at only past its fixed bytes, where they were right.
    fn holding(bytes: &[u8], place: usize) -> Record<'_> {
        let mut record = Record {
            bytes,
            session: 1,
            start: HEAD_BYTES,
        };
        while place >= record.start + FIXED_BYTES && place >= record.end() {
            record.start = record.end();
            record.session += 1;
        }
        record
    }

    /// Where the envelope's table starts, by the lengths.
    fn middle(&self) -> usize {
        self.start + FIXED_BYTES + 2 * self.bytes[self.start] as usize
    }

    fn end(&self) -> usize {
        self.middle() + 2 * self.bytes[self.start + 1] as usize
    }

    /// The curve that a length, a rate or a value at `place` belongs to.
    fn part(&self, place: usize) -> Part {
        let of_service = match place - self.start {
            0 | 3 => true,
            1 | 5 => false,
            _ => place < self.middle(),
        };
        match of_service {
            true => Part {
                kind: "service",
                least_rate: 1,
                from: self.start + FIXED_BYTES,
                end: self.middle(),
            },
            false => Part {
                kind: "envelope",
                least_rate: 0,
                from: self.middle(),
                end: self.end(),
            },
        }
    }

    /// How the lines about a curve begin.
    fn named(&self, part: &Part) -> String {
        format!("session {}, {}", self.session, part.kind)
    }

    fn two(&self, place: usize) -> u32 {
        256 * self.bytes[place] as u32 + self.bytes[place + 1] as u32
    }

    /// Refusal 7. The lengths count only if all fixed bytes are there.
    fn cut_off(&self) -> String {
        let left = self.bytes.len() - self.start;
        let needed = match left < FIXED_BYTES {
            true => FIXED_BYTES,
            false => self.end() - self.start,
        };
        format!(
            "session {}, at byte {}: {needed} bytes are needed and {left} are left: \
             a larger length, fewer sessions or shorter tables",
            self.session, self.start
        )
    }

    /// Refusal 8.
    fn wrong_table(&self, place: usize) -> String {
        let named = self.named(&self.part(place));
        let (values, period) = (self.bytes[place], self.bytes[6]);
        format!("{named}: a table of {values} values, at byte {place}: {period} to 64 are right")
    }

    /// Refusal 9.
    fn wrong_rate(&self, place: usize) -> String {
        let part = self.part(place);
        let (named, rate, least) = (self.named(&part), self.two(place), part.least_rate);
        format!("{named}: a rate of {rate}, at byte {place}: {least} to 256 are right")
    }

    /// Refusal 10: the place of a rate is that of a join, any other is a value's.
    fn wrong_curve(&self, place: usize) -> String {
        let part = self.part(place);
        match place < part.from {
            true => self.wrong_join(&part, place),
            false => self.wrong_value(&part, place),
        }
    }

    /// F(n+1-P) lies P - 1 values before the last one.
    fn wrong_join(&self, part: &Part, rate_at: usize) -> String {
        let last_at = part.end - 2;
        let period = self.bytes[6] as usize;
        let tail = self.two(last_at - 2 * (period - 1)) + self.two(rate_at);
        let (named, last) = (self.named(part), self.two(last_at));
        format!(
            "{named}: {tail} at the join is below {last}, at byte {rate_at}: \
             a longer table, or a higher rate"
        )
    }

    /// The first value never falls, since it has 0 before it.
    fn wrong_value(&self, part: &Part, place: usize) -> String {
        let number = (place - part.from) / 2 + 1;
        let (named, value) = (self.named(part), self.two(place));
        if value > 500 {
            return format!(
                "{named}: value {number} is {value}, at byte {place}: 0 to 500 are right"
            );
        }
        let before = self.two(place - 2);
        format!(
            "{named}: value {number} is {value} and the one before it {before}, \
             at byte {place}: a curve never falls"
        )
    }
}

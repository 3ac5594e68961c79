//! The reader of sheets: bytes to a link and its sessions, or the first refusal (1 to 11) with
//! its place, in the order in which the rules name them.

use crate::curve::Curve;
use crate::Packets;
use std::fmt;

pub const LONGEST_SHEET: usize = 4_216;
pub const LONGEST_REST: usize = LONGEST_SHEET - 4;
pub const HIGHEST_VALUE: u16 = 500;
pub const HIGHEST_RATE: u16 = 256;
pub const LONGEST_TABLE: usize = 64;
const FIXED_BYTES: usize = 7;

/// A refusal number and its place.
#[derive(Clone, Copy, Debug, PartialEq, Eq)]
pub struct Refusal {
    pub number: u32,
    pub place: u64,
}

impl fmt::Display for Refusal {
    fn fmt(&self, to: &mut fmt::Formatter) -> fmt::Result {
        write!(to, "refused {} {}", self.number, self.place)
    }
}

fn refuse<T>(number: u32, place: usize) -> Result<T, Refusal> {
    let place = place as u64;
    Err(Refusal { number, place })
}

#[derive(Clone, Debug)]
pub struct Session {
    /// The byte at which the session's record starts.
    pub start: usize,
    pub service: Curve,
    pub envelope: Curve,
    pub room: Packets,
}

#[derive(Clone, Debug)]
pub struct Sheet {
    /// c, the packets the link sends in a slot.
    pub capacity: Packets,
    /// P, the link's period.
    pub period: usize,
    pub sessions: Vec<Session>,
}

/// Reads one whole sheet: refusals 1 to 6, then session by session 7 to 10, last 11.
pub fn read(bytes: &[u8]) -> Result<Sheet, Refusal> {
    read_head(bytes)?;
    let period = bytes[6] as usize;
    let mut sessions = Vec::new();
    let mut place = 8;
    for _ in 0..bytes[7] {
        let (session, end) = read_session(bytes, place, period)?;
        sessions.push(session);
        place = end;
    }
    if place < bytes.len() {
        return refuse(11, place);
    }
    Ok(Sheet {
        capacity: bytes[5] as Packets,
        period,
        sessions,
    })
}

fn read_head(bytes: &[u8]) -> Result<(), Refusal> {
    if bytes.len() < 8 {
        return refuse(1, 0);
    }
    let length = u32::from_be_bytes([bytes[0], bytes[1], bytes[2], bytes[3]]) as usize;
    if length > LONGEST_REST || length != bytes.len() - 4 {
        return refuse(2, 0);
    }
    if bytes[4] != 1 {
        return refuse(3, 4);
    }
    if !(1..=64).contains(&bytes[5]) {
        return refuse(4, 5);
    }
    if !(1..=16).contains(&bytes[6]) {
        return refuse(5, 6);
    }
    if !(1..=16).contains(&bytes[7]) {
        return refuse(6, 7);
    }
    Ok(())
}

/// Reads the record that starts at `start`, and gives the session and the place after it.
fn read_session(bytes: &[u8], start: usize, period: usize) -> Result<(Session, usize), Refusal> {
    if bytes.len() < start + FIXED_BYTES {
        return refuse(7, start);
    }
    for place in [start, start + 1] {
        if !(period..=LONGEST_TABLE).contains(&(bytes[place] as usize)) {
            return refuse(8, place);
        }
    }
    let (service_rate_at, envelope_rate_at) = (start + 3, start + 5);
    if !(1..=HIGHEST_RATE).contains(&two_bytes(bytes, service_rate_at)) {
        return refuse(9, service_rate_at);
    }
    if two_bytes(bytes, envelope_rate_at) > HIGHEST_RATE {
        return refuse(9, envelope_rate_at);
    }
    let service_at = start + FIXED_BYTES;
    let envelope_at = service_at + 2 * bytes[start] as usize;
    let end = envelope_at + 2 * bytes[start + 1] as usize;
    if bytes.len() < end {
        return refuse(7, start);
    }
    let service = read_curve(bytes, service_at, envelope_at, service_rate_at, period)?;
    let envelope = read_curve(bytes, envelope_at, end, envelope_rate_at, period)?;
    let room = bytes[start + 2] as Packets + 1;
    Ok((
        Session {
            start,
            service,
            envelope,
            room,
        },
        end,
    ))
}

/// Reads the table in from..end, values left to right and then the join.
fn read_curve(
    bytes: &[u8],
    from: usize,
    end: usize,
    rate_at: usize,
    period: usize,
) -> Result<Curve, Refusal> {
    let mut table: Vec<Packets> = Vec::new();
    let mut before = 0;
    for place in (from..end).step_by(2) {
        let value = two_bytes(bytes, place);
        if value > HIGHEST_VALUE || value < before {
            return refuse(10, place);
        }
        table.push(value as Packets);
        before = value;
    }
    let rate = two_bytes(bytes, rate_at) as Packets;
    let n = table.len();
    let curve = Curve::new(&table, rate, period);
    if curve.at(n + 1 - period) + rate < curve.at(n) {
        return refuse(10, rate_at);
    }
    Ok(curve)
}

fn two_bytes(bytes: &[u8], place: usize) -> u16 {
    u16::from_be_bytes([bytes[place], bytes[place + 1]])
}

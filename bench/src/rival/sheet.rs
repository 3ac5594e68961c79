//! The reader: bytes to tables of numbers, or the first refusal.

use super::Refused;

pub const MOST_SESSIONS: usize = 16;
pub const LONGEST_TABLE: usize = 64;

#[derive(Clone, Copy)]
pub struct Table {
    pub values: [u32; LONGEST_TABLE],
    pub length: usize,
    pub rate: u32,
}

#[derive(Clone, Copy)]
pub struct Session {
    pub service: Table,
    pub envelope: Table,
    pub room: u32,
}

pub struct Sheet {
    pub capacity: u32,
    pub period: usize,
    pub count: usize,
    pub sessions: [Session; MOST_SESSIONS],
}

const NO_TABLE: Table = Table {
    values: [0; LONGEST_TABLE],
    length: 0,
    rate: 0,
};

const NO_SESSION: Session = Session {
    service: NO_TABLE,
    envelope: NO_TABLE,
    room: 0,
};

pub fn read(bytes: &[u8]) -> Result<Sheet, Refused> {
    if bytes.len() < 8 {
        return Err((1, 0));
    }
    let head = &bytes[..8];
    let length = u32::from_be_bytes([head[0], head[1], head[2], head[3]]) as usize;
    if length > 4_212 || length != bytes.len() - 4 {
        return Err((2, 0));
    }
    if head[4] != 1 {
        return Err((3, 4));
    }
    for (at, most, number) in [(5, 64, 4), (6, 16, 5), (7, 16, 6)] {
        if head[at] < 1 || head[at] > most {
            return Err((number, at as u32));
        }
    }
    let mut sheet = Sheet {
        capacity: head[5] as u32,
        period: head[6] as usize,
        count: head[7] as usize,
        sessions: [NO_SESSION; MOST_SESSIONS],
    };
    let mut at = 8;
    for session in &mut sheet.sessions[..head[7] as usize] {
        at = read_session(session, bytes, at, sheet.period)?;
    }
    match at < bytes.len() {
        true => Err((11, at as u32)),
        false => Ok(sheet),
    }
}

/// The place after the session's record.
fn read_session(
    session: &mut Session,
    bytes: &[u8],
    at: usize,
    period: usize,
) -> Result<usize, Refused> {
    let start = at as u32;
    if bytes.len() < at + 7 {
        return Err((7, start));
    }
    let fixed = &bytes[at..at + 7];
    for i in 0..2 {
        let length = fixed[i] as usize;
        if length < period || length > LONGEST_TABLE {
            return Err((8, start + i as u32));
        }
    }
    let service_rate = two_bytes([fixed[3], fixed[4]]);
    let envelope_rate = two_bytes([fixed[5], fixed[6]]);
    if service_rate < 1 || service_rate > 256 {
        return Err((9, start + 3));
    }
    if envelope_rate > 256 {
        return Err((9, start + 5));
    }
    let middle = at + 7 + 2 * fixed[0] as usize;
    let end = middle + 2 * fixed[1] as usize;
    if bytes.len() < end {
        return Err((7, start));
    }
    session.room = fixed[2] as u32 + 1;
    session.service.rate = service_rate;
    session.envelope.rate = envelope_rate;
    read_table(&mut session.service, bytes, at + 7, middle, period)
        .map_err(|place| (10, place.unwrap_or(start + 3)))?;
    read_table(&mut session.envelope, bytes, middle, end, period)
        .map_err(|place| (10, place.unwrap_or(start + 5)))?;
    Ok(end)
}

/// The values; the place of a value that is amiss, or none where the join falls.
fn read_table(
    table: &mut Table,
    bytes: &[u8],
    from: usize,
    end: usize,
    period: usize,
) -> Result<(), Option<u32>> {
    table.length = (end - from) / 2;
    let mut before = 0;
    let places = table
        .values
        .iter_mut()
        .zip(bytes[from..end].chunks_exact(2));
    for (i, (place, two)) in places.enumerate() {
        let value = two_bytes([two[0], two[1]]);
        if value > 500 || value < before {
            return Err(Some((from + 2 * i) as u32));
        }
        *place = value;
        before = value;
    }
    match table.values[table.length - period] + table.rate < before {
        true => Err(None),
        false => Ok(()),
    }
}

fn two_bytes(two: [u8; 2]) -> u32 {
    u16::from_be_bytes(two) as u32
}

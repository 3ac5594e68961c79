//! The writer of sheets: fields to bytes. It writes what it is given, right or wrong, since
//! sheets that must be refused are made here too.

use crate::rng::Rng;

#[derive(Clone, Debug, PartialEq, Eq)]
pub struct CurveDraft {
    pub table: Vec<u16>,
    pub rate: u16,
}

#[derive(Clone, Debug, PartialEq, Eq)]
pub struct SessionDraft {
    pub service: CurveDraft,
    pub envelope: CurveDraft,
    pub room: u16,
}

#[derive(Clone, Debug, PartialEq, Eq)]
pub struct Draft {
    pub capacity: u8,
    pub period: u8,
    pub sessions: Vec<SessionDraft>,
}

impl CurveDraft {
    pub fn new(table: &[u16], rate: u16) -> CurveDraft {
        CurveDraft {
            table: table.to_vec(),
            rate,
        }
    }
}

impl SessionDraft {
    pub fn new(service: (&[u16], u16), envelope: (&[u16], u16), room: u16) -> SessionDraft {
        SessionDraft {
            service: CurveDraft::new(service.0, service.1),
            envelope: CurveDraft::new(envelope.0, envelope.1),
            room,
        }
    }
}

impl Draft {
    pub fn new(capacity: u8, period: u8, sessions: &[SessionDraft]) -> Draft {
        Draft {
            capacity,
            period,
            sessions: sessions.to_vec(),
        }
    }

    pub fn bytes(&self) -> Vec<u8> {
        let mut bytes = vec![0, 0, 0, 0, 1];
        bytes.extend([self.capacity, self.period, self.sessions.len() as u8]);
        for session in &self.sessions {
            let (service, envelope) = (&session.service, &session.envelope);
            bytes.extend([service.table.len() as u8, envelope.table.len() as u8]);
            bytes.push((session.room - 1) as u8);
            let rates = [service.rate, envelope.rate];
            let numbers = rates.iter().chain(&service.table).chain(&envelope.table);
            bytes.extend(numbers.flat_map(|number| number.to_be_bytes()));
        }
        set_length(&mut bytes);
        bytes
    }

    /// Some curve of some session.
    pub fn any_curve(&mut self, rng: &mut Rng) -> &mut CurveDraft {
        let number = rng.between(0, self.sessions.len() as u64 - 1) as usize;
        let session = &mut self.sessions[number];
        match rng.one_in(2) {
            true => &mut session.service,
            false => &mut session.envelope,
        }
    }

    /// The byte at which each session's record starts.
    pub fn starts(&self) -> Vec<usize> {
        let mut place = 8;
        let mut starts = Vec::new();
        for session in &self.sessions {
            starts.push(place);
            place += 7 + 2 * (session.service.table.len() + session.envelope.table.len());
        }
        starts
    }
}

/// Makes the length field true again.
pub fn set_length(bytes: &mut [u8]) {
    let length = (bytes.len() - 4) as u32;
    bytes[..4].copy_from_slice(&length.to_be_bytes());
}

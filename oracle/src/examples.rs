//! The numbered examples K1 to K12 of the rules: their sheets, and a script that runs each.

use crate::draft::{Draft, SessionDraft};
use crate::script::{Command, Script};

/// With the room of K2.
pub fn k1() -> Draft {
    Draft::new(1, 1, &[SessionDraft::new((&[1], 1), (&[3], 1), 4)])
}

pub fn k3() -> Draft {
    let burst: (&[u16], u16) = (&[2, 2], 1);
    let services: [(&[u16], u16); 2] = [(&[0, 1], 1), (&[1, 1], 1)];
    let sessions = services.map(|service| SessionDraft::new(service, burst, 4));
    Draft::new(1, 2, &sessions)
}

pub fn k4() -> Draft {
    let mut draft = k3();
    draft.sessions[0].service.table = vec![1, 1];
    draft
}

pub fn k5() -> Draft {
    let mut draft = k4();
    draft.sessions[1].envelope.table = vec![0, 0];
    draft.sessions[1].envelope.rate = 0;
    draft
}

pub fn k6() -> Draft {
    let first = SessionDraft::new((&[1], 1), (&[5], 0), 4);
    let second = SessionDraft::new((&[0, 0, 0, 0, 1], 1), (&[1], 1), 4);
    Draft::new(1, 1, &[first, second])
}

pub fn k7() -> Draft {
    let mut draft = k6();
    draft.sessions[1].service.table.insert(0, 0);
    draft
}

pub fn k8() -> Draft {
    let burst: (&[u16], u16) = (&[500], 256);
    let services: [(&[u16], u16); 2] = [(&[1], 1), (&[0; 64], 1)];
    let sessions = services.map(|service| SessionDraft::new(service, burst, 4));
    Draft::new(1, 1, &sessions)
}

pub fn k9(capacity: u8) -> Draft {
    let mut draft = k1();
    draft.capacity = capacity;
    draft
}

pub fn k10(value: u16) -> Draft {
    let mut draft = k1();
    draft.sessions[0].envelope.table[0] = value;
    draft
}

pub const K12: [u8; 38] = [
    0, 0, 0, 0x22, 1, 1, 2, 2, 2, 2, 3, 0, 1, 0, 1, 0, 0, 0, 1, 0, 2, 0, 2, 2, 2, 3, 0, 1, 0, 1, 0,
    1, 0, 1, 0, 2, 0, 2,
];

/// Each example's sheet with slots after it; those that a sheet cannot have are refused.
pub fn scripts() -> Vec<Script> {
    let one: &[&[u8]] = &[&[3], &[3], &[0], &[255], &[0]];
    let two: &[&[u8]] = &[&[2, 2], &[0, 0], &[0, 0], &[0, 0], &[255, 255], &[1, 1]];
    let mut scripts = vec![script(&k1().bytes(), one)];
    for draft in [k3(), k4(), k5(), k6(), k7(), k8()] {
        scripts.push(script(&draft.bytes(), two));
    }
    for draft in [k9(64), k9(65), k10(500), k10(501)] {
        scripts.push(script(&draft.bytes(), one));
    }
    scripts.push(k11());
    scripts.push(script(&K12, two));
    scripts
}

fn script(sheet: &[u8], slots: &[&[u8]]) -> Script {
    let slots = slots.iter().map(|offers| Command::Slot(offers.to_vec()));
    let mut commands = vec![Command::Sheet(sheet.to_vec())];
    commands.extend(slots);
    Script::new(commands)
}

/// Slot 1,000,000 answers, the next gives 17.
fn k11() -> Script {
    Script::new(vec![
        Command::Sheet(k1().bytes()),
        Command::Slot(vec![3]),
        Command::Repeat(999_998, vec![0]),
        Command::Slot(vec![255]),
        Command::Slot(vec![0]),
        Command::Slot(vec![]),
    ])
}

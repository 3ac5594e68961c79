//! The program `slotrun` over any input and output: a sheet, then M bytes a slot, and the
//! print-out of the verdict, the packets sent and the tally; and its words on a refusal.

use crate::run::Run;
use crate::sheet::{read, Refusal, LONGEST_REST};
use crate::tally::Tally;
use crate::verdict::{verdict, Line};
use crate::words::words;
use crate::Slots;
use std::io::{self, Read, Write};

/// Runs the whole stream and answers the words for standard error: the line that tells of a
/// refusal, or nothing. `most_slots` is the number of slots after which 17 is given.
pub fn slotrun(
    input: &mut dyn Read,
    output: &mut dyn Write,
    most_slots: Slots,
) -> io::Result<String> {
    let bytes = sheet_bytes(input)?;
    let refusal = match Run::open_with_most_slots(&bytes, most_slots) {
        Err(refusal) => {
            writeln!(output, "{refusal}")?;
            Some(refusal)
        }
        Ok(run) => {
            let (answer, sessions) = (verdict(&bytes), run.sheet().sessions.len());
            writeln!(output, "{}", Line { answer, sessions })?;
            let (tally, refusal) = all_slots(run, input, output)?;
            writeln!(output, "{tally}")?;
            refusal
        }
    };
    Ok(refusal.map_or(String::new(), |one| words(&bytes, one)))
}

/// The bytes of the sheet: four and as many more as they say, though never more than the
/// longest sheet has. A stream that ends early gives fewer, and the reading refuses those.
fn sheet_bytes(input: &mut dyn Read) -> io::Result<Vec<u8>> {
    let mut bytes = up_to(input, 4)?;
    if bytes.len() == 4 {
        let length = u32::from_be_bytes([bytes[0], bytes[1], bytes[2], bytes[3]]) as usize;
        bytes.extend(up_to(input, length.min(LONGEST_REST))?);
    }
    Ok(bytes)
}

fn up_to(input: &mut dyn Read, count: usize) -> io::Result<Vec<u8>> {
    let mut bytes = Vec::with_capacity(count);
    input.take(count as u64).read_to_end(&mut bytes)?;
    Ok(bytes)
}

/// Slot after slot until the stream ends, is cut, or a slot is refused.
fn all_slots(
    mut run: Run,
    input: &mut dyn Read,
    output: &mut dyn Write,
) -> io::Result<(Tally, Option<Refusal>)> {
    let sessions = run.sheet().sessions.len();
    let mut outcomes = vec![0; 3 * sessions];
    let mut sent = vec![0; 3 * run.sheet().capacity as usize];
    let mut tally = Tally::default();
    loop {
        let offers = up_to(input, sessions)?;
        if offers.is_empty() {
            break;
        }
        if offers.len() < sessions {
            writeln!(output, "cut")?;
            break;
        }
        match run.slot(&offers, &mut outcomes, &mut sent, &mut tally) {
            Err(refusal) => {
                writeln!(output, "{refusal}")?;
                return Ok((tally, Some(refusal)));
            }
            Ok(count) => {
                for three in sent.chunks_exact(3).take(count) {
                    let slot = run.slots_done();
                    writeln!(output, "{slot} {} {} {}", three[0], three[1], three[2])?;
                }
            }
        }
    }
    Ok((tally, None))
}

/// One sheet read, as a line: `read C P M: s1 .. sM` with the sessions' starts, or the refusal.
pub fn read_line(bytes: &[u8]) -> String {
    match read(bytes) {
        Err(refusal) => refusal.to_string(),
        Ok(sheet) => {
            let starts: String = sheet
                .sessions
                .iter()
                .map(|session| format!(" {}", session.start))
                .collect();
            format!(
                "read {} {} {}:{starts}",
                sheet.capacity,
                sheet.period,
                sheet.sessions.len()
            )
        }
    }
}

/// One sheet judged, as a line.
pub fn verdict_line(bytes: &[u8]) -> String {
    let sessions = read(bytes).map_or(0, |sheet| sheet.sessions.len());
    Line {
        answer: verdict(bytes),
        sessions,
    }
    .to_string()
}

//! Random inputs for a program that reads a whole stream, a sheet and its slots. Input N of seed S
//! is always the same.

use crate::gen::{case, small_draft};
use crate::offers::random_stream;
use crate::rng::Rng;

/// The program reads its input in blocks of so many slots; long streams end close to that.
const BLOCK_SLOTS: u64 = 4_096;

/// A case of the generator, now and then cut off anywhere; or a long stream on a small sheet.
pub fn random_input(seed: u64, n: u64) -> Vec<u8> {
    let mut rng = Rng::new(!seed, n);
    if rng.one_in(200) {
        let draft = small_draft(&mut rng);
        let slots = rng.between(BLOCK_SLOTS - 4, BLOCK_SLOTS + 4) as usize;
        let stream = random_stream(&mut rng, draft.sessions.len(), slots);
        return [draft.bytes(), stream].concat();
    }
    let case = case(seed, n);
    let mut bytes = [case.sheet, case.stream].concat();
    if rng.one_in(8) {
        bytes.truncate(rng.between(0, bytes.len() as u64) as usize);
    }
    bytes
}

//! The proved library through its entry points for C (`crates/clib`). A slice is passed as two
//! words, where it starts and how many numbers it has.

/// How many numbers an answer to opening or a slot has, a tally, and an answer to judging.
pub const ANSWER_NUMBERS: usize = 2;
pub const TALLY_NUMBERS: usize = 6;
pub const JUDGED_NUMBERS: usize = 19;

extern "C" {
    fn pohlatant_open(
        bytes: *const u8,
        bytes_length: usize,
        run: *mut u32,
        run_length: usize,
        answer: *mut u32,
        answer_length: usize,
    ) -> bool;

    fn pohlatant_slot(
        run: *mut u32,
        run_length: usize,
        offers: *const u8,
        offers_length: usize,
        outcomes: *mut u32,
        outcomes_length: usize,
        sent: *mut u32,
        sent_length: usize,
        tally: *mut u32,
        tally_length: usize,
        answer: *mut u32,
        answer_length: usize,
    ) -> bool;

    fn pohlatant_judge(
        bytes: *const u8,
        bytes_length: usize,
        answer: *mut u32,
        answer_length: usize,
    ) -> bool;
}

/// The answer is 0 and 0, or the refusal's number and place; false where it has no place for it.
pub fn open(bytes: &[u8], run: &mut [u32], answer: &mut [u32]) -> bool {
    unsafe {
        pohlatant_open(
            bytes.as_ptr(),
            bytes.len(),
            run.as_mut_ptr(),
            run.len(),
            answer.as_mut_ptr(),
            answer.len(),
        )
    }
}

/// The answer is 0 and how many packets were sent, or the refusal's number and place; false where
/// the tally or the answer is too short.
pub fn slot(
    run: &mut [u32],
    offers: &[u8],
    outcomes: &mut [u32],
    sent: &mut [u32],
    tally: &mut [u32],
    answer: &mut [u32],
) -> bool {
    unsafe {
        pohlatant_slot(
            run.as_mut_ptr(),
            run.len(),
            offers.as_ptr(),
            offers.len(),
            outcomes.as_mut_ptr(),
            outcomes.len(),
            sent.as_mut_ptr(),
            sent.len(),
            tally.as_mut_ptr(),
            tally.len(),
            answer.as_mut_ptr(),
            answer.len(),
        )
    }
}

/// The answer is the case (0 passed, 1 failed, 2 unreadable), its two numbers and sixteen figures;
/// false where it has no place for them.
pub fn judge(bytes: &[u8], answer: &mut [u32]) -> bool {
    unsafe {
        pohlatant_judge(
            bytes.as_ptr(),
            bytes.len(),
            answer.as_mut_ptr(),
            answer.len(),
        )
    }
}

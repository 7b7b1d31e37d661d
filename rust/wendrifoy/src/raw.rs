//! The exported functions as they are declared to C, and as safe functions.
//!
//! None of them asks anything of its arguments but that the slices are slices.

use crate::steps::{RawEntry, RawStep};

/// What is answered in place of a count.
pub const REFUSED: u64 = u64::MAX;

extern "C" {
    fn wendrifoy_play(
        script: *const u8,
        script_len: usize,
        transcript: *mut u8,
        transcript_len: usize,
    ) -> u64;
    fn wendrifoy_first_bad(steps: *const RawStep, steps_len: usize) -> u64;
    fn wendrifoy_hours(
        steps: *const RawStep,
        steps_len: usize,
        log: *mut RawEntry,
        log_len: usize,
    ) -> u64;
    fn wendrifoy_record(
        steps: *const RawStep,
        steps_len: usize,
        log: *mut RawEntry,
        log_len: usize,
    ) -> u64;
}

pub fn play(script: &[u8], transcript: &mut [u8]) -> u64 {
    // SAFETY: both are whole slices, and the second is lent for writing.
    unsafe {
        wendrifoy_play(
            script.as_ptr(),
            script.len(),
            transcript.as_mut_ptr(),
            transcript.len(),
        )
    }
}

pub fn first_bad(steps: &[RawStep]) -> u64 {
    // SAFETY: it is a whole slice.
    unsafe { wendrifoy_first_bad(steps.as_ptr(), steps.len()) }
}

pub fn hours(steps: &[RawStep], log: &mut [RawEntry]) -> u64 {
    // SAFETY: both are whole slices, and the second is lent for writing.
    unsafe { wendrifoy_hours(steps.as_ptr(), steps.len(), log.as_mut_ptr(), log.len()) }
}

pub fn record(steps: &[RawStep], log: &mut [RawEntry]) -> u64 {
    // SAFETY: both are whole slices, and the second is lent for writing.
    unsafe { wendrifoy_record(steps.as_ptr(), steps.len(), log.as_mut_ptr(), log.len()) }
}

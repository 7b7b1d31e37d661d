//! The scheduler, called from Rust.
//!
//! [`play()`] and [`play_to_vec`] take the text of a script and give what the
//! program `stage` prints for it. [`hours`] and [`record`] take [`Step`]s and
//! give a log of [`Entry`]s: an entry for each step, in order.
//!
//! All of it runs in the static library of the crate `export_c`, which is
//! proved and allocates nothing. Every call begins with an empty scheduler.

mod raw;
mod steps;

pub use steps::{hours, hours_into, record, record_into, Answer, BadStep, Call, Entry, Kind, Step};
pub use steps::{RawEntry, RawStep};

/// The transcript has no room for all answers.
#[derive(Clone, Copy, Debug, PartialEq, Eq)]
pub struct NoRoom;

impl std::fmt::Display for NoRoom {
    fn fmt(&self, f: &mut std::fmt::Formatter) -> std::fmt::Result {
        write!(f, "the transcript has no room for all answers")
    }
}

impl std::error::Error for NoRoom {}

/// Plays a script into a transcript, from its start, and says how many bytes
/// were written. What is beyond these stays as it was.
///
/// Every script is played: a line that is not well-formed has its answer too.
/// If there is no room for all answers, the transcript may hold a beginning of
/// them.
pub fn play(script: &[u8], transcript: &mut [u8]) -> Result<usize, NoRoom> {
    match raw::play(script, transcript) {
        raw::REFUSED => Err(NoRoom),
        written => Ok(written as usize),
    }
}

/// Plays a script, and gives all answers.
///
/// The script is played again from its start wherever there was too little room.
pub fn play_to_vec(script: &[u8]) -> Vec<u8> {
    let mut transcript = vec![0; 4096.max(2 * script.len())];
    loop {
        match play(script, &mut transcript) {
            Ok(written) => {
                transcript.truncate(written);
                return transcript;
            }
            Err(NoRoom) => transcript.resize(4 * transcript.len(), 0),
        }
    }
}

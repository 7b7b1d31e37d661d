//! An account of the scheduler's rules in plain Rust, written from
//! `docs/RULES.md` and `docs/SCRIPT.md` alone.
//!
//! [`check`] compares what a program printed for a script with the rules:
//! where they leave a tick open, it follows what was printed. [`play`] prints
//! what a program that makes the documented choices would print.

pub mod any;
pub mod check;
pub mod fairness;
pub mod play;
pub mod script;
pub mod set;
pub mod stage;
pub mod system;
pub mod task;
pub mod tick;

pub use check::{check, Disagreement, Tally};
pub use play::play;
pub use script::{Call, Command, Kind};
pub use system::{Answer, Breach, Refusal, System};

/// How many places for tasks there are, and how many locks.
pub const PLACES: usize = 64;
/// The whole processor, in parts of which shares are counted.
pub const WHOLE: u32 = 10_080;
/// What all shares, kept ones among them, may come to.
pub const SHARES: u32 = 7_560;

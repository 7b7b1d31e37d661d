//! Random scripts: kinds of them, drafts, and trials with a program.

pub mod draft;
pub mod kinds;
pub mod malformed;
pub mod moves;
pub mod options;
pub mod random;
pub mod shrink;
pub mod trial;

//! Judged answers as the library has to give them, and the library's answers as the judge gives them.

pub mod jobs;
pub mod lists;
pub mod matching;
pub mod rules;

/// What every byte of a buffer is before a call.
pub const BEFORE: u8 = 0xa5;

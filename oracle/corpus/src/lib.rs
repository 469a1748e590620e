//! The cases of a corpus, read from JSON lines.

pub mod case;
pub mod json;

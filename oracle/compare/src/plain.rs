//! The library's checks in plain Rust, written for speed and not proved: what its time is held against.

pub mod lists;
pub mod trees;

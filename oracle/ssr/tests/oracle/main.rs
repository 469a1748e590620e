//! Document 01's examples and traps, asked of the crate's own code.

mod builder;
mod examples;
mod limits;
mod traps;

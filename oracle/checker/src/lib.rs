//! Document 01's checks that the crate does not have, and its writing of the edit list,
//! written plainly from the papers: the judge of damaged input.
//!
//! `answer` gives the whole outcome of every operation that needs no matching and of every refused
//! one; `write` takes the kept matches from elsewhere. `match_node` and `WholeJob` are for what the
//! crate cannot be asked, and tell which ways a match or a job goes: where the crate can be asked, the
//! judge holds the two against each other.

mod answer;
mod check;
mod facts;
mod job;
mod job_ways;
mod lists;
mod lowest;
mod matching;
mod nest;
mod parses;
mod rules;
mod tokens;
mod tree;
mod write;

pub use answer::{answer, refused};
pub use check::{
    built_rules, check, check_parses, check_tree, checked_file, checked_rules, checked_walk,
};
pub use facts::{Facts, Place};
pub use job::{Laid, MATCHES, WholeJob, Written};
pub use job_ways::{JOB_WAYS, JobWay, JobWays};
pub use matching::{Attempt, Found, Notes, WAYS, Way, Ways, match_node};
pub use parses::{Parse, read_parses};
pub use rules::{Resolved, Rule};
pub use tokens::{ReadList, STAND_IN, read_tokens};
pub use tree::{Element, Tree};
pub use write::write;

//! The oracle: the crate's own files, compiled unchanged over stand-ins that are fed from document
//! 01's words, facts and parses.
//!
//! The crate's are `errors`, `matching`, `nester`, `parsing`, `replacing` and `resolving`, and the
//! types below that they need from its `lib.rs`. Ours are the stand-ins (trees and accessors,
//! facts, token lists, text edits, hash maps) and `fragments`, which gives the trees and parses
//! that were handed in.
//!
//! Callers have made document 01's checks 1 and 18 to 21, and those of candidates and range. What
//! the crate cannot be asked is answered by [`NotFed`].

mod api;
mod feed;
mod finder;
mod fragments;
mod reading;
mod run;

// The crate's files keep what only its search uses.
#[allow(dead_code)]
#[path = "../../../docs/src/src/matching.rs"]
mod matching;
#[path = "../../../docs/src/src/nester.rs"]
mod nester;
#[path = "../../../docs/src/src/parsing.rs"]
mod parsing;
#[path = "../../../docs/src/src/replacing.rs"]
mod replacing;
#[allow(dead_code)]
#[path = "../../../docs/src/src/resolving.rs"]
mod resolving;
#[macro_use]
#[path = "../../../docs/src/src/errors.rs"]
mod errors;

pub use crate::api::{
    Asked, MissingParse, NotFed, Rendered, Rendering, ResolvedRuleSides, ResolvedSide, Stopped,
};
pub use crate::feed::Workspace;
pub use crate::finder::{Finder, Found, Nested, build};
pub use crate::reading::{check_pair, hand_in, parse_once, raw_code, read_tokens, tokens_once};
pub use crate::run::on_large_stack;
pub use crate::{errors::SsrError, matching::Match};

// The types of the crate's `lib.rs` that its other files need.

/// A structured search replace rule. Create by calling `parse` on a str.
#[derive(Debug)]
pub struct SsrRule {
    /// A structured pattern that we're searching for.
    pattern: parsing::RawPattern,
    /// What we'll replace it with.
    template: parsing::RawPattern,
    parsed_rules: Vec<parsing::ParsedRule>,
}

#[derive(Debug)]
pub struct SsrPattern {
    parsed_rules: Vec<parsing::ParsedRule>,
}

#[derive(Debug, Default)]
pub struct SsrMatches {
    pub matches: Vec<Match>,
}

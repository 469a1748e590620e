//! Test cases for document 01's operations, made from a class, a seed and an index: the same
//! three always give the same case.

pub mod arguments;
pub mod bent_jobs;
pub mod bent_matches;
pub mod bent_rules;
pub mod bent_trees;
mod damage;
mod derive;
mod facts;
mod grammar;
pub mod growing_rules;
pub mod growing_walks;
pub mod job_limits;
mod jobs;
mod kinds;
mod limits;
mod lists;
pub mod match_limits;
mod odd_code;
mod odd_facts;
pub mod odd_jobs;
pub mod odd_matches;
mod odd_patterns;
pub mod odd_rules;
mod odd_trees;
mod pairs;
mod parse;
mod parts;
mod rng;
pub mod rule_vectors;
mod tiny;
mod tokens;
pub mod tree_limits;
pub mod trees;
pub mod walk_limits;
mod world;

pub use jobs::{awkward_buffers, nodes, rule_count};
pub use parse::{add_made_up, complete};
pub use rng::Rng;

use input::Operation;
use tiny::Family;

/// A class of cases.
#[derive(Clone, Copy, Debug, PartialEq, Eq)]
pub enum Class {
    TokensAll,
    Tokens,
    TinySequence,
    TinyTokenTree,
    TinyRecord,
    TinyMixed,
    TinyWalk,
    Build,
    Resolve,
    Match,
    Jobs,
    Damaged,
    Limits,
    Costly,
    Lists,
}

/// All classes, with their names and what they hold.
pub const CLASSES: [(Class, &str, &str); 15] = [
    (Class::TokensAll, "tokens-all", "all token lists of a prefix and up to four tokens"),
    (Class::Tokens, "tokens", "random token lists: read, checked as a pair, written out"),
    (Class::TinySequence, "tiny-sequence", "all small patterns against all small codes"),
    (Class::TinyTokenTree, "tiny-token-tree", "the same, every node a token tree"),
    (Class::TinyRecord, "tiny-record", "the same, a record list with fields"),
    (Class::TinyMixed, "tiny-mixed", "the same, smaller, with all three mixed"),
    (Class::TinyWalk, "tiny-walk", "walks of small rules over all small codes"),
    (Class::Build, "build", "building random rules"),
    (Class::Resolve, "resolve", "resolving random rules"),
    (Class::Match, "match", "matching one node of derived code"),
    (Class::Jobs, "jobs", "random jobs and walks over derived code"),
    (Class::Damaged, "damaged", "damaged copies of the random classes"),
    (Class::Limits, "limits", "at the limits and one beyond"),
    (Class::Costly, "costly", "cases that are exponential in the crate itself"),
    (Class::Lists, "lists", "reading bent token lists, and lists at the limits"),
];

impl Class {
    pub fn named(name: &str) -> Option<Class> {
        CLASSES.iter().find(|class| class.1 == name).map(|class| class.0)
    }

    /// How many cases an exhaustive class has; random ones have no end.
    pub fn count(self) -> Option<u64> {
        match self {
            Class::TokensAll => Some(tokens::count()),
            Class::TinySequence => Some(tiny::match_count(Family::Sequence)),
            Class::TinyTokenTree => Some(tiny::match_count(Family::TokenTree)),
            Class::TinyRecord => Some(tiny::match_count(Family::Record)),
            Class::TinyMixed => Some(tiny::match_count(Family::Mixed)),
            Class::TinyWalk => Some(tiny::walk_count()),
            Class::Limits => Some(limits::count()),
            Class::Costly => Some(limits::costly_count()),
            _ => None,
        }
    }
}

/// One case; nothing past the end of an exhaustive class, for which the seed is idle.
pub fn case(class: Class, seed: u64, index: u64) -> Option<Operation> {
    if class.count().is_some_and(|count| index >= count) {
        return None;
    }
    let rng = &mut Rng::new(&[class as u64, seed, index]);
    Some(match class {
        Class::TokensAll => tokens::list(index),
        Class::Tokens => tokens::random(rng),
        Class::TinySequence => tiny::match_case(Family::Sequence, index),
        Class::TinyTokenTree => tiny::match_case(Family::TokenTree, index),
        Class::TinyRecord => tiny::match_case(Family::Record, index),
        Class::TinyMixed => tiny::match_case(Family::Mixed, index),
        Class::TinyWalk => tiny::walk_case(index),
        Class::Build => jobs::build(rng),
        Class::Resolve => jobs::resolve(rng),
        Class::Match => jobs::match_node(rng),
        Class::Jobs => jobs::job(rng),
        Class::Damaged => damage::random(rng),
        Class::Limits => limits::case(index),
        Class::Costly => limits::costly_case(index),
        Class::Lists => lists::random(rng),
    })
}

/// The cases of a class in turn.
pub fn cases(class: Class, seed: u64) -> impl Iterator<Item = Operation> {
    (0..).map_while(move |index| case(class, seed, index))
}

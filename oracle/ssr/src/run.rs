//! Runs the crate's code: a panic is an answer, and so is an error's text.

use std::any::Any;
use std::cell::Cell;
use std::panic::{AssertUnwindSafe, catch_unwind, resume_unwind};
use std::sync::Once;
use std::thread;

use syntax::steps::{self, TooLong};

use crate::{Asked, NotFed, SsrError, Stopped};

/// Nodes whose children one run may look at.
const STEPS: u64 = 2_000_000;

/// Bytes of a large stack; the longest chain of matches takes under half of it, unoptimised too.
const STACK: usize = 1 << 28;

thread_local! {
    static QUIET: Cell<bool> = const { Cell::new(false) };
}

/// How a run ended early.
pub(crate) enum Ended {
    Panicked(String),
    Asked(Asked),
    TooLong,
}

impl From<Ended> for Stopped {
    fn from(ended: Ended) -> Stopped {
        match ended {
            Ended::Panicked(message) => Stopped::Panicked(message),
            Ended::Asked(asked) => {
                Stopped::Panicked(format!("asked for a parse of {}", asked.text))
            }
            Ended::TooLong => Stopped::NotFed(NotFed::TooLong),
        }
    }
}

/// Runs a caller on a stack that the crate's recursion fits: nested matches are rendered inside
/// each other, up to 1,024 deep, each through the depth of a template.
pub fn on_large_stack<T: Send>(work: impl FnOnce() -> T + Send) -> T {
    let result = thread::scope(|scope| {
        let thread = thread::Builder::new().stack_size(STACK).spawn_scoped(scope, work);
        thread.expect("a thread can be started").join()
    });
    result.unwrap_or_else(|payload| resume_unwind(payload))
}

pub(crate) fn run<T>(crate_code: impl FnOnce() -> T) -> Result<T, Ended> {
    run_for(STEPS, crate_code)
}

/// A run that may look at the children of so many nodes.
pub(crate) fn run_for<T>(steps: u64, crate_code: impl FnOnce() -> T) -> Result<T, Ended> {
    silence();
    steps::allow(steps);
    QUIET.with(|quiet| quiet.set(true));
    let result = catch_unwind(AssertUnwindSafe(crate_code));
    QUIET.with(|quiet| quiet.set(false));
    steps::allow(u64::MAX);
    result.map_err(ended)
}

fn ended(payload: Box<dyn Any + Send>) -> Ended {
    let payload = match payload.downcast::<Asked>() {
        Ok(asked) => return Ended::Asked(*asked),
        Err(payload) => payload,
    };
    if payload.is::<TooLong>() {
        return Ended::TooLong;
    }
    let text = payload.downcast_ref::<&str>().map(|text| (*text).to_owned());
    let text = text.or_else(|| payload.downcast_ref::<String>().cloned());
    Ended::Panicked(text.unwrap_or_default())
}

/// The panics of a run print nothing; all others print as before.
fn silence() {
    static ONCE: Once = Once::new();
    ONCE.call_once(|| {
        let before = std::panic::take_hook();
        std::panic::set_hook(Box::new(move |info| {
            if !QUIET.with(Cell::get) {
                before(info);
            }
        }));
    });
}

/// The crate's messages, up to where a text of the rule follows, and document 01's numbers.
const MESSAGES: [(&str, u32); 17] = [
    ("Unexpected end of placeholder", 2),
    ("Placeholder is missing closing brace '}'", 3),
    ("Unexpected token while parsing placeholder: ", 4),
    ("Placeholders should either be $name or ${name:constraints}", 5),
    ("Placeholder ($) with no name", 6),
    ("Found end of placeholder while looking for a constraint", 7),
    ("Unsupported constraint type ", 8),
    ("Expected ( found ", 9),
    ("Expected ) found ", 9),
    ("Unexpected end of constraint while looking for kind", 10),
    ("Expected ident, found ", 10),
    ("Unknown node kind ", 11),
    ("Placeholder `", 12),
    ("Replacement placeholders cannot have constraints", 14),
    ("Replacement contains undefined placeholders: ", 15),
    ("Not a valid Rust expression, type, item, path or pattern", 17),
    ("Failed to resolve path ", 22),
];

impl From<SsrError> for Stopped {
    fn from(error: SsrError) -> Stopped {
        let found = MESSAGES.iter().find(|(message, _)| error.0.starts_with(message));
        match found {
            Some((_, number)) => Stopped::Refused(*number),
            // The table has every message of the files. Another one would be none of the numbers.
            None => Stopped::Panicked(error.0),
        }
    }
}

//! The library's answers held against the judge's, in every field.

use std::collections::BTreeMap;
use std::fmt::Debug;

use input::{Answer, Operation, Outcome, TokenList, pairs};
use judge::judge;
use library::lists::{RawCode, check_pair, raw_code, read_tokens};

use crate::judged::{self, BEFORE};

/// What is compared, one name for each operation that the library has.
const NAMES: [&str; 3] = ["lists", "pairs", "raw codes"];

/// Which of `NAMES` an operation is; nothing for one that the library does not have.
fn place(operation: &Operation) -> Option<usize> {
    match operation {
        Operation::ReadTokens { .. } => Some(0),
        Operation::CheckPair { .. } => Some(1),
        Operation::RawCode { .. } => Some(2),
        _ => None,
    }
}

/// How the library's answer differs from a judged outcome.
fn difference(operation: &Operation, outcome: &Outcome) -> Result<(), String> {
    match operation {
        Operation::ReadTokens { list } => {
            same(Some(read_tokens(list)), judged::lists::read_tokens(&outcome.answer))
        }
        Operation::CheckPair { pattern, template } => same(
            Some(check_pair(pattern, template.as_ref())),
            judged::lists::check_pair(&outcome.answer),
        ),
        Operation::RawCode { list, buffer } => {
            same(Some(written(list, *buffer)), judged::lists::raw_code(outcome, *buffer))
        }
        _ => Err("the library does not have the operation".into()),
    }
}

/// The library's raw code, and the whole buffer after the call; before it, no byte of the buffer is 0.
fn written(list: &TokenList, buffer: usize) -> (RawCode, Vec<u8>) {
    let mut out = vec![BEFORE; buffer];
    (raw_code(list, &mut out), out)
}

pub fn same<T: PartialEq + Debug>(library: T, judged: T) -> Result<(), String> {
    if library == judged {
        return Ok(());
    }
    Err(format!("the library has {library:?}, the judge {judged:?}"))
}

fn judged(operation: &Operation) -> Result<Outcome, String> {
    let judgement = judge(operation);
    match judgement.disagreement {
        Some(what) if judgement.covered.is_empty() => Err(format!("not judged: {what}")),
        _ => judgement.outcome.ok_or("not judged".into()),
    }
}

/// The operation and, for the lists in it, reading each of them and writing its raw code into
/// buffers that are too short, just long enough and longer.
pub fn with_lists(operation: Operation) -> Vec<Operation> {
    let lists = match &operation {
        Operation::ReadTokens { .. } => Vec::new(),
        Operation::CheckPair { pattern, template } => {
            [pattern].into_iter().chain(template).cloned().collect()
        }
        Operation::RawCode { list, .. } => vec![list.clone()],
        Operation::Build { rules, .. }
        | Operation::Resolve { rules, .. }
        | Operation::MatchNode { rules, .. } => lists_of(rules),
        Operation::Job(job) | Operation::Walk(job) => lists_of(&job.rules),
    };
    let mut operations = vec![operation];
    for list in lists {
        let length = ssr::raw_code(&list).map_or(0, |code| code.len());
        for buffer in [length.saturating_sub(1), length, length + 9] {
            operations.push(Operation::RawCode { list: list.clone(), buffer });
        }
        operations.push(Operation::ReadTokens { list });
    }
    operations
}

fn lists_of(rules: &input::Rules) -> Vec<TokenList> {
    let pairs = pairs::decode(rules).unwrap_or_default();
    pairs.into_iter().flat_map(|pair| [pair.pattern.list, pair.template.list]).collect()
}

/// How many operations were equal and different, and how often each answer came up.
#[derive(Default)]
pub struct Summary {
    counts: [(u64, u64); NAMES.len()],
    answers: BTreeMap<String, u64>,
}

impl Summary {
    /// Compares an operation and the lists in it, and names what differs.
    pub fn add(&mut self, name: impl Fn() -> String, operation: Operation) {
        for operation in with_lists(operation) {
            let Some(place) = place(&operation) else { continue };
            let outcome = judged(&operation);
            let result = outcome.and_then(|outcome| {
                *self.answers.entry(answer(&outcome.answer)).or_default() += 1;
                difference(&operation, &outcome)
            });
            let (equal, different) = &mut self.counts[place];
            match result {
                Ok(()) => *equal += 1,
                Err(what) => {
                    *different += 1;
                    println!("{}: {what}", name());
                }
            }
        }
    }

    /// Prints the summary: whether all is equal.
    pub fn print(&self) -> bool {
        for (answer, count) in &self.answers {
            println!("{count:10}  {answer}");
        }
        for (name, (equal, different)) in NAMES.iter().zip(self.counts) {
            println!("{} {name}: {equal} equal, {different} different", equal + different);
        }
        self.counts.iter().all(|(_, different)| *different == 0)
    }
}

/// An answer without its numbers, but for a refusal's.
fn answer(answer: &Answer) -> String {
    if let Answer::Refused(number) = answer {
        return format!("refused {number:2}");
    }
    let text = format!("{answer:?}");
    text.split(['(', ' ']).next().unwrap_or_default().to_owned()
}

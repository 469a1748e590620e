//! Holds the Rattle library against the judge, times both, and writes the sample that
//! crates/replay runs. `run` builds the library first.

mod bench;
mod comparison;
mod jobs;
mod jobs_sample;
mod judged;
mod matching;
mod matching_sample;
mod plain;
mod rules;
mod rules_sample;
mod sample;
mod small_stack;
mod tree_sample;
mod trees;

use std::io::{BufRead, Write, stdin, stdout};
use std::process::ExitCode;

use comparison::Summary;
use corpus::case::{Case, read_case};
use corpus::json;
use generator::Class;
use generator::arguments::number;
use input::{Operation, Pair, Task, TokenList, used};

const USAGE: &str = "usage: compare corpus < CASES
       compare generated SEED COUNT
       compare trees corpus < CASES
       compare trees damaged SEED COUNT
       compare rules corpus < CASES
       compare rules generated SEED COUNT
       compare rules damaged SEED COUNT
       compare matching corpus < CASES
       compare matching generated SEED COUNT
       compare matching tiny STEP
       compare matching damaged SEED COUNT
       compare matching limits
       compare jobs corpus < CASES
       compare jobs generated SEED COUNT
       compare jobs buffers SEED COUNT
       compare jobs limits
       compare walk corpus < CASES
       compare walk generated SEED COUNT
       compare walk limits
       compare bench < CASES
       compare sample SEED COUNT";

/// Cases whose lists are written into a buffer with bytes beyond its used part.
const LARGE_BUFFERS: u64 = 40;

fn main() -> ExitCode {
    judge::program::main(run)
}

fn run(arguments: &[&str]) -> Result<bool, String> {
    match arguments {
        ["corpus"] => corpus_lists(),
        ["generated", seed, count] => Ok(generated(number(seed)?, number(count)?)),
        ["trees", "corpus"] => trees::corpus(),
        ["trees", "damaged", seed, count] => Ok(trees::damaged(number(seed)?, number(count)?)),
        ["rules", "corpus"] => rules::corpus(),
        ["rules", "generated", seed, count] => Ok(rules::generated(number(seed)?, number(count)?)),
        ["rules", "damaged", seed, count] => Ok(rules::damaged(number(seed)?, number(count)?)),
        ["matching", "corpus"] => matching::corpus(),
        ["matching", "generated", seed, count] => {
            Ok(matching::generated(number(seed)?, number(count)?))
        }
        ["matching", "tiny", step] => Ok(matching::tiny(number(step)?)),
        ["matching", "damaged", seed, count] => {
            Ok(matching::damaged(number(seed)?, number(count)?))
        }
        ["matching", "limits"] => Ok(matching::limits()),
        ["jobs", "corpus"] => jobs::corpus(Task::Job),
        ["jobs", "generated", seed, count] => {
            Ok(jobs::generated(Task::Job, number(seed)?, number(count)?))
        }
        ["jobs", "buffers", seed, count] => Ok(jobs::buffers(number(seed)?, number(count)?)),
        ["jobs", "limits"] => Ok(jobs::limits(Task::Job)),
        ["walk", "corpus"] => jobs::corpus(Task::Walk),
        ["walk", "generated", seed, count] => {
            Ok(jobs::generated(Task::Walk, number(seed)?, number(count)?))
        }
        ["walk", "limits"] => Ok(jobs::limits(Task::Walk)),
        ["bench"] => bench::run(),
        ["sample", seed, count] => {
            let sample = sample::make(number(seed)?, number(count)? as usize)?;
            stdout().write_all(&sample).map_err(|error| error.to_string())?;
            Ok(true)
        }
        _ => Err(USAGE.into()),
    }
}

/// Does something with each case of a corpus, which comes on standard input.
fn for_each_case(mut work: impl FnMut(Case)) -> Result<(), String> {
    for (number, line) in (1..).zip(stdin().lock().lines()) {
        let error = |error: String| format!("line {number}: {error}");
        let line = line.map_err(|failure| error(failure.to_string()))?;
        work(json::read(&line).and_then(|value| read_case(&value)).map_err(error)?);
    }
    Ok(())
}

/// The pairs of the cases, with their lists.
fn corpus_lists() -> Result<bool, String> {
    let mut summary = Summary::default();
    for_each_case(|case| {
        for (pair, number) in case.pairs.into_iter().zip(1..) {
            summary.add(|| format!("{}, pair {number}", case.id), check_pair(pair));
        }
    })?;
    Ok(summary.print())
}

fn check_pair(pair: Pair) -> Operation {
    let template = pair.has_template.then_some(pair.template.list);
    Operation::CheckPair { pattern: pair.pattern.list, template }
}

/// All of tokens-all, and `count` cases of each random class.
fn generated(seed: u64, count: u64) -> bool {
    let mut summary = Summary::default();
    let classes = [
        (Class::TokensAll, "tokens-all"),
        (Class::Tokens, "tokens"),
        (Class::Lists, "lists"),
        (Class::Damaged, "damaged"),
    ];
    for (class, name) in classes {
        for index in 0..class.count().unwrap_or(count) {
            if let Some(operation) = generator::case(class, seed, index) {
                summary.add(|| format!("{name} {seed} {index}"), operation);
            }
        }
    }
    for list in (0..LARGE_BUFFERS).flat_map(|index| lists(seed, index)) {
        let buffer = used(usize::MAX) + 7;
        summary.add(|| "a large buffer".into(), Operation::RawCode { list, buffer });
    }
    summary.print()
}

/// The lists of a case.
fn lists(seed: u64, index: u64) -> impl Iterator<Item = TokenList> {
    let operations = generator::case(Class::Tokens, seed, index).into_iter();
    operations.flat_map(comparison::with_lists).filter_map(|operation| match operation {
        Operation::ReadTokens { list } => Some(list),
        _ => None,
    })
}

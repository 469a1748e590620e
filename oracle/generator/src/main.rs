//! Prints generated cases, the classes, and how often each answer of the checker comes up.

use generator::arguments::{named, number};
use generator::{CLASSES, Class, case};
use input::{Answer, Operation, case_file};
use std::collections::BTreeMap;
use std::process::ExitCode;

const USAGE: &str = "usage: generator list
       generator print CLASS SEED INDEX
       generator stats CLASS SEED COUNT";

fn main() -> ExitCode {
    let arguments: Vec<String> = std::env::args().skip(1).collect();
    let arguments: Vec<&str> = arguments.iter().map(String::as_str).collect();
    match run(&arguments) {
        Ok(text) => {
            print!("{text}");
            ExitCode::SUCCESS
        }
        Err(message) => {
            eprintln!("{message}");
            ExitCode::FAILURE
        }
    }
}

fn run(arguments: &[&str]) -> Result<String, String> {
    match arguments {
        ["list"] => Ok(list()),
        ["print", class, seed, index] => {
            let operation = case(named(class)?, number(seed)?, number(index)?);
            operation.map(|case| case_file::write(&case)).ok_or("the class has no such case".into())
        }
        ["stats", class, seed, count] => Ok(stats(named(class)?, number(seed)?, number(count)?)),
        _ => Err(USAGE.into()),
    }
}

fn list() -> String {
    let line = |(class, name, what): (Class, &str, &str)| {
        let count = class.count().map_or("no end".to_string(), |count| count.to_string());
        format!("{name:16} {count:>10}  {what}\n")
    };
    CLASSES.into_iter().map(line).collect()
}

fn stats(class: Class, seed: u64, count: u64) -> String {
    let mut table: BTreeMap<(u32, &str), u64> = BTreeMap::new();
    for operation in (0..count).map_while(|index| case(class, seed, index)) {
        *table.entry(answer_class(&operation)).or_default() += 1;
    }
    let line = |((number, name), count): ((u32, &str), u64)| match number {
        0 => format!("{count:10}  {name}\n"),
        _ => format!("{count:10}  refused {number}\n"),
    };
    table.into_iter().map(line).collect()
}

/// The refusal's number, or 0 and the class of the answer.
fn answer_class(operation: &Operation) -> (u32, &'static str) {
    match checker::answer(operation).map(|outcome| outcome.answer) {
        None => (0, "passes; matching decides"),
        Some(Answer::Refused(number)) => (number, ""),
        Some(Answer::Placeholders(found)) if found.is_empty() => (0, "no placeholders"),
        Some(Answer::Placeholders(_)) => (0, "placeholders"),
        Some(Answer::Valid) => (0, "valid pair"),
        Some(Answer::RawCode(_)) => (0, "raw code"),
        Some(Answer::Built { asked: None, .. }) => (0, "built, no such rule"),
        Some(Answer::Built { .. }) => (0, "built"),
        Some(Answer::Resolved(None)) => (0, "resolved, nothing such"),
        Some(Answer::Resolved(Some(element))) => match (element.resolution, element.call) {
            (Some(_), _) => (0, "resolved path"),
            (_, Some(_)) => (0, "claimed call"),
            _ => (0, "neither path nor call"),
        },
        Some(_) => (0, "other"),
    }
}

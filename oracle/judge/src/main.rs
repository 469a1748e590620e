//! Answers operations: those of case files, a single generated one, or a whole run of generated
//! ones, with a summary of where the crate and the checker agree.

use generator::arguments::{named, number};
use generator::{Class, case, complete};
use input::{Answer, Operation, case_file};
use judge::{Judgement, judge};
use std::collections::BTreeMap;
use std::process::ExitCode;

const USAGE: &str = "usage: judge run FILE..
       judge case CLASS SEED INDEX
       judge generated CLASS SEED COUNT";

/// How often a job is given the parse that it asks for.
const ASKINGS: usize = 64;

fn main() -> ExitCode {
    judge::program::main(run)
}

fn run(arguments: &[&str]) -> Result<bool, String> {
    match arguments {
        ["run", files @ ..] if !files.is_empty() => {
            for file in files {
                show(&judge(&read(file)?));
            }
            Ok(true)
        }
        ["case", class, seed, index] => {
            let operation = case(named(class)?, number(seed)?, number(index)?);
            show(&judge(&operation.ok_or("the class has no such case")?));
            Ok(true)
        }
        ["generated", class, seed, count] => {
            Ok(generated(named(class)?, number(seed)?, number(count)?))
        }
        _ => Err(USAGE.into()),
    }
}

fn read(file: &str) -> Result<Operation, String> {
    let text = std::fs::read_to_string(file).map_err(|error| format!("{file}: {error}"))?;
    case_file::read(&text).map_err(|error| format!("{file}: {error}"))
}

fn show(judgement: &Judgement) {
    match &judgement.outcome {
        Some(outcome) => {
            println!("{:?}", outcome.answer);
            let end = outcome.buffer.iter().rposition(|byte| *byte != 0).map_or(0, |at| at + 1);
            let hex: String =
                outcome.buffer[..end].iter().map(|byte| format!("{byte:02x}")).collect();
            println!("buffer {hex}, then 0 up to {}", outcome.buffer.len());
        }
        None => println!("no outcome"),
    }
    for difference in &judgement.covered {
        println!("covered by {difference:?}");
    }
    if let Some(not_fed) = judgement.not_fed {
        println!("not fed: {not_fed:?}");
    }
    if let Some(what) = &judgement.disagreement {
        println!("disagreement: {what}");
    }
}

#[derive(Default)]
struct Summary {
    cases: u64,
    agree: u64,
    listed: u64,
    not_fed: u64,
    unexplained: u64,
    answers: BTreeMap<String, u64>,
}

/// Judges the cases of a class, each job again with the parses that it asks for.
fn generated(class: Class, seed: u64, count: u64) -> bool {
    let mut summary = Summary::default();
    for index in 0..count {
        let Some(mut operation) = case(class, seed, index) else { break };
        for _ in 0..ASKINGS {
            let judgement = judge(&operation);
            summary.count(index, &judgement);
            match completed(&operation, &judgement) {
                Some(next) => operation = next,
                None => break,
            }
        }
    }
    summary.print();
    summary.unexplained == 0
}

/// The job with the parse added that it asked for.
fn completed(operation: &Operation, judgement: &Judgement) -> Option<Operation> {
    let outcome = judgement.outcome.as_ref()?;
    let Answer::Asked { kind, length } = outcome.answer else { return None };
    let text = &outcome.buffer[..length];
    match operation {
        Operation::Job(job) => Some(Operation::Job(complete(job, kind, text))),
        Operation::Walk(job) => Some(Operation::Walk(complete(job, kind, text))),
        _ => None,
    }
}

impl Summary {
    fn count(&mut self, index: u64, judgement: &Judgement) {
        self.cases += 1;
        let covered = !judgement.covered.is_empty();
        match &judgement.disagreement {
            Some(_) if covered => self.listed += 1,
            Some(what) => {
                self.unexplained += 1;
                println!("case {index}: {what}");
            }
            None if judgement.not_fed.is_some() => self.not_fed += 1,
            None => self.agree += 1,
        }
        let answer = match judgement.outcome.as_ref().map(|outcome| &outcome.answer) {
            Some(Answer::Refused(number)) => format!("refused {number:2}"),
            Some(answer) => {
                let text = format!("{answer:?}");
                text.split(['(', ' ']).next().unwrap_or_default().to_owned()
            }
            None => "no outcome".to_owned(),
        };
        *self.answers.entry(answer).or_default() += 1;
    }

    fn print(&self) {
        for (answer, count) in &self.answers {
            println!("{count:10}  {answer}");
        }
        println!(
            "{} judged: {} agree, {} not fed to the crate, {} different by a listed difference, \
             {} unexplained",
            self.cases, self.agree, self.not_fed, self.listed, self.unexplained
        );
    }
}

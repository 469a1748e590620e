//! The judge: one outcome for every operation, from the crate's own source and the checker
//! together. Where both can speak they must agree.

mod jobs;
mod lists;
pub mod predicates;
pub mod program;
mod rules;
mod whole_jobs;
mod whole_matches;
mod whole_rules;

use checker::refused;
use input::{Answer, Operation, Outcome, Task};
use predicates::Difference;
use ssr::{NotFed, Stopped};
pub use whole_jobs::{JudgedJob, ParsedJob, WholeJobs, used_by, whole_job};
pub use whole_matches::{JudgedMatch, MatchQuestion, WholeMatches, whole_matches};
pub use whole_rules::{Backing, Held, JudgedSide, Sides, WholeRules, whole_rules, without_facts};

/// What is known of an operation.
#[derive(Debug, Default)]
pub struct Judgement {
    /// The outcome, where the crate could be asked all that it takes.
    pub outcome: Option<Outcome>,
    /// What the crate could not be asked.
    pub not_fed: Option<NotFed>,
    /// The listed differences that cover the case.
    pub covered: Vec<Difference>,
    /// How the crate and the checker, or the crate and its listed behaviour, disagree.
    pub disagreement: Option<String>,
}

impl Judgement {
    fn of(outcome: Outcome) -> Judgement {
        Judgement { outcome: Some(outcome), ..Judgement::default() }
    }

    /// The crate stopped where the checker found nothing to refuse.
    fn stopped(stopped: Stopped) -> Judgement {
        match stopped {
            Stopped::NotFed(not_fed) => {
                Judgement { not_fed: Some(not_fed), ..Judgement::default() }
            }
            other => Judgement { disagreement: Some(format!("{other:?}")), ..Judgement::default() },
        }
    }

    fn disagree(mut self, what: String) -> Judgement {
        self.disagreement.get_or_insert(what);
        self
    }
}

/// The outcome of an operation. Deep matches need `ssr::on_large_stack`.
pub fn judge(operation: &Operation) -> Judgement {
    match checker::answer(operation) {
        Some(outcome) => confirmed(operation, outcome),
        None => match operation {
            Operation::MatchNode { rules, file, node, rule, range, buffer } => {
                jobs::match_node(rules, file, *node, *rule, *range, *buffer)
            }
            Operation::Job(job) => jobs::job(Task::Job, job),
            Operation::Walk(job) => jobs::job(Task::Walk, job),
            _ => Judgement::default().disagree("the checker gave no answer".into()),
        },
    }
}

/// The checker's outcome, held against the crate's answer where the crate has one.
fn confirmed(operation: &Operation, outcome: Outcome) -> Judgement {
    let answer = outcome.answer.clone();
    let crate_answer = match (operation, &answer) {
        (_, Answer::Refused(number)) if is_own(*number) => return Judgement::of(outcome),
        (Operation::ReadTokens { list }, _) => lists::read_tokens(list),
        (Operation::CheckPair { pattern, template }, _) => {
            lists::check_pair(pattern, template.as_ref())
        }
        (Operation::RawCode { list, .. }, _) => lists::raw_code(list),
        (Operation::Build { rules, rule }, _) => rules::build(rules, *rule),
        (Operation::Resolve { rules, rule, side, element }, _) => {
            rules::resolve(rules, *rule, *side, *element)
        }
        (Operation::MatchNode { rules, .. }, _) => rules::refusal(rules),
        (Operation::Job(job) | Operation::Walk(job), _) => rules::refusal(&job.rules),
    };
    let covered = rules::covered(operation);
    match crate_answer {
        Ok(found) if found == answer => Judgement { covered, ..Judgement::of(outcome) },
        Err(Stopped::NotFed(not_fed)) => {
            Judgement { not_fed: Some(not_fed), covered, ..Judgement::of(outcome) }
        }
        other => {
            let what = format!("the crate has {other:?}, the checker {answer:?}");
            Judgement { covered, ..Judgement::of(outcome) }.disagree(what)
        }
    }
}

/// Document 01's own numbers, which the crate does not have.
fn is_own(number: u32) -> bool {
    matches!(number, 1 | 13 | 16 | 18..=21 | 23..)
}

/// A refusal of the crate as an answer; other ends stay as they are.
fn refusal_as_answer(stopped: Stopped) -> Result<Answer, Stopped> {
    match stopped {
        Stopped::Refused(number) => Ok(Answer::Refused(number)),
        other => Err(other),
    }
}

/// A refusal that only the job's own work shows.
fn refusal(number: u32, buffer: usize) -> Judgement {
    Judgement::of(refused(number, buffer))
}

//! Matching one node, jobs and the walk: the crate matches and nests, the checker writes in the
//! room that there is, and the crate's own rendering is held against the text without a bound.

use crate::predicates::{Difference, Shape, of_matches, of_rules};
use crate::{Judgement, refusal};
use input::edits;
use input::{Answer, File, Job, Matched, Outcome, Pair, Rules, Task, pairs, used, words};
use ssr::{Finder, MissingParse, NotFed, Rendering, Stopped, Workspace};

/// How the crate's panic at an unbound placeholder of the template begins.
const UNBOUND: &str = "Internal error: replacement referenced unknown placeholder";

/// All the room that there may be.
const ROOM: usize = 1_048_576;

fn pairs_of(rules: &Rules) -> Result<Vec<Pair>, Stopped> {
    pairs::decode(rules).ok_or(Stopped::NotFed(NotFed::Malformed))
}

pub(crate) fn match_node(
    rules: &Rules,
    file: &File,
    node: u32,
    rule: u32,
    range: Option<(u32, u32)>,
    buffer: usize,
) -> Judgement {
    let pairs = match pairs_of(rules) {
        Ok(pairs) => pairs,
        Err(stopped) => return Judgement::stopped(stopped),
    };
    let covered = of_rules(&pairs);
    let found = Workspace::new(&pairs, &rules.fact_text, Some(file))
        .and_then(|workspace| Finder::new(&workspace)?.get_match(node, rule, range));
    let judgement = match found {
        Ok(None) => {
            Judgement::of(Outcome { answer: Answer::NoMatch, buffer: vec![0; used(buffer)] })
        }
        Ok(Some(matched)) => matched_node(file, &matched, buffer),
        Err(stopped) => Judgement::stopped(stopped),
    };
    uncertain(Judgement { covered, ..judgement })
}

fn matched_node(file: &File, matched: &Matched, buffer: usize) -> Judgement {
    let mut text: Vec<u8> = Vec::new();
    for &comment in &matched.comments {
        let at = 3 * comment as usize;
        let (start, end) = (words::value(file.tree[at + 1]), words::value(file.tree[at + 2]));
        text.extend(&file.text[start as usize..end as usize]);
    }
    if text.len() > used(buffer) {
        return refusal(16, buffer);
    }
    let answer = Answer::Match { bindings: matched.bindings, comments: text.len() };
    text.resize(used(buffer), 0);
    Judgement::of(Outcome { answer, buffer: text })
}

pub(crate) fn job(task: Task, job: &Job) -> Judgement {
    match judged(task, job) {
        Ok(judgement) => uncertain(judgement),
        Err(stopped) => Judgement::stopped(stopped),
    }
}

fn judged(task: Task, job: &Job) -> Result<Judgement, Stopped> {
    let pairs = pairs_of(&job.rules)?;
    let workspace = Workspace::new(&pairs, &job.rules.fact_text, Some(&job.file))?;
    let finder = Finder::new(&workspace)?;
    let found = finder.find_all(task, job)?;
    let matched = finder.matched(&found);
    if task == Task::Walk && matched.len() > checker::MATCHES {
        return Ok(refusal(24, job.buffer));
    }
    if let Err(number) = checker::check_parses(&job.parses) {
        return Ok(refusal(number, job.buffer));
    }
    let nested = finder.nest(found)?;
    let kept = finder.kept(&nested);
    let mut covered = of_rules(&pairs);
    covered.extend(of_matches(&Shape::new(&job.file.tree), &matched, &kept));
    let judgement = Judgement { covered, ..Judgement::of(checker::write(job, &kept)) };
    let roomy = checker::write(&Job { buffer: ROOM, ..job.clone() }, &kept);
    match finder.edited_text(&nested, &job.parses, MissingParse::Stop) {
        Ok(rendered) => Ok(match difference(job, &roomy, rendered.rendering) {
            Some(what) => judgement.disagree(what),
            None => judgement,
        }),
        Err(Stopped::NotFed(not_fed)) => Ok(Judgement { not_fed: Some(not_fed), ..judgement }),
        Err(other) => Err(other),
    }
}

/// What differs between the crate's rendering and the checker's in all the room.
pub(crate) fn difference(job: &Job, roomy: &Outcome, rendering: Rendering) -> Option<String> {
    let expected = match roomy.answer {
        Answer::Edits(length) => {
            let edits = edits::read(&roomy.buffer[..length]);
            let edited = edits.and_then(|edits| edits::apply(&edits, &job.file.text));
            edited.map(|text| Rendering::Edited(String::from_utf8_lossy(&text).into_owned()))
        }
        Answer::Asked { kind, length } => {
            let text = String::from_utf8_lossy(&roomy.buffer[..length]).into_owned();
            Ok(Rendering::Asked(ssr::Asked { kind, text }))
        }
        Answer::Refused(29) => match &rendering {
            Rendering::Panicked(message) if message.starts_with(UNBOUND) => return None,
            other => return Some(format!("29, and the crate has {other:?}")),
        },
        // Over the most room that there may be; the crate has no bound.
        Answer::Refused(30) => return None,
        _ => Err(format!("the writer answers {:?}", roomy.answer)),
    };
    match expected {
        Ok(expected) if expected == rendering => None,
        Ok(expected) => Some(format!("the crate has {rendering:?}, the writer {expected:?}")),
        Err(message) => Some(message),
    }
}

/// Where the crate's answer hangs on hash order there is no outcome to hold anyone to.
fn uncertain(judgement: Judgement) -> Judgement {
    let by_hash = |difference: &Difference| {
        matches!(difference, Difference::TwoHoldingRanges | Difference::TwoPathsOneCall)
    };
    if judgement.covered.iter().any(by_hash) {
        Judgement { outcome: None, ..judgement }
    } else {
        judgement
    }
}

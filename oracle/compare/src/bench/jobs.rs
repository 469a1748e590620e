//! The time of a whole job, from what is handed in to the edited text: the library with all its checks, and
//! the crate's own source with what it is fed.
//!
//! The library clears the rest of its buffer in this time, and its list is applied to the file. The crate's
//! time has making trees with parents, maps of facts and trees of parses of the words, building, resolving,
//! matching the same candidates, nesting, rendering and applying; it has none of the checks 18 to 28. The
//! names of placeholders, which the oracle reads for its own answers, are not in it.

use std::hint::black_box;

use corpus::case::CaseAnswer;
use input::{Job, Pair, Task, edits, pairs};
use judge::whole_job;
use ssr::{Finder, Found, MissingParse, Rendering, Stopped, Workspace};

use super::timing::medians;
use super::{Given, table};
use crate::jobs::call::{asked, range_of};
use crate::jobs::{among_others, matching};

/// The room of a buffer is the least multiple of this that holds the list.
const BUFFER: usize = 4_096;

/// Groups of jobs by the elements of their files.
pub const GROUPS: [(&str, usize, usize); 4] = [
    ("files of up to 99 elements", 0, 99),
    ("of 100 to 999", 100, 999),
    ("of 1,000 and more", 1_000, usize::MAX),
    ("all files", 0, usize::MAX),
];

/// A job with an edit list, whose candidates are all that match.
#[derive(Clone)]
pub struct Asked {
    pub job: Job,
    pairs: Vec<Pair>,
    /// The edited text of a real build.
    edited: Vec<u8>,
}

impl Asked {
    /// A walk, with the crate's edited text for that of a real build; nothing where the crate has none.
    pub fn of_walk(job: Job) -> Option<Asked> {
        let pairs = pairs::decode(&job.rules)?;
        let asked = Asked { job, pairs, edited: Vec::new() };
        let edited = in_crate(&asked, Task::Walk).ok().flatten()?;
        Some(Asked { edited, ..asked })
    }
}

/// Whether both sides have the edited texts of a real build, in the cases that no listed difference
/// covers.
pub fn run(all: Vec<Asked>) -> bool {
    table::head(
        "Whole jobs whose candidates are all that match: microseconds",
        &["", "jobs", "candidates", "the library", "the crate", "of it trees, facts", "ratio"],
    );
    let mut equal = true;
    for (name, least, most) in GROUPS {
        equal &= report(name, &of_size(&all, least, most));
    }
    let padded: Vec<Asked> = all.into_iter().map(with_others).collect();
    report("all files, with 1,024 candidates", &padded.iter().collect::<Vec<_>>()) && equal
}

/// Those whose files have so many elements.
pub fn of_size(all: &[Asked], least: usize, most: usize) -> Vec<&Asked> {
    let elements = |asked: &&Asked| (least..=most).contains(&(asked.job.file.tree.len() / 3));
    all.iter().filter(elements).collect()
}

/// The cases as jobs, without those whose answer is no list or that a listed difference covers.
pub fn all_asked(cases: &[&Given]) -> Vec<Asked> {
    cases.iter().filter_map(|given| asked_case(given)).collect()
}

fn asked_case(given: &Given) -> Option<Asked> {
    let case = &given.case;
    let CaseAnswer::Edits(list, edits) = &case.answer else { return None };
    let job = Job {
        rules: given.rules.clone(),
        file: case.file.clone(),
        candidates: matching(case),
        range: case.restrict,
        parses: case.parses.clone(),
        buffer: list.len().next_multiple_of(BUFFER).max(BUFFER),
    };
    if !whole_job(Task::Job, &job, true, |whole| whole.covered().is_empty()) {
        return None;
    }
    let edited = edits::apply(edits, &case.file.text).ok()?;
    Some(Asked { job, pairs: case.pairs.clone(), edited })
}

/// The same with candidates that do not match, as many as there may be.
fn with_others(asked: Asked) -> Asked {
    let mut job = asked.job;
    job.candidates = among_others(&job, &mut generator::Rng::from_bytes(&asked.edited));
    Asked { job, ..asked }
}

fn report(name: &str, asked: &[&Asked]) -> bool {
    if !is_same(name, asked, Task::Job) {
        return false;
    }
    let library = || count(asked, |asked| in_library(asked, Task::Job));
    let own = || count(asked, |asked| in_crate(asked, Task::Job).ok().flatten());
    let before = || count(asked, |asked| fed(asked).ok());
    let times = medians([&library, &own, &before]);
    let [library, own, before] = times.map(|time| time.as_secs_f64() * 1e6 / asked.len() as f64);
    let candidates = asked.iter().map(|asked| asked.job.candidates.len() / 2).sum();
    let mut cells = vec![name.to_owned(), table::count(asked.len()), table::count(candidates)];
    cells.extend([library, own, before].map(|time| format!("{time:.1}")));
    cells.push(format!("{:.2}", library / own));
    table::row(&cells);
    true
}

/// Whether both sides have the edited texts.
pub fn is_same(name: &str, asked: &[&Asked], task: Task) -> bool {
    let is_edited = |edited: Option<Vec<u8>>, asked: &Asked| edited.as_ref() == Some(&asked.edited);
    let differs = |asked: &&&Asked| {
        let own = in_crate(asked, task).ok().flatten();
        !is_edited(in_library(asked, task), asked) || !is_edited(own, asked)
    };
    let different = asked.iter().filter(differs).count();
    if different > 0 {
        println!("{name}: {different} different");
    }
    different == 0
}

/// How many have a result: some work for a clock.
pub fn count<T>(asked: &[&Asked], work: impl Fn(&Asked) -> Option<T>) -> u32 {
    asked.iter().map(|asked| u32::from(black_box(work(black_box(asked))).is_some())).sum()
}

/// The edited text; nothing where the answer is no list.
pub fn in_library(of: &Asked, task: Task) -> Option<Vec<u8>> {
    let Job { file, parses, buffer, .. } = &of.job;
    let mut out = vec![0; *buffer];
    let answer = asked(task, &of.job, parses, range_of(&of.job), &mut out);
    if answer.refusal != 0 || answer.asked != 0 {
        return None;
    }
    let edits = edits::read(out.get(..answer.length)?).ok()?;
    edits::apply(&edits, &file.text).ok()
}

pub fn in_crate(asked: &Asked, task: Task) -> Result<Option<Vec<u8>>, Stopped> {
    let workspace = fed(asked)?;
    let finder = Finder::without_names(&workspace)?;
    let found = match task {
        Task::Job => finder.find_all(task, &asked.job)?,
        Task::Walk => finder.walk_at_once(asked.job.range)?,
    };
    rendered(asked, &finder, found)
}

fn rendered(asked: &Asked, finder: &Finder, found: Found) -> Result<Option<Vec<u8>>, Stopped> {
    let nested = finder.nest(found)?;
    let rendered = finder.edited_text(&nested, &asked.job.parses, MissingParse::Stop)?;
    Ok(match rendered.rendering {
        Rendering::Edited(text) => Some(text.into_bytes()),
        Rendering::Asked(_) | Rendering::Panicked(_) => None,
    })
}

/// The crate's trees and facts.
pub fn fed(asked: &Asked) -> Result<Workspace, Stopped> {
    let Job { rules, file, .. } = &asked.job;
    Workspace::new(&asked.pairs, &rules.fact_text, Some(file))
}

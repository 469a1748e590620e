//! The time of a walk, from what is handed in to the edited text: over the files of a corpus, as files, rules,
//! matches and their depth grow, and for a file as large as it may be. What is in the times is as for jobs.
//!
//! The library's checks are those of a job without candidates and with the same rest: it makes them all,
//! matches nothing and writes an empty list. In the crate, what comes before the tries is making trees and
//! facts, building and resolving.

use std::time::Duration;

use generator::growing_walks::{Calls, lines};
use input::{Job, Task};
use ssr::Finder;

use super::jobs::{Asked, GROUPS, count, fed, in_crate, in_library, is_same, of_size};
use super::table::{self, plot};
use super::timing::{best_and_median, medians};
use crate::jobs::call::{asked, range_of};
use crate::small_stack::{OF_JOBS, on_stack, touched};

/// The most elements of a file, and the most facts.
const MOST: usize = 16_383;
const RULES: usize = 16;
const MATCHES: usize = 1_024;
/// How often a full file is walked.
const RUNS: usize = 101;

/// Whether both sides have the same edited texts; the jobs of the corpus are walked.
pub fn run(jobs: &[Asked]) -> bool {
    let equal = over_corpus(jobs);
    let equal = growths() && equal;
    full_file() && equal
}

/// A walk, without candidates, and what is counted of it.
struct Walk {
    asked: Asked,
    rules: usize,
    tries: usize,
    matches: usize,
}

impl Walk {
    /// Nothing where the crate cannot be fed, which no case with an edit list is.
    fn of(mut asked: Asked) -> Option<Walk> {
        asked.job.candidates = Vec::new();
        let workspace = fed(&asked).ok()?;
        let finder = Finder::without_names(&workspace).ok()?;
        let matches = finder.walk_at_once(asked.job.range).ok()?.count();
        let rules = finder.rules().len();
        drop(finder);
        let tries = rules * super::nodes(&asked.job.file).count();
        Some(Walk { asked, rules, tries, matches })
    }
}

fn over_corpus(jobs: &[Asked]) -> bool {
    table::head(
        "Walks over the files of the corpus: microseconds for a walk, nanoseconds for a try without what \
         comes before the tries",
        &[
            "",
            "files",
            "rules",
            "tries",
            "matches",
            "the library",
            "of it checks",
            "the crate",
            "of it before",
            "ratio",
            "a try in the library",
            "in the crate",
            "ratio",
        ],
    );
    let mut equal = true;
    for (name, least, most) in GROUPS {
        let walks = of_size(jobs, least, most).into_iter().cloned();
        let walks: Vec<Walk> = walks.filter_map(Walk::of).collect();
        equal &= report(name, &walks);
    }
    equal
}

fn report(name: &str, walks: &[Walk]) -> bool {
    let asked: Vec<&Asked> = walks.iter().map(|walk| &walk.asked).collect();
    if !is_same(name, &asked, Task::Walk) {
        return false;
    }
    let times = times(&asked).map(|time| time.as_secs_f64() * 1e6 / asked.len() as f64);
    let [library, checks, own, before] = times;
    let sum = |field: fn(&Walk) -> usize| walks.iter().map(field).sum::<usize>();
    let tries = sum(|walk| walk.tries);
    let counts = [asked.len(), sum(|walk| walk.rules), tries, sum(|walk| walk.matches)];
    let per_try = |time: f64| time * 1e3 * asked.len() as f64 / tries as f64;
    let (in_library, in_crate) = (per_try(library - checks), per_try(own - before));
    let mut cells = vec![name.to_owned()];
    cells.extend(counts.map(table::count));
    cells.extend(times.map(|time| format!("{time:.1}")));
    cells.push(format!("{:.2}", library / own));
    cells.extend([in_library, in_crate].map(|time| format!("{time:.1}")));
    cells.push(format!("{:.2}", in_library / in_crate));
    table::row(&cells);
    true
}

/// The library's walks and its checks alone, the crate's walks and what comes before.
fn times(asked: &[&Asked]) -> [Duration; 4] {
    let library = || count(asked, |asked| in_library(asked, Task::Walk));
    let checks = || count(asked, |asked| in_library(asked, Task::Job));
    let own = || count(asked, |asked| in_crate(asked, Task::Walk).ok().flatten());
    let before = || {
        count(asked, |asked| {
            let workspace = fed(asked).ok()?;
            Finder::without_names(&workspace).is_ok().then_some(())
        })
    };
    medians([&library, &checks, &own, &before])
}

/// As one thing grows and the others stay as they are.
fn growths() -> bool {
    let calls = |elements, rules, matches| Calls { elements, rules, matches }.walk();
    let elements = [1_000, 2_000, 4_000, 8_000, MOST].map(|count| (count, calls(count, 4, 64)));
    let rules = [1, 2, 4, 8, RULES].map(|count| (count, calls(8_000, count, 64)));
    let matches = [0, 64, 128, 256, 512, MATCHES].map(|count| (count, calls(MOST, 4, count)));
    let room = 2 * MATCHES + 1;
    let mut depths = [1, 8, 32, 64, 126].map(|nodes| (nodes, lines(room, 1, nodes))).to_vec();
    depths.push((MATCHES, lines(room, RULES, MATCHES / RULES)));
    let equal = [
        growth("Growing files: 4 rules, 64 matches", "elements", &elements),
        growth("Growing rules: 8,000 elements, 64 matches", "rules", &rules),
        growth("Growing matches: 16,383 elements, 4 rules", "matches", &matches),
        growth(
            "Growing depth: about 1,024 matches in lines that are so many in each other, of one rule; the \
             last of 16 rules",
            "in each other",
            &depths,
        ),
    ];
    equal.iter().all(|equal| *equal)
}

/// A row for each walk, and the same as bars.
fn growth(title: &str, what: &str, walks: &[(usize, Job)]) -> bool {
    let columns =
        [what, "tries", "the library", "of it checks", "the crate", "of it before", "ratio"];
    table::head(&format!("{title}: microseconds for a walk"), &columns);
    let (mut equal, mut bars) = (true, Vec::new());
    for (number, job) in walks {
        let number = table::count(*number);
        let Some(walk) = Asked::of_walk(job.clone()).and_then(Walk::of) else {
            println!("{number}: the crate has no edited text");
            equal = false;
            continue;
        };
        equal &= is_same(&number, &[&walk.asked], Task::Walk);
        let times = times(&[&walk.asked]).map(|time| time.as_secs_f64() * 1e6);
        let mut cells = vec![number.clone(), table::count(walk.tries)];
        cells.extend(times.map(|time| format!("{time:.1}")));
        cells.push(format!("{:.2}", times[0] / times[2]));
        table::row(&cells);
        bars.push((number, [("the library", times[0]), ("the crate", times[2])]));
    }
    plot(what, &bars);
    equal
}

/// A file, rules and facts as large as they may be: the best and the median time, and the stack.
fn full_file() -> bool {
    table::head(
        &format!(
            "16,383 elements, 16 rules, 16,383 facts: milliseconds of {RUNS} calls, and the bytes of a stack \
             of {OF_JOBS} that one touches"
        ),
        &["matches", "the best", "the median", "checks alone, the best", "the median", "stack"],
    );
    let mut equal = true;
    for matches in [0, MATCHES, MATCHES + 1] {
        let job = Calls { elements: MOST, rules: RULES, matches }.with_facts(MOST);
        let wanted = if matches > MATCHES { 24 } else { 0 };
        let call = |task| {
            let mut out = vec![0; job.buffer];
            asked(task, &job, &job.parses, range_of(&job), &mut out).refusal
        };
        equal &= call(Task::Walk) == wanted;
        let times = best_and_median(RUNS, [&|| call(Task::Walk), &|| call(Task::Job)]);
        let stack = on_stack(OF_JOBS, || {
            call(Task::Walk);
            touched()
        });
        let mut cells = vec![table::count(matches)];
        let milliseconds = |time: Duration| format!("{:.2}", time.as_secs_f64() * 1e3);
        cells.extend(times.as_flattened().iter().copied().map(milliseconds));
        cells.push(table::count(stack));
        table::row(&cells);
    }
    equal
}

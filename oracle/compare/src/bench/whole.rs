//! The time of matching one node as a whole, from what is handed in to the answer: the library with all
//! its checks, and the crate's own source with what it is fed.
//!
//! The library clears its buffer in this time. The crate's time has making trees with parents and maps of
//! facts of the words, building, resolving, and the match; it has none of the checks 18 to 21, and no
//! comments are copied. The names of placeholders, which the oracle reads for its own answers, are not in it.

use std::hint::black_box;

use input::{File, Pair, Rules};
use library::matching::{Range, match_node};
use ssr::{Finder, Stopped, Workspace};

use super::timing::medians;
use super::{Given, nodes, table};

/// The length of the library's buffer.
const BUFFER: usize = 4_096;

/// A node with a rule.
struct Question<'a> {
    rules: &'a Rules,
    pairs: &'a [Pair],
    fact_text: &'a [u8],
    file: &'a File,
    node: u32,
    rule: u32,
    matched: bool,
}

/// Whether both sides have the same answers.
pub fn run(cases: &[&Given]) -> bool {
    table::head(
        &format!(
            "Matching one node as a whole, with a buffer of {} bytes that the library clears: microseconds",
            table::count(BUFFER)
        ),
        &["", "calls", "the library", "the crate", "of it trees and facts", "ratio"],
    );
    let all: Vec<Question> = cases.iter().flat_map(|given| questions(given)).collect();
    let (matching, others): (Vec<_>, Vec<_>) = all.into_iter().partition(|asked| asked.matched);
    let equal = report("the first node and rule of a case that match", &matching);
    report("the first that do not", &others) && equal
}

/// The first node and rule of a case that match, and the first that do not; none where the crate refuses.
fn questions(given: &Given) -> Vec<Question<'_>> {
    let mut found: Vec<Question> = Vec::new();
    for matched in [true, false] {
        let pair = first(given, matched).ok().flatten();
        found.extend(pair.map(|(node, rule)| Question {
            rules: &given.rules,
            pairs: &given.case.pairs,
            fact_text: &given.case.fact_text,
            file: &given.case.file,
            node,
            rule,
            matched,
        }));
    }
    found
}

fn first(given: &Given, matched: bool) -> Result<Option<(u32, u32)>, Stopped> {
    let case = &given.case;
    let workspace = Workspace::new(&case.pairs, &case.fact_text, Some(&case.file))?;
    let finder = Finder::without_names(&workspace)?;
    let rules = 0..finder.rules().len() as u32;
    let with_rules = |(node, _)| rules.clone().map(move |rule| (node, rule));
    let mut pairs = nodes(&case.file).flat_map(with_rules);
    Ok(pairs.find(|(node, rule)| finder.is_match(*node, *rule) == Ok(matched)))
}

fn report(name: &str, asked: &[Question]) -> bool {
    let mut out = [0; BUFFER];
    let differs = |asked: &&Question| in_library(asked, &mut out) != Ok(asked.matched);
    let different = asked.iter().filter(differs).count();
    if different > 0 {
        println!("{name}: {different} different");
        return false;
    }
    let library = || {
        let mut out = [0; BUFFER];
        let is_match = |asked| in_library(black_box(asked), &mut out) == Ok(true);
        asked.iter().map(is_match).map(u32::from).sum()
    };
    let own = || asked.iter().map(|asked| u32::from(in_crate(black_box(asked)) == Ok(true))).sum();
    let before = || asked.iter().map(|asked| u32::from(fed(black_box(asked)).is_ok())).sum();
    let times = medians([&library, &own, &before]);
    let [library, own, before] = times.map(|time| time.as_secs_f64() * 1e6 / asked.len() as f64);
    let mut cells = vec![name.to_owned(), table::count(asked.len())];
    cells.extend([library, own, before].map(|time| format!("{time:.1}")));
    cells.push(format!("{:.2}", library / own));
    table::row(&cells);
    true
}

/// Whether the library matches, or its refusal.
fn in_library(asked: &Question, out: &mut [u8]) -> Result<bool, u32> {
    let Question { rules, file, node, rule, .. } = asked;
    let answer = match_node(rules, file, *node as usize, *rule as usize, Range::default(), out);
    if answer.refusal == 0 { Ok(answer.matched == 1) } else { Err(answer.refusal) }
}

fn in_crate(asked: &Question) -> Result<bool, Stopped> {
    Finder::without_names(&fed(asked)?)?.is_match(asked.node, asked.rule)
}

fn fed(asked: &Question) -> Result<Workspace, Stopped> {
    Workspace::new(asked.pairs, asked.fact_text, Some(asked.file))
}

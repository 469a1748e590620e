//! The times of the library beside those of the crate's own source and of plain Rust, as tables. A ratio
//! is the library's time divided by the other's.

mod checks;
mod jobs;
mod lists;
mod parses;
mod rules;
mod table;
mod timing;
mod trees;
mod walks;
mod whole;

use corpus::case::Case;
use input::words::{NODE, syntax_kind, word_kind};
use input::{File, Rules, pairs};
use judge::predicates::of_rules;

use crate::for_each_case;

/// A case of the corpus, with its rules as they are handed in.
struct Given {
    case: Case,
    rules: Rules,
}

/// Whether all have the same answers; the cases of the corpus come on standard input. Matching is timed
/// where no difference is listed for the rules.
pub fn run() -> Result<bool, String> {
    let mut cases = Vec::new();
    for_each_case(|case| {
        let rules = pairs::encode(&case.pairs, &case.fact_text);
        cases.push(Given { case, rules });
    })?;
    let is_alike = |given: &&Given| of_rules(&given.case.pairs).is_empty();
    let alike: Vec<&Given> = cases.iter().filter(is_alike).collect();
    let all_jobs = jobs::all_asked(&alike);
    // All are measured, though one be different.
    let equal = [
        walks::run(&all_jobs),
        whole::run(&alike),
        jobs::run(all_jobs),
        lists::run(&cases),
        trees::run(&cases),
        parses::run(),
        rules::run(),
    ];
    Ok(equal.iter().all(|equal| *equal))
}

/// The nodes of a file: number and kind.
fn nodes(file: &File) -> impl Iterator<Item = (u32, u32)> {
    let heads = (0..).zip(file.tree.iter().step_by(3));
    heads
        .filter(|(_, head)| word_kind(**head) == NODE)
        .map(|(node, head)| (node, syntax_kind(*head)))
}

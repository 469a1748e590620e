//! Matching one node: the library asked for every node with every rule, and held against the judge.

pub mod call;
mod limits;
pub mod questions;
mod tally;

use corpus::case::{Case, CaseMatch};
use generator::{Class, Rng, bent_matches, case, odd_matches, rule_vectors};
use input::{File, Operation, Rules, pairs};
use judge::predicates::of_rules;
use library::matching::{Binding, MatchedNode};

use crate::for_each_case;
use crate::judged::matching::binding;
use call::{Call, Given};
pub use limits::limits;
use questions::Plan;
use tally::{Named, Tally};

/// About the most elements of a generated pattern.
const MOST: usize = 36;
/// Damaged copies of one case, and the most pairs that are asked about of each.
const COPIES: u64 = 6;
const PAIRS: usize = 6;
/// Buffers: one that holds all comments of a match in a corpus, and one that most fit.
const ROOMY: usize = 500;
const SMALL: usize = 40;

/// Every pair, in no range, and what does not exist.
const ALL: Plan = Plan { range: None, buffer: SMALL, most: usize::MAX, others: 1 };
/// One small case of so many is asked for what does not exist.
const OTHERS: usize = 50;

/// Classes that have every small pattern with every small code.
const TINY: [(Class, &str); 4] = [
    (Class::TinySequence, "tiny-sequence"),
    (Class::TinyTokenTree, "tiny-token-tree"),
    (Class::TinyRecord, "tiny-record"),
    (Class::TinyMixed, "tiny-mixed"),
];

/// Every node with every rule of every case of a corpus, in its range and, if it has one, also in none.
/// Where a real build has the matches of a case, the library has the same.
pub fn corpus() -> Result<bool, String> {
    let mut tally = Tally::default();
    let mut real = Real::default();
    for_each_case(|case| {
        let rules = pairs::encode(&case.pairs, &case.fact_text);
        let named = Named { name: &|| case.id.clone(), rules: &rules, file: &case.file };
        let rng = &mut Rng::from_bytes(case.id.as_bytes());
        let range = case.restrict.map(|(start, end)| (start as usize, end as usize));
        let mut found: Vec<(Call, Given)> = Vec::new();
        tally.add(&named, Plan { range, buffer: ROOMY, ..ALL }, rng, |call, given| {
            if given.0.matched != 0 {
                found.push((*call, given.clone()));
            }
        });
        real.add(&case, &found);
        if range.is_some() {
            tally.add(&named, ALL, rng, |_, _| {});
        }
    })?;
    let same = tally.print();
    Ok(real.print() && same)
}

/// How the library's matches compare with those of a real build.
#[derive(Default)]
struct Real {
    equal: u64,
    matches: u64,
    listed: u64,
    different: u64,
}

impl Real {
    fn add(&mut self, case: &Case, found: &[(Call, Given)]) {
        let Some(known) = &case.matches else { return };
        if found.len() == known.len() && known.iter().zip(found).all(is_real) {
            self.equal += 1;
            self.matches += known.len() as u64;
        } else if !of_rules(&case.pairs).is_empty() {
            self.listed += 1;
        } else {
            self.different += 1;
            println!("{}: the matches are not those of the real build", case.id);
        }
    }

    fn print(&self) -> bool {
        let Real { equal, matches, listed, different } = self;
        println!(
            "matches of a real build: {equal} cases equal with {matches} matches, {listed} different by a \
             listed difference, {different} different"
        );
        *different == 0
    }
}

/// Whether a match is the real build's.
fn is_real((known, (call, (answer, out))): (&CaseMatch, &(Call, Given))) -> bool {
    (known.node as usize, known.rule as usize) == (call.node, call.rule)
        && has_bindings(answer, known)
        && out.get(..answer.length) == Some(known.comments.as_bytes())
}

fn has_bindings(answer: &MatchedNode, known: &CaseMatch) -> bool {
    let wanted = known.bindings.iter().copied().map(binding);
    let unbound = std::iter::repeat(Binding::default());
    wanted.chain(unbound).take(answer.bindings.len()).eq(answer.bindings)
}

/// `count` cases of well-formed rules and files. Matches have to go every way.
pub fn generated(seed: u64, count: u64) -> bool {
    let mut tally = Tally::default();
    for index in 0..count {
        let (rules, file) = odd_matches::random(seed, index, MOST);
        let case = Named { name: &|| format!("case {index}"), rules: &rules, file: &file };
        tally.add(&case, ALL, &mut Rng::new(&[seed, index]), |_, _| {});
    }
    let equal = tally.print();
    let missing = tally.missing_ways();
    println!("ways that no match went: {missing:?}");
    equal && missing.is_empty()
}

/// Every small pattern with every small code, of which every `step`th is taken.
pub fn tiny(step: u64) -> bool {
    let mut tally = Tally::default();
    let plan = Plan { others: OTHERS, ..ALL };
    for (class, name) in TINY {
        for index in (0..class.count().unwrap_or(0)).step_by(step.max(1) as usize) {
            let Some(Operation::MatchNode { rules, file, .. }) = case(class, 0, index) else {
                continue;
            };
            let case = Named { name: &|| format!("{name} {index}"), rules: &rules, file: &file };
            tally.add(&case, plan, &mut Rng::new(&[index]), |_, _| {});
        }
    }
    tally.print()
}

/// The vectors of rules, then `count` damaged copies of well-formed rules and files. Every number of
/// the operation has to come up.
pub fn damaged(seed: u64, count: u64) -> bool {
    let (mut whole, mut copies) = (Tally::default(), Tally::default());
    let add = |tally: &mut Tally, name: &str, rules: &Rules, file: &File, index: u64| {
        let rng = &mut Rng::new(&[seed, index]);
        let plan = Plan { buffer: rng.below(SMALL), most: PAIRS, ..ALL };
        tally.add(&Named { name: &|| name.to_owned(), rules, file }, plan, rng, |_, _| {});
    };
    let (mut rules, mut file) = odd_matches::random(seed, 0, MOST);
    for (name, rules, _) in rule_vectors::all().into_iter().chain(rule_vectors::large()) {
        add(&mut copies, name, &rules, &file, 0);
    }
    for index in 0..count {
        if index % COPIES == 0 {
            (rules, file) = odd_matches::random(seed, index / COPIES, MOST);
            add(&mut whole, &format!("case {}", index / COPIES), &rules, &file, index);
        }
        let (mut bent_rules, mut bent_file) = (rules.clone(), file.clone());
        let names = bent_matches::bend_copy(seed, index, &mut bent_rules, &mut bent_file);
        let name = format!("copy {index}, {}", names.join(", "));
        add(&mut copies, &name, &bent_rules, &bent_file, index);
    }
    println!("whole rules and files:");
    let equal = whole.print();
    println!("vectors and damaged copies:");
    let equal = copies.print() & equal;
    let missing = copies.missing_numbers();
    println!("numbers that did not come up: {missing:?}");
    equal && missing.is_empty()
}

//! The time of building and of resolving: the library, and the crate's own source.
//!
//! The library's time has all that it does with the slices that are handed in: it cuts them, checks
//! lists, trees and facts, and makes its own index of facts. The crate's time is from tokens and trees on:
//! its own reading of lists, and the paths of trees. What it is fed is made of words before that: trees
//! with parents, facts in hash maps, texts of tokens. This is given apart, as what comes before. The
//! directory is cut before that and in no time.

use std::hint::black_box;

use generator::{Rng, growing_rules, odd_rules};
use input::{Pair, Rules, pairs};
use judge::{Backing, WholeRules, whole_rules, without_facts};
use library::rules::{build_rules, resolve};
use ssr::{Finder, Workspace};

use super::table;
use super::timing::medians;
use crate::rules::{OPERATIONS, Operation, Question};

/// Generated rules, of which those are timed that resolve.
const GENERATED: u64 = 1_000;
/// About the most elements of the first tree of a generated side.
const MOST: usize = 40;
/// About how many answers for the same rules are compared.
const QUESTIONS: usize = 50;

const ELEMENTS: [usize; 3] = [1_000, 4_000, 16_383];
const LEVELS: usize = 100;
/// Names of a path.
const NAMES: [usize; 4] = [15, 30, 60, 120];
const PAIRS: [usize; 4] = [1, 10, 100, 1_000];

/// Rules that resolve.
struct Case {
    rules: Rules,
    question: Question,
    /// What the crate is fed, by operation.
    fed: [Fed; OPERATIONS.len()],
}

struct Fed {
    pairs: Vec<Pair>,
    fact_text: Vec<u8>,
    workspace: Workspace,
}

/// Whether all have the same answers.
pub fn run() -> bool {
    table::head(
        "Building and resolving: nanoseconds",
        &["", "", "the library", "the crate", "and before it", "ratio", "with what comes before"],
    );
    // All are measured, though one be different.
    [generated(), large(), paths(), many()].iter().all(|equal| *equal)
}

fn generated() -> bool {
    let of_grammar = |index| odd_rules::of_grammar(&mut Rng::new(&[1, index]));
    let odd = |index| odd_rules::random(1, index, MOST);
    let resolve = |rules: &Rules| is_resolved(&whole_rules(rules));
    let cases = |make: &dyn Fn(u64) -> Rules| (0..GENERATED).map(make).filter(resolve).collect();
    let of_grammar = report("rules of a grammar", "calls", None, cases(&of_grammar));
    report("rules that no parser makes", "calls", None, cases(&odd)) && of_grammar
}

fn large() -> bool {
    let wide = ELEMENTS.map(|size| elements("a wide tree", growing_rules::wide(size)));
    let deep = format!("the same in {LEVELS} levels");
    let nested = ELEMENTS.map(|size| elements(&deep, growing_rules::nested(size, LEVELS)));
    wide.iter().chain(&nested).all(|equal| *equal)
}

/// Paths whose qualifiers are looked along again at every name, in trees of about the same size.
fn paths() -> bool {
    let of_names = |names: usize| {
        let most = ELEMENTS[2];
        let plain = growing_rules::qualifiers(most, names);
        let typed = growing_rules::typed_qualifiers(most, names);
        elements(&format!("paths of {names} names, not usable"), plain)
            & elements(&format!("paths of {names} names, with types"), typed)
    };
    NAMES.map(of_names).iter().all(|equal| *equal)
}

fn many() -> bool {
    let pairs = |count| {
        report("`f($a) ==>> g($a)`", "pairs", Some(count), vec![growing_rules::pairs(count)])
    };
    PAIRS.map(pairs).iter().all(|equal| *equal)
}

/// A pattern's tree, by its elements.
fn elements(name: &str, rules: Rules) -> bool {
    let count = rules.directory[7] as usize / 3;
    report(name, "elements", Some(count), vec![rules])
}

/// Prints the times for some rules, divided by a count of what they have; whether all have the same answers.
fn report(name: &str, what: &str, count: Option<usize>, all: Vec<Rules>) -> bool {
    let cases: Option<Vec<Case>> = all.into_iter().map(case).collect();
    let Some(cases) = cases else {
        println!("{name}: different");
        return false;
    };
    let count = count.unwrap_or(cases.len());
    for operation in OPERATIONS {
        let library = || cases.iter().map(|case| operation.in_library(black_box(case))).sum();
        let own = || cases.iter().map(|case| operation.in_crate(black_box(case))).sum();
        let before = || cases.iter().map(|case| operation.before_crate(black_box(case))).sum();
        let times = medians([&library, &own, &before]);
        let [library, own, before] = times.map(|time| time.as_nanos() as f64 / count as f64);
        let mut cells =
            vec![format!("{operation:?}"), format!("{name}, {} {what}", table::count(count))];
        cells.extend([library, own, before].map(|time| format!("{time:.1}")));
        cells.extend([own, own + before].map(|time| format!("{:.2}", library / time)));
        table::row(&cells);
    }
    true
}

/// The rules with what the crate is fed; nothing where the answers are not the same, or none resolves.
fn case(rules: Rules) -> Option<Case> {
    let whole = whole_rules(&rules);
    if !is_resolved(&whole)
        || !OPERATIONS.iter().all(|operation| is_equal(*operation, &rules, &whole))
    {
        return None;
    }
    let question = last(&whole)?;
    let pairs = pairs::decode(&rules)?;
    let bare = pairs.iter().cloned().map(without_facts).collect();
    let fed = [fed(bare, Vec::new())?, fed(pairs, rules.fact_text.clone())?];
    Some(Case { rules, question, fed })
}

/// Whether rules are left, and the crate itself resolves them.
fn is_resolved(whole: &WholeRules) -> bool {
    let is_same = |operation: &Operation| matches!(operation.backing(whole), Backing::Same);
    OPERATIONS.iter().all(is_same) && last(whole).is_some()
}

/// The last element of the last rule's pattern.
fn last(whole: &WholeRules) -> Option<Question> {
    let rules = whole.resolved.answer.as_ref().ok()?;
    let pattern = rules.last()?[0].as_ref()?;
    Some(Question { rule: rules.len() - 1, side: 0, element: pattern.elements - 1 })
}

/// Whether the library has the judged answers, for some of the questions.
fn is_equal(operation: Operation, rules: &Rules, whole: &WholeRules) -> bool {
    let questions = operation.questions(whole);
    let mut some = questions.iter().step_by(1 + questions.len() / QUESTIONS);
    some.all(|question| operation.ask(rules, *question) == Ok(operation.judged(whole, *question)))
}

fn fed(pairs: Vec<Pair>, fact_text: Vec<u8>) -> Option<Fed> {
    let workspace = Workspace::new(&pairs, &fact_text, None).ok()?;
    Some(Fed { pairs, fact_text, workspace })
}

impl Operation {
    fn in_library(self, case: &Case) -> u32 {
        let Question { rule, side, element } = case.question;
        match self {
            Operation::Building => build_rules(&case.rules, rule).found,
            Operation::Resolving => resolve(&case.rules, rule, side, element).found,
        }
    }

    fn in_crate(self, case: &Case) -> u32 {
        let workspace = &case.fed[self as usize].workspace;
        match self {
            Operation::Building => ssr::build(workspace).map_or(0, |rules| rules.len() as u32),
            Operation::Resolving => {
                Finder::without_names(workspace).map_or(0, |finder| finder.rules().len() as u32)
            }
        }
    }

    fn before_crate(self, case: &Case) -> u32 {
        let Fed { pairs, fact_text, .. } = &case.fed[self as usize];
        u32::from(Workspace::new(pairs, fact_text, None).is_ok())
    }
}

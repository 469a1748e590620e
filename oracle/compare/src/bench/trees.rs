//! The time for trees with their facts, the file's and rules': the library, and plain Rust.

use checker::check_tree;
use generator::bent_trees::bend_copy;
use generator::tree_limits::{chains, nested};
use generator::{Rng, trees};
use input::build::{Syntax, fact, node, token};
use input::{File, TreeCheck};

use super::checks::{Check, print_head};
use super::{Given, table};
use crate::plain;

const SIZES: [usize; 3] = [1_000, 4_000, 16_383];

/// What is made of a size: a tree of so many elements, or a tree with so many facts.
type Make = fn(usize) -> File;

const MADE: [(&str, &str, Make); 6] = [
    ("a wide tree", "elements", wide),
    ("a tree of 128 levels", "elements", |size| chains(size, 128)),
    ("each element in the one before, which is 20", "elements", nested),
    ("steps at one element, rising", "facts", rising),
    ("the same, falling", "facts", falling),
    ("the same, in random order", "facts", random),
];

/// Damaged copies that plain Rust has to give the checker's number for.
const COPIES: u64 = 20_000;

const FILES: Check<File> = Check {
    words: |file| file.tree.len() + file.facts.len(),
    library: library::trees::check_file,
    plain: plain::trees::check_file,
};

/// The words of a rule's tree are its list's too.
const RULES: Check<TreeCheck> = Check {
    words: |check| {
        let list = check.rule.as_ref().map_or(0, |rule| rule.list.words.len());
        list + check.tree.tree.len() + check.tree.facts.len()
    },
    library: library::trees::check_tree,
    plain: plain::trees::check_tree,
};

/// Whether all give the same numbers.
pub fn run(cases: &[Given]) -> bool {
    if !is_plain_right() {
        println!("plain Rust makes other checks of trees");
        return false;
    }
    print_head("Checking trees with their facts");
    let files: Vec<&File> = cases.iter().map(|given| &given.case.file).collect();
    let rules: Vec<TreeCheck> = cases.iter().flat_map(rule_trees).collect();
    let rules: Vec<&TreeCheck> = rules.iter().collect();
    let corpus = [
        FILES.print(&format!("{} files", table::count(files.len())), &files),
        RULES
            .print(&format!("{} rules' trees with their lists", table::count(rules.len())), &rules),
    ];
    let made = MADE.map(|(name, what, make)| {
        let name = |size| format!("{name}, {} {what}", table::count(size));
        SIZES.map(|size| FILES.print(&name(size), &[&make(size)]))
    });
    made.iter().flatten().chain(&corpus).all(|equal| *equal)
}

fn is_plain_right() -> bool {
    (0..COPIES).all(|index| {
        let mut copy = trees::random(1, index / 16, 400);
        bend_copy(1, index, &mut copy);
        plain::trees::check_tree(&copy) == check_tree(&copy)
    })
}

/// The trees of a case's rules, but for absent ones.
fn rule_trees(given: &Given) -> impl Iterator<Item = TreeCheck> {
    let case = &given.case;
    let forms = case.pairs.iter().flat_map(|pair| {
        let sides = [0, 1].into_iter();
        sides.flat_map(move |side| (0..5).map(move |form| (pair, side, form)))
    });
    let check = |(pair, side, form)| TreeCheck::of_rule(pair, side, form, &case.fact_text);
    forms.map(check).filter(|check| !check.tree.tree.is_empty())
}

fn wide(elements: usize) -> File {
    file(&node(64, vec![token(1, "x"); elements - 1]))
}

fn file(root: &Syntax) -> File {
    File { tree: root.words(), text: root.text(), facts: Vec::new() }
}

fn steps(order: impl Iterator<Item = usize>) -> File {
    let facts = order.flat_map(|step| fact(3, 0, [step as u32, 9, 0])).collect();
    File { facts, ..file(&node(66, [token(12, "1")])) }
}

fn rising(count: usize) -> File {
    steps(0..count)
}

fn falling(count: usize) -> File {
    steps((0..count).rev())
}

fn random(count: usize) -> File {
    let mut file = rising(count);
    trees::shuffle_facts(&mut Rng::new(&[1]), &mut file.facts);
    file
}

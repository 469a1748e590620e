//! Trees with their facts: the library's number held against the checker's.

use std::collections::BTreeMap;

use checker::check_tree;
use corpus::case::Case;
use generator::bent_trees::{HARMLESS, bend_copy};
use generator::tree_limits::{self, Limit};
use generator::trees;
use input::TreeCheck;

use crate::for_each_case;
use crate::small_stack::{OF_TREES, on_stack};

/// Damaged copies of one tree.
const COPIES: u64 = 16;
/// The most elements of a tree that is damaged.
const MOST: usize = 1_500;

/// The numbers that a table tells apart; those of a list are one.
const NUMBERS: [&str; 6] = ["0", "1-13", "18", "19", "20", "21"];

/// The name of trees that are no copies.
const WHOLE: &str = "not damaged";

fn column(number: u32) -> usize {
    match number {
        0 => 0,
        1..=13 => 1,
        _ => number as usize - 16,
    }
}

#[derive(Clone, Copy, Default)]
struct Row {
    counts: [u64; NUMBERS.len()],
    /// Of damaged copies, how many have another number than the whole tree.
    changed: u64,
}

/// How often each number of the checker came up under a name, and what is different.
#[derive(Default)]
struct Tally {
    rows: BTreeMap<&'static str, Row>,
    different: u64,
    /// The smallest tree with a different number, and what is said of it.
    smallest: Option<(TreeCheck, String)>,
}

impl Tally {
    /// Compares the numbers of a tree: the checker's.
    fn add(&mut self, name: &'static str, check: &TreeCheck) -> u32 {
        let (wanted, found) = (check_tree(check), library::trees::check_tree(check));
        self.rows.entry(name).or_default().counts[column(wanted)] += 1;
        if wanted != found {
            self.different += 1;
            let length = |check: &TreeCheck| check.tree.tree.len() + check.tree.facts.len();
            if self.smallest.as_ref().is_none_or(|(known, _)| length(check) < length(known)) {
                let what = format!("{name}: the library has {found}, the checker {wanted}");
                self.smallest = Some((check.clone(), what));
            }
        }
        wanted
    }

    /// Compares a damaged copy of a tree with the number `whole`.
    fn add_copy(&mut self, name: &'static str, copy: &TreeCheck, whole: u32) {
        if self.add(name, copy) != whole {
            self.rows.entry(name).or_default().changed += 1;
        }
    }

    /// Prints the table: whether all numbers are equal.
    fn print(&self) -> bool {
        println!("{:42}{}", "", NUMBERS.map(|number| format!("{number:>9}")).concat());
        for (name, row) in &self.rows {
            println!("{name:42}{}", row.counts.map(|count| format!("{count:9}")).concat());
        }
        let count: u64 = self.rows.values().flat_map(|row| row.counts).sum();
        println!("{count} trees: {} equal, {} different", count - self.different, self.different);
        if let Some((check, what)) = &self.smallest {
            println!("the smallest: {what}: {check:x?}");
        }
        self.different == 0
    }

    /// Prints which damages changed no number: whether the harmless ones are among them.
    fn print_idle(&self) -> bool {
        let is_idle = |name: &&str| self.rows.get(name).is_none_or(|row| row.changed == 0);
        let names = self.rows.keys().copied().filter(|name| *name != WHOLE);
        let idle: Vec<&str> = names.filter(is_idle).collect();
        println!("no number was changed by: {}", idle.join("; "));
        HARMLESS.iter().all(is_idle)
    }
}

/// Trees at the limits, then `count` damaged copies of well-formed trees.
pub fn damaged(seed: u64, count: u64) -> bool {
    let limits = limits();
    let mut tally = Tally::default();
    let (mut whole, mut number) = (TreeCheck::default(), 0);
    let mut files = 0;
    for index in 0..count {
        if index % COPIES == 0 {
            whole = trees::random(seed, index / COPIES, MOST);
            number = tally.add(WHOLE, &whole);
        }
        let mut copy = whole.clone();
        let names = bend_copy(seed, index, &mut copy);
        let name = if let [name] = names[..] { name } else { "damaged several times" };
        tally.add_copy(name, &copy, number);
        files += u64::from(copy.rule.is_none());
    }
    println!("{files} damaged copies of the file's trees, {} of rules' trees", count - files);
    let (equal, harmless) = (tally.print(), tally.print_idle());
    limits && equal && harmless
}

/// Every tree at a limit has the expected number, in the library on a small stack.
fn limits() -> bool {
    let limits = tree_limits::all();
    let number = |(_, check, _): &Limit| library::trees::check_tree(check);
    let numbers: Vec<u32> = on_stack(OF_TREES, || limits.iter().map(number).collect());
    let mut different = 0;
    for ((name, check, wanted), found) in limits.iter().zip(numbers) {
        let whose = if check.rule.is_some() { "a rule's" } else { "the file's" };
        println!("{wanted:3}  {whose}: {name}");
        let checker = check_tree(check);
        if (checker, found) != (*wanted, *wanted) {
            different += 1;
            println!("     different: the library has {found}, the checker {checker}");
        }
    }
    println!("{} limits, on a stack of {OF_TREES} bytes: {different} different", limits.len());
    different == 0
}

/// Every tree of a corpus passes where its list does.
pub fn corpus() -> Result<bool, String> {
    let mut tally = Tally::default();
    let mut refused = 0;
    for_each_case(|case| {
        for (name, check) in checks(&case) {
            let number = tally.add(name, &check);
            if number > 13 {
                refused += 1;
                println!("{}: {name}: {number}", case.id);
            }
        }
    })?;
    let equal = tally.print();
    println!("{refused} trees refused by themselves");
    Ok(equal && refused == 0)
}

/// The file's tree of a case, and the trees of its rules, absent ones too.
fn checks(case: &Case) -> Vec<(&'static str, TreeCheck)> {
    let mut checks = vec![("the file's", TreeCheck { tree: case.file.clone(), rule: None })];
    for pair in &case.pairs {
        for (side, of) in [(0, &pair.pattern), (1, &pair.template)] {
            checks.extend((0..of.trees.len()).map(|form| {
                let present = !of.trees[form].words.is_empty();
                let name = if present { NAMES[side as usize] } else { "a rule's, absent" };
                (name, TreeCheck::of_rule(pair, side, form, &case.fact_text))
            }));
        }
    }
    checks
}

const NAMES: [&str; 2] = ["a pattern's", "a template's"];

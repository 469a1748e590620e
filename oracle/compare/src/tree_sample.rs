//! Records of trees with facts for the sample: small ones, damaged in every way, and at the limit
//! of depth.

use std::collections::BTreeMap;

use checker::check_tree;
use generator::bent_trees::bend_copy;
use generator::{tree_limits, trees};
use input::{RuleSide, TreeCheck};

use crate::sample::{bytes, record, trimmed, words};

/// The numbers of the operations in a record.
const CHECK_FILE: u32 = 4;
const CHECK_RULE_TREE: u32 = 5;

/// The most words of a list, a tree or facts, for which crates/replay has room for 512: a tree of
/// depth 129 has 387.
const WORDS: usize = 387;
/// About the most elements of a generated tree, and the most words of it or of its facts.
const ELEMENTS: usize = 16;
const FEW_WORDS: usize = 72;
/// The most records of an operation.
const COUNT: usize = 150;
/// The most with the same damage and the same answer.
const SHARE: usize = 3;
/// Copies that are looked through.
const COPIES: u64 = 100_000;

pub fn make(seed: u64) -> Vec<u8> {
    let limits = tree_limits::all().into_iter().map(|(_, check, _)| check);
    let mut checks: Vec<TreeCheck> = limits.filter(|check| is_short(check, WORDS)).collect();
    let mut met: BTreeMap<(bool, &str, u32), usize> = BTreeMap::new();
    for index in 0..COPIES {
        let mut copy = trees::random(seed, index / 4, ELEMENTS);
        let [name] = bend_copy(seed, index, &mut copy)[..] else { continue };
        let rule = copy.rule.is_some();
        let full = checks.iter().filter(|check| check.rule.is_some() == rule).count() >= COUNT;
        let met = met.entry((rule, name, check_tree(&copy))).or_default();
        if !full && *met < SHARE && is_short(&copy, FEW_WORDS) {
            *met += 1;
            checks.push(copy);
        }
    }
    checks.iter().flat_map(tree_record).collect()
}

fn is_short(check: &TreeCheck, words: usize) -> bool {
    let list = check.rule.as_ref().map_or(0, |rule| rule.list.words.len());
    let longest = list.max(check.tree.tree.len()).max(check.tree.facts.len());
    longest <= words && check.tree.text.len() <= 4 * words
}

fn tree_record(check: &TreeCheck) -> Vec<u8> {
    let tree = [&words(&check.tree.tree), &check.tree.text, &words(&check.tree.facts)];
    let [tree, text, facts] = tree.map(Vec::as_slice);
    let answer = trimmed(bytes([check_tree(check)]));
    match &check.rule {
        None => record(CHECK_FILE, &[tree, text, facts, &answer]),
        Some(RuleSide { given, list, side, fact_text }) => {
            let (given, side) = (bytes([*given]), bytes([*side]));
            let list_words = words(&list.words);
            let parts: [&[u8]; 9] =
                [&given, &list_words, &list.text, &side, tree, text, facts, fact_text, &answer];
            record(CHECK_RULE_TREE, &parts)
        }
    }
}

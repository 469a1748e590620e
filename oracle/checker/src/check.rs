//! Every refusal that stands before the work of an operation, in document 01's order.

use crate::facts::{Facts, Place};
use crate::lists::{read_pair, read_pairs};
use crate::lowest::Lowest;
use crate::parses::read_parses;
use crate::rules::{Rule, build, check_rule_tree, read_trees, resolve};
use crate::tokens::read_tokens;
use crate::tree::Tree;
use input::{File, Job, Operation, Parses, Rules, TreeCheck, pairs, used};
use std::collections::BTreeSet;

/// What refuses an operation before its work. For the walk its second 24 and 28 are not
/// looked at, since matching comes before them: see `check_parses`.
pub fn check(operation: &Operation) -> Result<(), u32> {
    match operation {
        Operation::ReadTokens { list } => read_tokens(list).map(drop),
        Operation::CheckPair { pattern, template } => {
            read_pair(pattern, template.as_ref()).map(drop)
        }
        Operation::RawCode { list, buffer } => {
            let code = read_tokens(list)?.raw_code();
            if code.len() > used(*buffer) { Err(16) } else { Ok(()) }
        }
        Operation::Build { rules, .. } => built_rules(rules).map(drop),
        Operation::Resolve { rules, .. } => checked_rules(rules, None).map(drop),
        Operation::MatchNode { rules, file, node, rule, range, .. } => {
            let rules = checked_rules(rules, Some(file))?;
            let wrong = !names_node(file, *node) || *rule as usize >= rules.len();
            if wrong || is_backward(*range) { Err(23) } else { Ok(()) }
        }
        Operation::Job(job) => check_job(job),
        Operation::Walk(job) => checked_walk(job).map(drop),
    }
}

/// 28.
pub fn check_parses(parses: &Parses) -> Result<(), u32> {
    read_parses(parses).map(drop)
}

/// The rules left of building: 1 to 15, 18 to 20, 17.
pub fn built_rules(rules: &Rules) -> Result<Vec<Rule>, u32> {
    let pairs = pairs::decode(rules).ok_or(1u32)?;
    let lists = read_pairs(&pairs)?;
    let trees = read_trees(&pairs, &lists, None)?;
    build(&lists, trees)
}

/// The rules left, resolved, where a file is given or none: 1 to 15, 18 to 21, 17, 22.
pub fn checked_rules(rules: &Rules, file: Option<&File>) -> Result<Vec<Rule>, u32> {
    let pairs = pairs::decode(rules).ok_or(1u32)?;
    let lists = read_pairs(&pairs)?;
    let mut lowest = Lowest::default();
    let trees = lowest.keep(read_trees(&pairs, &lists, Some(rules.fact_text.len())));
    if let Some(file) = file {
        lowest.keep(checked_file(file));
    }
    lowest.end()?;
    let mut rules = build(&lists, trees.expect("no tree refused"))?;
    resolve(&mut rules)?;
    Ok(rules)
}

/// The file's tree with its facts: 18 to 21.
pub fn checked_file(file: &File) -> Result<(Tree, Facts), u32> {
    let tree = Tree::read(&file.tree, &file.text, None)?;
    let facts = Facts::read(&file.facts, Some(&tree), Place::File, 0)?;
    Ok((tree, facts))
}

/// The number of a tree with its facts that is checked by itself; 0 where nothing refuses.
pub fn check_tree(check: &TreeCheck) -> u32 {
    let result = match &check.rule {
        None => checked_file(&check.tree).map(drop),
        Some(beside) => check_rule_tree(&check.tree, beside),
    };
    result.err().unwrap_or(0)
}

fn check_job(job: &Job) -> Result<(), u32> {
    checked_candidates(job)?;
    check_parses(&job.parses)
}

/// The rules left of a job that nothing refuses before its parses are looked at: 1 to 27.
pub fn checked_candidates(job: &Job) -> Result<Vec<Rule>, u32> {
    let rules = checked_rules(&job.rules, Some(&job.file))?;
    // A lone last word is a candidate without a rule.
    if rules.len() > 16 || job.candidates.len().div_ceil(2) > 1024 {
        return Err(24);
    }
    let (candidates, lone) = job.candidates.as_chunks::<2>();
    let named = candidates
        .iter()
        .all(|&[node, rule]| names_node(&job.file, node) && (rule as usize) < rules.len());
    if !named || !lone.is_empty() || is_backward(job.range) {
        return Err(25);
    }
    if candidates.iter().collect::<BTreeSet<_>>().len() != candidates.len() {
        return Err(26);
    }
    check_templates(&rules)?;
    Ok(rules)
}

/// The rules left of a walk that nothing refuses before its nodes are tried: 1 to 25 and 27.
pub fn checked_walk(job: &Job) -> Result<Vec<Rule>, u32> {
    let rules = checked_rules(&job.rules, Some(&job.file))?;
    if rules.len() > 16 {
        return Err(24);
    }
    if is_backward(job.range) {
        return Err(25);
    }
    check_templates(&rules)?;
    Ok(rules)
}

fn check_templates(rules: &[Rule]) -> Result<(), u32> {
    if rules.iter().any(|rule| rule.template.is_none()) { Err(27) } else { Ok(()) }
}

/// Whether a number names a node of the file's tree, which has passed.
fn names_node(file: &File, node: u32) -> bool {
    let word = file.tree.get((node as usize).saturating_mul(3));
    word.is_some_and(|&word| input::words::word_kind(word) == input::words::NODE)
}

fn is_backward(range: Option<(u32, u32)>) -> bool {
    range.is_some_and(|(start, end)| start > end)
}

//! Random well-formed operations over rules and a file.

use crate::derive::{Filler, vary};
use crate::facts::file_facts;
use crate::grammar::Grammar;
use crate::kinds::*;
use crate::pairs::draft;
use crate::parts::*;
use crate::rng::Rng;
use input::build::{Syntax, node, token};
use input::pairs::encode;
use input::{File, Job, Operation, Rules};

/// A job or a walk.
pub fn job(rng: &mut Rng) -> Operation {
    let (rules, file) = rules_and_file(rng);
    let mut job = Job { rules, file, ..Job::default() };
    job.candidates = candidates(rng, &job);
    job.range = range(rng, &job.file);
    job.buffer = buffer(rng);
    // A pattern that is a lone placeholder matches every node, one match inside the other: in
    // the crate the work doubles with each, so it gets few candidates.
    let known = checker::checked_rules(&job.rules, None).unwrap_or_default();
    let lone = known.iter().any(|rule| rule.placeholder(&rule.pattern.tree.text).is_some());
    if lone {
        job.candidates.truncate(16);
    }
    if lone || rng.chance(70) { Operation::Job(job) } else { Operation::Walk(job) }
}

/// Matching one node, mostly one of the pattern's kind.
pub fn match_node(rng: &mut Rng) -> Operation {
    let (rules, file) = rules_and_file(rng);
    let known = checker::checked_rules(&rules, None).unwrap_or_default();
    let mut rule = rng.below(known.len().max(1)) as u32;
    let mut among = nodes(&file);
    if let Some(known) = known.get(rule as usize)
        && rng.chance(85)
    {
        among = likely_nodes(&file, known.pattern.tree.elements[0].kind).unwrap_or(among);
    }
    let mut node = *rng.pick(&among);
    let elements = file.tree.len() / 3;
    match rng.below(100) {
        0 => node = rng.below(elements) as u32,
        1 => node = *rng.pick(&[elements as u32, u32::MAX, 0x5555_5556]),
        2 => rule = *rng.pick(&[known.len() as u32, u32::MAX]),
        _ => {}
    }
    let range = range(rng, &file);
    let buffer = *rng.pick(&[64, 64, 64, 4096, 0, 1, 4, 5, 6, 10, 1_048_577]);
    Operation::MatchNode { rules, file, node, rule, range, buffer }
}

/// The nodes of a pattern's kind, with method calls for a call; nothing if there are none.
fn likely_nodes(file: &File, kind: u32) -> Option<Vec<u32>> {
    let mut found = nodes(file);
    found.retain(|&node| {
        let other = input::words::syntax_kind(file.tree[3 * node as usize]);
        other == kind || (kind == CALL_EXPR && other == METHOD_CALL_EXPR)
    });
    (!found.is_empty()).then_some(found)
}

pub fn build(rng: &mut Rng) -> Operation {
    let rules = rules(rng);
    let rule = number(rng, rule_count(&rules) + 1);
    Operation::Build { rules, rule }
}

/// Asks mostly for a path or a call.
pub fn resolve(rng: &mut Rng) -> Operation {
    let rules = rules(rng);
    let known = checker::checked_rules(&rules, None).unwrap_or_default();
    let (mut rule, mut element) = (number(rng, known.len() + 1), number(rng, 30));
    let side = if rng.chance(2) { 2 + number(rng, 3) } else { rng.below(2) as u32 };
    if !known.is_empty() && rng.chance(85) {
        rule = rng.below(known.len()) as u32;
        let known = &known[rule as usize];
        let tree = known.template.as_ref().filter(|_| side == 1).unwrap_or(&known.pattern);
        let wanted = *rng.pick(&[PATH, CALL_EXPR]);
        let count = tree.tree.elements.len();
        let found: Vec<usize> = (0..count).filter(|&i| tree.tree.is_node(i, wanted)).collect();
        element = if found.is_empty() { rng.below(count) } else { *rng.pick(&found) } as u32;
    }
    Operation::Resolve { rules, rule, side, element }
}

/// A small number, seldom a large one.
fn number(rng: &mut Rng, limit: usize) -> u32 {
    if rng.chance(2) { rng.number() as u32 } else { rng.below(limit) as u32 }
}

fn rules(rng: &mut Rng) -> Rules {
    let draft = draft(rng);
    encode(&draft.pairs, &draft.fact_text)
}

pub fn rules_and_file(rng: &mut Rng) -> (Rules, File) {
    let draft = draft(rng);
    let root = code(rng, &draft.patterns);
    let file = File { tree: root.words(), text: root.text(), facts: file_facts(rng, &root) };
    (encode(&draft.pairs, &draft.fact_text), file)
}

/// A file's tree: filled patterns and other expressions.
fn code(rng: &mut Rng, patterns: &[Syntax]) -> Syntax {
    let mut children = Vec::new();
    for _ in 0..rng.between(1, 4) {
        let mut piece = piece(rng, patterns);
        if rng.chance(40) {
            piece = node(EXPR_STMT, [piece, mark(";")]);
        }
        children.push(piece);
        match rng.below(4) {
            0 => children.push(token(WHITESPACE, "\n")),
            1 => children.push(token(COMMENT, "/*between*/")),
            2 => children.push(node(EXPR_STMT, [])),
            _ => {}
        }
    }
    node(SOURCE_FILE, children)
}

/// A filled pattern, or any expression.
fn piece(rng: &mut Rng, patterns: &[Syntax]) -> Syntax {
    let piece = if rng.chance(80) {
        Filler { rng, patterns, budget: 100, nest: 4 }.instance()
    } else {
        Grammar::code(rng).expression(2)
    };
    vary(rng, piece)
}

/// The numbers of the file's nodes.
pub fn nodes(file: &File) -> Vec<u32> {
    let elements = file.tree.iter().step_by(3);
    (0..).zip(elements).filter(|(_, word)| *word >> 28 == 1).map(|(node, _)| node).collect()
}

/// How many rules are left of these; none where they refuse.
pub fn rule_count(rules: &Rules) -> usize {
    checker::checked_rules(rules, None).map_or(0, |rules| rules.len())
}

/// All pairs of nodes and rules in any order, or some of them; seldom a wrong list.
pub fn candidates(rng: &mut Rng, job: &Job) -> Vec<u32> {
    let mut pairs = Vec::new();
    let count = rule_count(&job.rules) as u32;
    for node in nodes(&job.file) {
        pairs.extend((0..count).map(|rule| [node, rule]));
    }
    rng.shuffle(&mut pairs);
    let most = if rng.chance(75) { 1024 } else { rng.below(pairs.len() + 1) };
    pairs.truncate(most);
    if !pairs.is_empty() && rng.chance(3) {
        pairs.push(pairs[0]);
        rng.shuffle(&mut pairs);
    }
    if rng.chance(3) {
        let elements = job.file.tree.len() as u32 / 3;
        let node = *rng.pick(&[0, elements - 1, elements, u32::MAX, 0x5555_5556]);
        pairs.push([node, *rng.pick(&[0, count, u32::MAX])]);
    }
    let mut words = pairs.concat();
    if rng.chance(1) {
        words.push(0);
    }
    words
}

/// Mostly none; else a part of the file, or more than it; seldom backward.
pub fn range(rng: &mut Rng, file: &File) -> Option<(u32, u32)> {
    if rng.chance(88) {
        return None;
    }
    let length = file.text.len() + 2;
    let (a, b) = (rng.below(length) as u32, rng.below(length) as u32);
    let end = if rng.chance(10) { u32::MAX } else { a.max(b) };
    Some(if rng.chance(4) { (end, a.min(b)) } else { (a.min(b), end) })
}

fn buffer(rng: &mut Rng) -> usize {
    match rng.below(100) {
        0..=84 => 4096,
        85..=97 => rng.below(80),
        _ => *rng.pick(&[0, 1, 11, 12, 13, 1_048_575, 1_048_576, 1_048_580]),
    }
}

/// The buffer sizes at which an operation with a result of this length is worth running again.
pub fn awkward_buffers(length: usize) -> Vec<usize> {
    let mut sizes = vec![0, 1, 11, 12, 13, length, length + 1, 1_048_576, 1_048_580];
    sizes.extend(length.checked_sub(1));
    sizes.sort_unstable();
    sizes.dedup();
    sizes
}

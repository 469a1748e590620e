//! Damaged copies of well-formed operations: words, lengths, ranges and sizes bent.

use crate::jobs;
use crate::limits;
use crate::rng::Rng;
use crate::tokens;
use input::build::add_parse;
use input::pairs::{decode, encode};
use input::{File, Job, Operation, Pair, Parses, Rules, Side, TokenList};

/// A damaged copy of a random operation.
pub fn random(rng: &mut Rng) -> Operation {
    let mut operation = match rng.below(100) {
        0..=54 => jobs::job(rng),
        55..=69 => jobs::match_node(rng),
        70..=77 => jobs::build(rng),
        78..=87 => jobs::resolve(rng),
        _ => tokens::random(rng),
    };
    if let Operation::Job(job) | Operation::Walk(job) = &mut operation {
        some_parses(rng, &mut job.parses);
    }
    for _ in 0..*rng.pick(&[1, 1, 1, 1, 2, 3]) {
        damage(rng, &mut operation);
    }
    operation
}

/// A few parses of texts that nothing asks for.
fn some_parses(rng: &mut Rng, parses: &mut Parses) {
    for text in &[&b"x"[..], b"x + y", b""][..rng.below(4)] {
        let kind = *rng.pick(&[64, 65, 1025]);
        let end = text.len() as u32;
        let ranges = [(0, end), (0, end / 2), (end, end)];
        add_parse(parses, kind, text, &ranges[..rng.below(4)]);
    }
}

fn damage(rng: &mut Rng, operation: &mut Operation) {
    match operation {
        Operation::ReadTokens { list } => damage_list(rng, list),
        Operation::CheckPair { pattern, template } => match template {
            Some(template) if rng.chance(50) => damage_list(rng, template),
            _ => damage_list(rng, pattern),
        },
        Operation::RawCode { list, buffer } => {
            if rng.chance(30) {
                *buffer = rng.below(40);
            } else {
                damage_list(rng, list);
            }
        }
        Operation::Build { rules, .. } | Operation::Resolve { rules, .. } => {
            damage_rules(rng, rules);
        }
        Operation::MatchNode { rules, file, node, rule, range, .. } => match rng.below(10) {
            0 => *node = bent(rng, *node),
            1 => *rule = bent(rng, *rule),
            2 => *range = Some((bent(rng, 0), bent(rng, 9))),
            3..=5 => damage_rules(rng, rules),
            _ => damage_file(rng, file),
        },
        Operation::Job(job) | Operation::Walk(job) => damage_job(rng, job),
    }
}

fn damage_job(rng: &mut Rng, job: &mut Job) {
    match rng.below(100) {
        0..=29 => damage_rules(rng, &mut job.rules),
        30..=59 => damage_file(rng, &mut job.file),
        60..=72 => words(rng, &mut job.candidates, 2),
        73..=79 => job.range = Some((bent(rng, 0), bent(rng, 9))),
        80..=92 => {
            if rng.chance(80) {
                words(rng, &mut job.parses.words, 3);
            } else {
                bytes(rng, &mut job.parses.text);
            }
        }
        93..=97 => job.buffer = rng.below(30),
        98 => limits::overgrow_candidates(job),
        _ => limits::overgrow_rules(job),
    }
}

/// Damages a token list.
pub fn damage_list(rng: &mut Rng, list: &mut TokenList) {
    match rng.below(20) {
        0..=7 if !list.words.is_empty() => {
            // Another kind for a token: the list stays well-formed.
            let place = rng.below(list.words.len());
            let kind = rng.between(1, 12) as u32;
            list.words[place] = (list.words[place] & 0xf000_ffff) | kind << 16;
        }
        8..=16 => words(rng, &mut list.words, 1),
        _ => bytes(rng, &mut list.text),
    }
}

fn damage_file(rng: &mut Rng, file: &mut File) {
    match rng.below(100) {
        0..=29 => words(rng, &mut file.tree, 3),
        30..=49 => other_kind(rng, &mut file.tree),
        50..=64 => words(rng, &mut file.facts, 4),
        65..=84 => other_value(rng, &mut file.facts),
        85..=96 => bytes(rng, &mut file.text),
        _ => limits::overgrow_file(rng, file),
    }
}

/// Another kind for an element, which leaves the tree well-formed but for a token of kind 0.
fn other_kind(rng: &mut Rng, tree: &mut [u32]) {
    let elements = tree.len() / 3;
    if elements > 0 {
        let word = &mut tree[3 * rng.below(elements)];
        let node = *word >> 28 == 1;
        let kinds = if node { &[1, 2, 3, 8, 64, 65, 66, 67][..] } else { &[0, 1, 2, 3, 4, 5, 11] };
        *word = (*word & 0xf000_ffff) | *rng.pick(kinds) << 16;
    }
}

/// Another small value, element or sort for a fact.
fn other_value(rng: &mut Rng, facts: &mut [u32]) {
    if facts.is_empty() {
        return;
    }
    let at = rng.below(facts.len());
    let word = facts[at];
    let small = rng.below(12) as u32;
    facts[at] = match at % 4 {
        0 if rng.chance(50) => (word & 0xf0ff_ffff) | (small % 8) << 24,
        0 => (word & 0xff00_0000) | small,
        _ => (word & 0xf000_0000) | small,
    };
}

/// The rules with a fault in what a pair is made of, or in the directory itself.
fn damage_rules(rng: &mut Rng, rules: &mut Rules) {
    let pairs = decode(rules).filter(|pairs| !pairs.is_empty());
    let Some(mut pairs) = pairs.filter(|_| rng.chance(80)) else {
        return damage_directory(rng, rules);
    };
    let place = rng.below(pairs.len());
    damage_pair(rng, &mut pairs[place]);
    *rules = encode(&pairs, &rules.fact_text);
}

fn damage_directory(rng: &mut Rng, rules: &mut Rules) {
    match rng.below(10) {
        0..=5 => words(rng, &mut rules.directory, 27),
        6..=7 => words(rng, &mut rules.words, 1),
        8 => bytes(rng, &mut rules.bytes),
        _ => bytes(rng, &mut rules.fact_text),
    }
}

fn damage_pair(rng: &mut Rng, pair: &mut Pair) {
    if rng.chance(4) {
        pair.has_template = !pair.has_template;
        if !pair.has_template {
            // Lengths of a template that is not given would be a fault of the directory.
            pair.template.list = TokenList::default();
            pair.template.code = Vec::new();
        }
        return;
    }
    let side =
        if pair.has_template && rng.chance(50) { &mut pair.template } else { &mut pair.pattern };
    damage_side(rng, side);
}

fn damage_side(rng: &mut Rng, side: &mut Side) {
    let forms: Vec<usize> = (0..5).filter(|&f| !side.trees[f].words.is_empty()).collect();
    let form = if forms.is_empty() { rng.below(5) } else { *rng.pick(&forms) };
    match rng.below(100) {
        0..=24 => damage_list(rng, &mut side.list),
        25..=31 => bytes(rng, &mut side.code),
        32..=46 => words(rng, &mut side.trees[form].words, 3),
        47..=61 => other_kind(rng, &mut side.trees[form].words),
        62..=74 => words(rng, &mut side.trees[form].facts, 4),
        75..=89 => other_value(rng, &mut side.trees[form].facts),
        90..=93 => side.trees[form].words.clear(),
        94..=96 => side.trees[form].facts.clear(),
        97..=98 => side.trees.swap(form, rng.below(5)),
        _ => side.trees[form].words = limits::deep_tree(129).words(),
    }
}

/// Damages a word or a block of `stride` words.
pub fn words(rng: &mut Rng, words: &mut Vec<u32>, stride: usize) {
    if words.is_empty() {
        words.extend((0..rng.between(1, stride)).map(|_| rng.number() as u32));
        return;
    }
    let at = rng.below(words.len());
    let other = rng.below(words.len());
    let block = at / stride * stride;
    let end = (block + stride).min(words.len());
    match rng.below(100) {
        0..=49 => words[at] = bent(rng, words[at]),
        50..=59 => words[at] = words[other],
        60..=66 => words.swap(at, other),
        67..=72 => drop(words.remove(at)),
        73..=78 => drop(words.drain(block..end)),
        79..=88 => {
            let copy = words[block..end].to_vec();
            let to = if rng.chance(50) { words.len() } else { block };
            words.splice(to..to, copy);
        }
        89..=93 => words.insert(at, rng.number() as u32),
        94..=97 => words.truncate(at),
        _ => words.push(words[0]),
    }
}

/// A word changed a little or a lot.
fn bent(rng: &mut Rng, word: u32) -> u32 {
    match rng.below(10) {
        0 => word.wrapping_add(1),
        1 => word.wrapping_sub(1),
        2 => word ^ (1 << rng.below(32)),
        3 => word ^ (1 << rng.below(5)),
        4 => (word & 0x0fff_ffff) | (rng.number() as u32) << 28,
        5 => word.wrapping_add(1 << 16),
        6 => word.wrapping_sub(1 << 16),
        7 => word & 0xf000_0000,
        8 => word | 0x0fff_ffff,
        _ => rng.number() as u32,
    }
}

/// Damages a text.
pub fn bytes(rng: &mut Rng, bytes: &mut Vec<u8>) {
    if bytes.is_empty() {
        bytes.push(b'!');
        return;
    }
    let at = rng.below(bytes.len());
    match rng.below(4) {
        0 => bytes[at] ^= 1 << rng.below(8),
        1 => drop(bytes.remove(at)),
        2 => bytes.insert(at, bytes[at]),
        _ => bytes.truncate(at),
    }
}

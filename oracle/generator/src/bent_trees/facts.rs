//! Damage to facts.

use super::words::{other_number, place, with_value};
use crate::rng::Rng;
use input::build::{element_word, fact};
use input::words::{FACT, NODE, fact_element, fact_sort, low16, value, word, word_kind};
use input::{File, RuleSide, TreeCheck};

/// The places of the facts of a sort.
fn places_of(facts: &[u32], sort: u32) -> Vec<usize> {
    let heads = (0..facts.len() / 4).map(|fact| 4 * fact);
    heads.filter(|&at| fact_sort(facts[at]) == sort).collect()
}

/// The place of a fact. Each sort is as likely, since most facts are of one.
fn fact_place(rng: &mut Rng, facts: &[u32]) -> Option<usize> {
    let any = place(rng, facts, 4)?;
    let places = places_of(facts, rng.below(8) as u32);
    Some(if places.is_empty() { any } else { *rng.pick(&places) })
}

/// Another value for word `field` of a fact.
pub fn bend_field(
    rng: &mut Rng,
    facts: &mut [u32],
    field: usize,
    other: fn(&mut Rng, u32) -> u32,
) -> bool {
    let Some(at) = fact_place(rng, facts) else { return false };
    facts[at + field] = other(rng, facts[at + field]);
    true
}

pub fn other_sort(rng: &mut Rng, old: u32) -> u32 {
    fact_word(*rng.pick(&[0, 1, 2, 3, 4, 5, 6, 7, 8, 15]), fact_element(old))
}

fn fact_word(sort: u32, element: u32) -> u32 {
    word(FACT, sort << 24 | element & 0x00ff_ffff)
}

pub fn other_value(rng: &mut Rng, old: u32) -> u32 {
    let small = rng.below(9) as u32;
    with_value(old, other_number(rng, value(old), small, 7))
}

pub fn other_element(rng: &mut Rng, file: &mut File) -> bool {
    let Some(at) = fact_place(rng, &file.facts) else { return false };
    let old = file.facts[at];
    let elements = file.tree.len() / 3;
    let any = rng.below(elements + 1) as u32;
    let element = other_number(rng, fact_element(old), any, elements);
    file.facts[at] = fact_word(fact_sort(old), element);
    true
}

/// A fact a second time, in half of the cases with another value outside its key.
pub fn repeat_fact(rng: &mut Rng, facts: &mut Vec<u32>) -> bool {
    let Some(at) = fact_place(rng, facts) else { return false };
    let mut copy = facts[at..at + 4].to_vec();
    if rng.chance(50) {
        let field = if [3, 7].contains(&fact_sort(copy[0])) { 2 } else { 1 };
        copy[field] = other_value(rng, copy[field]);
    }
    let to = place(rng, facts, 4).unwrap_or(at);
    facts.splice(to..to, copy);
    true
}

/// Where it is the last step, the list stays well-formed.
pub fn drop_step(rng: &mut Rng, facts: &mut Vec<u32>) -> bool {
    change_fact(rng, facts, 3, |facts, at| drop(facts.drain(at..at + 4)))
}

/// Changes one fact of a sort; false where there is none.
pub fn change_fact(
    rng: &mut Rng,
    facts: &mut Vec<u32>,
    sort: u32,
    change: impl FnOnce(&mut Vec<u32>, usize),
) -> bool {
    let places = places_of(facts, sort);
    if places.is_empty() {
        return false;
    }
    let at = *rng.pick(&places);
    change(facts, at);
    true
}

/// One fact instead of all: its element of the kind that its sort names or of one beside it, its
/// values the last that are allowed or the next.
pub fn fact_at_edge(rng: &mut Rng, copy: &mut TreeCheck) -> bool {
    let Some(at) = place(rng, &copy.tree.tree, 3) else { return false };
    let sort = any_sort(rng, copy.rule.as_ref());
    let head = &mut copy.tree.tree[at];
    if word_kind(*head) == NODE {
        let kinds: &[u32] = match sort {
            2 => &[65, 65, 64, 66],
            3 => &[64, 1023, 63, 1024],
            5 => &[9, 9, 9, 8],
            _ => &[2, 2, 2, 1],
        };
        *head = element_word(NODE, *rng.pick(kinds), low16(*head));
    }
    let (element, size) = (at / 3, low16(*head));
    let fact_text = copy.rule.as_ref().map_or(0, |rule| rule.fact_text.len()) as u32;
    let values = edge_values(rng, sort, [element as u32, size, fact_text]);
    copy.tree.facts = fact(sort, element, values).to_vec();
    true
}

/// Mostly one that may stand on the tree.
fn any_sort(rng: &mut Rng, rule: Option<&RuleSide>) -> u32 {
    let allowed: &[u32] = match rule.map(|rule| rule.side) {
        None => &[0, 2, 3, 5, 6],
        Some(0) => &[1, 4],
        Some(_) => &[1, 7],
    };
    if rng.chance(75) { *rng.pick(allowed) } else { rng.below(9) as u32 }
}

fn edge_values(rng: &mut Rng, sort: u32, [element, size, fact_text]: [u32; 3]) -> [u32; 3] {
    let mut one_of = |values: &[u32]| *rng.pick(values);
    let unused = [one_of(&[0, 0, 0, 0, 0, 1]), one_of(&[0, 0, 0, 0, 0, 1])];
    match sort {
        1 => [1, one_of(&[0, 7, 8]), unused[1]],
        2 => [1, one_of(&[0, 1, 2]), one_of(&[0, 2, 3])],
        3 => [one_of(&[0, 0, 1]), 9, unused[1]],
        5 => [element + one_of(&[0, 1, 2, size.max(1) - 1, size]), unused[0], unused[1]],
        7 => [1, one_of(&[0, fact_text, fact_text + 1]), one_of(&[0, 1, fact_text])],
        _ => [1, unused[0], unused[1]],
    }
}

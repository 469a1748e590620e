//! Damaged copies of trees with facts. Each way to damage one has a name, so that it can be told
//! which of them change an answer.

mod elements;
mod facts;
pub(crate) mod words;

use crate::damage::{bytes, damage_list};
use crate::kinds::WHITESPACE;
use crate::limits::overgrow_file;
use crate::rng::Rng;
use crate::trees::shuffle_facts;
use elements::*;
use facts::*;
use input::build::element_word;
use input::words::TOKEN;
use input::{RuleSide, TreeCheck};
use words::*;

/// Damages a copy; false where it has nothing of the sort to damage.
pub type Damage = fn(&mut Rng, &mut TreeCheck) -> bool;

/// After these, done by themselves, the answer has to be what it was.
pub const HARMLESS: [&str; 3] =
    ["facts: another order", "rule: white space around the list", "rule: other flags than 0 and 1"];

/// All ways to damage a copy.
pub const DAMAGES: [(&str, Damage); 39] = [
    ("tree: word kind", |rng, c| bend(rng, &mut c.tree.tree, other_word_kind)),
    ("tree: one bit", |rng, c| bend(rng, &mut c.tree.tree, other_bit)),
    ("tree: syntax kind", |rng, c| other_syntax_kind(rng, &mut c.tree.tree)),
    ("tree: size", |rng, c| other_size(rng, &mut c.tree.tree)),
    ("tree: start", |rng, c| other_offset(rng, &mut c.tree, 1)),
    ("tree: end", |rng, c| other_offset(rng, &mut c.tree, 2)),
    ("tree: two words swapped", |rng, c| swap(rng, &mut c.tree.tree, 3)),
    ("tree: a word dropped", |rng, c| drop_words(rng, &mut c.tree.tree, 1)),
    ("tree: a word added", |rng, c| add_word(rng, &mut c.tree.tree)),
    ("tree: an element dropped", |rng, c| drop_words(rng, &mut c.tree.tree, 3)),
    ("tree: a leaf dropped, sizes kept right", |rng, c| drop_leaf(rng, &mut c.tree)),
    ("tree: a node put around an element", |rng, c| wrap(rng, &mut c.tree)),
    ("tree: a node takes in what follows", |rng, c| take_in(rng, &mut c.tree.tree)),
    ("tree: a border moved", |rng, c| move_border(rng, &mut c.tree.tree)),
    ("tree: absent", absent),
    ("facts: word kind", |rng, c| bend(rng, &mut c.tree.facts, other_word_kind)),
    ("facts: one bit", |rng, c| bend(rng, &mut c.tree.facts, other_bit)),
    ("facts: element", |rng, c| other_element(rng, &mut c.tree)),
    ("facts: sort", |rng, c| bend_field(rng, &mut c.tree.facts, 0, other_sort)),
    ("facts: first value", |rng, c| bend_field(rng, &mut c.tree.facts, 1, other_value)),
    ("facts: second value", |rng, c| bend_field(rng, &mut c.tree.facts, 2, other_value)),
    ("facts: third value", |rng, c| bend_field(rng, &mut c.tree.facts, 3, other_value)),
    ("facts: one repeated", |rng, c| repeat_fact(rng, &mut c.tree.facts)),
    ("facts: a step missing", |rng, c| drop_step(rng, &mut c.tree.facts)),
    ("facts: two words swapped", |rng, c| swap(rng, &mut c.tree.facts, 4)),
    ("facts: a word dropped", |rng, c| drop_words(rng, &mut c.tree.facts, 1)),
    ("facts: a word added", |rng, c| add_word(rng, &mut c.tree.facts)),
    ("facts: only one, at an edge of its form", fact_at_edge),
    (HARMLESS[0], another_order),
    ("text: one byte longer", |_, c| longer(&mut c.tree.text)),
    ("text: one byte shorter", |_, c| c.tree.text.pop().is_some()),
    ("over a limit", overgrow),
    ("rule: another list", |rng, c| on_rule(c, |r| damage_list(rng, &mut r.list))),
    (HARMLESS[1], surround),
    ("rule: another code", |rng, c| c.rule.is_some() && other_code(rng, &mut c.tree.text)),
    ("rule: list not given", |_, c| on_rule(c, |r| r.given = 0)),
    ("rule: the other side", |_, c| on_rule(c, |r| r.side = u32::from(r.side == 0))),
    (HARMLESS[2], |rng, c| on_rule(c, |r| other_flags(rng, r))),
    ("rule: a range at the fact text's end", range_at_end),
];

/// Damages a copy once or, in some cases, several times: the names of what was done.
pub fn bend_copy(seed: u64, index: u64, copy: &mut TreeCheck) -> Vec<&'static str> {
    let rng = &mut Rng::new(&[seed, index]);
    let wanted = *rng.pick(&[1, 1, 1, 1, 2, 3]);
    let mut names = Vec::new();
    while names.len() < wanted {
        let (name, damage) = rng.pick(&DAMAGES);
        if damage(rng, copy) {
            names.push(*name);
        }
    }
    names
}

fn absent(rng: &mut Rng, copy: &mut TreeCheck) -> bool {
    copy.tree.tree.clear();
    clear_sometimes(rng, &mut copy.tree.facts);
    true
}

fn another_order(rng: &mut Rng, copy: &mut TreeCheck) -> bool {
    shuffle_facts(rng, &mut copy.tree.facts);
    copy.tree.facts.len() >= 8
}

fn longer(text: &mut Vec<u8>) -> bool {
    text.push(b'x');
    true
}

fn overgrow(rng: &mut Rng, copy: &mut TreeCheck) -> bool {
    overgrow_file(rng, &mut copy.tree);
    true
}

fn on_rule(copy: &mut TreeCheck, change: impl FnOnce(&mut RuleSide)) -> bool {
    copy.rule.as_mut().map(change).is_some()
}

/// White space at the ends of a list is no part of the code.
fn surround(rng: &mut Rng, copy: &mut TreeCheck) -> bool {
    let Some(RuleSide { list, .. }) = &mut copy.rule else { return false };
    if list.words.len() >= 255 {
        return false;
    }
    let space = element_word(TOKEN, WHITESPACE, 2);
    if rng.chance(50) {
        list.words.insert(0, space);
        list.text.splice(0..0, *b"  ");
    } else {
        list.words.push(space);
        list.text.extend(b"\n ");
    }
    true
}

fn other_code(rng: &mut Rng, code: &mut Vec<u8>) -> bool {
    bytes(rng, code);
    true
}

/// Any number but 0 stands for yes.
fn other_flags(rng: &mut Rng, rule: &mut RuleSide) {
    for flag in [&mut rule.given, &mut rule.side] {
        if *flag != 0 {
            *flag = *rng.pick(&[2, 256, 0x8000_0000, u32::MAX]);
        }
    }
}

/// A path's text that ends where the fact text does, or one byte behind; or a shorter fact text.
fn range_at_end(rng: &mut Rng, copy: &mut TreeCheck) -> bool {
    let Some(rule) = &mut copy.rule else { return false };
    let length = rule.fact_text.len();
    if rng.chance(30) {
        return rule.fact_text.pop().is_some();
    }
    let start = rng.below(length + 2);
    let end = length + usize::from(rng.chance(50));
    change_fact(rng, &mut copy.tree.facts, 7, |facts, at| {
        facts[at + 2] = with_value(facts[at + 2], start as u32);
        facts[at + 3] = with_value(facts[at + 3], end.saturating_sub(start) as u32);
    })
}

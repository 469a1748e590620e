//! Bent token lists, and lists at the limits of tokens, placeholders, constraints and `not`s.

use crate::damage;
use crate::kinds::{COLON, DOLLAR, IDENT, L_CURLY, R_CURLY, R_PAREN};
use crate::rng::Rng;
use crate::tokens;
use input::build::token_list;
use input::{Operation, TokenList, words};

type Token = (u32, &'static str);

const NAMES: [&str; 9] = ["a", "b", "c", "d", "e", "f", "g", "h", "i"];

/// Reading a list with up to three faults.
pub fn random(rng: &mut Rng) -> Operation {
    Operation::ReadTokens { list: bent(rng) }
}

/// A list with up to three faults.
pub fn bent(rng: &mut Rng) -> TokenList {
    let mut list = match rng.below(20) {
        0 => TokenList::default(),
        1..=3 => crowded(rng),
        _ => {
            let template = rng.chance(20);
            tokens::soup(rng, template)
        }
    };
    for _ in 0..rng.below(4) {
        bend(rng, &mut list);
    }
    list
}

/// Placeholders with constraints up to about as many tokens as a list may have.
fn crowded(rng: &mut Rng) -> TokenList {
    let room = *rng.pick(&[60, 200, 250, 254, 255, 255, 255, 256, 260]);
    let count = rng.between(1, NAMES.len());
    let deep = rng.chance(30);
    let mut tokens: Vec<Token> = Vec::new();
    for (k, name) in NAMES[..count].iter().enumerate() {
        let end = room * (k + 1) / count;
        tokens.extend([(DOLLAR, "$"), (L_CURLY, "{"), (IDENT, *name)]);
        loop {
            let left = end.saturating_sub(tokens.len() + 6);
            let nots = if deep { rng.below(left / 3 + 1) } else { 0 };
            if tokens.len() + 6 + 3 * nots > end {
                break;
            }
            tokens.extend(constraint(nots));
        }
        tokens.push((R_CURLY, "}"));
    }
    token_list(&tokens)
}

fn constraint(nots: usize) -> Vec<Token> {
    let mut tokens = vec![(COLON, ":")];
    tokens.extend([(IDENT, "not"), (168, "(")].repeat(nots));
    tokens.extend([(IDENT, "kind"), (168, "("), (IDENT, "literal"), (R_PAREN, ")")]);
    tokens.extend([(R_PAREN, ")")].repeat(nots));
    tokens
}

fn bend(rng: &mut Rng, list: &mut TokenList) {
    match rng.below(20) {
        0..=8 => bend_word(rng, list),
        9..=10 => split(rng, list),
        11..=12 => damage::words(rng, &mut list.words, 1),
        13..=14 => damage::bytes(rng, &mut list.text),
        15 => list.words.truncate(rng.below(list.words.len() + 1)),
        16 => list.text.truncate(rng.below(list.text.len() + 1)),
        17 => list.text.extend([b' '].repeat(rng.between(1, 300))),
        18 => {
            let more = rng.between(1, 256);
            list.words.extend([words::word(words::TOKEN, 1 << 16 | 1)].repeat(more));
            list.text.extend([b'z'].repeat(more));
        }
        _ => damage::damage_list(rng, list),
    }
}

/// Another kind of word, another kind of token or another length for one word.
fn bend_word(rng: &mut Rng, list: &mut TokenList) {
    if list.words.is_empty() {
        return;
    }
    let at = rng.below(list.words.len());
    let word = list.words[at];
    list.words[at] = match rng.below(10) {
        0 => (word & 0x0fff_ffff) | (rng.below(16) as u32) << 28,
        1 => (word & 0xf000_ffff) | *rng.pick(&[0, 1023, 1024, 4095]) << 16,
        2 => (word & 0xffff_0000) | *rng.pick(&[0, 1, 2, 65_534, 65_535]),
        3..=6 => (word & 0xf000_ffff) | (rng.between(1, 12) as u32) << 16,
        _ => return shift(rng, list, at),
    };
}

/// A byte of a token goes to the next one: the list stays well-formed, unless a token gets empty.
fn shift(rng: &mut Rng, list: &mut TokenList, at: usize) {
    if at + 1 < list.words.len() {
        let (from, to) = if rng.chance(50) { (at, at + 1) } else { (at + 1, at) };
        list.words[from] = list.words[from].wrapping_sub(1);
        list.words[to] = list.words[to].wrapping_add(1);
    }
}

/// A token becomes two, or two become one.
fn split(rng: &mut Rng, list: &mut TokenList) {
    if list.words.is_empty() {
        return;
    }
    let at = rng.below(list.words.len());
    let word = list.words[at];
    let length = words::low16(word);
    if length > 1 {
        let first = rng.between(1, length as usize - 1) as u32;
        list.words[at] = word - (length - first);
        list.words.insert(at + 1, word - first);
    } else if at + 1 < list.words.len() {
        let next = words::low16(list.words.remove(at + 1));
        list.words[at] = word.wrapping_add(next);
    }
}

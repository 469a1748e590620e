//! Damage to any words, and what all damage is made of.

use crate::rng::Rng;
use input::words::{value, word, word_kind};

pub fn bend(rng: &mut Rng, words: &mut [u32], other: fn(&mut Rng, u32) -> u32) -> bool {
    if words.is_empty() {
        return false;
    }
    let at = rng.below(words.len());
    words[at] = other(rng, words[at]);
    true
}

pub fn other_word_kind(rng: &mut Rng, old: u32) -> u32 {
    word((word_kind(old) + rng.between(1, 15) as u32) % 16, value(old))
}

pub fn other_bit(rng: &mut Rng, old: u32) -> u32 {
    old ^ (1 << rng.below(32))
}

pub fn with_value(old: u32, value: u32) -> u32 {
    word(word_kind(old), value)
}

pub fn with_size(old: u32, size: u32) -> u32 {
    (old & 0xffff_0000) | (size & 0xffff)
}

/// A number one off, another that occurs, or one at an end of what there is.
pub fn other_number(rng: &mut Rng, number: u32, occurs: u32, limit: usize) -> u32 {
    match rng.below(8) {
        0..=2 => number.wrapping_add(1),
        3..=5 => number.wrapping_sub(1),
        6 => occurs,
        _ => *rng.pick(&[0, limit as u32, limit as u32 + 1, u32::MAX]),
    }
}

/// The place of the first word of an element or fact of `stride` words; none if there is none.
pub fn place(rng: &mut Rng, words: &[u32], stride: usize) -> Option<usize> {
    let count = words.len() / stride;
    (count > 0).then(|| stride * rng.below(count))
}

/// Mostly two words that stand at the same place of an element or fact.
pub fn swap(rng: &mut Rng, words: &mut [u32], stride: usize) -> bool {
    let Some(other) = place(rng, words, stride) else { return false };
    let at = rng.below(words.len());
    let other = if rng.chance(70) { other + at % stride } else { rng.below(words.len()) };
    words.swap(at, other);
    words[at] != words[other]
}

pub fn drop_words(rng: &mut Rng, words: &mut Vec<u32>, stride: usize) -> bool {
    let Some(at) = place(rng, words, stride) else { return false };
    words.drain(at..at + stride);
    true
}

pub fn add_word(rng: &mut Rng, words: &mut Vec<u32>) -> bool {
    let copied = if words.is_empty() { 0 } else { *rng.pick(words) };
    let at = rng.below(words.len() + 1);
    words.insert(at, *rng.pick(&[copied, copied, 0, u32::MAX]));
    true
}

/// The elements have other numbers: without facts that does not matter.
pub fn clear_sometimes(rng: &mut Rng, facts: &mut Vec<u32>) {
    if rng.chance(50) {
        facts.clear();
    }
}

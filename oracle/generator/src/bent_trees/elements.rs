//! Damage to a tree's elements.

use super::words::{clear_sometimes, other_number, place, with_size, with_value};
use crate::kinds::EXPR_STMT;
use crate::rng::Rng;
use input::File;
use input::build::element_word;
use input::words::{NODE, low16, value, word_kind};

pub fn other_syntax_kind(rng: &mut Rng, tree: &mut [u32]) -> bool {
    let Some(at) = place(rng, tree, 3) else { return false };
    let kind = *rng.pick(&[0, 1, 2, 9, 64, 65, 1023, 1024, 2048, 4095]);
    tree[at] = (tree[at] & 0xf000_ffff) | kind << 16;
    true
}

pub fn other_size(rng: &mut Rng, tree: &mut [u32]) -> bool {
    let Some(at) = place(rng, tree, 3) else { return false };
    let occurs = low16(*rng.pick(tree));
    let size = other_number(rng, low16(tree[at]), occurs, tree.len() / 3);
    tree[at] = with_size(tree[at], size);
    true
}

/// Another start (word 1 of an element) or end (word 2).
pub fn other_offset(rng: &mut Rng, file: &mut File, field: usize) -> bool {
    let tree = &mut file.tree;
    let Some(at) = place(rng, tree, 3) else { return false };
    let occurs = value(*rng.pick(tree));
    let offset = other_number(rng, value(tree[at + field]), occurs, file.text.len());
    tree[at + field] = with_value(tree[at + field], offset);
    true
}

/// Adds to the size of every node around an element.
fn resize_around(tree: &mut [u32], element: usize, by: u32) {
    for (i, [head, ..]) in tree.as_chunks_mut::<3>().0[..element].iter_mut().enumerate() {
        if i + low16(*head) as usize > element {
            *head = with_size(*head, low16(*head).wrapping_add(by));
        }
    }
}

/// The tree stays well-formed where the leaf is an empty node.
pub fn drop_leaf(rng: &mut Rng, file: &mut File) -> bool {
    let elements = file.tree.len() / 3;
    let leaves: Vec<usize> = (1..elements).filter(|&e| low16(file.tree[3 * e]) == 1).collect();
    if leaves.is_empty() {
        return false;
    }
    let leaf = *rng.pick(&leaves);
    resize_around(&mut file.tree, leaf, u32::MAX);
    file.tree.drain(3 * leaf..3 * leaf + 3);
    clear_sometimes(rng, &mut file.facts);
    true
}

/// The tree stays well-formed, unless it gets too deep.
pub fn wrap(rng: &mut Rng, file: &mut File) -> bool {
    let Some(at) = place(rng, &file.tree, 3) else { return false };
    resize_around(&mut file.tree, at / 3, 1);
    let head = element_word(NODE, EXPR_STMT, low16(file.tree[at]) + 1);
    let around = [head, file.tree[at + 1], file.tree[at + 2]];
    file.tree.splice(at..at, around);
    clear_sometimes(rng, &mut file.facts);
    true
}

/// The tree stays well-formed where the node is not its parent's last child.
pub fn take_in(rng: &mut Rng, tree: &mut [u32]) -> bool {
    let Some(at) = place(rng, tree, 3) else { return false };
    let size = low16(tree[at]);
    let next = at + 3 * size as usize;
    if word_kind(tree[at]) != NODE || next + 2 >= tree.len() {
        return false;
    }
    tree[at] = with_size(tree[at], size + low16(tree[next]));
    tree[at + 2] = tree[next + 2];
    true
}

/// All elements that start or end at one byte do so at the next: the tree stays well-formed,
/// unless a token gets empty.
pub fn move_border(rng: &mut Rng, tree: &mut [u32]) -> bool {
    let Some(at) = place(rng, tree, 3) else { return false };
    let old = value(tree[at + 2]);
    let new = if rng.chance(50) { old.wrapping_add(1) } else { old.wrapping_sub(1) };
    for [_, start, end] in tree.as_chunks_mut::<3>().0 {
        for offset in [start, end] {
            if value(*offset) == old {
                *offset = with_value(*offset, new);
            }
        }
    }
    true
}

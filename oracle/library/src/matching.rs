//! Matching one node.

use input::{File, Rules};

use crate::lists::PLACEHOLDERS;

/// A placeholder's binding, all 0 where it is unbound.
#[repr(C)]
#[derive(Clone, Copy, Debug, Default, PartialEq, Eq)]
pub struct Binding {
    /// 1 if the placeholder is bound.
    pub bound: u32,
    /// Where what it captured starts in the file's text.
    pub start: u32,
    /// Where that ends.
    pub end: u32,
    /// For the receiver of a method call, how often it is dereferenced.
    pub stars: u32,
    /// For that receiver, how its function takes it: 0 owned, 1 `&`, 2 `&mut`.
    pub self_kind: u32,
}

/// The answer of matching one node. What is not used is 0.
#[repr(C)]
#[derive(Clone, Copy, Debug, Default, PartialEq, Eq)]
pub struct MatchedNode {
    /// 1 to 23, or 0.
    pub refusal: u32,
    /// 1 if the node matches.
    pub matched: u32,
    /// Of the texts of the noted comments, which the buffer holds.
    pub length: usize,
    /// In pattern order.
    pub bindings: [Binding; PLACEHOLDERS],
}

/// The range that the node has to lie in, as it is handed over: the ends are there without a range too.
#[derive(Clone, Copy, Debug, Default, PartialEq, Eq)]
pub struct Range {
    /// 0 where no range is given.
    pub given: u32,
    /// The first byte of the file's text.
    pub start: usize,
    /// The byte behind the last.
    pub end: usize,
}

mod exported {
    use super::MatchedNode;

    unsafe extern "C" {
        pub fn ssr_match_node(
            directory: *const u32,
            directory_length: usize,
            words: *const u32,
            words_length: usize,
            bytes: *const u8,
            bytes_length: usize,
            fact_text: *const u8,
            fact_text_length: usize,
            tree: *const u32,
            tree_length: usize,
            text: *const u8,
            text_length: usize,
            facts: *const u32,
            facts_length: usize,
            node: usize,
            rule: usize,
            range_given: u32,
            range_start: usize,
            range_end: usize,
            out: *mut u8,
            out_length: usize,
        ) -> MatchedNode;
    }
}

/// Matching a node of a file with a rule; the texts of the noted comments go into the buffer.
pub fn match_node(
    rules: &Rules,
    file: &File,
    node: usize,
    rule: usize,
    range: Range,
    out: &mut [u8],
) -> MatchedNode {
    let Rules { directory, words, bytes, fact_text } = rules;
    let File { tree, text, facts } = file;
    // SAFETY: all pointers are to as many elements as are said, which outlive the call; the buffer is
    // lent for the call alone. The function has no other conditions, and its result holds numbers only.
    unsafe {
        exported::ssr_match_node(
            directory.as_ptr(),
            directory.len(),
            words.as_ptr(),
            words.len(),
            bytes.as_ptr(),
            bytes.len(),
            fact_text.as_ptr(),
            fact_text.len(),
            tree.as_ptr(),
            tree.len(),
            text.as_ptr(),
            text.len(),
            facts.as_ptr(),
            facts.len(),
            node,
            rule,
            range.given,
            range.start,
            range.end,
            out.as_mut_ptr(),
            out.len(),
        )
    }
}

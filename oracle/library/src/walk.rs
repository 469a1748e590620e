//! The whole-file walk.

use input::{File, Parses, Rules};

use crate::job::JobAnswer;
use crate::matching::Range;

mod exported {
    use super::JobAnswer;

    unsafe extern "C" {
        pub fn ssr_walk(
            directory: *const u32,
            directory_length: usize,
            words: *const u32,
            words_length: usize,
            bytes: *const u8,
            bytes_length: usize,
            fact_text: *const u8,
            fact_text_length: usize,
            tree: *const u32,
            tree_length: usize,
            text: *const u8,
            text_length: usize,
            facts: *const u32,
            facts_length: usize,
            parses: *const u32,
            parses_length: usize,
            parse_text: *const u8,
            parse_text_length: usize,
            range_given: u32,
            range_start: usize,
            range_end: usize,
            out: *mut u8,
            out_length: usize,
        ) -> JobAnswer;
    }
}

/// The walk: a job whose candidates are every node with every rule. Its refusals are those of a job but 26.
pub fn walk(
    rules: &Rules,
    file: &File,
    parses: &Parses,
    range: Range,
    out: &mut [u8],
) -> JobAnswer {
    let Rules { directory, words, bytes, fact_text } = rules;
    let File { tree, text, facts } = file;
    let Parses { words: parses, text: parse_text } = parses;
    // SAFETY: all pointers are to as many elements as are said, which outlive the call; the buffer is
    // lent for the call alone. The function has no other conditions, and its result holds numbers only.
    unsafe {
        exported::ssr_walk(
            directory.as_ptr(),
            directory.len(),
            words.as_ptr(),
            words.len(),
            bytes.as_ptr(),
            bytes.len(),
            fact_text.as_ptr(),
            fact_text.len(),
            tree.as_ptr(),
            tree.len(),
            text.as_ptr(),
            text.len(),
            facts.as_ptr(),
            facts.len(),
            parses.as_ptr(),
            parses.len(),
            parse_text.as_ptr(),
            parse_text.len(),
            range.given,
            range.start,
            range.end,
            out.as_mut_ptr(),
            out.len(),
        )
    }
}

//! A job over its candidate list.

use input::{File, Parses, Rules};

use crate::matching::Range;

/// The answer of a job or a walk. What is not used is 0.
#[repr(C)]
#[derive(Clone, Copy, Debug, Default, PartialEq, Eq)]
pub struct JobAnswer {
    /// 1 to 15, 17 to 22, 24 to 30, or 0.
    pub refusal: u32,
    /// 1 if the answer is Asked: a parse is missing.
    pub asked: u32,
    /// The kind that is asked for.
    pub kind: u32,
    /// Of the edit list or, if a parse is asked for, of its text; the buffer holds it.
    pub length: usize,
}

mod exported {
    use super::JobAnswer;

    unsafe extern "C" {
        pub fn ssr_job(
            directory: *const u32,
            directory_length: usize,
            words: *const u32,
            words_length: usize,
            bytes: *const u8,
            bytes_length: usize,
            fact_text: *const u8,
            fact_text_length: usize,
            tree: *const u32,
            tree_length: usize,
            text: *const u8,
            text_length: usize,
            facts: *const u32,
            facts_length: usize,
            parses: *const u32,
            parses_length: usize,
            parse_text: *const u8,
            parse_text_length: usize,
            candidates: *const u32,
            candidates_length: usize,
            range_given: u32,
            range_start: usize,
            range_end: usize,
            out: *mut u8,
            out_length: usize,
        ) -> JobAnswer;
    }
}

/// A job: the edit list, or the text whose parse is asked for, goes into the buffer.
pub fn job(
    rules: &Rules,
    file: &File,
    parses: &Parses,
    candidates: &[u32],
    range: Range,
    out: &mut [u8],
) -> JobAnswer {
    let Rules { directory, words, bytes, fact_text } = rules;
    let File { tree, text, facts } = file;
    let Parses { words: parses, text: parse_text } = parses;
    // SAFETY: all pointers are to as many elements as are said, which outlive the call; the buffer is
    // lent for the call alone. The function has no other conditions, and its result holds numbers only.
    unsafe {
        exported::ssr_job(
            directory.as_ptr(),
            directory.len(),
            words.as_ptr(),
            words.len(),
            bytes.as_ptr(),
            bytes.len(),
            fact_text.as_ptr(),
            fact_text.len(),
            tree.as_ptr(),
            tree.len(),
            text.as_ptr(),
            text.len(),
            facts.as_ptr(),
            facts.len(),
            parses.as_ptr(),
            parses.len(),
            parse_text.as_ptr(),
            parse_text.len(),
            candidates.as_ptr(),
            candidates.len(),
            range.given,
            range.start,
            range.end,
            out.as_mut_ptr(),
            out.len(),
        )
    }
}

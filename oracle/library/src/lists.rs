//! Token lists: reading tokens, checking a pair, writing raw code.

use input::TokenList;

/// The most placeholders of a list.
pub const PLACEHOLDERS: usize = 8;
/// The most constraints of a list.
pub const CONSTRAINTS: usize = 50;

/// A placeholder of a list.
#[repr(C)]
#[derive(Clone, Copy, Debug, Default, PartialEq, Eq)]
pub struct NamedPlaceholder {
    /// Where its name starts in the list's text.
    pub start: usize,
    /// Where its name ends.
    pub end: usize,
    /// How many constraints it has.
    pub constraints: usize,
}

/// The answer of reading tokens. What is not used is 0.
#[repr(C)]
#[derive(Clone, Copy, Debug, PartialEq, Eq)]
pub struct ReadTokens {
    /// 1 to 13, or 0.
    pub refusal: u32,
    /// How many placeholders there are.
    pub count: usize,
    /// The placeholders in the order of the list.
    pub placeholders: [NamedPlaceholder; PLACEHOLDERS],
    /// How many constraints all placeholders have together.
    pub constraints: usize,
    /// For each constraint, those of the first placeholder first, the number of its `not`s.
    pub nots: [u8; CONSTRAINTS],
}

/// The answer of writing raw code.
#[repr(C)]
#[derive(Clone, Copy, Debug, PartialEq, Eq)]
pub struct RawCode {
    /// 1 to 13, or 16, or 0.
    pub refusal: u32,
    /// Of the code; 0 after a refusal.
    pub length: usize,
}

mod exported {
    use super::{RawCode, ReadTokens};

    unsafe extern "C" {
        pub fn ssr_read_tokens(
            words: *const u32,
            words_length: usize,
            text: *const u8,
            text_length: usize,
        ) -> ReadTokens;
        pub fn ssr_check_pair(
            pattern_words: *const u32,
            pattern_words_length: usize,
            pattern_text: *const u8,
            pattern_text_length: usize,
            template_given: u32,
            template_words: *const u32,
            template_words_length: usize,
            template_text: *const u8,
            template_text_length: usize,
        ) -> u32;
        pub fn ssr_raw_code(
            words: *const u32,
            words_length: usize,
            text: *const u8,
            text_length: usize,
            out: *mut u8,
            out_length: usize,
        ) -> RawCode;
    }
}

/// Reading tokens.
pub fn read_tokens(list: &TokenList) -> ReadTokens {
    let TokenList { words, text } = list;
    // SAFETY: all pointers are to as many elements as are said, which outlive the call. The function
    // has no other conditions, and its result holds numbers only.
    unsafe { exported::ssr_read_tokens(words.as_ptr(), words.len(), text.as_ptr(), text.len()) }
}

/// Checking a pair, or its pattern alone: the refusal, 1 to 15, or 0.
pub fn check_pair(pattern: &TokenList, template: Option<&TokenList>) -> u32 {
    let none = TokenList::default();
    let (given, other) = (u32::from(template.is_some()), template.unwrap_or(&none));
    let (words, text) = (&pattern.words, &pattern.text);
    let (others, other) = (&other.words, &other.text);
    // SAFETY: all pointers are to as many elements as are said, which outlive the call. The function
    // has no other conditions.
    unsafe {
        exported::ssr_check_pair(
            words.as_ptr(),
            words.len(),
            text.as_ptr(),
            text.len(),
            given,
            others.as_ptr(),
            others.len(),
            other.as_ptr(),
            other.len(),
        )
    }
}

/// Writing raw code into a buffer.
pub fn raw_code(list: &TokenList, out: &mut [u8]) -> RawCode {
    let TokenList { words, text } = list;
    // SAFETY: all pointers are to as many elements as are said, which outlive the call; the buffer is
    // lent for the call alone. The function has no other conditions, and its result holds numbers only.
    unsafe {
        exported::ssr_raw_code(
            words.as_ptr(),
            words.len(),
            text.as_ptr(),
            text.len(),
            out.as_mut_ptr(),
            out.len(),
        )
    }
}

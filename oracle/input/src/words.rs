//! The fields of document 01's words. docs/FORMAT.md is the normative page.

/// A word of a kind (top four bits) and a value (low 28 bits).
pub fn word(kind: u32, value: u32) -> u32 {
    (kind << 28) | (value & 0x0fff_ffff)
}

pub fn word_kind(w: u32) -> u32 {
    w >> 28
}

pub fn value(w: u32) -> u32 {
    w & 0x0fff_ffff
}

/// Syntax kind of an element word, a token word or the first word of a parse.
pub fn syntax_kind(w: u32) -> u32 {
    value(w) >> 16
}

/// Size of an element word, length of a token word or count of a parse's ranges.
pub fn low16(w: u32) -> u32 {
    w & 0xffff
}

pub fn fact_sort(w: u32) -> u32 {
    value(w) >> 24
}

pub fn fact_element(w: u32) -> u32 {
    w & 0x00ff_ffff
}

pub const NODE: u32 = 1;
pub const TOKEN: u32 = 2;
pub const START: u32 = 3;
pub const END: u32 = 4;
pub const EDIT_START: u32 = 5;
pub const EDIT_END: u32 = 6;
pub const EDIT_LENGTH: u32 = 7;
pub const PARSE: u32 = 8;
pub const FACT: u32 = 9;
pub const FACT_VALUE: u32 = 10;

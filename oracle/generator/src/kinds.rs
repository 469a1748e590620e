//! The kinds that generated trees are made of: document 01's, and for the rest free ones.

pub const IDENT: u32 = 1;
pub const WHITESPACE: u32 = 2;
pub const COMMENT: u32 = 3;
pub const COMMA: u32 = 4;
pub const R_PAREN: u32 = 5;
pub const R_CURLY: u32 = 6;
pub const R_BRACK: u32 = 7;
pub const DOLLAR: u32 = 8;
pub const L_CURLY: u32 = 9;
pub const COLON: u32 = 10;
pub const SELF: u32 = 11;
pub const NUMBER: u32 = 12;
pub const STRING: u32 = 13;
pub const COLON2: u32 = 14;

pub const TOKEN_TREE: u32 = 1;
pub const PATH: u32 = 2;
pub const PATH_SEGMENT: u32 = 3;
pub const NAME_REF: u32 = 4;
pub const GENERIC_ARGS: u32 = 5;
pub const PAREN_ARGS: u32 = 6;
pub const ARG_LIST: u32 = 7;
pub const RECORD_LIST: u32 = 8;
pub const RECORD_FIELD: u32 = 9;

pub const CALL_EXPR: u32 = 64;
pub const METHOD_CALL_EXPR: u32 = 65;
pub const LITERAL: u32 = 66;
pub const PATH_EXPR: u32 = 67;
pub const BIN_EXPR: u32 = 68;
pub const REF_EXPR: u32 = 69;
pub const MACRO_EXPR: u32 = 70;
pub const RECORD_EXPR: u32 = 71;
pub const PAREN_EXPR: u32 = 72;
pub const MACRO_CALL: u32 = 1025;
pub const FN: u32 = 1026;
pub const SOURCE_FILE: u32 = 2048;
pub const EXPR_STMT: u32 = 2049;
pub const PATH_TYPE: u32 = 2050;
pub const IDENT_PAT: u32 = 2051;
pub const NAME: u32 = 2052;

/// The kind of a punctuation byte, known to document 01 or not.
pub fn punctuation(byte: u8) -> u32 {
    match byte {
        b',' => COMMA,
        b')' => R_PAREN,
        b'}' => R_CURLY,
        b']' => R_BRACK,
        b'$' => DOLLAR,
        b'{' => L_CURLY,
        b':' => COLON,
        _ => 128 + u32::from(byte),
    }
}

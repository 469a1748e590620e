//! Syntax kinds. Document 01 numbers nodes and tokens apart, so a kind says which of the two it is.

/// The number, with `TOKEN` added for a token's.
#[derive(Clone, Copy, Debug, PartialEq, Eq, Hash)]
pub struct SyntaxKind(u16);

const TOKEN: u16 = 1 << 15;

impl SyntaxKind {
    pub const IDENT: SyntaxKind = SyntaxKind::token(1);
    pub const WHITESPACE: SyntaxKind = SyntaxKind::token(2);
    pub const COMMENT: SyntaxKind = SyntaxKind::token(3);
    pub const COMMA: SyntaxKind = SyntaxKind::token(4);
    pub const R_PAREN: SyntaxKind = SyntaxKind::token(5);
    pub const R_CURLY: SyntaxKind = SyntaxKind::token(6);
    pub const R_BRACK: SyntaxKind = SyntaxKind::token(7);
    pub const DOLLAR: SyntaxKind = SyntaxKind::token(8);
    pub const L_CURLY: SyntaxKind = SyntaxKind::token(9);
    pub const COLON: SyntaxKind = SyntaxKind::token(10);
    pub const SELF_KW: SyntaxKind = SyntaxKind::token(11);

    pub const TOKEN_TREE: SyntaxKind = SyntaxKind::node(1);
    pub const PATH: SyntaxKind = SyntaxKind::node(2);
    pub const PATH_SEGMENT: SyntaxKind = SyntaxKind::node(3);
    pub const NAME_REF: SyntaxKind = SyntaxKind::node(4);
    pub const GENERIC_ARG_LIST: SyntaxKind = SyntaxKind::node(5);
    pub const PARENTHESIZED_ARG_LIST: SyntaxKind = SyntaxKind::node(6);
    pub const ARG_LIST: SyntaxKind = SyntaxKind::node(7);
    pub const RECORD_EXPR_FIELD_LIST: SyntaxKind = SyntaxKind::node(8);
    pub const RECORD_EXPR_FIELD: SyntaxKind = SyntaxKind::node(9);
    pub const CALL_EXPR: SyntaxKind = SyntaxKind::node(64);
    pub const METHOD_CALL_EXPR: SyntaxKind = SyntaxKind::node(65);
    pub const LITERAL: SyntaxKind = SyntaxKind::node(66);

    // The crate names these where it picks a node to resolve from, which document 01 leaves to the
    // front end. Their numbers are past the 12 bits of a word, so that no handed tree has them.
    pub const SOURCE_FILE: SyntaxKind = SyntaxKind::node(4096);
    pub const FN: SyntaxKind = SyntaxKind::node(4097);
    pub const EXPR_STMT: SyntaxKind = SyntaxKind::node(4098);
    pub const LET_STMT: SyntaxKind = SyntaxKind::node(4099);
    pub const IDENT_PAT: SyntaxKind = SyntaxKind::node(4100);
    pub const NAME: SyntaxKind = SyntaxKind::node(4101);

    pub const fn node(number: u16) -> SyntaxKind {
        SyntaxKind(number)
    }

    pub const fn token(number: u16) -> SyntaxKind {
        SyntaxKind(TOKEN | number)
    }

    pub fn is_node(self) -> bool {
        self.0 & TOKEN == 0
    }

    pub fn number(self) -> u32 {
        u32::from(self.0 & !TOKEN)
    }

    pub fn is_trivia(self) -> bool {
        self == SyntaxKind::WHITESPACE || self == SyntaxKind::COMMENT
    }

    pub(crate) fn is_expr(self) -> bool {
        (64..=1023).contains(&self.0)
    }

    pub(crate) fn is_item(self) -> bool {
        (1024..=2047).contains(&self.0)
    }
}

/// The token kinds that the crate writes as `T![..]`.
#[macro_export]
macro_rules! T {
    [$] => { $crate::SyntaxKind::DOLLAR };
    ['{'] => { $crate::SyntaxKind::L_CURLY };
    ['}'] => { $crate::SyntaxKind::R_CURLY };
    [:] => { $crate::SyntaxKind::COLON };
    [self] => { $crate::SyntaxKind::SELF_KW };
}

//! Stand-in for rust-analyzer's `parser`. Lexing stays with the front end: a source is a name under
//! which a token list was handed in.

use std::cell::RefCell;
use std::rc::Rc;

use syntax::SyntaxKind;

#[derive(Clone, Copy, Debug, PartialEq, Eq)]
pub enum Edition {
    Edition2024,
}

impl Edition {
    pub const CURRENT: Edition = Edition::Edition2024;
}

/// A token list: kind and text of each token.
pub type Tokens = Vec<(SyntaxKind, String)>;

thread_local! {
    static LISTS: RefCell<Vec<(&'static str, Rc<Tokens>)>> = const { RefCell::new(Vec::new()) };
}

/// Hands in the lists that the next sources name.
pub fn hand_in(lists: Vec<(&'static str, Tokens)>) {
    let lists = lists.into_iter().map(|(name, tokens)| (name, Rc::new(tokens))).collect();
    LISTS.with(|handed| *handed.borrow_mut() = lists);
}

pub struct LexedStr {
    tokens: Rc<Tokens>,
}

impl LexedStr {
    pub fn new(_edition: Edition, source: &str) -> LexedStr {
        let tokens = LISTS.with(|handed| {
            let handed = handed.borrow();
            let list = handed.iter().find(|(name, _)| *name == source);
            list.map(|(_, tokens)| tokens.clone()).unwrap_or_default()
        });
        LexedStr { tokens }
    }

    /// A handed list has no lexing errors.
    pub fn errors(&self) -> impl Iterator<Item = (usize, &str)> {
        std::iter::empty()
    }

    pub fn len(&self) -> usize {
        self.tokens.len()
    }

    pub fn is_empty(&self) -> bool {
        self.tokens.is_empty()
    }

    pub fn kind(&self, i: usize) -> SyntaxKind {
        self.tokens[i].0
    }

    pub fn text(&self, i: usize) -> &str {
        &self.tokens[i].1
    }
}

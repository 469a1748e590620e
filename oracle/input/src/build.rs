//! Trees, token lists, facts and parses put together from parts: for tests and the generator.

use crate::words::{END, FACT, FACT_VALUE, NODE, PARSE, START, TOKEN, word};
use crate::{Parses, TokenList};

/// A node with its children, or a token with its text.
#[derive(Clone, Debug, PartialEq, Eq)]
pub enum Syntax {
    Node(u32, Vec<Syntax>),
    Token(u32, Vec<u8>),
}

pub fn node(kind: u32, children: impl Into<Vec<Syntax>>) -> Syntax {
    Syntax::Node(kind, children.into())
}

pub fn token(kind: u32, text: impl AsRef<[u8]>) -> Syntax {
    Syntax::Token(kind, text.as_ref().to_vec())
}

impl Syntax {
    pub fn kind(&self) -> u32 {
        match self {
            Syntax::Node(kind, _) | Syntax::Token(kind, _) => *kind,
        }
    }

    pub fn is_node(&self) -> bool {
        matches!(self, Syntax::Node(..))
    }

    pub fn children(&self) -> &[Syntax] {
        match self {
            Syntax::Node(_, children) => children,
            Syntax::Token(..) => &[],
        }
    }

    /// Its elements in preorder; the place in this list is the element's number.
    pub fn elements(&self) -> Vec<&Syntax> {
        let mut all = Vec::new();
        self.collect(&mut all);
        all
    }

    fn collect<'a>(&'a self, all: &mut Vec<&'a Syntax>) {
        all.push(self);
        self.children().iter().for_each(|child| child.collect(all));
    }

    /// Its tokens in order.
    pub fn tokens(&self) -> Vec<(u32, &[u8])> {
        let token = |element: &'_ &Syntax| !element.is_node();
        self.elements().into_iter().filter(token).map(|e| (e.kind(), e.own_text())).collect()
    }

    fn own_text(&self) -> &[u8] {
        match self {
            Syntax::Node(..) => &[],
            Syntax::Token(_, text) => text,
        }
    }

    pub fn text(&self) -> Vec<u8> {
        self.elements().iter().flat_map(|element| element.own_text()).copied().collect()
    }

    /// Its words as a whole tree.
    pub fn words(&self) -> Vec<u32> {
        let mut words = Vec::new();
        self.lay(0, &mut words);
        words
    }

    /// Lays its words for a start in the text; the end in the text.
    fn lay(&self, start: u32, words: &mut Vec<u32>) -> u32 {
        let at = words.len();
        words.extend([0, word(START, start), 0]);
        let mut end = start + self.own_text().len() as u32;
        for child in self.children() {
            end = child.lay(end, words);
        }
        let size = (words.len() - at) as u32 / 3;
        let word_kind = if self.is_node() { NODE } else { TOKEN };
        words[at] = element_word(word_kind, self.kind(), size);
        words[at + 2] = word(END, end);
        end
    }
}

/// An element's first word, or a token word with its length for the size.
pub fn element_word(word_kind: u32, kind: u32, size: u32) -> u32 {
    word(word_kind, (kind << 16) | size)
}

/// A token list of kinds and texts.
pub fn token_list<T: AsRef<[u8]>>(tokens: &[(u32, T)]) -> TokenList {
    let mut list = TokenList::default();
    for (kind, text) in tokens {
        let text = text.as_ref();
        list.words.push(element_word(TOKEN, *kind, text.len() as u32));
        list.text.extend(text);
    }
    list
}

/// The four words of a fact.
pub fn fact(sort: u32, element: usize, values: [u32; 3]) -> [u32; 4] {
    let [a, b, c] = values.map(|value| word(FACT_VALUE, value));
    [word(FACT, (sort << 24) | element as u32), a, b, c]
}

/// Adds a parse whose text goes behind the parse text.
pub fn add_parse(parses: &mut Parses, kind: u32, text: &[u8], ranges: &[(u32, u32)]) {
    let start = parses.text.len() as u32;
    parses.text.extend(text);
    let end = parses.text.len() as u32;
    parses.words.push(element_word(PARSE, kind, ranges.len() as u32));
    parses.words.extend([word(START, start), word(END, end)]);
    for (start, end) in ranges {
        parses.words.extend([word(START, *start), word(END, *end)]);
    }
}

//! A decoded tree with its text and facts.

use std::cell::Cell;
use std::rc::Rc;

use input::words;

use crate::hash::FxHashMap;
use crate::{SyntaxKind, SyntaxNode, TextRange};

/// Depth that document 01 allows (refusal 20); the root is at 1.
const DEPTH: usize = 128;

/// Why words do not make a tree for the crate.
#[derive(Clone, Copy, Debug, PartialEq, Eq)]
pub enum TreeError {
    /// Document 01's checks 18 to 21 refuse the words.
    Malformed,
    /// The text is not UTF-8, or an element or a path text cuts a character.
    Text,
}

/// What a tree is.
#[derive(Clone, Copy, Debug, PartialEq, Eq)]
pub enum Origin {
    File,
    /// A tree of a pair; forms count as in document 01.
    Rule {
        pair: u32,
        form: u32,
        template: bool,
    },
    /// The place that rules are resolved from; it has no facts.
    Context,
    /// A parse of a rendering; it has ranges only.
    Parse,
}

pub struct Tree {
    id: u32,
    origin: Origin,
    text: String,
    pub(crate) elements: Vec<Element>,
    facts: FxHashMap<Key, [u32; 3]>,
    fact_text: Rc<[u8]>,
}

pub(crate) struct Element {
    pub(crate) kind: SyntaxKind,
    pub(crate) size: u32,
    pub(crate) range: TextRange,
    pub(crate) parent: Option<u32>,
}

/// Sort and element as in a fact's first word, and step (sort 3) or module (sort 7).
type Key = (u32, u32);

#[inline]
fn key(sort: u32, element: u32, at: u32) -> Key {
    (sort << 24 | element, at)
}

thread_local! {
    static NEXT_ID: Cell<u32> = const { Cell::new(0) };
}

impl Tree {
    /// Decodes a handed tree. Path texts (sort 7) are parts of `fact_text`.
    pub fn decode(
        origin: Origin,
        tree: &[u32],
        text: &[u8],
        facts: &[u32],
        fact_text: &Rc<[u8]>,
    ) -> Result<Rc<Tree>, TreeError> {
        let text = std::str::from_utf8(text).map_err(|_| TreeError::Text)?;
        let elements = elements(tree, text)?;
        let facts = decode_facts(facts, elements.len(), fact_text)?;
        let (text, fact_text) = (text.to_owned(), fact_text.clone());
        Ok(Rc::new(Tree { id: next_id(), origin, text, elements, facts, fact_text }))
    }

    /// A root with the first range and a childless node for each of the others.
    /// Nothing if there is no range.
    pub fn of_ranges(ranges: &[TextRange]) -> Option<Rc<Tree>> {
        let size = u32::try_from(ranges.len()).ok().filter(|size| *size > 0)?;
        let kind = SyntaxKind::SOURCE_FILE;
        let mut elements = vec![Element { kind, size, range: ranges[0], parent: None }];
        elements.extend(ranges[1..].iter().map(|range| Element {
            kind,
            size: 1,
            range: *range,
            parent: Some(0),
        }));
        Some(Tree::without_facts(Origin::Parse, elements))
    }

    /// The empty file that rules are resolved from.
    pub fn context() -> Rc<Tree> {
        let range = TextRange::new(0.into(), 0.into());
        let root = Element { kind: SyntaxKind::SOURCE_FILE, size: 1, range, parent: None };
        Tree::without_facts(Origin::Context, vec![root])
    }

    fn without_facts(origin: Origin, elements: Vec<Element>) -> Rc<Tree> {
        let (facts, fact_text) = (FxHashMap::default(), Rc::from([]));
        Rc::new(Tree { id: next_id(), origin, text: String::new(), elements, facts, fact_text })
    }

    #[inline]
    pub fn id(&self) -> u32 {
        self.id
    }

    #[inline]
    pub fn origin(&self) -> Origin {
        self.origin
    }

    pub fn text(&self) -> &str {
        &self.text
    }

    pub fn root(self: &Rc<Tree>) -> SyntaxNode {
        SyntaxNode::new(self.clone(), 0)
    }

    /// The node of that number, if there is one.
    pub fn node(self: &Rc<Tree>, element: u32) -> Option<SyntaxNode> {
        let found = self.elements.get(element as usize)?;
        found.kind.is_node().then(|| SyntaxNode::new(self.clone(), element))
    }

    /// The values of the fact of that sort at that element (any sort but 3 and 7).
    #[inline]
    pub fn fact(&self, sort: u32, element: u32) -> Option<[u32; 3]> {
        self.fact_at(sort, element, 0)
    }

    /// The values of the fact of sort 3 or 7 at that element with that step or module.
    #[inline]
    pub fn fact_at(&self, sort: u32, element: u32, at: u32) -> Option<[u32; 3]> {
        self.facts.get(&key(sort, element, at)).copied()
    }

    /// A part of the fact text.
    pub fn path_text(&self, start: u32, length: u32) -> Option<&str> {
        let part = part(&self.fact_text, start, length)?;
        std::str::from_utf8(part).ok()
    }

    /// Every fact as sort, element and values, in no order.
    pub fn facts(&self) -> impl Iterator<Item = (u32, u32, [u32; 3])> {
        let fact = |(key, values): (&Key, &[u32; 3])| {
            (words::fact_sort(key.0), words::fact_element(key.0), *values)
        };
        self.facts.iter().map(fact)
    }

    #[inline]
    pub(crate) fn element(&self, element: u32) -> &Element {
        &self.elements[element as usize]
    }

    #[inline]
    pub(crate) fn text_of(&self, element: u32) -> &str {
        let range = self.element(element).range;
        &self.text[range.start().into()..range.end().into()]
    }
}

fn next_id() -> u32 {
    NEXT_ID.with(|next| next.replace(next.get().wrapping_add(1)))
}

fn elements(tree: &[u32], text: &str) -> Result<Vec<Element>, TreeError> {
    if tree.is_empty() || !tree.len().is_multiple_of(3) {
        return Err(TreeError::Malformed);
    }
    let count = tree.len() / 3;
    let mut elements = Vec::with_capacity(count);
    // The open nodes: number and end in elements.
    let mut open: Vec<(u32, usize)> = Vec::new();
    for (i, three) in tree.chunks(3).enumerate() {
        while open.last().is_some_and(|(_, end)| i >= *end) {
            open.pop();
        }
        let limit = open.last().map_or(count, |(_, end)| *end);
        let mut element = element(three, text)?;
        element.parent = open.last().map(|(number, _)| *number);
        let end = i + element.size as usize;
        let root_fits = i > 0 || (element.kind.is_node() && end == count);
        if end > limit || !root_fits || (i > 0 && element.parent.is_none()) {
            return Err(TreeError::Malformed);
        }
        let number = u32::try_from(i).map_err(|_| TreeError::Malformed)?;
        open.push((number, end));
        if open.len() > DEPTH {
            return Err(TreeError::Malformed);
        }
        elements.push(element);
    }
    Ok(elements)
}

fn element(three: &[u32], text: &str) -> Result<Element, TreeError> {
    let number = words::syntax_kind(three[0]) as u16;
    let size = words::low16(three[0]);
    let kind = match words::word_kind(three[0]) {
        words::NODE if size > 0 => SyntaxKind::node(number),
        words::TOKEN if size == 1 => SyntaxKind::token(number),
        _ => return Err(TreeError::Malformed),
    };
    let (start, end) = (words::value(three[1]), words::value(three[2]));
    if start > end || end as usize > text.len() {
        return Err(TreeError::Malformed);
    }
    if !text.is_char_boundary(start as usize) || !text.is_char_boundary(end as usize) {
        return Err(TreeError::Text);
    }
    Ok(Element { kind, size, range: TextRange::new(start.into(), end.into()), parent: None })
}

fn decode_facts(
    facts: &[u32],
    elements: usize,
    fact_text: &[u8],
) -> Result<FxHashMap<Key, [u32; 3]>, TreeError> {
    let mut decoded = FxHashMap::with_capacity_and_hasher(facts.len() / 4, Default::default());
    for four in facts.chunks(4) {
        let &[head, a, b, c] = four else { return Err(TreeError::Malformed) };
        let (sort, element) = (words::fact_sort(head), words::fact_element(head));
        if element as usize >= elements {
            return Err(TreeError::Malformed);
        }
        let values = [words::value(a), words::value(b), words::value(c)];
        if sort == 7 {
            let part = part(fact_text, values[1], values[2]).ok_or(TreeError::Malformed)?;
            std::str::from_utf8(part).map_err(|_| TreeError::Text)?;
        }
        let at = if matches!(sort, 3 | 7) { values[0] } else { 0 };
        decoded.insert(key(sort, element, at), values);
    }
    Ok(decoded)
}

fn part(text: &[u8], start: u32, length: u32) -> Option<&[u8]> {
    let start = start as usize;
    text.get(start..start.checked_add(length as usize)?)
}

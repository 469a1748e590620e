//! One tree: its words checked (18 to 20) and read into elements.

use input::words::{END, NODE, START, TOKEN, low16, syntax_kind, value, word_kind};

const MOST_ELEMENTS: usize = 16_383;
const MOST_BYTES: usize = 65_535;
const MOST_DEPTH: usize = 128;

/// An element; `size` counts the elements of its subtree, `parent` is none for the root.
#[derive(Clone, Copy, Debug)]
pub struct Element {
    pub node: bool,
    pub kind: u32,
    pub size: usize,
    pub start: usize,
    pub end: usize,
    pub parent: Option<usize>,
    pub depth: usize,
}

/// A tree that passed 18 to 20, over its text.
#[derive(Clone, Debug)]
pub struct Tree {
    pub elements: Vec<Element>,
    pub text: Vec<u8>,
}

impl Tree {
    /// Checks the words over a text. `wanted` is the text that a rule tree's list gives.
    pub fn read(words: &[u32], text: &[u8], wanted: Option<&[u8]>) -> Result<Tree, u32> {
        check_limits(words, text)?;
        if wanted.is_some_and(|wanted| wanted != text) {
            return Err(19);
        }
        let elements = read_elements(words).ok_or(19u32)?;
        if !is_well_formed(&elements, text.len()) {
            return Err(19);
        }
        let mut tree = Tree { elements, text: text.to_vec() };
        tree.find_parents();
        if tree.elements.iter().any(|e| e.depth > MOST_DEPTH) {
            return Err(20);
        }
        Ok(tree)
    }

    fn find_parents(&mut self) {
        // The nodes around the element that is looked at, outermost first.
        let mut around: Vec<usize> = Vec::new();
        for i in 0..self.elements.len() {
            while let Some(&last) = around.last()
                && i >= last + self.elements[last].size
            {
                around.pop();
            }
            self.elements[i].parent = around.last().copied();
            self.elements[i].depth = around.len() + 1;
            around.push(i);
        }
    }

    pub fn children(&self, i: usize) -> impl Iterator<Item = usize> {
        let end = i + self.elements[i].size;
        let inside = move |child: &usize| *child < end;
        std::iter::successors(Some(i + 1).filter(inside), move |&child| {
            Some(child + self.elements[child].size).filter(inside)
        })
    }

    pub fn text_of(&self, i: usize) -> &[u8] {
        &self.text[self.elements[i].start..self.elements[i].end]
    }

    pub fn is_node(&self, i: usize, kind: u32) -> bool {
        self.elements[i].node && self.elements[i].kind == kind
    }

    pub fn is_token(&self, i: usize, kind: u32) -> bool {
        !self.elements[i].node && self.elements[i].kind == kind
    }

    /// An accessor: the first child node of a kind.
    pub fn first_child(&self, i: usize, kind: u32) -> Option<usize> {
        self.children(i).find(|&c| self.is_node(c, kind))
    }

    /// Whether an element is a node of expression kind.
    pub fn is_expression(&self, i: usize) -> bool {
        self.elements[i].node && (64..=1023).contains(&self.elements[i].kind)
    }

    /// The first child node of expression kind.
    pub fn first_expression(&self, i: usize) -> Option<usize> {
        self.children(i).find(|&c| self.is_expression(c))
    }

    /// Goes down first children; none at a childless node.
    pub fn first_token(&self, i: usize) -> Option<usize> {
        let mut at = i;
        while self.elements[at].node {
            if self.elements[at].size == 1 {
                return None;
            }
            at += 1;
        }
        Some(at)
    }

    pub fn tokens_below(&self, i: usize) -> impl Iterator<Item = usize> {
        (i..i + self.elements[i].size).filter(|&e| !self.elements[e].node)
    }
}

/// 18, which comes before everything else of a tree.
pub fn check_limits(words: &[u32], text: &[u8]) -> Result<(), u32> {
    if words.len() / 3 > MOST_ELEMENTS || text.len() > MOST_BYTES { Err(18) } else { Ok(()) }
}

/// The elements of a list of three words each; nothing if a word by itself is malformed.
fn read_elements(words: &[u32]) -> Option<Vec<Element>> {
    let (triples, rest) = words.as_chunks::<3>();
    if triples.is_empty() || !rest.is_empty() {
        return None;
    }
    triples.iter().map(|&[element, start, end]| read_element(element, start, end)).collect()
}

fn read_element(element: u32, start: u32, end: u32) -> Option<Element> {
    let kind = syntax_kind(element);
    let node = match word_kind(element) {
        NODE => true,
        TOKEN if kind <= 1023 => false,
        _ => return None,
    };
    let kinds = kind != 0 && word_kind(start) == START && word_kind(end) == END;
    let (start, end) = (value(start) as usize, value(end) as usize);
    let size = low16(element) as usize;
    let (parent, depth) = (None, 0);
    (kinds && start <= end).then_some(Element { node, kind, size, start, end, parent, depth })
}

fn is_well_formed(elements: &[Element], text: usize) -> bool {
    let root = &elements[0];
    root.node
        && root.size == elements.len()
        && (root.start, root.end) == (0, text)
        && (0..elements.len()).all(|i| {
            if elements[i].node {
                is_node_well_formed(elements, i)
            } else {
                elements[i].size == 1 && elements[i].start < elements[i].end
            }
        })
}

/// A childless node is empty; children lie inside their parent and tile it.
fn is_node_well_formed(elements: &[Element], i: usize) -> bool {
    let node = &elements[i];
    let end = i + node.size;
    if node.size == 0 || end > elements.len() {
        return false;
    }
    let mut at = node.start;
    let mut child = i + 1;
    while child < end {
        let Element { size, start, end: stop, .. } = elements[child];
        if size == 0 || child + size > end || start != at {
            return false;
        }
        at = stop;
        child += size;
    }
    at == node.end
}

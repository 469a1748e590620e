//! Nodes and tokens: an element number in a shared tree.

use std::fmt;
use std::hash::{Hash, Hasher};
use std::rc::Rc;

use crate::tree::{Element, Tree};
use crate::{SyntaxKind, TextRange, TextSize, steps};

#[derive(Clone)]
pub struct SyntaxNode {
    tree: Rc<Tree>,
    element: u32,
}

#[derive(Clone)]
pub struct SyntaxToken {
    tree: Rc<Tree>,
    element: u32,
}

#[derive(Clone, Debug, PartialEq, Eq, Hash)]
pub enum SyntaxElement {
    Node(SyntaxNode),
    Token(SyntaxToken),
}

/// The children of a node, tokens included.
#[derive(Clone)]
pub struct SyntaxElementChildren {
    tree: Rc<Tree>,
    next: u32,
    end: u32,
}

/// The child nodes of a node.
struct SyntaxNodeChildren(SyntaxElementChildren);

#[inline]
fn at(tree: &Rc<Tree>, element: u32, kind: SyntaxKind) -> SyntaxElement {
    let tree = tree.clone();
    if kind.is_node() {
        SyntaxElement::Node(SyntaxNode { tree, element })
    } else {
        SyntaxElement::Token(SyntaxToken { tree, element })
    }
}

impl SyntaxNode {
    pub(crate) fn new(tree: Rc<Tree>, element: u32) -> SyntaxNode {
        SyntaxNode { tree, element }
    }

    #[inline]
    pub fn tree(&self) -> &Rc<Tree> {
        &self.tree
    }

    /// The number of the element in its tree.
    #[inline]
    pub fn element(&self) -> u32 {
        self.element
    }

    #[inline]
    pub fn kind(&self) -> SyntaxKind {
        self.tree.element(self.element).kind
    }

    #[inline]
    pub fn text_range(&self) -> TextRange {
        self.tree.element(self.element).range
    }

    #[inline]
    pub fn text(&self) -> &str {
        self.tree.text_of(self.element)
    }

    #[inline]
    pub fn parent(&self) -> Option<SyntaxNode> {
        let element = self.tree.element(self.element).parent?;
        Some(SyntaxNode { tree: self.tree.clone(), element })
    }

    /// The node, its parent, and so on to the root.
    pub fn ancestors(&self) -> impl Iterator<Item = SyntaxNode> + use<> {
        std::iter::successors(Some(self.clone()), SyntaxNode::parent)
    }

    #[inline]
    pub fn children_with_tokens(&self) -> SyntaxElementChildren {
        steps::take();
        let end = self.element + self.tree.element(self.element).size;
        SyntaxElementChildren { tree: self.tree.clone(), next: self.element + 1, end }
    }

    #[inline]
    pub fn children(&self) -> impl Iterator<Item = SyntaxNode> + use<> {
        SyntaxNodeChildren(self.children_with_tokens())
    }

    #[inline]
    pub fn first_child_or_token(&self) -> Option<SyntaxElement> {
        self.children_with_tokens().next()
    }

    pub fn first_child(&self) -> Option<SyntaxNode> {
        self.children().next()
    }

    pub fn next_sibling(&self) -> Option<SyntaxNode> {
        self.parent()?.children().find(|sibling| sibling.element > self.element)
    }

    /// The node and all below it, in preorder.
    pub fn descendants_with_tokens(&self) -> impl Iterator<Item = SyntaxElement> + use<> {
        steps::take();
        let tree = self.tree.clone();
        let end = self.element + tree.element(self.element).size;
        (self.element..end).map(move |element| at(&tree, element, tree.element(element).kind))
    }

    pub fn descendants(&self) -> impl Iterator<Item = SyntaxNode> + use<> {
        self.descendants_with_tokens().filter_map(SyntaxElement::into_node)
    }

    /// Goes down first children; none at a childless node.
    pub fn first_token(&self) -> Option<SyntaxToken> {
        match self.first_child_or_token()? {
            SyntaxElement::Node(node) => node.first_token(),
            SyntaxElement::Token(token) => Some(token),
        }
    }

    pub fn token_at_offset(&self, offset: TextSize) -> TokenAtOffset {
        let token = self.descendants_with_tokens().find_map(|element| match element {
            SyntaxElement::Token(token) => {
                let range = token.text_range();
                (range.start() <= offset && offset <= range.end()).then_some(token)
            }
            SyntaxElement::Node(_) => None,
        });
        TokenAtOffset { left: token }
    }
}

/// The tokens that touch an offset.
pub struct TokenAtOffset {
    left: Option<SyntaxToken>,
}

impl TokenAtOffset {
    pub fn left_biased(self) -> Option<SyntaxToken> {
        self.left
    }
}

impl SyntaxToken {
    #[inline]
    pub fn element(&self) -> u32 {
        self.element
    }

    /// The token of that number, if there is one.
    pub fn of(tree: &Rc<Tree>, element: u32) -> Option<SyntaxToken> {
        let found = tree.elements.get(element as usize)?;
        (!found.kind.is_node()).then(|| SyntaxToken { tree: tree.clone(), element })
    }

    #[inline]
    pub fn kind(&self) -> SyntaxKind {
        self.tree.element(self.element).kind
    }

    #[inline]
    pub fn text_range(&self) -> TextRange {
        self.tree.element(self.element).range
    }

    #[inline]
    pub fn text(&self) -> &str {
        self.tree.text_of(self.element)
    }

    #[inline]
    pub fn parent(&self) -> Option<SyntaxNode> {
        let element = self.tree.element(self.element).parent?;
        Some(SyntaxNode { tree: self.tree.clone(), element })
    }

    pub fn parent_ancestors(&self) -> impl Iterator<Item = SyntaxNode> + use<> {
        std::iter::successors(self.parent(), SyntaxNode::parent)
    }
}

impl SyntaxElement {
    #[inline]
    pub fn kind(&self) -> SyntaxKind {
        match self {
            SyntaxElement::Node(node) => node.kind(),
            SyntaxElement::Token(token) => token.kind(),
        }
    }

    #[inline]
    pub fn text_range(&self) -> TextRange {
        match self {
            SyntaxElement::Node(node) => node.text_range(),
            SyntaxElement::Token(token) => token.text_range(),
        }
    }

    fn into_node(self) -> Option<SyntaxNode> {
        match self {
            SyntaxElement::Node(node) => Some(node),
            SyntaxElement::Token(_) => None,
        }
    }
}

impl SyntaxElementChildren {
    /// Number and kind of the next child.
    #[inline]
    fn step(&mut self) -> Option<(u32, SyntaxKind)> {
        if self.next >= self.end {
            return None;
        }
        let number = self.next;
        let Element { kind, size, .. } = *self.tree.element(number);
        self.next += size;
        Some((number, kind))
    }
}

impl Iterator for SyntaxElementChildren {
    type Item = SyntaxElement;

    #[inline]
    fn next(&mut self) -> Option<SyntaxElement> {
        let (number, kind) = self.step()?;
        Some(at(&self.tree, number, kind))
    }
}

impl Iterator for SyntaxNodeChildren {
    type Item = SyntaxNode;

    #[inline]
    fn next(&mut self) -> Option<SyntaxNode> {
        loop {
            let (number, kind) = self.0.step()?;
            if kind.is_node() {
                return Some(SyntaxNode { tree: self.0.tree.clone(), element: number });
            }
        }
    }
}

// Equality is of the element in its tree. The hash leaves the tree out, so that the order of a
// hash map does not depend on how many trees were made before.
macro_rules! identity {
    ($name:ident) => {
        impl PartialEq for $name {
            #[inline]
            fn eq(&self, other: &$name) -> bool {
                self.element == other.element && Rc::ptr_eq(&self.tree, &other.tree)
            }
        }

        impl Eq for $name {}

        impl Hash for $name {
            #[inline]
            fn hash<H: Hasher>(&self, state: &mut H) {
                self.element.hash(state);
            }
        }

        impl fmt::Debug for $name {
            fn fmt(&self, f: &mut fmt::Formatter<'_>) -> fmt::Result {
                write!(f, "{:?}@{:?}", self.kind(), self.text_range())
            }
        }

        impl fmt::Display for $name {
            fn fmt(&self, f: &mut fmt::Formatter<'_>) -> fmt::Result {
                f.write_str(self.text())
            }
        }
    };
}

identity!(SyntaxNode);
identity!(SyntaxToken);

impl fmt::Display for SyntaxElement {
    fn fmt(&self, f: &mut fmt::Formatter<'_>) -> fmt::Result {
        match self {
            SyntaxElement::Node(node) => node.fmt(f),
            SyntaxElement::Token(token) => token.fmt(f),
        }
    }
}

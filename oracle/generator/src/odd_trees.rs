//! Trees that no parser makes, for building and resolving: paths with parts missing, repeated or out
//! of place, names that are empty, nested or `self`, and calls that two paths claim.

use crate::kinds::*;
use crate::parts::*;
use crate::rng::Rng;
use input::build::{Syntax, node, token};

/// Kinds of nodes, PATH (2) and SELF's number (11) among them.
const NODES: [u32; 10] =
    [PATH, ARG_LIST, PATH_EXPR, PATH_EXPR, BIN_EXPR, FN, EXPR_STMT, PATH_TYPE, 10, 11];

/// The kinds of a token that may be a name, with the numbers of the nodes that are looked for.
const TOKENS: [u32; 12] =
    [IDENT, IDENT, IDENT, IDENT, WHITESPACE, COMMENT, COMMA, R_PAREN, SELF, NUMBER, STRING, 1023];

/// A placeholder's name that no list declares.
const UNDECLARED: &str = "q";

/// Makes trees; `names` are the placeholders that may occur.
pub struct Odd<'a> {
    pub rng: &'a mut Rng,
    pub names: &'a [&'a str],
    /// About how many elements may still come.
    pub left: usize,
}

impl Odd<'_> {
    /// A tree whose root is a node.
    pub fn root(&mut self) -> Syntax {
        match self.rng.below(10) {
            0..=2 => self.path(),
            3..=6 => self.call(),
            _ => self.other(),
        }
    }

    /// Whether something more may come, in so many of a hundred cases.
    fn more(&mut self, percent: usize) -> bool {
        self.left = self.left.saturating_sub(1);
        self.left > 0 && self.rng.chance(percent)
    }

    fn any(&mut self) -> Syntax {
        if !self.more(85) {
            return self.name();
        }
        match self.rng.below(12) {
            0..=1 => self.call(),
            2..=5 => self.path(),
            6..=8 => self.other(),
            9 => self.empty(),
            _ => self.name(),
        }
    }

    fn other(&mut self) -> Syntax {
        let count = if self.more(90) { self.rng.between(1, 4) } else { 1 };
        let children: Vec<Syntax> = (0..count).map(|_| self.any()).collect();
        node(self.kind(), children)
    }

    fn kind(&mut self) -> u32 {
        *self.rng.pick(&NODES)
    }

    fn empty(&mut self) -> Syntax {
        let kinds = [PATH, PATH_SEGMENT, NAME_REF, GENERIC_ARGS, CALL_EXPR, LITERAL];
        node(*self.rng.pick(&kinds), [])
    }

    /// A call and its paths, one or two of them its grandchildren.
    fn call(&mut self) -> Syntax {
        let kind = if self.rng.chance(92) { CALL_EXPR } else { METHOD_CALL_EXPR };
        let (first, around) = (self.path(), self.kind());
        let mut children = match self.rng.below(12) {
            0..=1 => vec![node(around, [first, self.path()])],
            2..=3 => vec![node(around, [first]), node(self.kind(), [self.path()])],
            4 => vec![first],
            5 => vec![node(around, [node(self.kind(), [first])])],
            _ => vec![node(around, [first])],
        };
        if self.more(70) {
            let argument = self.any();
            children.push(node(ARG_LIST, [mark("("), argument, mark(")")]));
        }
        node(kind, children)
    }

    /// A path: mostly a qualifier or none, `::` and a segment.
    fn path(&mut self) -> Syntax {
        let mut children = Vec::new();
        if self.more(45) {
            children.push(self.path());
            if self.rng.chance(80) {
                children.push(mark("::"));
            }
        }
        for _ in 0..*self.rng.pick(&[0, 1, 1, 1, 1, 1, 1, 1, 1, 2]) {
            children.push(self.segment());
        }
        if self.rng.chance(6) && self.more(100) {
            children.push(self.path());
        }
        self.before(&mut children);
        node(PATH, children)
    }

    fn segment(&mut self) -> Syntax {
        let mut children = Vec::new();
        for _ in 0..*self.rng.pick(&[0, 1, 1, 1, 1, 1, 1, 1, 1, 2]) {
            children.push(self.name_ref());
        }
        if self.rng.chance(12) {
            let inside = if self.more(70) { vec![mark("<"), self.any()] } else { Vec::new() };
            children.push(node(GENERIC_ARGS, inside));
        }
        self.before(&mut children);
        node(PATH_SEGMENT, children)
    }

    /// Now and then a token or something else before all children.
    fn before(&mut self, children: &mut Vec<Syntax>) {
        match self.rng.below(20) {
            0 => children.insert(0, self.any()),
            1 => children.insert(0, self.name()),
            _ => {}
        }
    }

    fn name_ref(&mut self) -> Syntax {
        let children = match self.rng.below(16) {
            0 => Vec::new(),
            1 => vec![self.empty(), self.name()],
            2 => vec![node(self.kind(), [self.name()])],
            3 => vec![self.name(), self.name()],
            _ => vec![self.name()],
        };
        node(NAME_REF, children)
    }

    /// A token that may be a name: `self` by kind, by text or by both, a stand-in name or another.
    fn name(&mut self) -> Syntax {
        let kind = *self.rng.pick(&TOKENS);
        match self.rng.below(30) {
            0 => token(SELF, "self"),
            1 => token(kind, "self"),
            2 => token(SELF, "f"),
            3..=5 if !self.names.is_empty() => {
                let name = *self.rng.pick(self.names);
                let kind = if self.rng.chance(50) { IDENT } else { kind };
                token(kind, [STAND_IN, name.as_bytes()].concat())
            }
            6 => stand_in(UNDECLARED),
            7 => token(kind, "é"),
            8 if self.rng.chance(10) => token(kind, [0xff]),
            _ => token(kind, *self.rng.pick(&["f", "g", "S", "x", "__placeholder_"])),
        }
    }
}

/// Another tree over the same text.
pub fn reshaped(rng: &mut Rng, tree: &Syntax) -> Syntax {
    match rng.below(10) {
        0..=2 => tree.clone(),
        3..=4 => node(EXPR_STMT, [tree.clone()]),
        5 => {
            let tokens = tree.tokens().into_iter().map(|(kind, text)| token(kind, text));
            node(FN, tokens.collect::<Vec<_>>())
        }
        6 => without_paths(tree),
        7 => with_other_kinds(rng, tree),
        _ => with_wrapped(rng, tree),
    }
}

pub fn without_paths(tree: &Syntax) -> Syntax {
    changed(tree, &mut |kind, children| node(if kind == PATH { PATH_TYPE } else { kind }, children))
}

fn with_other_kinds(rng: &mut Rng, tree: &Syntax) -> Syntax {
    let kinds = [PATH, PATH_SEGMENT, NAME_REF, GENERIC_ARGS, CALL_EXPR, PATH_EXPR];
    changed(tree, &mut |kind, children| {
        node(if rng.chance(15) { *rng.pick(&kinds) } else { kind }, children)
    })
}

/// Some nodes get another around them, or an empty one behind their children.
fn with_wrapped(rng: &mut Rng, tree: &Syntax) -> Syntax {
    changed(tree, &mut |kind, mut children| match rng.below(16) {
        0 => node(*rng.pick(&NODES), [node(kind, children)]),
        1 => {
            children.push(node(*rng.pick(&[NAME_REF, GENERIC_ARGS, PATH]), []));
            node(kind, children)
        }
        _ => node(kind, children),
    })
}

/// The tree with each node made again of its kind and its changed children.
fn changed(tree: &Syntax, make: &mut impl FnMut(u32, Vec<Syntax>) -> Syntax) -> Syntax {
    match tree {
        Syntax::Token(..) => tree.clone(),
        Syntax::Node(kind, children) => {
            let children = children.iter().map(|child| changed(child, make)).collect();
            make(*kind, children)
        }
    }
}

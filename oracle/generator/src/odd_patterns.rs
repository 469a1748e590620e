//! Patterns that no parser makes, for matching: token trees, record lists, calls and paths with parts
//! missing, repeated or out of place, placeholders in any of them, and trivia anywhere.

mod nests;

use crate::kinds::*;
use crate::parts::*;
use crate::rng::Rng;
use crate::world;
use input::build::{Syntax, node, token};

pub use nests::PATH_NAMES;

/// Kinds of nodes without a meaning of their own, expressions and others.
const NODES: [u32; 10] =
    [BIN_EXPR, BIN_EXPR, REF_EXPR, PAREN_EXPR, LITERAL, EXPR_STMT, PATH_TYPE, FN, 63, 4095];

/// Kinds of nodes around a placeholder's name.
const AROUND: [u32; 10] =
    [PATH_EXPR, PATH, LITERAL, NAME_REF, EXPR_STMT, TOKEN_TREE, RECORD_FIELD, CALL_EXPR, 63, 4095];

/// Tokens whose kind does not go with their text, or that close without having opened.
const ODD_TOKENS: [(u32, &str); 10] = [
    (IDENT, "("),
    (NUMBER, "x"),
    (1023, "x"),
    (COMMA, ";"),
    (R_PAREN, "]"),
    (R_CURLY, "}"),
    (R_BRACK, "]"),
    (SELF, "self"),
    (IDENT, "self"),
    (STRING, "é"),
];

const FIELDS: [&str; 5] = ["x", "y", "z", "field", "w"];

/// Makes patterns; `names` are the placeholders that may occur.
pub struct OddPattern<'a> {
    pub rng: &'a mut Rng,
    pub names: &'a [&'a str],
    /// About how many elements may still come.
    pub left: usize,
}

impl OddPattern<'_> {
    /// A tree whose root is a node.
    pub fn root(&mut self) -> Syntax {
        match self.rng.below(40) {
            0 if !self.names.is_empty() => self.placeholder(),
            1..=6 if self.names.len() > 2 => self.crowd(),
            7..=16 => self.call(),
            17..=23 => self.record(),
            24..=30 => self.macro_call(),
            31..=32 => self.method_call(),
            33..=34 => path_expr(self.path()),
            _ => self.sequence(),
        }
    }

    /// All placeholders, in a sequence, as arguments, in a token tree or as values of fields.
    fn crowd(&mut self) -> Syntax {
        let mut names = self.names.to_vec();
        self.rng.shuffle(&mut names);
        let short = self.rng.chance(50);
        let value = |name: &&str| match short {
            true => node(PATH_EXPR, [stand_in(name)]),
            false => path_expr(path_of(stand_in(name))),
        };
        let values: Vec<Syntax> = names.iter().map(value).collect();
        match self.rng.below(4) {
            0 => node(BIN_EXPR, values),
            1 => {
                let arguments = values.into_iter().flat_map(|value| [value, mark(",")]);
                let arguments: Vec<Syntax> = arguments.chain([mark(")")]).collect();
                node(CALL_EXPR, [path_expr(self.path()), node(ARG_LIST, arguments)])
            }
            2 => {
                let runs = names.iter().flat_map(|name| [stand_in(name), mark(";")]);
                node(TOKEN_TREE, runs.collect::<Vec<_>>())
            }
            _ => {
                // Eight placeholders take more names than there are otherwise.
                let field = |(name, value): (&&str, Syntax)| {
                    node(RECORD_FIELD, [node(NAME_REF, [ident(name)]), mark(":"), value])
                };
                node(RECORD_LIST, names.iter().zip(values).map(field).collect::<Vec<_>>())
            }
        }
    }

    /// Whether something more may come, in so many of a hundred cases.
    fn more(&mut self, percent: usize) -> bool {
        self.left = self.left.saturating_sub(1);
        self.left > 0 && self.rng.chance(percent)
    }

    fn is_placeholder(&mut self, percent: usize) -> bool {
        !self.names.is_empty() && self.rng.chance(percent)
    }

    fn name(&mut self) -> Syntax {
        let name = *self.rng.pick(self.names);
        stand_in(name)
    }

    /// A node that is a placeholder, mostly as a parser would have it.
    fn placeholder(&mut self) -> Syntax {
        let name = self.name();
        if self.rng.chance(65) {
            return path_expr(path_of(name));
        }
        let levels = self.rng.between(1, 3);
        (0..levels).fold(name, |inner, _| node(*self.rng.pick(&AROUND), [inner]))
    }

    /// Anything that may stand in a sequence.
    fn any(&mut self) -> Syntax {
        if self.is_placeholder(25) {
            return self.placeholder();
        }
        if !self.more(90) {
            return self.token();
        }
        match self.rng.below(16) {
            0..=1 => self.call(),
            2 => self.method_call(),
            3..=4 => self.record(),
            5..=6 => self.macro_call(),
            7 => path_expr(self.path()),
            8..=10 => self.sequence(),
            11 => node(*self.rng.pick(&NODES), []),
            12 => self.trivia(),
            _ => self.token(),
        }
    }

    /// An expression, so that argument lists have arguments.
    fn expression(&mut self) -> Syntax {
        if self.is_placeholder(45) {
            return self.placeholder();
        }
        if !self.more(60) {
            return node(LITERAL, [token(NUMBER, *self.rng.pick(&["0", "1", "2"]))]);
        }
        match self.rng.below(8) {
            0..=1 => self.call(),
            2 => self.record(),
            3 => self.macro_call(),
            4 => path_expr(self.path()),
            5 => node(LITERAL, []),
            _ => self.any(),
        }
    }

    fn token(&mut self) -> Syntax {
        match self.rng.below(12) {
            0..=4 => any_name(self.rng, &world::LOCALS),
            5 => token(NUMBER, *self.rng.pick(&["0", "1"])),
            6..=7 => mark(self.rng.pick::<&str>(&[",", ")", "+", "("])),
            8 if !self.names.is_empty() => self.name(),
            9 if !self.names.is_empty() => token(NUMBER, token_text(&self.name())),
            10 => stand_in("q"),
            _ => {
                let (kind, text) = *self.rng.pick(&ODD_TOKENS);
                token(kind, text)
            }
        }
    }

    fn trivia(&mut self) -> Syntax {
        if self.rng.chance(50) { space() } else { token(COMMENT, "/*p*/") }
    }

    fn sequence(&mut self) -> Syntax {
        let count = if self.more(95) { self.rng.below(6) } else { 0 };
        let children: Vec<Syntax> = (0..count).map(|_| self.any()).collect();
        node(*self.rng.pick(&NODES), children)
    }

    /// A call of a path that may claim it, or of two, or of none.
    fn call(&mut self) -> Syntax {
        let path = self.path();
        let mut children = match self.rng.below(30) {
            0 => vec![path],
            1 => vec![path_expr(path), path_expr(self.path())],
            2 => vec![path_expr(node(PATH_EXPR, [path]))],
            _ => vec![path_expr(path)],
        };
        for _ in 0..*self.rng.pick(&[0, 1, 1, 1, 1, 1, 1, 1, 1, 1, 1, 1, 1, 2]) {
            children.push(self.arguments());
        }
        node(CALL_EXPR, children)
    }

    fn arguments(&mut self) -> Syntax {
        let mut children = vec![mark("(")];
        let count = *self.rng.pick(&[0, 1, 1, 1, 2, 2, 3]);
        for place in 0..count {
            children.push(self.expression());
            if place + 1 < count || self.rng.chance(15) {
                children.push(mark(","));
            }
        }
        self.disturb(&mut children);
        if self.rng.chance(95) {
            children.push(mark(")"));
        }
        node(ARG_LIST, children)
    }

    /// Now and then trivia or something else between the children.
    fn disturb(&mut self, children: &mut Vec<Syntax>) {
        if self.rng.chance(12) {
            let other = if self.rng.chance(60) { self.trivia() } else { self.any() };
            children.insert(self.rng.below(children.len() + 1), other);
        }
    }

    fn method_call(&mut self) -> Syntax {
        let receiver = self.expression();
        let name =
            if self.is_placeholder(15) { self.name() } else { any_name(self.rng, &world::METHODS) };
        node(METHOD_CALL_EXPR, [receiver, mark("."), node(NAME_REF, [name]), self.arguments()])
    }

    /// Mostly `S::r` or `f`, now and then with a part missing or repeated.
    fn path(&mut self) -> Syntax {
        let mut children = Vec::new();
        if self.rng.chance(70) {
            let owner = any_name(self.rng, &world::TYPES);
            children.extend([path_of(owner), mark("::")]);
        }
        let names = if children.is_empty() { &world::FUNCTIONS[..] } else { &world::METHODS };
        for _ in 0..*self.rng.pick(&[1, 1, 1, 1, 1, 1, 1, 1, 1, 1, 1, 1, 1, 1, 0, 2]) {
            children.push(self.segment(names));
        }
        node(PATH, children)
    }

    fn segment(&mut self, names: &[&str]) -> Syntax {
        let name = if self.is_placeholder(4) { self.name() } else { any_name(self.rng, names) };
        let mut children = vec![node(NAME_REF, [name])];
        for (kind, open, close) in [(GENERIC_ARGS, "<", ">"), (PAREN_ARGS, "(", ")")] {
            if self.rng.chance(14) && self.more(100) {
                let inside = if self.rng.chance(60) { self.expression() } else { self.any() };
                children.push(node(kind, [mark(open), inside, mark(close)]));
            }
        }
        if self.rng.one_in(25) {
            children.remove(0);
        }
        node(PATH_SEGMENT, children)
    }

    fn record(&mut self) -> Syntax {
        let list = self.record_list();
        if self.rng.chance(30) {
            return list;
        }
        node(RECORD_EXPR, [path_of(any_name(self.rng, &world::TYPES)), list])
    }

    fn record_list(&mut self) -> Syntax {
        let mut children = vec![mark("{")];
        let mut names = FIELDS;
        self.rng.shuffle(&mut names);
        let count = self.rng.below(5);
        for place in 0..count {
            let name = if self.rng.chance(6) { names[0] } else { names[place] };
            children.push(self.field(name));
            if place + 1 < count || self.rng.chance(20) {
                children.push(mark(","));
            }
        }
        self.disturb(&mut children);
        children.push(mark("}"));
        node(RECORD_LIST, children)
    }

    /// A field: its name mostly an identifier by itself or in a node.
    fn field(&mut self, name: &str) -> Syntax {
        let mut children = match self.rng.below(40) {
            0..=5 if !self.names.is_empty() => vec![node(NAME_REF, [self.name()])],
            6 if !self.names.is_empty() => vec![self.name()],
            7 => vec![token(NUMBER, "0")],
            8 => vec![self.trivia(), ident(name)],
            9 => vec![node(NAME_REF, [])],
            10 => Vec::new(),
            11..=15 => vec![ident(name)],
            _ => vec![node(NAME_REF, [ident(name)])],
        };
        if self.rng.chance(85) {
            children.push(mark(":"));
            let deep = self.rng.chance(25) && self.more(100);
            children.push(if deep { self.record() } else { self.expression() });
        }
        node(if self.rng.chance(94) { RECORD_FIELD } else { *self.rng.pick(&NODES) }, children)
    }

    fn macro_call(&mut self) -> Syntax {
        let tree = self.token_tree(TOKEN_TREE);
        if self.rng.chance(40) {
            return tree;
        }
        let path = path_of(any_name(self.rng, &world::FUNCTIONS));
        node(MACRO_CALL, [path, mark("!"), tree])
    }

    fn token_tree(&mut self, kind: u32) -> Syntax {
        let (open, close) = *self.rng.pick(&[("(", ")"), ("(", ")"), ("[", "]"), ("{", "}")]);
        let mut children = vec![mark(open)];
        for _ in 0..self.rng.below(7) {
            let part = self.token_tree_part();
            children.push(part);
        }
        if self.rng.chance(85) {
            children.push(mark(close));
        }
        node(kind, children)
    }

    /// A token, a placeholder, or a tree of any kind: below a token tree kinds do not matter.
    fn token_tree_part(&mut self) -> Syntax {
        if self.is_placeholder(30) {
            return if self.rng.chance(75) { self.name() } else { self.placeholder() };
        }
        match self.rng.below(12) {
            0..=1 if self.more(80) => self.token_tree(TOKEN_TREE),
            2 if self.more(80) => {
                let kind = *self.rng.pick(&NODES);
                self.token_tree(kind)
            }
            3 => self.trivia(),
            4 => mark("("),
            5 => node(TOKEN_TREE, []),
            _ => self.token(),
        }
    }
}

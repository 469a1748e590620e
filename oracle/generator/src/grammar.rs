//! Random expressions: code, or patterns and templates with stand-in names among them.

use crate::kinds::*;
use crate::parts::*;
use crate::rng::Rng;
use crate::world;
use input::build::{Syntax, node, token};

/// Makes expressions; `names` are the placeholders that may occur, none in code.
pub struct Grammar<'a> {
    pub rng: &'a mut Rng,
    pub names: &'a [&'a str],
    /// How many of a hundred leaves are placeholders.
    pub placeholders: usize,
}

impl<'a> Grammar<'a> {
    pub fn code(rng: &'a mut Rng) -> Grammar<'a> {
        Grammar { rng, names: &[], placeholders: 0 }
    }

    pub fn expression(&mut self, depth: usize) -> Syntax {
        if depth == 0 {
            return self.leaf();
        }
        match self.rng.below(20) {
            0..=2 => self.call(depth),
            3..=5 => self.associated_call(depth),
            6..=7 => self.method_call(depth),
            8 => node(
                BIN_EXPR,
                [self.expression(depth - 1), space(), mark("+"), space(), self.leaf()],
            ),
            9 => node(REF_EXPR, [mark("&"), self.expression(depth - 1)]),
            10 => node(PAREN_EXPR, [mark("("), self.expression(depth - 1), mark(")")]),
            11..=13 => self.record(depth),
            14..=16 => self.macro_call(depth),
            17 => self.odd(depth),
            _ => self.leaf(),
        }
    }

    fn is_placeholder(&mut self, percent: usize) -> bool {
        !self.names.is_empty() && self.rng.chance(percent)
    }

    fn placeholder(&mut self) -> Syntax {
        let name = *self.rng.pick(self.names);
        stand_in(name)
    }

    pub fn leaf(&mut self) -> Syntax {
        if self.is_placeholder(self.placeholders) {
            let name = self.placeholder();
            return if self.rng.chance(90) {
                path_expr(path_of(name))
            } else {
                node(*self.rng.pick(&[PATH_EXPR, LITERAL, BIN_EXPR, EXPR_STMT]), [name])
            };
        }
        match self.rng.below(10) {
            0..=3 => node(LITERAL, [self.literal()]),
            4..=6 => path_expr(path_of(any_name(self.rng, &world::LOCALS))),
            7 => path_expr(path_of(ident("self"))),
            _ => path_expr(self.path()),
        }
    }

    fn literal(&mut self) -> Syntax {
        if self.rng.chance(70) {
            token(NUMBER, *self.rng.pick(&["0", "1", "2"]))
        } else {
            token(STRING, *self.rng.pick(&["\"a\"", "\"\"", "\"é\""]))
        }
    }

    /// A path to a function, a type or something associated, with arguments now and then.
    pub fn path(&mut self) -> Syntax {
        match self.rng.below(10) {
            0..=4 => {
                let name = any_name(self.rng, &world::FUNCTIONS);
                let segment = self.segment(name);
                self.qualified(segment, 25)
            }
            5 => path_of(any_name(self.rng, &world::TYPES)),
            6 => self.anchored(),
            7 if !self.names.is_empty() => {
                let name = self.placeholder();
                let segment = segment_of(any_name(self.rng, &world::FUNCTIONS));
                node(PATH, [path_of(name), mark("::"), segment])
            }
            _ => self.associated_path(),
        }
    }

    fn qualified(&mut self, segment: Syntax, percent: usize) -> Syntax {
        if self.rng.chance(percent) {
            node(PATH, [path_of(ident("m")), mark("::"), segment])
        } else {
            node(PATH, [segment])
        }
    }

    /// `<S>::f`: a qualifier whose segment has no name.
    fn anchored(&mut self) -> Syntax {
        let anchor = [mark("<"), self.type_(), mark(">")];
        let qualifier = node(PATH, [node(PATH_SEGMENT, anchor)]);
        let name = any_name(self.rng, &world::ASSOCIATED);
        node(PATH, [qualifier, mark("::"), segment_of(name)])
    }

    fn associated_path(&mut self) -> Syntax {
        let owner = any_name(self.rng, &world::TYPES);
        let owner = if self.rng.chance(15) { self.segment(owner) } else { segment_of(owner) };
        let owner = self.qualified(owner, 15);
        let methods = self.rng.chance(70);
        let names = if methods { &world::METHODS[..] } else { &world::ASSOCIATED[..] };
        let name = any_name(self.rng, names);
        let segment = self.segment(name);
        node(PATH, [owner, mark("::"), segment])
    }

    /// A segment, with generic or parenthesised arguments now and then.
    fn segment(&mut self, name: Syntax) -> Syntax {
        let mut children = vec![node(NAME_REF, [name])];
        if self.rng.chance(20) {
            let mut list = if self.rng.chance(50) { vec![mark("::")] } else { vec![] };
            list.extend([mark("<"), self.type_(), mark(">")]);
            children.push(node(GENERIC_ARGS, list));
        }
        if self.rng.chance(8) {
            children.push(node(PAREN_ARGS, [mark("("), self.type_(), mark(")")]));
        }
        node(PATH_SEGMENT, children)
    }

    fn type_(&mut self) -> Syntax {
        let name = if self.is_placeholder(50) {
            self.placeholder()
        } else {
            any_name(self.rng, &world::TYPES)
        };
        let path = if self.rng.chance(15) {
            node(PATH, [path_of(ident("m")), mark("::"), segment_of(name)])
        } else {
            path_of(name)
        };
        node(PATH_TYPE, [path])
    }

    fn call(&mut self, depth: usize) -> Syntax {
        let callee = if self.rng.chance(90) { path_expr(self.path()) } else { self.leaf() };
        let arguments = self.arguments(depth);
        node(CALL_EXPR, [callee, arguments])
    }

    /// `S::r(..)`; a pattern's first argument is often a placeholder, for a method's receiver.
    fn associated_call(&mut self, depth: usize) -> Syntax {
        let path = self.associated_path();
        let mut arguments = self.arguments(depth);
        if self.is_placeholder(70)
            && let Some(children) = children_mut(&mut arguments)
            && let Some(first) = children.iter_mut().find(|child| is_expression(child))
        {
            *first = path_expr(path_of(self.placeholder()));
        }
        node(CALL_EXPR, [path_expr(path), arguments])
    }

    fn method_call(&mut self, depth: usize) -> Syntax {
        let name = if self.is_placeholder(15) {
            self.placeholder()
        } else {
            any_name(self.rng, &world::METHODS)
        };
        let mut children = vec![self.expression(depth - 1), mark("."), node(NAME_REF, [name])];
        if self.rng.chance(10) {
            children.push(node(GENERIC_ARGS, [mark("<"), self.type_(), mark(">")]));
        }
        children.push(self.arguments(depth));
        if self.rng.chance(3) {
            children.remove(self.rng.below(children.len()));
        }
        node(METHOD_CALL_EXPR, children)
    }

    fn arguments(&mut self, depth: usize) -> Syntax {
        let mut children = vec![mark("(")];
        let count = *self.rng.pick(&[0, 1, 1, 1, 2, 2, 3]);
        for place in 0..count {
            children.push(self.expression(depth - 1));
            if place + 1 < count {
                children.push(mark(","));
                children.push(space());
            } else if self.rng.chance(15) {
                children.push(mark(","));
            }
        }
        if count == 0 && self.rng.chance(4) {
            children.push(mark(","));
        }
        children.push(mark(")"));
        node(ARG_LIST, children)
    }

    fn record(&mut self, depth: usize) -> Syntax {
        let path = path_of(any_name(self.rng, &world::TYPES));
        let list = self.record_list(depth);
        node(RECORD_EXPR, [path, space(), list])
    }

    pub fn record_list(&mut self, depth: usize) -> Syntax {
        let mut children = vec![mark("{")];
        let mut names = vec!["x", "y", "z", "field"];
        self.rng.shuffle(&mut names);
        let count = self.rng.below(4);
        for place in 0..count {
            let name = if self.rng.chance(12) { names[0] } else { names[place] };
            let field = self.field(name, depth);
            children.push(field);
            if place + 1 < count || self.rng.chance(20) {
                children.push(mark(","));
            }
        }
        if self.rng.chance(8) {
            children.extend([token(COLON2 + 1, ".."), self.leaf()]);
        }
        children.push(mark("}"));
        node(RECORD_LIST, children)
    }

    fn field(&mut self, name: &str, depth: usize) -> Syntax {
        if self.rng.chance(10) {
            let short = if self.is_placeholder(40) { self.placeholder() } else { ident(name) };
            return node(RECORD_FIELD, [path_expr(path_of(short))]);
        }
        let name = match self.rng.below(100) {
            0..=7 => token(NUMBER, "0"),
            8..=22 if !self.names.is_empty() => self.placeholder(),
            _ => ident(name),
        };
        let value = if depth > 1 && self.rng.chance(25) {
            self.record(depth - 1)
        } else {
            self.expression(depth - 1)
        };
        let mut children = vec![node(NAME_REF, [name]), mark(":"), space(), value];
        if self.rng.chance(4) {
            children.remove(self.rng.below(children.len()));
        }
        node(RECORD_FIELD, children)
    }

    fn macro_call(&mut self, depth: usize) -> Syntax {
        let path = path_of(any_name(self.rng, &world::FUNCTIONS));
        let tree = self.token_tree(depth);
        let call = node(MACRO_CALL, [path, mark("!"), tree]);
        if self.rng.chance(80) { node(MACRO_EXPR, [call]) } else { call }
    }

    pub fn token_tree(&mut self, depth: usize) -> Syntax {
        let (open, close) = *self.rng.pick(&[("(", ")"), ("(", ")"), ("[", "]"), ("{", "}")]);
        let mut children = vec![mark(open)];
        for _ in 0..self.rng.below(5) {
            let child = self.token_tree_part(depth);
            children.push(child);
        }
        if self.rng.chance(97) {
            children.push(mark(close));
        }
        node(TOKEN_TREE, children)
    }

    /// A token, or a tree of its own.
    fn token_tree_part(&mut self, depth: usize) -> Syntax {
        if self.is_placeholder(40) {
            return self.placeholder();
        }
        match self.rng.below(12) {
            0..=3 => any_name(self.rng, &world::LOCALS),
            4..=5 => mark(","),
            6 => token(NUMBER, "1"),
            7 => mark("("),
            8 => space(),
            9 => mark("+"),
            _ if depth > 0 => self.token_tree(depth - 1),
            _ => ident("self"),
        }
    }

    /// A node of any kind with any children, none included.
    fn odd(&mut self, depth: usize) -> Syntax {
        let kinds = [
            TOKEN_TREE,
            PATH_SEGMENT,
            NAME_REF,
            ARG_LIST,
            RECORD_LIST,
            RECORD_FIELD,
            CALL_EXPR,
            METHOD_CALL_EXPR,
            LITERAL,
            BIN_EXPR,
            FN,
            EXPR_STMT,
            PATH_TYPE,
            63,
            1023,
            4095,
        ];
        let kind = *self.rng.pick(&kinds);
        let mut children = Vec::new();
        for _ in 0..self.rng.below(4) {
            let child = if self.rng.chance(40) {
                self.expression(depth - 1)
            } else {
                self.token_tree_part(0)
            };
            children.push(child);
        }
        node(kind, children)
    }
}

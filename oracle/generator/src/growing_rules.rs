//! Rules that resolve, as large as one wants them: for timing.

use crate::facts::paths;
use crate::kinds::*;
use crate::limits::side;
use crate::parts::*;
use input::build::{Syntax, fact, node, token};
use input::pairs::encode;
use input::{Pair, Rules, Side};

/// Flags of sort 1: a definition that is usable, and one that is not.
const USABLE: u32 = 3;
const NOT_USABLE: u32 = 2;

/// A pattern of so many elements below one root; every eighth is a resolved path.
pub fn wide(elements: usize) -> Rules {
    nested(elements, 1)
}

/// The same, its root and all in it spread over so many levels.
pub fn nested(elements: usize, depth: usize) -> Rules {
    let (groups, rest) = ((elements - depth) / 8, (elements - depth) % 8);
    let mut children = vec![mark(","); rest];
    for level in 0..depth {
        let here = groups * (level + 1) / depth - groups * level / depth;
        children.extend(vec![group(); here].concat());
        children = vec![node(PAREN_EXPR, children)];
    }
    pattern(&children[0], |_| USABLE)
}

/// `f1,`: eight elements, one of them a path.
fn group() -> Vec<Syntax> {
    vec![path_expr(path_of(ident("f"))), node(LITERAL, [token(NUMBER, "1")]), mark(",")]
}

/// Paths `f::f::f` of so many names, up to so many elements in all. The first name alone is resolved: of the
/// others none is usable.
pub fn qualifiers(elements: usize, names: usize) -> Rules {
    chains(elements, names, segment_of(ident("f")))
}

/// Paths `f<>::f::f`: the others have type arguments in their qualifiers.
pub fn typed_qualifiers(elements: usize, names: usize) -> Rules {
    let arguments = node(GENERIC_ARGS, [mark("<"), mark(">")]);
    chains(elements, names, node(PATH_SEGMENT, [node(NAME_REF, [ident("f")]), arguments]))
}

fn chains(elements: usize, names: usize, first: Syntax) -> Rules {
    let longer = |path, _| node(PATH, [path, mark("::"), segment_of(ident("f"))]);
    let chain = path_expr((1..names).fold(node(PATH, [first]), longer));
    let count = (elements - 1) / chain.elements().len();
    let is_longer = |path: &Syntax| child_of_kind(path, PATH).is_some();
    let flags = |path: &Syntax| if is_longer(path) { NOT_USABLE } else { USABLE };
    pattern(&node(PAREN_EXPR, vec![chain; count]), flags)
}

/// A pattern that is one tree, all of whose paths have a fact with flags. Its list is one token.
fn pattern(tree: &Syntax, flags: impl Fn(&Syntax) -> u32) -> Rules {
    let text = tree.text();
    let mut pattern = side(tree, &[(STRING, str::from_utf8(&text).unwrap_or_default())]);
    let resolution = |(i, path): (usize, &Syntax)| fact(1, i, [i as u32, flags(path), 0]);
    pattern.trees[0].facts = paths(tree).into_iter().flat_map(resolution).collect();
    encode(&[Pair { pattern, ..Pair::default() }], b"")
}

/// So many pairs `f($a) ==>> g($a)`.
pub fn pairs(count: usize) -> Rules {
    let pair = Pair { pattern: call("f"), has_template: true, template: call("g") };
    encode(&vec![pair; count], b"")
}

/// `f($a)`.
fn call(name: &str) -> Side {
    let open = (punctuation(b'('), "(");
    let argument = path_expr(path_of(stand_in("a")));
    let arguments = node(ARG_LIST, [mark("("), argument, mark(")")]);
    let tree = node(CALL_EXPR, [path_expr(path_of(ident(name))), arguments]);
    let list = [(IDENT, name), open, (DOLLAR, "$"), (IDENT, "a"), (R_PAREN, ")")];
    let mut side = side(&tree, &list);
    side.trees[0].facts = fact(1, 2, [1, USABLE, 0]).to_vec();
    side
}

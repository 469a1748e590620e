//! Small pieces of syntax, and the questions that the generator asks of syntax.

use crate::kinds::*;
use crate::rng::Rng;
use input::build::{Syntax, node, token};

pub const STAND_IN: &[u8] = b"__placeholder_";

pub fn ident(name: &str) -> Syntax {
    token(if name == "self" { SELF } else { IDENT }, name)
}

pub fn any_name(rng: &mut Rng, names: &[&str]) -> Syntax {
    let name: &&str = rng.pick(names);
    ident(name)
}

pub fn mark(text: &str) -> Syntax {
    token(if text == "::" { COLON2 } else { punctuation(text.as_bytes()[0]) }, text)
}

pub fn space() -> Syntax {
    token(WHITESPACE, " ")
}

pub fn stand_in(name: &str) -> Syntax {
    token(IDENT, [STAND_IN, name.as_bytes()].concat())
}

/// A path of one segment around a name token.
pub fn path_of(name: Syntax) -> Syntax {
    node(PATH, [segment_of(name)])
}

pub fn segment_of(name: Syntax) -> Syntax {
    node(PATH_SEGMENT, [node(NAME_REF, [name])])
}

pub fn path_expr(path: Syntax) -> Syntax {
    node(PATH_EXPR, [path])
}

pub fn is_expression(element: &Syntax) -> bool {
    element.is_node() && (64..=1023).contains(&element.kind())
}

pub fn is_kind(element: &Syntax, kind: u32) -> bool {
    element.is_node() && element.kind() == kind
}

pub fn child_of_kind(element: &Syntax, kind: u32) -> Option<&Syntax> {
    element.children().iter().find(|child| is_kind(child, kind))
}

pub fn children_mut(element: &mut Syntax) -> Option<&mut Vec<Syntax>> {
    match element {
        Syntax::Node(_, children) => Some(children),
        Syntax::Token(..) => None,
    }
}

/// The text of the first token of a path's name.
pub fn path_name(path: &Syntax) -> Option<&[u8]> {
    let segment = child_of_kind(path, PATH_SEGMENT)?;
    let name = child_of_kind(segment, NAME_REF)?;
    first_token(name).map(token_text)
}

pub fn first_token(element: &Syntax) -> Option<&Syntax> {
    match element {
        Syntax::Token(..) => Some(element),
        Syntax::Node(_, children) => first_token(children.first()?),
    }
}

pub fn token_text(element: &Syntax) -> &[u8] {
    match element {
        Syntax::Token(_, text) => text,
        Syntax::Node(..) => &[],
    }
}

/// The lone IDENT of an element.
pub fn only_ident(element: &Syntax) -> Option<&[u8]> {
    match element {
        Syntax::Token(IDENT, text) => Some(text),
        Syntax::Node(_, children) if children.len() == 1 => only_ident(&children[0]),
        _ => None,
    }
}

pub fn is_stand_in(text: &[u8]) -> bool {
    text.starts_with(STAND_IN)
}

/// Takes white space off the ends of a tree's text, as a rule tree has none there.
pub fn trim(tree: &mut Syntax) {
    trim_end(tree, true);
    trim_end(tree, false);
}

/// Takes white space off one end; whether another token was met.
fn trim_end(tree: &mut Syntax, front: bool) -> bool {
    let Some(children) = children_mut(tree) else {
        return tree.kind() != WHITESPACE;
    };
    let mut done = 0;
    while done < children.len() {
        let place = if front { done } else { children.len() - 1 - done };
        if matches!(&children[place], Syntax::Token(WHITESPACE, _)) {
            children.remove(place);
        } else if trim_end(&mut children[place], front) {
            return true;
        } else {
            done += 1;
        }
    }
    false
}

//! Code derived from patterns: placeholders filled, then small changes. So patterns match often.

use crate::grammar::Grammar;
use crate::kinds::*;
use crate::parts::*;
use crate::rng::Rng;
use crate::world;
use input::build::{Syntax, node, token};

/// Fills the placeholders of patterns with code, which may hold further patterns.
pub struct Filler<'a> {
    pub rng: &'a mut Rng,
    pub patterns: &'a [Syntax],
    /// How many elements of nested patterns may still come; keeps code small.
    pub budget: usize,
    /// How many patterns may still nest in each other: the crate renders nested matches again
    /// and again, so deep ones have a class of their own.
    pub nest: usize,
}

impl Filler<'_> {
    /// One of the patterns, filled.
    pub fn instance(&mut self) -> Syntax {
        let pattern = self.rng.pick(self.patterns);
        self.budget = self.budget.saturating_sub(pattern.elements().len());
        self.nest -= 1;
        let filled = self.fill(pattern);
        self.nest += 1;
        filled
    }

    fn fill(&mut self, element: &Syntax) -> Syntax {
        let Syntax::Node(kind, children) = element else {
            return self.fill_token(element);
        };
        if only_ident(element).is_some_and(is_stand_in) {
            return self.fill_node(element);
        }
        let mut filled = Vec::new();
        for child in children {
            if *kind == TOKEN_TREE && only_ident(child).is_some_and(is_stand_in) {
                filled.extend(self.run());
            } else {
                filled.push(self.fill(child));
            }
        }
        node(*kind, filled)
    }

    /// A stand-in that is no placeholder where it stands, or a token as it is.
    fn fill_token(&mut self, element: &Syntax) -> Syntax {
        if is_stand_in(token_text(element)) && self.rng.chance(50) {
            return any_name(self.rng, &world::LOCALS);
        }
        element.clone()
    }

    /// What a placeholder captures.
    fn fill_node(&mut self, element: &Syntax) -> Syntax {
        if matches!(element.kind(), PATH | PATH_SEGMENT | NAME_REF | PATH_TYPE | NAME) {
            return self.rename(element);
        }
        match self.rng.below(10) {
            0..=1 => node(LITERAL, [token(NUMBER, *self.rng.pick(&["1", "2"]))]),
            2..=6 if self.budget > 0 && self.nest > 0 => self.instance(),
            7 => self.rename(element),
            8 => node(EXPR_STMT, []),
            _ => Grammar::code(self.rng).expression(1),
        }
    }

    /// The same nodes around another name.
    fn rename(&mut self, element: &Syntax) -> Syntax {
        match element {
            Syntax::Token(kind, _) => token(*kind, self.rng.pick(&world::ITEMS).name),
            Syntax::Node(kind, children) => {
                let renamed: Vec<Syntax> = children.iter().map(|c| self.rename(c)).collect();
                node(*kind, renamed)
            }
        }
    }

    /// What a placeholder in a token tree captures.
    fn run(&mut self) -> Vec<Syntax> {
        let mut run = Vec::new();
        for _ in 0..self.rng.between(1, 3) {
            let part = match self.rng.below(6) {
                0 => token(COMMENT, "/*r*/"),
                1 => space(),
                2 => Grammar::code(self.rng).token_tree(1),
                _ => any_name(self.rng, &world::LOCALS),
            };
            run.push(part);
        }
        run
    }
}

/// Small changes that a match often survives, and now and then one that it does not.
pub fn vary(rng: &mut Rng, element: Syntax) -> Syntax {
    let Syntax::Node(kind, children) = element else {
        return element;
    };
    let mut children: Vec<Syntax> = children.into_iter().map(|child| vary(rng, child)).collect();
    match kind {
        CALL_EXPR if rng.chance(40) => {
            let keep = rng.chance(15);
            if let Some(call) = as_method_call(&children, keep) {
                return call;
            }
        }
        RECORD_LIST if rng.chance(40) => shuffle_fields(rng, &mut children),
        PATH if children.len() == 1 && rng.chance(6) => {
            children.splice(0..0, [path_of(ident("m")), mark("::")]);
        }
        _ => {}
    }
    let commas = match kind {
        ARG_LIST | RECORD_LIST => 15,
        TOKEN_TREE => 5,
        _ => 0,
    };
    if rng.chance(commas) {
        toggle_trailing_comma(&mut children);
    }
    sprinkle(rng, &mut children, 6);
    // Trees have many nodes: few of them may be spoilt.
    if rng.one_in(300) {
        spoil(rng, &mut children);
    }
    node(kind, children)
}

/// Puts white space or a comment somewhere among children.
pub fn sprinkle(rng: &mut Rng, children: &mut Vec<Syntax>, percent: usize) {
    if children.is_empty() || !rng.chance(percent) {
        return;
    }
    let place = rng.below(children.len() + 1);
    let piece = match rng.below(3) {
        0 => token(WHITESPACE, *rng.pick(&[" ", "\n", "  "])),
        _ => token(COMMENT, *rng.pick(&["/*c*/", "/*d*/", "//e\n"])),
    };
    children.insert(place, piece);
}

/// `S::r(x, y)` as `x.r(y)`, or as `x.r(x, y)` where the receiver is kept among the arguments.
pub fn as_method_call(children: &[Syntax], keep: bool) -> Option<Syntax> {
    let [callee, arguments] = children else {
        return None;
    };
    let path = child_of_kind(callee, PATH)?;
    child_of_kind(path, PATH)?;
    let name =
        path_name(path).filter(|name| world::find(name).is_some_and(|i| i.flags & 4 != 0))?;
    let place = arguments.children().iter().position(is_expression)?;
    let mut rest = arguments.children().to_vec();
    let receiver = rest[place].clone();
    if !keep {
        rest.remove(place);
    }
    if !keep && rest.get(place) == Some(&mark(",")) {
        rest.remove(place);
    }
    let name = node(NAME_REF, [token(IDENT, name)]);
    Some(node(METHOD_CALL_EXPR, [receiver, mark("."), name, node(ARG_LIST, rest)]))
}

pub fn shuffle_fields(rng: &mut Rng, children: &mut [Syntax]) {
    let places: Vec<usize> =
        (0..children.len()).filter(|&i| is_kind(&children[i], RECORD_FIELD)).collect();
    let mut fields: Vec<Syntax> = places.iter().map(|&i| children[i].clone()).collect();
    rng.shuffle(&mut fields);
    for (place, field) in places.into_iter().zip(fields) {
        children[place] = field;
    }
}

/// Adds a comma before the closing token, or takes the one there away.
pub fn toggle_trailing_comma(children: &mut Vec<Syntax>) {
    let Some(last) = children.len().checked_sub(1) else {
        return;
    };
    if last > 0 && children[last - 1] == mark(",") {
        children.remove(last - 1);
    } else {
        children.insert(last, mark(","));
    }
}

fn spoil(rng: &mut Rng, children: &mut Vec<Syntax>) {
    if children.is_empty() {
        return;
    }
    let place = rng.below(children.len());
    match rng.below(4) {
        0 => drop(children.remove(place)),
        1 => children.insert(place, children[place].clone()),
        2 => children[place] = node(LITERAL, []),
        _ => {
            if let Syntax::Token(_, text) = &mut children[place] {
                text.push(b'_');
            }
        }
    }
}

//! Code for patterns that no parser makes: a copy of the pattern with its placeholders filled, then
//! changes that a match may survive.

mod nests;

use crate::derive::{shuffle_fields, sprinkle, vary};
use crate::kinds::*;
use crate::parts::*;
use crate::rng::Rng;
use crate::world;
use input::build::{Syntax, node, token};

/// Fills the placeholders of patterns with code, which may hold further patterns.
pub struct OddFiller<'a> {
    pub rng: &'a mut Rng,
    pub patterns: &'a [Syntax],
    /// About how many elements of nested patterns may still come.
    pub budget: usize,
    /// How many patterns may still nest in each other.
    pub nest: usize,
}

impl OddFiller<'_> {
    /// One of the patterns, filled and changed.
    pub fn instance(&mut self) -> Syntax {
        let pattern = self.rng.pick(self.patterns);
        self.budget = self.budget.saturating_sub(pattern.elements().len());
        self.nest = self.nest.saturating_sub(1);
        let filled = self.fill(pattern, false);
        self.nest += 1;
        let varied = vary(self.rng, filled);
        changed(self.rng, varied)
    }

    /// `tree` says whether the element is below a token tree, where placeholders take runs.
    fn fill(&mut self, element: &Syntax, tree: bool) -> Syntax {
        let Syntax::Node(kind, children) = element else {
            return element.clone();
        };
        if !tree && only_ident(element).is_some_and(is_stand_in) {
            let field = *kind == RECORD_FIELD && self.rng.chance(70);
            return if field { self.captured_field() } else { self.captured(element) };
        }
        if tree || *kind == TOKEN_TREE {
            return node(*kind, self.token_tree(children));
        }
        if *kind == CALL_EXPR
            && self.rng.chance(12)
            && let Some(call) = self.with_receiver(children)
        {
            return call;
        }
        let mut filled: Vec<Syntax> = Vec::new();
        for child in children {
            // The pattern's trivia may be missing in the code.
            if !is_trivia(child) || self.rng.chance(30) {
                filled.push(self.fill(child, false));
            }
        }
        if *kind == RECORD_LIST && !starts_over(children) && self.rng.chance(30) {
            shuffle_fields(self.rng, &mut filled);
        }
        node(*kind, filled)
    }

    /// A call as a method call with one more expression for its receiver: `S::r(x)` as `y.r(x)`.
    fn with_receiver(&mut self, call: &[Syntax]) -> Option<Syntax> {
        let [callee, arguments] = call else { return None };
        let name = path_name(child_of_kind(callee, PATH)?)?;
        let name = node(NAME_REF, [token(IDENT, name)]);
        let receiver = path_expr(path_of(any_name(self.rng, &world::LOCALS)));
        let arguments = self.fill(arguments, false);
        Some(node(METHOD_CALL_EXPR, [receiver, mark("."), name, arguments]))
    }

    /// What a placeholder captures.
    fn captured(&mut self, element: &Syntax) -> Syntax {
        match self.rng.below(12) {
            0..=2 => node(LITERAL, [token(NUMBER, *self.rng.pick(&["1", "2"]))]),
            3..=6 if self.budget > 0 && self.nest > 0 => self.instance(),
            7 => node(*self.rng.pick(&[EXPR_STMT, LITERAL, PATH_EXPR]), []),
            8 => element.clone(),
            9 => node(LITERAL, [token(COMMENT, "/*in*/"), token(NUMBER, "1")]),
            10 => node(63, [node(LITERAL, [])]),
            _ => path_expr(path_of(any_name(self.rng, &world::LOCALS))),
        }
    }

    /// What a placeholder captures that is a whole field.
    fn captured_field(&mut self) -> Syntax {
        let name = node(NAME_REF, [any_name(self.rng, &world::LOCALS)]);
        let value = node(LITERAL, [token(NUMBER, "1")]);
        node(RECORD_FIELD, [name, mark(":"), value])
    }

    fn token_tree(&mut self, pattern: &[Syntax]) -> Vec<Syntax> {
        let mut filled = Vec::new();
        let mut rest = pattern;
        while let Some((first, behind)) = rest.split_first() {
            rest = behind;
            if !only_ident(first).is_some_and(is_stand_in) {
                filled.push(self.fill(first, true));
                continue;
            }
            filled.extend(self.run());
            if self.rng.chance(20) {
                rest = self.use_up(behind, &mut filled);
            }
        }
        filled
    }

    fn run(&mut self) -> Vec<Syntax> {
        (0..self.rng.between(1, 3)).map(|_| self.run_part()).collect()
    }

    fn run_part(&mut self) -> Syntax {
        match self.rng.below(8) {
            0 => token(COMMENT, "/*r*/"),
            1 => space(),
            2 => node(TOKEN_TREE, [mark("["), any_name(self.rng, &world::LOCALS), mark("]")]),
            3 => node(*self.rng.pick(&[TOKEN_TREE, LITERAL]), []),
            4 => mark(self.rng.pick::<&str>(&[",", "(", "+"])),
            _ => any_name(self.rng, &world::LOCALS),
        }
    }

    /// A subtree that begins with the stop text uses up a token of the pattern, and the stop text
    /// itself the next: what of the pattern is left to fill.
    fn use_up<'p>(&mut self, pattern: &'p [Syntax], filled: &mut Vec<Syntax>) -> &'p [Syntax] {
        let [stop @ Syntax::Token(..), rest @ ..] = pattern else { return pattern };
        if self.rng.chance(25) {
            // An empty node before it hides the stop text, and the run goes on.
            filled.push(node(TOKEN_TREE, [node(LITERAL, []), stop.clone()]));
            return pattern;
        }
        filled.push(node(TOKEN_TREE, [stop.clone()]));
        if let [_, rest @ ..] = rest
            && self.rng.chance(70)
        {
            filled.push(stop.clone());
            return rest;
        }
        rest
    }
}

/// Whether a placeholder is a field's name.
fn starts_over(list: &[Syntax]) -> bool {
    let name =
        |field: &Syntax| field.children().first().and_then(only_ident).is_some_and(is_stand_in);
    list.iter().any(name)
}

fn is_trivia(element: &Syntax) -> bool {
    matches!(element, Syntax::Token(WHITESPACE | COMMENT, _))
}

/// Changes that only odd trees have, all over a tree.
fn changed(rng: &mut Rng, element: Syntax) -> Syntax {
    let (kind, children) = match element {
        Syntax::Node(kind, children) => (kind, children),
        // The same text is another token, trivia too.
        Syntax::Token(_, text) if rng.one_in(150) => {
            return token(*rng.pick(&[IDENT, NUMBER, COMMA, R_PAREN, COMMENT, 1023]), text);
        }
        Syntax::Token(..) => return element,
    };
    let mut children: Vec<Syntax> = children.into_iter().map(|child| changed(rng, child)).collect();
    match kind {
        RECORD_LIST if rng.chance(25) => other_fields(rng, &mut children),
        PATH_SEGMENT if rng.chance(10) => rename(&mut children),
        PATH if rng.chance(5) => sprinkle(rng, &mut children, 100),
        ARG_LIST | TOKEN_TREE if rng.chance(4) => {
            let place = rng.below(children.len() + 1);
            children.insert(place, mark(","));
        }
        _ => {}
    }
    if rng.one_in(300) {
        children.push(node(*rng.pick(&[LITERAL, EXPR_STMT, NAME_REF, ARG_LIST]), []));
    }
    let kind = if rng.one_in(400) { *rng.pick(&[TOKEN_TREE, RECORD_LIST, 63]) } else { kind };
    node(kind, children)
}

/// A field that a later one of its name hides, or one without a name.
fn other_fields(rng: &mut Rng, children: &mut Vec<Syntax>) {
    let first = children.iter().position(|child| is_kind(child, RECORD_FIELD));
    let Some(first) = first else { return };
    let other = match children[first].children().first() {
        Some(name) if rng.chance(60) => node(RECORD_FIELD, [name.clone(), mark(":"), mark("-")]),
        _ => node(RECORD_FIELD, []),
    };
    children.insert(first, other);
}

/// Another name for the same thing: see `odd_facts`.
fn rename(segment: &mut [Syntax]) {
    for name in segment.iter_mut().filter(|child| is_kind(child, NAME_REF)) {
        if let Some([Syntax::Token(IDENT, text)]) = children_mut(name).map(Vec::as_mut_slice) {
            text.make_ascii_uppercase();
        }
    }
}

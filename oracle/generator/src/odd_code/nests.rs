//! Code for record lists in each other: of many lists that all have to match, few are changed so that
//! they do not.

use super::OddFiller;
use crate::derive::{shuffle_fields, sprinkle, toggle_trailing_comma, vary};
use crate::kinds::*;
use crate::odd_patterns::PATH_NAMES;
use crate::parts::*;
use crate::rng::Rng;
use input::build::Syntax;
use input::build::node;

impl OddFiller<'_> {
    /// One of the patterns, filled, with changes to its record lists.
    pub fn nest(&mut self) -> Syntax {
        let pattern = self.rng.pick(self.patterns);
        let filled = self.fill(pattern, false);
        changed(self.rng, filled)
    }
}

fn changed(rng: &mut Rng, element: Syntax) -> Syntax {
    let Syntax::Node(kind, children) = element else { return element };
    if !has_list(kind, &children) {
        let leaf = node(kind, children);
        return if rng.chance(20) { vary(rng, leaf) } else { leaf };
    }
    let mut children: Vec<Syntax> = children.into_iter().map(|child| changed(rng, child)).collect();
    if kind == RECORD_LIST {
        change_list(rng, &mut children);
    }
    let comments = if matches!(kind, RECORD_LIST | RECORD_FIELD) { 20 } else { 3 };
    sprinkle(rng, &mut children, comments);
    node(kind, children)
}

fn has_list(kind: u32, children: &[Syntax]) -> bool {
    let is_list = |child: &Syntax| has_list(child.kind(), child.children()) && child.is_node();
    kind == RECORD_LIST || children.iter().any(is_list)
}

fn change_list(rng: &mut Rng, children: &mut Vec<Syntax>) {
    if rng.chance(50) {
        swap_path_names(children);
    }
    match rng.below(60) {
        0..=2 => shuffle_fields(rng, children),
        3..=5 => toggle_trailing_comma(children),
        6 if !children.is_empty() => drop(children.remove(rng.below(children.len()))),
        7 if !children.is_empty() => {
            let place = rng.below(children.len());
            children.push(children[place].clone());
        }
        _ => {}
    }
}

/// The fields whose names are paths get each other's names.
fn swap_path_names(children: &mut [Syntax]) {
    for name in children.iter_mut().filter_map(|field| children_mut(field)?.first_mut()) {
        let Some(place) = PATH_NAMES.iter().position(|own| *name == path_of(ident(own))) else {
            continue;
        };
        *name = path_of(ident(PATH_NAMES[1 - place]));
    }
}

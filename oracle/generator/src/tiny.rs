//! All small trees: every pattern of up to four elements against every code of up to five.

use crate::kinds::*;
use crate::parts::*;
use input::build::{Syntax, fact, node, token, token_list};
use input::pairs::encode;
use input::{File, Job, Operation, Pair, Side, TokenList};
use std::sync::OnceLock;

/// Which kinds the nodes of a family of trees have.
#[derive(Clone, Copy)]
pub enum Family {
    Sequence,
    TokenTree,
    Record,
    Mixed,
}

const FAMILIES: usize = 4;

impl Family {
    /// The node kinds at a level of the tree, the root at 0.
    fn kinds(self, level: usize) -> &'static [u32] {
        match (self, level) {
            (Family::Sequence, _) => &[BIN_EXPR],
            (Family::TokenTree, _) => &[TOKEN_TREE],
            (Family::Record, 0) => &[RECORD_LIST],
            (Family::Record, 1) => &[RECORD_FIELD],
            (Family::Record, _) => &[PATH_EXPR],
            (Family::Mixed, _) => &[BIN_EXPR, TOKEN_TREE, RECORD_LIST],
        }
    }

    /// The largest pattern and the largest code.
    fn sizes(self) -> (usize, usize) {
        if matches!(self, Family::Mixed) { (3, 4) } else { (4, 5) }
    }

    fn patterns(self) -> &'static [Syntax] {
        static ALL: [OnceLock<Vec<Syntax>>; FAMILIES] = [const { OnceLock::new() }; FAMILIES];
        let leaves = [ident("x"), stand_in("a"), mark(","), mark(")")];
        ALL[self as usize].get_or_init(|| self.roots(self.sizes().0, &leaves))
    }

    fn codes(self) -> &'static [Syntax] {
        static ALL: [OnceLock<Vec<Syntax>>; FAMILIES] = [const { OnceLock::new() }; FAMILIES];
        let leaves = [ident("x"), mark(","), mark(")"), token(COMMENT, "/**/")];
        ALL[self as usize].get_or_init(|| self.roots(self.sizes().1, &leaves))
    }

    /// All trees of up to `most` elements whose root is a node.
    fn roots(self, most: usize, leaves: &[Syntax]) -> Vec<Syntax> {
        let all = (1..=most).flat_map(|size| self.trees(size, 0, leaves));
        all.filter(Syntax::is_node).collect()
    }

    fn trees(self, size: usize, level: usize, leaves: &[Syntax]) -> Vec<Syntax> {
        let mut all = if size == 1 { leaves.to_vec() } else { Vec::new() };
        for children in self.forests(size - 1, level + 1, leaves) {
            for &kind in self.kinds(level) {
                all.push(node(kind, children.clone()));
            }
        }
        all
    }

    fn forests(self, size: usize, level: usize, leaves: &[Syntax]) -> Vec<Vec<Syntax>> {
        if size == 0 {
            return vec![Vec::new()];
        }
        let mut all = Vec::new();
        for first in 1..=size {
            let rest = self.forests(size - first, level, leaves);
            for tree in self.trees(first, level, leaves) {
                all.extend(rest.iter().map(|rest| [std::slice::from_ref(&tree), rest].concat()));
            }
        }
        all
    }
}

pub fn match_count(family: Family) -> u64 {
    (family.patterns().len() * family.codes().len()) as u64
}

/// Matching one pattern without a template against the root of one code.
pub fn match_case(family: Family, index: u64) -> Operation {
    let (pattern, code) = at(family.patterns(), family.codes(), index);
    let pair = Pair { pattern: side(pattern), ..Pair::default() };
    let file = File { tree: code.words(), text: code.text(), facts: field_facts(code) };
    Operation::MatchNode {
        rules: encode(&[pair], b""),
        file,
        node: 0,
        rule: 0,
        range: None,
        buffer: 32,
    }
}

fn at<'a>(patterns: &'a [Syntax], codes: &'a [Syntax], index: u64) -> (&'a Syntax, &'a Syntax) {
    let index = index as usize;
    (&patterns[index / codes.len()], &codes[index % codes.len()])
}

const TEMPLATES: u64 = 3;

/// The patterns of up to three elements, which come first.
fn walk_patterns() -> &'static [Syntax] {
    let all = Family::Sequence.patterns();
    let count = all.iter().take_while(|tree| tree.elements().len() <= 3).count();
    &all[..count]
}

pub fn walk_count() -> u64 {
    (walk_patterns().len() * Family::Sequence.codes().len()) as u64 * TEMPLATES
}

/// A walk of one rule over one code, every node in module 1.
pub fn walk_case(index: u64) -> Operation {
    let (pattern, code) = at(walk_patterns(), Family::Sequence.codes(), index / TEMPLATES);
    let template = match index % TEMPLATES {
        0 => node(PATH_TYPE, [ident("k")]),
        1 => node(PATH_TYPE, [mark("<"), stand_in("a"), mark(">")]),
        _ => node(BIN_EXPR, [mark("-"), node(PATH_EXPR, [stand_in("a")])]),
    };
    let mut template = side(&template);
    // Only a placeholder of the pattern may be declared in the template.
    if declared_in(pattern).is_none() {
        template.list = plain_list(&template.code);
    }
    let pair = Pair { pattern: side(pattern), has_template: true, template };
    let nodes = code.elements().into_iter().enumerate().filter(|(_, e)| e.is_node());
    let facts: Vec<u32> = nodes.flat_map(|(i, _)| fact(6, i, [1, 0, 0])).collect();
    let file = File { tree: code.words(), text: code.text(), facts };
    let rules = encode(&[pair], b"");
    Operation::Walk(Job { rules, file, buffer: 256, ..Job::default() })
}

/// A side of the expression form; the first stand-in name is the placeholder `a`.
fn side(tree: &Syntax) -> Side {
    let mut list: Vec<(u32, Vec<u8>)> =
        tree.tokens().into_iter().map(|(kind, text)| (kind, text.to_vec())).collect();
    if let Some(place) = declared_in(tree) {
        list.splice(place..=place, [(DOLLAR, b"$".to_vec()), (IDENT, b"a".to_vec())]);
    }
    let mut side = Side { list: token_list(&list), code: tree.text(), ..Side::default() };
    side.trees[0].words = tree.words();
    side
}

fn declared_in(tree: &Syntax) -> Option<usize> {
    tree.tokens().iter().position(|(_, text)| is_stand_in(text))
}

/// A list of one token with this text, which is not empty.
fn plain_list(text: &[u8]) -> TokenList {
    token_list(&[(NUMBER, text)])
}

/// The first token of every record field is its name.
fn field_facts(code: &Syntax) -> Vec<u32> {
    let elements = code.elements();
    let mut facts = Vec::new();
    for (i, element) in elements.iter().enumerate() {
        let size = element.elements().len();
        let name = (i..i + size).find(|&e| !elements[e].is_node());
        if let Some(name) = name
            && is_kind(element, RECORD_FIELD)
        {
            facts.extend(fact(5, i, [name as u32, 0, 0]));
        }
    }
    facts
}

//! Random pairs: pattern and template with their lists, trees of several forms and facts.

use crate::derive::sprinkle;
use crate::facts::{pattern_facts, template_facts};
use crate::grammar::Grammar;
use crate::kinds::*;
use crate::parts::*;
use crate::rng::Rng;
use input::build::{Syntax, node, token, token_list};
use input::{Pair, Side, TokenList};

pub const NAMES: [&str; 8] = ["a", "b", "ab", "kind", "x", "__placeholder_a", "s", "literal"];

/// Random pairs, and the patterns that code is derived from.
pub struct Draft {
    pub pairs: Vec<Pair>,
    pub patterns: Vec<Syntax>,
    pub fact_text: Vec<u8>,
}

pub fn draft(rng: &mut Rng) -> Draft {
    let mut draft = Draft { pairs: Vec::new(), patterns: Vec::new(), fact_text: b"..".to_vec() };
    for _ in 0..*rng.pick(&[1, 1, 1, 2, 2, 3, 5]) {
        let pattern = pattern(rng);
        let names = names_in(&pattern);
        let side = pattern_side(rng, &pattern, &names);
        let has_template = rng.chance(96);
        let template = if has_template {
            template_side(rng, &names, &mut draft.fact_text)
        } else {
            Side::default()
        };
        draft.pairs.push(Pair { pattern: side, has_template, template });
        draft.patterns.push(pattern);
    }
    draft
}

/// A plain pattern with placeholders nearly everywhere, or any expression.
fn pattern(rng: &mut Rng) -> Syntax {
    let mut tree = if rng.chance(40) {
        let count = rng.between(1, 3);
        Grammar { rng, names: &NAMES[..count], placeholders: 95 }.expression(1)
    } else {
        let count = *rng.pick(&[0, 1, 1, 2, 2, 3, 4, 8]);
        let depth = rng.between(1, 3);
        tree(rng, &NAMES[..count], depth)
    };
    // A lone placeholder matches everything: have few of them.
    if only_ident(&tree).is_some() && rng.chance(80) {
        tree = node(REF_EXPR, [mark("&"), tree]);
    }
    trim(&mut tree);
    tree
}

/// An expression with white space and comments here and there, none of the former at its ends.
fn tree(rng: &mut Rng, names: &[&str], depth: usize) -> Syntax {
    let mut grammar = Grammar { rng, names, placeholders: 60 };
    let mut tree = grammar.expression(depth);
    // A list has at most 255 tokens, and a placeholder takes several.
    if tree.tokens().len() > 120 {
        tree = grammar.leaf();
    }
    sprinkle_all(rng, &mut tree);
    trim(&mut tree);
    tree
}

fn sprinkle_all(rng: &mut Rng, tree: &mut Syntax) {
    if let Some(children) = children_mut(tree) {
        children.iter_mut().for_each(|child| sprinkle_all(rng, child));
        sprinkle(rng, children, 3);
    }
}

/// The placeholders whose stand-in names occur as IDENT tokens.
pub fn names_in(tree: &Syntax) -> Vec<&'static str> {
    let tokens = tree.tokens();
    let occurs = |name: &&str| {
        let text = [STAND_IN, name.as_bytes()].concat();
        tokens.iter().any(|&(kind, found)| kind == IDENT && found == text)
    };
    NAMES.into_iter().filter(occurs).collect()
}

fn pattern_side(rng: &mut Rng, pattern: &Syntax, names: &[&str]) -> Side {
    let list = list_of(rng, &pattern.tokens(), names, 12);
    let mut side = Side { list, code: pattern.text(), ..Side::default() };
    for (form, tree) in forms(rng, pattern, 95).into_iter().enumerate() {
        if let Some(tree) = tree {
            side.trees[form].words = tree.words();
            side.trees[form].facts = pattern_facts(rng, &tree, names);
        }
    }
    side
}

fn template_side(rng: &mut Rng, names: &[&str], fact_text: &mut Vec<u8>) -> Side {
    let mut used = names.to_vec();
    if rng.chance(6) {
        used.push("q");
    }
    let depth = rng.below(3);
    let mut tree = tree(rng, &used, depth);
    let statement = rng.chance(8);
    if statement {
        tree = node(EXPR_STMT, [tree, mark(";")]);
    }
    let mut declared = names_in(&tree);
    declared.retain(|name| names.contains(name) && rng.chance(95));
    if rng.one_in(300) {
        declared.push("q");
    }
    let constraints = usize::from(rng.one_in(200)) * 50;
    let list = list_of(rng, &tree.tokens(), &declared, constraints);
    let mut side = Side { list, code: tree.text(), ..Side::default() };
    let trees =
        if statement { [None, None, None, None, Some(tree)] } else { forms(rng, &tree, 90) };
    for (form, tree) in trees.into_iter().enumerate() {
        if let Some(tree) = tree {
            side.trees[form].words = tree.words();
            side.trees[form].facts = template_facts(rng, &tree, names, fact_text);
        }
    }
    side
}

/// Trees of the five forms over one text, the expression in `percent` of a hundred cases.
fn forms(rng: &mut Rng, tree: &Syntax, percent: usize) -> [Option<Syntax>; 5] {
    let mut forms = [const { None }; 5];
    if rng.chance(percent) {
        forms[0] = Some(tree.clone());
    }
    if let Some(path) = child_of_kind(tree, PATH)
        && tree.children().len() == 1
        && rng.chance(60)
    {
        forms[1] = Some(node(PATH_TYPE, [path.clone()]));
    }
    if rng.chance(4) {
        let tokens = tree.tokens().into_iter().map(|(kind, text)| token(kind, text));
        forms[2] = Some(node(FN, tokens.collect::<Vec<_>>()));
    }
    if let Some(name) = only_ident(tree)
        && rng.chance(60)
    {
        forms[3] = Some(node(IDENT_PAT, [node(NAME, [token(IDENT, name)])]));
    }
    if forms[0].is_none() || rng.chance(40) {
        let same = rng.chance(50);
        forms[4] = Some(if same { tree.clone() } else { node(EXPR_STMT, [tree.clone()]) });
    }
    forms
}

/// The list whose raw code is the text of a tree's tokens: each name is declared at one of its
/// places and written out at the others.
pub fn list_of(
    rng: &mut Rng,
    tokens: &[(u32, &[u8])],
    names: &[&str],
    constrained: usize,
) -> TokenList {
    let mut declared = vec![None; tokens.len()];
    for name in names {
        let text = [STAND_IN, name.as_bytes()].concat();
        let places: Vec<usize> =
            (0..tokens.len()).filter(|&i| tokens[i] == (IDENT, &text[..])).collect();
        if !places.is_empty() {
            declared[*rng.pick(&places)] = Some(*name);
        }
    }
    let mut list: Vec<(u32, Vec<u8>)> = Vec::new();
    for (&(kind, text), name) in tokens.iter().zip(declared) {
        match name {
            Some(name) => list.extend(placeholder(rng, name, constrained)),
            None if kind == COLON2 && rng.chance(50) => {
                list.extend([(COLON, b":".to_vec()), (COLON, b":".to_vec())]);
            }
            None => list.push((kind, text.to_vec())),
        }
    }
    if rng.chance(10) {
        list.insert(0, (WHITESPACE, b" ".to_vec()));
    }
    if rng.chance(10) {
        list.push((WHITESPACE, b" \n".to_vec()));
    }
    token_list(&list)
}

/// The tokens of a placeholder: `$a`, `${a}` or `${a:not(kind(literal))}`.
fn placeholder(rng: &mut Rng, name: &str, constrained: usize) -> Vec<(u32, Vec<u8>)> {
    let name = (IDENT, name.as_bytes().to_vec());
    let dollar = (DOLLAR, b"$".to_vec());
    let constraints = if rng.chance(constrained) { rng.between(1, 2) } else { 0 };
    if constraints == 0 && rng.chance(70) {
        return vec![dollar, name];
    }
    let mut tokens = vec![dollar, (L_CURLY, b"{".to_vec()), name];
    for _ in 0..constraints {
        let nots = rng.below(3);
        let text =
            [":".to_string(), "not(".repeat(nots), "kind(literal)".to_string(), ")".repeat(nots)];
        tokens.extend(split_constraint(&text.concat()));
    }
    tokens.push((R_CURLY, b"}".to_vec()));
    tokens
}

fn split_constraint(text: &str) -> Vec<(u32, Vec<u8>)> {
    let mut tokens: Vec<(u32, Vec<u8>)> = Vec::new();
    for byte in text.bytes() {
        match tokens.last_mut() {
            Some((IDENT, word)) if byte.is_ascii_alphabetic() => word.push(byte),
            _ if byte.is_ascii_alphabetic() => tokens.push((IDENT, vec![byte])),
            _ => tokens.push((punctuation(byte), vec![byte])),
        }
    }
    tokens
}

//! Rules of trees and facts that are well-formed, though no parser makes most of them: see
//! `odd_trees`. Any of the five forms may be there, and facts have any flags.

use crate::facts::paths;
use crate::kinds::*;
use crate::odd_trees::{Odd, reshaped, without_paths};
use crate::pairs::{NAMES, draft, list_of};
use crate::parts::*;
use crate::rng::Rng;
use input::build::{Syntax, fact};
use input::pairs::encode;
use input::{Pair, Rules, Side};

/// Sets these cases apart from others of the same seed.
const SALT: u64 = 0x0dd;

/// What holds for all facts of a call.
#[derive(Clone, Copy)]
struct Care {
    /// Every path has its resolution.
    whole: bool,
    /// None is such that the crate could not be asked.
    fed: bool,
}

/// Rules of up to four pairs, whose first trees have up to about `most` elements.
pub fn random(seed: u64, index: u64, most: usize) -> Rules {
    let rng = &mut Rng::new(&[SALT, seed, index]);
    if rng.chance(10) {
        return of_grammar(rng);
    }
    let care = Care { whole: rng.chance(30), fed: rng.chance(75) };
    let mut fact_text = b"..".to_vec();
    let count = *rng.pick(&[1, 1, 1, 1, 1, 2, 2, 2, 3, 4]);
    let count = if rng.one_in(60) { 0 } else { count };
    let pairs: Vec<Pair> = (0..count).map(|_| pair(rng, most, care, &mut fact_text)).collect();
    encode(&pairs, &fact_text)
}

/// Rules like those that a parser makes.
pub fn of_grammar(rng: &mut Rng) -> Rules {
    let draft = draft(rng);
    encode(&draft.pairs, &draft.fact_text)
}

fn pair(rng: &mut Rng, most: usize, care: Care, fact_text: &mut Vec<u8>) -> Pair {
    let names = &NAMES[..*rng.pick(&[0, 0, 1, 1, 2, 3, 8])];
    let pattern = tree(rng, names, most);
    let names = occurring(&pattern, names);
    let forms = forms(rng);
    let pattern = side(rng, &pattern, &names, forms, |rng, root| pattern_facts(rng, root, care));
    if rng.chance(25) {
        return Pair { pattern, ..Pair::default() };
    }
    let template = tree(rng, &NAMES[..4], most);
    let mut declared = occurring(&template, &names);
    declared.retain(|_| rng.chance(90));
    let forms = template_forms(rng, forms);
    let template = side(rng, &template, &declared, forms, |rng, root| {
        template_facts(rng, root, care, fact_text)
    });
    Pair { pattern, has_template: true, template }
}

fn tree(rng: &mut Rng, names: &[&str], most: usize) -> Syntax {
    let left = rng.between(2, most);
    let tree = Odd { rng, names, left }.root();
    if rng.chance(10) { without_paths(&tree) } else { tree }
}

/// The placeholders whose stand-in names occur, whatever the kind of the token.
pub(crate) fn occurring<'a>(tree: &Syntax, names: &[&'a str]) -> Vec<&'a str> {
    let tokens = tree.tokens();
    let occurs = |name: &&&str| {
        tokens.iter().any(|(_, text)| text.strip_prefix(STAND_IN) == Some(name.as_bytes()))
    };
    names.iter().filter(occurs).copied().collect()
}

/// Which forms a pattern has: mostly the expression, others beside it.
pub(crate) fn forms(rng: &mut Rng) -> [bool; 5] {
    let mut forms = [0; 5].map(|_| rng.chance(30));
    forms[0] = rng.chance(80);
    forms[rng.below(5)] |= !forms.contains(&true);
    forms
}

/// Which forms a template has: mostly the pattern's, or the statement for the expression.
pub(crate) fn template_forms(rng: &mut Rng, pattern: [bool; 5]) -> [bool; 5] {
    let mut forms = if rng.chance(80) { pattern } else { [0; 5].map(|_| rng.chance(50)) };
    if forms[0] && rng.chance(30) {
        forms[0] = false;
        forms[4] = rng.chance(90);
    }
    forms
}

fn side(
    rng: &mut Rng,
    tree: &Syntax,
    names: &[&str],
    forms: [bool; 5],
    mut facts: impl FnMut(&mut Rng, &Syntax) -> Vec<u32>,
) -> Side {
    let tokens: Vec<(u32, &[u8])> =
        tree.tokens().into_iter().map(|(kind, text)| (list_kind(kind, text), text)).collect();
    let list = list_of(rng, &tokens, names, 12);
    let mut side = Side { list, code: tree.text(), ..Side::default() };
    for form in (0..5).filter(|&form| forms[form]) {
        let tree = if form == 0 { tree.clone() } else { reshaped(rng, tree) };
        side.trees[form].words = tree.words();
        side.trees[form].facts = facts(rng, &tree);
    }
    side
}

/// The kind of a tree's token in the list: no white space, which would be none of the code.
pub(crate) fn list_kind(kind: u32, text: &[u8]) -> u32 {
    match kind {
        _ if is_stand_in(text) => IDENT,
        WHITESPACE => NUMBER,
        _ => kind,
    }
}

fn pattern_facts(rng: &mut Rng, root: &Syntax, care: Care) -> Vec<u32> {
    let mut facts = Vec::new();
    for (i, path) in paths(root) {
        facts.extend(resolution(rng, i, care));
        let fits = !care.fed || child_of_kind(path, PATH).is_some();
        if fits && rng.chance(70) {
            facts.push(fact(4, i, [number(rng), 0, 0]));
        }
    }
    rng.shuffle(&mut facts);
    facts.concat()
}

fn template_facts(rng: &mut Rng, root: &Syntax, care: Care, fact_text: &mut Vec<u8>) -> Vec<u32> {
    let mut facts = Vec::new();
    for (i, _) in paths(root) {
        facts.extend(resolution(rng, i, care));
        for module in 1..=rng.below(3) as u32 {
            let start = fact_text.len() as u32;
            fact_text.extend(&b"m::f"[..rng.below(5)]);
            facts.push(fact(7, i, [module, start, fact_text.len() as u32 - start]));
        }
    }
    rng.shuffle(&mut facts);
    facts.concat()
}

/// The resolution of a path, with any flags but often usable.
fn resolution(rng: &mut Rng, path: usize, care: Care) -> Option<[u32; 4]> {
    if !care.whole && rng.chance(20) {
        return None;
    }
    let any = rng.below(8) as u32;
    let flags = *rng.pick(&[any, any, any, 7, 7, 3]);
    // Flags 5 are none of the crate's.
    let flags = if care.fed && flags == 5 { 7 } else { flags };
    Some(fact(1, path, [number(rng), flags, 0]))
}

/// A small number or the largest.
fn number(rng: &mut Rng) -> u32 {
    if rng.chance(4) { 0x0fff_ffff } else { rng.below(40) as u32 }
}

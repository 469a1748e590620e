//! Facts for matching trees that no parser makes: equal names mean equal things, large letters or
//! not, and what has no known name is one thing.

use crate::facts::{paths, steps};
use crate::kinds::*;
use crate::parts::*;
use crate::rng::Rng;
use crate::world::{self, Item};
use input::build::{Syntax, fact};

/// What holds for all facts of a call.
#[derive(Clone, Copy)]
pub struct Care {
    /// None is such that the crate could not be asked.
    pub fed: bool,
    /// Of a hundred facts, how many are left out or changed.
    pub faults: usize,
    /// Of a hundred fields, how many are named by any of their tokens; as many have no name.
    pub renamed: usize,
}

/// What a name that is not known means.
const UNKNOWN: u32 = 35;

const TYPES: [u32; 3] = [7, 8, 9];

fn known(name: Option<&[u8]>) -> Option<&'static Item> {
    let name = name?;
    world::find(name).or_else(|| world::find(&name.to_ascii_lowercase()))
}

fn number_of(rng: &mut Rng, name: Option<&[u8]>, care: Care) -> u32 {
    if rng.chance(care.faults) {
        return rng.below(40) as u32;
    }
    known(name).map_or(UNKNOWN, |item| item.number)
}

/// Facts of a pattern's tree. A path that must resolve has its fact, but for one in many.
pub fn pattern_facts(rng: &mut Rng, root: &Syntax, care: Care) -> Vec<u32> {
    let mut facts = Vec::new();
    for (i, path) in paths(root) {
        facts.extend(resolution(rng, i, path, care));
        let fits = !care.fed || child_of_kind(path, PATH).is_some();
        if fits && rng.chance(75) {
            facts.push(fact(4, i, [*rng.pick(&TYPES), 0, 0]));
        }
    }
    rng.shuffle(&mut facts);
    facts.concat()
}

/// Facts of a template's tree; the texts of its paths go to the fact text.
pub fn template_facts(
    rng: &mut Rng,
    root: &Syntax,
    care: Care,
    fact_text: &mut Vec<u8>,
) -> Vec<u32> {
    let mut facts = Vec::new();
    for (i, path) in paths(root) {
        facts.extend(resolution(rng, i, path, care));
        for module in [1, 2] {
            let start = fact_text.len() as u32;
            fact_text.extend(&b"m::f"[..rng.below(5)]);
            if !rng.chance(care.faults) {
                facts.push(fact(7, i, [module, start, fact_text.len() as u32 - start]));
            }
        }
    }
    rng.shuffle(&mut facts);
    facts.concat()
}

fn resolution(rng: &mut Rng, i: usize, path: &Syntax, care: Care) -> Option<[u32; 4]> {
    if care.faults > 0 && rng.one_in(60) {
        return None;
    }
    let name = path_name(path);
    let any = rng.below(8) as u32;
    let flags = known(name).map_or(*rng.pick(&[1, 3, 7]), |item| item.flags);
    let flags = if rng.chance(10) { any } else { flags };
    // Flags 5 are none of the crate's.
    let flags = if care.fed && flags == 5 { 7 } else { flags };
    Some(fact(1, i, [number_of(rng, name, care), flags, 0]))
}

/// Facts of a file's tree.
pub fn file_facts(rng: &mut Rng, root: &Syntax, care: Care) -> Vec<u32> {
    let elements = root.elements();
    let mut facts = Vec::new();
    for (i, element) in elements.iter().enumerate().filter(|(_, element)| element.is_node()) {
        if !rng.chance(care.faults) {
            facts.extend(own_fact(rng, i, element, care));
        }
        if is_expression(element) && !rng.chance(care.faults) {
            facts.extend(steps(rng, i));
        }
        if !rng.chance(care.faults) {
            facts.push(fact(6, i, [1 + (i % 2) as u32, 0, 0]));
        }
    }
    rng.shuffle(&mut facts);
    facts.concat()
}

/// The fact of a path, a method call or a record field.
fn own_fact(rng: &mut Rng, i: usize, element: &Syntax, care: Care) -> Option<[u32; 4]> {
    match element.kind() {
        PATH => Some(fact(0, i, [number_of(rng, path_name(element), care), 0, 0])),
        METHOD_CALL_EXPR => Some(method_fact(rng, i, element, care)),
        RECORD_FIELD => field_fact(rng, i, element, care),
        _ => None,
    }
}

fn method_fact(rng: &mut Rng, i: usize, call: &Syntax, care: Care) -> [u32; 4] {
    let name = child_of_kind(call, NAME_REF).and_then(first_token).map(token_text);
    let takes_self = known(name).map_or(1, |item| item.takes_self) ^ u32::from(rng.chance(12));
    fact(2, i, [number_of(rng, name, care), takes_self, rng.below(3) as u32])
}

/// The name token of a field: its first but white space and comments, seldom another or none.
fn field_fact(rng: &mut Rng, i: usize, field: &Syntax, care: Care) -> Option<[u32; 4]> {
    let elements = field.elements();
    let tokens: Vec<usize> = (0..elements.len()).filter(|&e| !elements[e].is_node()).collect();
    let is_name = |e: &&usize| !matches!(elements[**e].kind(), WHITESPACE | COMMENT);
    let first = tokens.iter().find(is_name).or(tokens.last())?;
    let name = if rng.chance(care.renamed) { rng.pick(&tokens) } else { first };
    (!rng.chance(care.renamed)).then(|| fact(5, i, [(i + name) as u32, 0, 0]))
}

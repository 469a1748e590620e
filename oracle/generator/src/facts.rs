//! Facts for generated trees: what the names mean. Most trees have them all as they should be;
//! in the others some are left out or changed.

use crate::kinds::*;
use crate::parts::*;
use crate::rng::Rng;
use crate::world;
use input::build::{Syntax, fact};

/// Of a hundred facts of a tree, how many are left out or changed.
fn faults(rng: &mut Rng) -> usize {
    if rng.chance(80) { 0 } else { rng.between(1, 12) }
}

/// Facts of a file's tree.
pub fn file_facts(rng: &mut Rng, root: &Syntax) -> Vec<u32> {
    let elements = root.elements();
    let faults = faults(rng);
    let mut facts = Vec::new();
    for (i, element) in elements.iter().enumerate().filter(|(_, element)| element.is_node()) {
        if !rng.chance(faults) {
            facts.extend(own_fact(rng, i, element, faults));
        }
        if is_expression(element) && !rng.chance(faults) {
            facts.extend(steps(rng, i));
        }
        if !rng.chance(faults) {
            let module = if i * 2 < elements.len() { 1 } else { 2 };
            facts.push(fact(6, i, [module, 0, 0]));
        }
    }
    rng.shuffle(&mut facts);
    facts.concat()
}

/// The fact of a path, a method call or a record field.
fn own_fact(rng: &mut Rng, i: usize, element: &Syntax, faults: usize) -> Option<[u32; 4]> {
    match element.kind() {
        PATH => Some(fact(0, i, [code_resolution(rng, element, faults), 0, 0])),
        METHOD_CALL_EXPR => Some(method_fact(rng, i, element, faults)),
        RECORD_FIELD => field_fact(rng, i, element, faults),
        _ => None,
    }
}

fn code_resolution(rng: &mut Rng, path: &Syntax, faults: usize) -> u32 {
    let known = path_name(path).and_then(world::find);
    known.filter(|_| !rng.chance(faults)).map_or(rng.below(40) as u32, |item| item.number)
}

fn method_fact(rng: &mut Rng, i: usize, call: &Syntax, faults: usize) -> [u32; 4] {
    let name = child_of_kind(call, NAME_REF).and_then(first_token).map(token_text);
    match name.and_then(world::find).filter(|_| !rng.chance(faults)) {
        Some(item) => {
            let takes_self = item.takes_self ^ u32::from(rng.chance(6));
            fact(2, i, [item.number, takes_self, item.self_kind])
        }
        None => {
            let values = [30 + rng.below(5), rng.below(2), rng.below(3)];
            fact(2, i, values.map(|value| value as u32))
        }
    }
}

/// The name token of a field: its first IDENT or number, seldom another.
fn field_fact(rng: &mut Rng, i: usize, field: &Syntax, faults: usize) -> Option<[u32; 4]> {
    let elements = field.elements();
    let tokens: Vec<usize> = (0..elements.len()).filter(|&e| !elements[e].is_node()).collect();
    let named = tokens.iter().find(|&&e| matches!(elements[e].kind(), IDENT | NUMBER));
    let named = if rng.chance(faults) { tokens.last() } else { named };
    named.map(|&e| fact(5, i, [(i + e) as u32, 0, 0]))
}

/// The types that an expression has under autoderef, mostly those of `S` and `T` among them.
pub fn steps(rng: &mut Rng, i: usize) -> Vec<[u32; 4]> {
    let mut types = [7, 8, 9, 9];
    rng.shuffle(&mut types);
    let count = *rng.pick(&[0, 1, 2, 3, 4, 4, 4]);
    (0..).zip(&types[..count]).map(|(step, kind)| fact(3, i, [step, *kind, 0])).collect()
}

/// Facts of a pattern's tree.
pub fn pattern_facts(rng: &mut Rng, root: &Syntax, names: &[&str]) -> Vec<u32> {
    let faults = faults(rng);
    let mut facts = Vec::new();
    for (i, path) in paths(root) {
        facts.extend(resolution(rng, i, path, names, faults));
        let qualifier = child_of_kind(path, PATH).and_then(path_name).and_then(world::type_number);
        if let Some(kind) = qualifier
            && rng.chance(85)
        {
            facts.push(fact(4, i, [kind, 0, 0]));
        } else if rng.chance(2) {
            facts.push(fact(4, i, [9, 0, 0]));
        }
    }
    rng.shuffle(&mut facts);
    facts.concat()
}

/// Facts of a template's tree; the texts of its paths go to the fact text.
pub fn template_facts(
    rng: &mut Rng,
    root: &Syntax,
    names: &[&str],
    fact_text: &mut Vec<u8>,
) -> Vec<u32> {
    let faults = faults(rng);
    let mut facts = Vec::new();
    for (i, path) in paths(root) {
        facts.extend(resolution(rng, i, path, names, faults));
        for module in [1, 2] {
            if !rng.chance(faults) {
                let start = fact_text.len() as u32;
                if rng.chance(97) {
                    fact_text.extend(rng.pick(&[&b""[..], b"m::", b"crate::m::"]).iter());
                    fact_text.extend(path_name(path).unwrap_or(b"q"));
                }
                facts.push(fact(7, i, [module, start, fact_text.len() as u32 - start]));
            }
        }
    }
    rng.shuffle(&mut facts);
    facts.concat()
}

pub fn paths(root: &Syntax) -> Vec<(usize, &Syntax)> {
    root.elements().into_iter().enumerate().filter(|(_, e)| is_kind(e, PATH)).collect()
}

/// The resolution of a path; `names` are the placeholders, whose paths need none.
fn resolution(
    rng: &mut Rng,
    i: usize,
    path: &Syntax,
    names: &[&str],
    faults: usize,
) -> Option<[u32; 4]> {
    let name = path_name(path).unwrap_or_default();
    let idle = name.strip_prefix(STAND_IN).is_some_and(|n| names.iter().any(|m| m.as_bytes() == n));
    if idle && rng.chance(95) || faults > 0 && rng.chance(2) {
        return None;
    }
    let known = world::find(name);
    let (mut number, mut flags) = known.map_or((40, 1), |item| (item.number, item.flags));
    if rng.chance(faults) {
        flags = rng.below(8) as u32;
    }
    if rng.chance(faults) {
        number = rng.below(40) as u32;
    }
    Some(fact(1, i, [number, flags, 0]))
}

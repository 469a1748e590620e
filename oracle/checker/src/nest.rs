//! Nesting, once more in plain Rust from document 01: `nest_and_remove_collisions`.

use crate::job_ways::{JobWay, JobWays};
use crate::tree::Tree;
use input::{Binding, Kept, Matched};

/// The kept matches, each collection in document 01's order, and the ways that nesting went.
pub fn nest(file: &Tree, mut matches: Vec<Matched>) -> (Vec<Kept>, JobWays) {
    matches.sort_by_key(|matched| (file.elements[matched.node as usize].depth, matched.rule));
    let mut ways = JobWays::default();
    let mut outer = Vec::new();
    for matched in matches {
        come(file, &mut outer, matched, &mut ways);
    }
    ways.insert_if(outer.len() > 1, JobWay::SeveralOuter);
    put_in_order(file, &mut outer, &mut ways);
    (outer, ways)
}

/// A match goes from collection to collection: it is kept in the first where it meets none on its node
/// or an ancestor, and dropped by one that has no captured range for it.
fn come(file: &Tree, outer: &mut Vec<Kept>, matched: Matched, ways: &mut JobWays) {
    let node = file.elements[matched.node as usize];
    let holds = |b: &Binding| b.start as usize <= node.start && node.end <= b.end as usize;
    let mut collection = outer;
    let mut levels = 1;
    while let Some(met) = collection.iter().position(|k| is_at_or_above(file, &k.matched, &matched))
    {
        let Kept { matched: other, inner } = &mut collection[met];
        let same = other.node == matched.node;
        let mut slots = (0..8).filter(|&slot| other.bindings[slot].as_ref().is_some_and(holds));
        let Some(slot) = slots.next() else {
            ways.insert(if same { JobWay::DroppedOnNode } else { JobWay::Dropped });
            return;
        };
        ways.insert_if(slots.next().is_some(), JobWay::TwoRanges);
        ways.insert_if(slot > 0, JobWay::LaterRange);
        ways.insert_if(same, JobWay::SameNode);
        ways.insert_if(node.start == node.end, JobWay::EmptyHeld);
        collection = &mut inner[slot];
        levels += 1;
    }
    ways.insert_if(levels > 1, JobWay::Nested);
    ways.insert_if(levels > 2, JobWay::NestedDeep);
    collection.push(Kept { matched, inner: Default::default() });
}

fn is_at_or_above(file: &Tree, other: &Matched, matched: &Matched) -> bool {
    let at = other.node as usize;
    (at..at + file.elements[at].size).contains(&(matched.node as usize))
}

/// By start, then end, then element.
fn put_in_order(file: &Tree, collection: &mut [Kept], ways: &mut JobWays) {
    collection.sort_by_key(|kept| {
        let node = &file.elements[kept.matched.node as usize];
        (node.start, node.end, kept.matched.node)
    });
    for inner in collection.iter_mut().flat_map(|kept| &mut kept.inner) {
        ways.insert_if(inner.len() > 1, JobWay::SeveralNested);
        put_in_order(file, inner, ways);
    }
}

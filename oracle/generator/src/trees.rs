//! Well-formed trees with facts, small and large, wide and deep; some are a little too deep.

use crate::facts::{file_facts, pattern_facts, template_facts};
use crate::grammar::Grammar;
use crate::kinds::*;
use crate::pairs::{NAMES, list_of, names_in};
use crate::parts::{is_expression, is_kind, is_stand_in, stand_in, trim};
use crate::rng::Rng;
use input::build::{Syntax, fact, node, token};
use input::{File, RuleSide, TreeCheck};

/// The ends of document 01's ranges, and the kinds that facts need, PATH (2) above all.
const NODES: [u32; 16] = [1, 2, 2, 2, 4, 9, 10, 63, 64, 65, 66, 1023, 1024, 2047, 2048, 4095];

/// Not `$`: a rule's list is made of its tree's tokens.
const TOKENS: [u32; 10] =
    [IDENT, IDENT, WHITESPACE, COMMENT, R_PAREN, COLON, SELF, NUMBER, STRING, 1023];

/// A tree of up to about `most` elements with its facts: the file's or a rule's.
pub fn random(seed: u64, index: u64, most: usize) -> TreeCheck {
    let rng = &mut Rng::new(&[seed, index]);
    if rng.chance(50) { file(rng, most) } else { rule(rng, most) }
}

fn file(rng: &mut Rng, most: usize) -> TreeCheck {
    let root = tree(rng, most, &[]);
    let mut facts = file_facts(rng, &root);
    crowd(rng, &root, 3, &mut facts);
    TreeCheck { tree: File { tree: root.words(), text: root.text(), facts }, rule: None }
}

fn rule(rng: &mut Rng, most: usize) -> TreeCheck {
    let count = rng.below(NAMES.len() + 1);
    let mut root = tree(rng, most, &NAMES[..count]);
    trim(&mut root);
    let names = names_in(&root);
    let text = root.text();
    let list = list_of(rng, &joined(&root, &text), &names, 12);
    let mut fact_text = b"..".to_vec();
    let side = rng.below(2) as u32;
    let mut facts = if side == 0 {
        pattern_facts(rng, &root, &names)
    } else {
        template_facts(rng, &root, &names, &mut fact_text)
    };
    if side == 1 {
        crowd(rng, &root, 7, &mut facts);
    }
    TreeCheck {
        tree: File { tree: root.words(), text, facts },
        rule: Some(RuleSide { given: 1, list, side, fact_text }),
    }
}

/// The tokens of a tree. Where they are too many for a list they are joined, but for the first
/// stand-in names.
fn joined<'a>(root: &'a Syntax, text: &'a [u8]) -> Vec<(u32, &'a [u8])> {
    let tokens = root.tokens();
    if tokens.len() <= 100 {
        return tokens;
    }
    let mut parts = Vec::new();
    let (mut start, mut end) = (0, 0);
    for (kind, token) in tokens {
        if is_stand_in(token) && parts.len() < 32 {
            parts.extend([(NUMBER, &text[start..end]), (kind, token)]);
            start = end + token.len();
        }
        end += token.len();
    }
    parts.push((NUMBER, &text[start..end]));
    parts.retain(|(_, text)| !text.is_empty());
    parts
}

/// Now and then more steps at one expression (sort 3), more modules at one path (sort 7).
fn crowd(rng: &mut Rng, root: &Syntax, sort: u32, facts: &mut Vec<u32>) {
    let elements = root.elements();
    let fits =
        |element: &Syntax| if sort == 3 { is_expression(element) } else { is_kind(element, PATH) };
    let places: Vec<usize> = (0..elements.len()).filter(|&i| fits(elements[i])).collect();
    if places.is_empty() || rng.chance(70) {
        return;
    }
    let place = *rng.pick(&places);
    // The generator's own steps begin at 0, its modules at 1.
    let [head, ..] = fact(sort, place, [0; 3]);
    let known = facts.chunks(4).filter(|known| known[0] == head).count() as u32;
    let first = if sort == 3 { known } else { 3 };
    let more = (first..).take(rng.between(1, 40));
    facts.extend(more.flat_map(|number| fact(sort, place, [number, 0, 0])));
    shuffle_facts(rng, facts);
}

/// Another order of the facts; words at the end that are no whole fact stay there.
pub fn shuffle_facts(rng: &mut Rng, facts: &mut [u32]) {
    rng.shuffle(facts.as_chunks_mut::<4>().0);
}

fn tree(rng: &mut Rng, most: usize, names: &[&str]) -> Syntax {
    let most = most.min(*rng.pick(&[3, 60, 60, 60, 60, 60, 400, 400, 400, 1500]));
    let size = rng.between(1, most);
    let shape = *rng.pick(&[Shape::Wide, Shape::Deep, Shape::Mixed]);
    let levels = match shape {
        Shape::Deep => *rng.pick(&[9, 60, 126, 127, 128, 128, 129, 130, 140]),
        _ => 128,
    };
    let mut growth = Growth { rng, names, shape };
    if size == 1 { node(growth.node_kind(), []) } else { growth.grow(size, levels) }
}

/// How a node's elements are shared out among its children.
#[derive(Clone, Copy)]
enum Shape {
    /// Little to each.
    Wide,
    /// Nearly all to one.
    Deep,
    /// By chance, with real expressions among them.
    Mixed,
}

struct Growth<'a> {
    rng: &'a mut Rng,
    names: &'a [&'a str],
    shape: Shape,
}

impl Growth<'_> {
    /// A tree of so many elements (a real expression has some more or less) on so many levels.
    fn grow(&mut self, size: usize, levels: usize) -> Syntax {
        if size == 1 {
            return self.leaf();
        }
        let real = matches!(self.shape, Shape::Mixed) && levels > 100 && (6..60).contains(&size);
        if real && self.rng.chance(40) {
            let (rng, names) = (&mut *self.rng, self.names);
            return Grammar { rng, names, placeholders: 30 }.expression(2);
        }
        let mut children = Vec::new();
        let mut left = size - 1;
        while left > 0 {
            let share = if levels > 2 { self.share(left) } else { 1 };
            children.push(self.grow(share, levels - 1));
            left -= share;
        }
        self.rng.shuffle(&mut children);
        node(self.node_kind(), children)
    }

    fn share(&mut self, left: usize) -> usize {
        match self.shape {
            Shape::Wide => left.min(*self.rng.pick(&[1, 1, 1, 2, 3])),
            Shape::Deep => left - self.rng.below(left.min(3)),
            Shape::Mixed => self.rng.between(1, left),
        }
    }

    fn leaf(&mut self) -> Syntax {
        if self.rng.chance(25) {
            return node(self.node_kind(), []);
        }
        if !self.names.is_empty() && self.rng.chance(5) {
            let name = *self.rng.pick(self.names);
            return stand_in(name);
        }
        let length = self.rng.between(1, 6);
        token(*self.rng.pick(&TOKENS), &b"abcdef"[..length])
    }

    fn node_kind(&mut self) -> u32 {
        *self.rng.pick(&NODES)
    }
}

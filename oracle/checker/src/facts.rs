//! One fact list over its tree (21), and its look-up.

use crate::tree::Tree;
use input::words::{FACT, FACT_VALUE, fact_element, fact_sort, value, word_kind};
use std::collections::BTreeMap;

const MOST_FACTS: usize = 16_383;

/// The tree that a fact list belongs to.
#[derive(Clone, Copy, Debug, PartialEq, Eq)]
pub enum Place {
    Pattern,
    Template,
    File,
}

impl Place {
    fn allows(self, sort: u32) -> bool {
        match self {
            Place::Pattern => [1, 4].contains(&sort),
            Place::Template => [1, 7].contains(&sort),
            Place::File => [0, 2, 3, 5, 6].contains(&sort),
        }
    }
}

/// A fact list that passed 21, by sort, element and (sorts 3 and 7) step or module.
#[derive(Clone, Debug, Default)]
pub struct Facts {
    by_key: BTreeMap<(u32, usize, u32), [u32; 3]>,
}

impl Facts {
    /// Checks a list. No tree: an absent one, which no fact can belong to.
    pub fn read(
        words: &[u32],
        tree: Option<&Tree>,
        place: Place,
        fact_text: usize,
    ) -> Result<Facts, u32> {
        let (quadruples, rest) = words.as_chunks::<4>();
        if !rest.is_empty() || quadruples.len() > MOST_FACTS {
            return Err(21);
        }
        let mut facts = Facts::default();
        for quadruple in quadruples {
            let (sort, element, values) = cut(quadruple)?;
            let allowed = place.allows(sort)
                && tree.is_some_and(|tree| fits(tree, sort, element, values, fact_text));
            if !allowed || facts.by_key.insert(key(sort, element, values[0]), values).is_some() {
                return Err(21);
            }
        }
        if facts.has_gap() { Err(21) } else { Ok(facts) }
    }

    /// The values of the fact of a sort at an element.
    pub fn get(&self, sort: u32, element: usize) -> Option<[u32; 3]> {
        self.by_key.get(&(sort, element, 0)).copied()
    }

    /// The values of the fact of sort 3 or 7 at an element, with a step or a module.
    pub fn get_at(&self, sort: u32, element: usize, at: u32) -> Option<[u32; 3]> {
        self.by_key.get(&(sort, element, at)).copied()
    }

    /// Whether a step stands without the one before it.
    fn has_gap(&self) -> bool {
        self.by_key.keys().any(|&(sort, element, step)| {
            sort == 3 && step > 0 && !self.by_key.contains_key(&(3, element, step - 1))
        })
    }
}

fn key(sort: u32, element: usize, first: u32) -> (u32, usize, u32) {
    (sort, element, if sort == 3 || sort == 7 { first } else { 0 })
}

fn cut(quadruple: &[u32; 4]) -> Result<(u32, usize, [u32; 3]), u32> {
    let [fact, values @ ..] = *quadruple;
    if word_kind(fact) != FACT || values.iter().any(|&w| word_kind(w) != FACT_VALUE) {
        return Err(21);
    }
    Ok((fact_sort(fact), fact_element(fact) as usize, values.map(value)))
}

/// Whether the element is of the kind that the sort names, and the values are of its form.
fn fits(tree: &Tree, sort: u32, element: usize, values: [u32; 3], fact_text: usize) -> bool {
    let Some(node) = tree.elements.get(element).filter(|e| e.node) else {
        return false;
    };
    let [first, second, third] = values;
    let name = first as usize;
    match sort {
        0 | 4 => node.kind == 2 && second == 0 && third == 0,
        1 => node.kind == 2 && second <= 7 && third == 0,
        2 => node.kind == 65 && second <= 1 && third <= 2,
        3 => (64..=1023).contains(&node.kind) && third == 0,
        5 => {
            let inside = element < name && name < element + node.size;
            node.kind == 9 && inside && !tree.elements[name].node && second == 0 && third == 0
        }
        6 => second == 0 && third == 0,
        7 => node.kind == 2 && second as usize + third as usize <= fact_text,
        _ => false,
    }
}

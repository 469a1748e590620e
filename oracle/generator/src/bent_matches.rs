//! Damaged copies of rules and a file, for matching: the rules in every way that `bent_rules` names,
//! the file in every way that `bent_trees` names.

use crate::rng::Rng;
use crate::{bent_rules, bent_trees};
use input::{File, Rules, TreeCheck};

/// Sets these copies apart from others of the same seed.
const SALT: u64 = 0xbe27_3a7c;

/// Damages the rules, the file or, in some cases, both: the names of what was done.
pub fn bend_copy(seed: u64, index: u64, rules: &mut Rules, file: &mut File) -> Vec<&'static str> {
    let rng = &mut Rng::new(&[SALT, seed, index]);
    let (bend_rules, bend_file) = *rng.pick(&[(true, false), (false, true), (true, true)]);
    let mut names = Vec::new();
    if bend_rules {
        names.extend(bent_rules::bend_copy(seed, index, rules));
    }
    if bend_file {
        let mut check = TreeCheck { tree: std::mem::take(file), rule: None };
        names.extend(bent_trees::bend_copy(seed, index, &mut check));
        *file = check.tree;
    }
    names
}

//! Trees with facts: the well-formed ones pass, the limits have document 01's numbers, and every
//! way to damage a copy changes an answer, but for the harmless ones.

use checker::check_tree;
use generator::bent_trees::{DAMAGES, HARMLESS, bend_copy};
use generator::{tree_limits, trees};
use std::collections::BTreeSet;

#[test]
fn well_formed_trees_pass_or_are_too_deep() {
    let mut numbers = [0; 22];
    let mut largest = 0;
    for index in 0..600 {
        let check = trees::random(5, index, 1500);
        largest = largest.max(check.tree.tree.len() / 3);
        numbers[check_tree(&check) as usize] += 1;
    }
    assert_eq!(numbers[0] + numbers[20], 600, "{numbers:?}");
    assert!(numbers[20] > 10 && numbers[0] > 500, "{numbers:?}");
    assert!(largest > 1400, "{largest}");
}

#[test]
fn limits() {
    for (name, check, number) in tree_limits::all() {
        let whose = if check.rule.is_some() { "a rule's" } else { "the file's" };
        assert_eq!(check_tree(&check), number, "{name}, {whose}");
    }
}

#[test]
fn damages_change_answers() {
    let mut changing = BTreeSet::new();
    let mut numbers = BTreeSet::new();
    for index in 0..20_000 {
        let whole = trees::random(6, index / 16, 60);
        let mut copy = whole.clone();
        let names = bend_copy(6, index, &mut copy);
        let (before, after) = (check_tree(&whole), check_tree(&copy));
        numbers.insert(after);
        if let [name] = names[..]
            && before != after
        {
            changing.insert(name);
        }
    }
    let all = DAMAGES.map(|(name, _)| name);
    let idle: Vec<&str> = all.into_iter().filter(|name| !changing.contains(name)).collect();
    assert_eq!(idle, HARMLESS);
    assert!([0, 1, 18, 19, 20, 21].iter().all(|number| numbers.contains(number)), "{numbers:?}");
}

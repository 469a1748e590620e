//! Generated rules: the same again, well-formed where they should be, and every refusal of building
//! and resolving met by their damaged copies.

use checker::{built_rules, checked_rules};
use generator::bent_rules::{bend_copy, is_harmless};
use generator::{odd_rules, rule_vectors};
use input::Rules;
use std::collections::BTreeSet;

const MOST: usize = 40;

fn numbers(rules: &Rules) -> [u32; 2] {
    let (built, resolved) = (built_rules(rules), checked_rules(rules, None));
    [built.err().unwrap_or(0), resolved.err().unwrap_or(0)]
}

fn damaged(seed: u64, index: u64) -> (Vec<&'static str>, Rules, Rules) {
    let whole = odd_rules::random(seed, index / 4, MOST);
    let mut copy = whole.clone();
    let names = bend_copy(seed, index, &mut copy);
    (names, whole, copy)
}

#[test]
fn the_same_seed_gives_the_same_rules() {
    for index in 0..50 {
        assert_eq!(damaged(7, index), damaged(7, index));
        assert_ne!(damaged(7, index).2, damaged(8, index).2, "{index}");
    }
}

#[test]
fn odd_rules_are_well_formed() {
    let mut met = [0; 23];
    for index in 0..4_000 {
        met[numbers(&odd_rules::random(5, index, MOST))[1] as usize] += 1;
    }
    assert_eq!([1, 18, 19, 20, 21].map(|number: usize| met[number]), [0; 5], "{met:?}");
    // About as many resolve as do not, and nearly all are built.
    assert!(met[0] > 1_600 && met[22] > 1_000 && met[17] < 400, "{met:?}");
}

#[test]
fn damaged_copies_meet_every_number() {
    let (mut built, mut resolved) = (BTreeSet::new(), BTreeSet::new());
    for index in 0..20_000 {
        let [first, second] = numbers(&damaged(1, index).2);
        built.insert(first);
        resolved.insert(second);
    }
    let lists = (0..=15).chain(17..=20);
    assert_eq!(built, lists.clone().collect());
    assert_eq!(resolved, lists.chain([21, 22]).collect());
}

#[test]
fn harmless_damage_changes_no_number() {
    let mut met = BTreeSet::new();
    for index in 0..4_000 {
        let (names, whole, copy) = damaged(2, index);
        if let [name] = names[..]
            && is_harmless(name)
        {
            met.insert(name);
            assert_eq!(numbers(&whole), numbers(&copy), "{index}: {name}");
        }
    }
    assert_eq!(met.len(), 3);
}

#[test]
fn vectors_have_their_numbers() {
    for (name, rules, expected) in rule_vectors::all().into_iter().chain(rule_vectors::large()) {
        assert_eq!(numbers(&rules), expected, "{name}");
    }
}

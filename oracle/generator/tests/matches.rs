//! The generator of rules with a file: well-formed, again the same, and damaged in every way.

use checker::{WAYS, Way, checked_file, checked_rules, match_node};
use generator::{bent_matches, match_limits, odd_matches};
use input::{File, Rules};
use std::collections::BTreeSet;

/// The number that rules and a file are refused with, 0 if they are not.
fn number(rules: &Rules, file: &File) -> u32 {
    checked_rules(rules, Some(file)).err().unwrap_or(0)
}

#[test]
fn the_same_seed_gives_the_same_rules_and_file() {
    for index in 0..50 {
        let case = |seed| odd_matches::random(seed, index, 30);
        assert_eq!(case(3), case(3));
        assert_ne!(case(3), case(4));
    }
}

#[test]
fn rules_and_files_are_well_formed_and_mostly_pass() {
    let numbers = (0..2_000).map(|index| {
        let (rules, file) = odd_matches::random(5, index, 36);
        number(&rules, &file)
    });
    let numbers: Vec<u32> = numbers.collect();
    // A list has a template's faults (14, 15), a pair no form (17), a path no fact (22): no others.
    assert!(numbers.iter().all(|number| [0, 14, 15, 17, 22].contains(number)), "{numbers:?}");
    let passing = numbers.iter().filter(|number| **number == 0).count();
    assert!(passing > 1_700, "{passing} of 2000");
}

/// The ways that matches go, of every node with every rule.
fn ways_of_matches(rules: &Rules, file: &File) -> Vec<Way> {
    let Ok(known) = checked_rules(rules, Some(file)) else { return Vec::new() };
    let file = checked_file(file).expect("the rules passed with it");
    let mut ways = Vec::new();
    for node in (0..file.0.elements.len()).filter(|&node| file.0.elements[node].node) {
        for rule in &known {
            let attempt = match_node(rule, &file, node, None);
            if attempt.found.is_some() {
                let gone = WAYS.iter().map(|(way, _)| *way);
                ways.extend(gone.filter(|way| attempt.ways.contains(*way)));
            }
        }
    }
    ways
}

#[test]
fn matches_go_every_way() {
    let cases = (0..3_000).map(|index| odd_matches::random(5, index, 36));
    let gone: Vec<Way> = cases.flat_map(|(rules, file)| ways_of_matches(&rules, &file)).collect();
    for (way, name) in WAYS {
        let count = gone.iter().filter(|other| **other == way).count();
        assert!(count >= 10, "{name}: {count}");
    }
}

#[test]
fn damaged_copies_meet_every_number() {
    let numbers = (0..20_000).map(|index| {
        let (mut rules, mut file) = odd_matches::random(5, index / 6, 30);
        let names = bent_matches::bend_copy(5, index, &mut rules, &mut file);
        assert!(!names.is_empty());
        number(&rules, &file)
    });
    let met: BTreeSet<u32> = numbers.collect();
    let wanted = (0..=15).chain(17..=22);
    let missing: Vec<u32> = wanted.filter(|number| !met.contains(number)).collect();
    assert_eq!(missing, [], "{met:?}");
}

#[test]
fn limits_are_not_refused() {
    for limit in match_limits::all() {
        assert_eq!(number(&limit.rules, &limit.file), 0, "{}", limit.name);
        let rules = checked_rules(&limit.rules, None).map(|rules| rules.len());
        assert_eq!(rules, Ok(1), "{}", limit.name);
    }
}

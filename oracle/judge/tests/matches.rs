//! Matching one node: the crate's source and the checker's own matching agree, and all questions at
//! once are answered as one is.

use generator::{Class, case, match_limits, odd_matches};
use input::{Answer, Operation};
use judge::{Backing, MatchQuestion, judge, whole_matches};

/// Classes whose cases match one node, or damaged copies of such.
const CLASSES: [Class; 6] = [
    Class::TinySequence,
    Class::TinyTokenTree,
    Class::TinyRecord,
    Class::TinyMixed,
    Class::Match,
    Class::Damaged,
];

/// Cases of a class: of an exhaustive one as many, far apart.
fn some(class: Class, count: u64) -> impl Iterator<Item = Operation> {
    let step = class.count().map_or(1, |all| all / count);
    (0..count).filter_map(move |index| case(class, 5, index * step))
}

#[test]
fn all_questions_are_answered_as_one_is() {
    ssr::on_large_stack(|| {
        for operation in CLASSES.into_iter().flat_map(|class| some(class, 3_000)) {
            let Operation::MatchNode { rules, file, node, rule, range, buffer } = &operation else {
                continue;
            };
            let range = range.map(|(start, end)| (start as usize, end as usize));
            let (node, rule) = (*node as usize, *rule as usize);
            let question = MatchQuestion { node, rule, range, buffer: *buffer };
            let judged = whole_matches(rules, file, |whole| whole.ask(question));
            assert!(!matches!(judged.backing, Backing::Other(_)), "{judged:?}");
            let alone = judge(&operation);
            assert!(alone.disagreement.is_none() || !alone.covered.is_empty(), "{alone:?}");
            if let Some(outcome) = alone.outcome {
                assert_eq!(outcome, judged.outcome, "{operation:x?}");
            }
        }
    });
}

#[test]
fn every_node_agrees_with_every_rule() {
    let (mut same, mut matches) = (0, 0);
    ssr::on_large_stack(|| {
        for (rules, file) in (0..1_200).map(|index| odd_matches::random(7, index, 36)) {
            whole_matches(&rules, &file, |whole| {
                let pairs = |node| (0..whole.rules()).map(move |rule| (node, rule));
                for (node, rule) in whole.nodes().into_iter().flat_map(pairs) {
                    let question = MatchQuestion { node, rule, range: None, buffer: 999 };
                    let judged = whole.ask(question);
                    assert!(!matches!(judged.backing, Backing::Other(_)), "{judged:?}");
                    same += u32::from(matches!(judged.backing, Backing::Same));
                    matches += u32::from(matches!(judged.outcome.answer, Answer::Match { .. }));
                }
            });
        }
    });
    assert!(same > 50_000 && matches > 2_000, "{same} answers of the crate, {matches} matches");
}

#[test]
fn limits_agree_where_the_crate_ends() {
    let mut same = 0;
    ssr::on_large_stack(|| {
        for limit in match_limits::all() {
            whole_matches(&limit.rules, &limit.file, |whole| {
                for &buffer in &limit.buffers {
                    let judged = whole.ask(MatchQuestion { node: 0, rule: 0, range: None, buffer });
                    let (name, backing) = (&limit.name, &judged.backing);
                    assert!(!matches!(backing, Backing::Other(_)), "{name}: {backing:?}");
                    let by_crate = matches!(backing, Backing::Same);
                    assert!(by_crate || !limit.by_crate, "{name}: {backing:?}");
                    same += u32::from(by_crate);
                    let noted = limit.noted.as_ref();
                    let told = noted.is_none_or(|noted| noted.is_told(&judged.outcome));
                    assert!(
                        told,
                        "{name}, a buffer of {buffer} bytes: {:?}",
                        judged.outcome.answer
                    );
                }
            });
        }
    });
    assert!(same > 400, "{same}");
}

#[test]
fn what_does_not_exist_is_refused() {
    let (rules, file) = odd_matches::random(7, 1, 36);
    whole_matches(&rules, &file, |whole| {
        let good = MatchQuestion { node: 0, rule: 0, range: None, buffer: 4 };
        assert_eq!(whole.number(), 0);
        let no_node = MatchQuestion { node: file.tree.len() / 3, ..good };
        let far = MatchQuestion { node: 1 << 32, ..good };
        let no_rule = MatchQuestion { rule: whole.rules(), ..good };
        let backward = MatchQuestion { range: Some((1 << 40, 7)), ..good };
        for question in [no_node, far, no_rule, backward] {
            let outcome = whole.ask(question).outcome;
            assert_eq!(outcome.answer, Answer::Refused(23), "{question:?}");
            assert_eq!(outcome.buffer, [0; 4]);
        }
        let forward = MatchQuestion { range: Some((0, usize::MAX)), ..good };
        assert_eq!(whole.ask(forward).outcome, whole.ask(good).outcome);
    });
}

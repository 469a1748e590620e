//! A made-up case and changed copies of it, and the predicates on small matches.

use input::{Binding, Kept, Matched, Pair, RuleTree, words};

use crate::compare::compare;
use corpus::case::read_case;
use corpus::json;
use judge::predicates::{Difference, Shape, of_matches, of_rules};

/// `1 ==>> 2` on `1`: what is handed in.
fn handed_in() -> String {
    let tree = |words: &[u32]| format!("{words:?}");
    let literal = [0x1042_0002, 0x3000_0000, 0x4000_0001, 0x200c_0001, 0x3000_0000, 0x4000_0001];
    let mut file = vec![0x1800_0003, 0x3000_0000, 0x4000_0001];
    file.extend(literal);
    let side = |text: &str| {
        let trees = format!(r#"[{{"tree":{},"facts":[]}},null,null,null,null]"#, tree(&literal));
        format!(r#"{{"text":"{text}","tokens":[{}],"code":"{text}","trees":{trees}}}"#, 0x200c_0001)
    };
    let module = tree(&[0x9600_0001, 0xa000_0001, 0xa000_0000, 0xa000_0000]);
    let parse = tree(&[0x8042_0001, 0x3000_0000, 0x4000_0001, 0x3000_0000, 0x4000_0001]);
    format!(
        r#""id":"one","text":"1","tree":{},"facts":{module},"fact_text":"",
        "parses":{parse},"parse_text":"2",
        "pairs":[{{"pattern":{},"template":{}}}]"#,
        tree(&file),
        side("1"),
        side("2")
    )
}

/// What differs from these answers.
fn difference(answers: &str) -> Option<String> {
    let case = json::read(&format!("{{{},{answers}}}", handed_in())).unwrap();
    compare(&read_case(&case).unwrap()).difference
}

#[test]
fn answers_are_compared() {
    let edit_list = r#""edit_list":"00000050010000600100007032""#;
    let rules = r#""rules":[[0,0]]"#;
    let matches = r#""matches":[[1,0,[],""]]"#;
    let with = |parts: [&str; 3]| difference(&parts.join(","));
    assert_eq!(with([rules, matches, edit_list]), None);
    for changed in [
        [r#""rules":[[0,1]]"#, matches, edit_list],
        [rules, r#""matches":[]"#, edit_list],
        [rules, r#""matches":[[1,0,[[0,1,0,0]],""]]"#, edit_list],
        [rules, r#""matches":[[1,0,[],"c"]]"#, edit_list],
        [rules, matches, r#""edit_list":"00000050010000600100007033""#],
        [rules, matches, r#""edit_list":"01000050010000600100007032""#],
        [rules, matches, r#""edit_list":"""#],
        [rules, matches, r#""refused":29"#],
    ] {
        assert!(with(changed).is_some(), "{changed:?}");
    }
    assert!(difference(r#""refused":17"#).is_some());
}

#[test]
fn malformed_cases() {
    for case in ["{}", "[]", r#"{"id":"x"}"#, r#"{"id":1}"#] {
        assert!(read_case(&json::read(case).unwrap()).is_err(), "{case}");
    }
    let bad = |answers: &str| {
        let case = json::read(&format!("{{{},{answers}}}", handed_in())).unwrap();
        read_case(&case).is_err()
    };
    assert!(bad(r#""edit_list":"0""#));
    assert!(bad(r#""edit_list":"00000050""#));
    assert!(bad(r#""edit_list":"00000060010000600100007032""#));
    assert!(bad(r#""refused":-1"#));
    assert!(bad(r#""matches":[[1,0,[]]],"refused":29"#));
}

/// Root `[0, 2)`, below it node 1 `[0, 1)` with an empty node 2, and node 3 `[1, 2)`.
fn shape() -> Shape {
    let element = |size: u32, start: u32, end: u32| {
        let node = words::word(words::NODE, (64 << 16) | size);
        [node, words::word(words::START, start), words::word(words::END, end)]
    };
    Shape::new(&[element(4, 0, 2), element(2, 0, 1), element(1, 0, 0), element(1, 1, 2)].concat())
}

fn matched(node: u32, bindings: &[(u32, u32, u32)]) -> Matched {
    let mut matched =
        Matched { node, rule: 0, bindings: [None; 8], comments: Vec::new(), paths: Vec::new() };
    for (place, (start, end, stars)) in matched.bindings.iter_mut().zip(bindings) {
        *place = Some(Binding { start: *start, end: *end, stars: *stars, self_kind: 0 });
    }
    matched
}

fn kept(matched: Matched, inner: Vec<Kept>) -> Kept {
    let mut kept = Kept { matched, inner: Default::default() };
    kept.inner[0] = inner;
    kept
}

#[test]
fn predicates_on_matches() {
    let found = |matches: &[Matched], kept: &[Kept]| of_matches(&shape(), matches, kept);
    let (inner, prefixed) = (matched(1, &[]), matched(0, &[(0, 1, 1)]));
    let nested = kept(prefixed.clone(), vec![kept(inner.clone(), Vec::new())]);
    assert_eq!(found(&[prefixed.clone(), inner], &[nested]), [Difference::PrefixBeforeNested]);
    assert_eq!(found(std::slice::from_ref(&prefixed), &[kept(prefixed.clone(), Vec::new())]), []);

    let twice = matched(0, &[(0, 1, 0), (0, 2, 0)]);
    let in_both = kept(twice.clone(), Vec::new());
    assert_eq!(
        found(&[twice.clone(), matched(2, &[])], std::slice::from_ref(&in_both)),
        [Difference::TwoHoldingRanges]
    );
    assert_eq!(found(&[twice, matched(3, &[])], &[in_both]), []);

    let alone = |node| kept(matched(node, &[]), Vec::new());
    assert_eq!(found(&[], &[alone(1), alone(2)]), [Difference::EqualStarts]);
    assert_eq!(found(&[], &[alone(1), alone(3)]), []);
}

#[test]
fn predicates_on_rules() {
    let element = |kind: u32, size: u32| [words::word(words::NODE, (kind << 16) | size), 0, 0];
    let claim = |path: u32, flags: u32| [words::word(words::FACT, (1 << 24) | path), 1, flags, 0];
    let tree =
        [element(64, 5), element(67, 2), element(2, 1), element(7, 2), element(2, 1)].concat();
    let pair = |facts: Vec<[u32; 4]>| {
        let mut pair = Pair::default();
        pair.pattern.trees[0] = RuleTree { words: tree.clone(), facts: facts.concat() };
        pair
    };
    assert_eq!(of_rules(&[pair(vec![claim(2, 7), claim(4, 7)])]), [Difference::TwoPathsOneCall]);
    assert_eq!(of_rules(&[pair(vec![claim(2, 7), claim(4, 3)])]), []);

    let mut nine = Pair::default();
    nine.template.list.words = vec![words::word(words::TOKEN, (8 << 16) | 1); 9];
    assert_eq!(of_rules(&[nine]), [Difference::NinthPlaceholder]);
}

//! The crate's source and the checker agree on a sample of every class, and a malformed case file
//! is answered with a message.

use generator::bent_rules::bend_copy;
use generator::{CLASSES, Class, cases, odd_rules};
use input::build::{Syntax, fact, node};
use input::pairs::encode;
use input::{Answer, Operation, Pair, Rules, Side};
use judge::{Backing, judge, whole_rules};
use std::process::Command;

/// The first cases of a class that disagree without a listed difference.
fn unexplained(class: Class, count: usize) -> Vec<String> {
    ssr::on_large_stack(|| {
        let judged = cases(class, 7).take(count).map(|operation| judge(&operation));
        let wrong = judged.filter(|judgement| judgement.covered.is_empty());
        wrong.filter_map(|judgement| judgement.disagreement).collect()
    })
}

#[test]
fn every_class_agrees() {
    for (class, name, _) in CLASSES {
        // The costly ones are exponential in the crate itself.
        if class != Class::Costly && class != Class::Limits {
            assert_eq!(unexplained(class, 300), Vec::<String>::new(), "{name}");
        }
    }
}

/// Well-formed rules that no parser makes, and damaged copies of them.
fn odd_and_damaged(count: u64) -> impl Iterator<Item = Rules> {
    (0..count).map(|index| {
        let mut rules = odd_rules::random(7, index / 2, 30);
        if index % 2 == 1 {
            bend_copy(7, index, &mut rules);
        }
        rules
    })
}

#[test]
fn whole_rules_agree() {
    let mut same = 0;
    for rules in odd_and_damaged(2_000) {
        let whole = whole_rules(&rules);
        for backing in [whole.built.backing, whole.resolved.backing] {
            assert!(!matches!(backing, Backing::Other(_)), "{backing:?}: {rules:x?}");
            same += u32::from(matches!(backing, Backing::Same));
        }
    }
    assert!(same > 1_500, "{same} of 4000");
}

#[test]
fn whole_rules_answer_as_one_question_does() {
    for rules in odd_and_damaged(300) {
        let whole = whole_rules(&rules);
        for (rule, side, element) in [(0, 0, 0), (0, 1, 2), (1, 0, 5), (9, 0, 0), (0, 2, 0)] {
            let build = Operation::Build { rules: rules.clone(), rule };
            let resolve = Operation::Resolve { rules: rules.clone(), rule, side, element };
            let [built, resolved] =
                [build, resolve].map(|operation| judge(&operation).outcome.map(|o| o.answer));
            let (rule, element) = (rule as usize, element as usize);
            assert_eq!(built, Some(whole.built_answer(rule)));
            assert_eq!(resolved, Some(whole.resolved_answer(rule, side, element)));
        }
    }
}

/// An empty path in a node.
fn around_path() -> Syntax {
    node(67, [node(2, [])])
}

#[test]
fn two_paths_on_one_call_are_listed_on_both_sides() {
    let tree = node(64, [around_path(), around_path()]);
    let claims = |first, second| [fact(1, 2, [first, 7, 0]), fact(1, 4, [second, 7, 0])].concat();
    let side = |facts| {
        let mut side = Side::default();
        side.trees[0].words = tree.words();
        side.trees[0].facts = facts;
        side
    };
    let mut listed = [0; 2];
    for (first, second) in (0..20).map(|number| (number, number + 1)) {
        let pattern = side(claims(first, second));
        let template = side(claims(second, first));
        let alone = Pair { pattern: pattern.clone(), ..Pair::default() };
        let mut other = pattern;
        other.trees[0].facts = [fact(1, 2, [1, 3, 0]), fact(1, 4, [1, 3, 0])].concat();
        let pairs = [alone, Pair { pattern: other, has_template: true, template }];
        for (count, pair) in listed.iter_mut().zip(pairs) {
            match whole_rules(&encode(&[pair], b"")).resolved.backing {
                Backing::Same => {}
                Backing::Listed => *count += 1,
                other => panic!("{other:?}"),
            }
        }
    }
    // The crate takes either path, by the order of a hash map.
    assert!(listed.iter().all(|count| *count > 0), "{listed:?}");
}

#[test]
fn a_refusal_is_document_01s() {
    let list = input::TokenList { words: vec![0x2008_0001], text: b"$".to_vec() };
    let outcome = judge(&Operation::ReadTokens { list }).outcome.expect("the crate can be asked");
    assert_eq!(outcome.answer, Answer::Refused(6));
}

fn status_of(text: &str) -> (Option<i32>, String) {
    let file = std::env::temp_dir().join(format!("judge-{}-{}", std::process::id(), text.len()));
    std::fs::write(&file, text).expect("a file can be written");
    let run = Command::new(env!("CARGO_BIN_EXE_judge")).arg("run").arg(&file).output();
    let run = run.expect("the program can be run");
    std::fs::remove_file(&file).expect("the file can be removed");
    (run.status.code(), String::from_utf8_lossy(&run.stderr).into_owned())
}

#[test]
fn a_malformed_case_file_is_a_message() {
    let good = input::case_file::write(&Operation::ReadTokens { list: Default::default() });
    assert_eq!(status_of(&good).0, Some(0));
    for text in ["", "suphreak-case 1\noperation nothing\n", &good[..good.len() / 2]] {
        let (status, message) = status_of(text);
        assert_eq!(status, Some(2), "{text:?}");
        assert!(!message.is_empty());
    }
}

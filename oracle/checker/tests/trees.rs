//! Trees, facts and parses by themselves: refusals 18 to 21 and 28.

mod common;

use common::{check_job, job_on};
use input::build::{element_word, fact, node, token};
use input::words::{END, START, word};
use input::{File, Parses, RuleSide, TokenList, TreeCheck};

/// Word kind, kind, size, start and end of an element.
type Element = (u32, u32, u32, u32, u32);

/// A tree and the text that it is put over.
type TreeCase = (&'static [Element], &'static str);

fn words(elements: &[Element]) -> Vec<u32> {
    let element = |&(w, kind, size, start, end): &Element| {
        [element_word(w, kind, size), word(START, start), word(END, end)]
    };
    elements.iter().flat_map(element).collect()
}

fn check_tree(tree: Vec<u32>, text: &str) -> Result<(), u32> {
    check_job(&job_on(File { tree, text: text.into(), facts: vec![] }))
}

#[test]
fn trees_that_pass() {
    let cases: [TreeCase; 5] = [
        (&[(1, 64, 1, 0, 0)], ""),
        (&[(1, 64, 2, 0, 1), (2, 1, 1, 0, 1)], "x"),
        (&[(1, 4095, 1, 0, 0)], ""),
        (&[(1, 64, 4, 0, 2), (2, 1, 1, 0, 1), (1, 64, 1, 1, 1), (2, 1, 1, 1, 2)], "xy"),
        (&[(1, 64, 3, 0, 0), (1, 65, 1, 0, 0), (1, 66, 1, 0, 0)], ""),
    ];
    for (elements, text) in cases {
        assert_eq!(check_tree(words(elements), text), Ok(()), "{elements:?}");
    }
}

#[test]
fn malformed_trees() {
    let cases: [TreeCase; 19] = [
        (&[], ""),
        (&[(1, 64, 1, 0, 1)], "x"),
        (&[(2, 1, 1, 0, 1)], "x"),
        (&[(1, 64, 1, 0, 0), (2, 1, 1, 0, 1)], "x"),
        (&[(1, 64, 3, 0, 1), (2, 1, 1, 0, 1)], "x"),
        (&[(1, 64, 1, 0, 0), (1, 64, 1, 0, 0)], ""),
        (&[(1, 64, 2, 0, 1), (2, 1, 1, 0, 1)], "xy"),
        (&[(1, 64, 3, 0, 3), (2, 1, 1, 0, 1), (2, 1, 1, 2, 3)], "xyz"),
        (&[(1, 64, 3, 0, 2), (2, 1, 1, 0, 2), (2, 1, 1, 1, 2)], "xy"),
        (&[(1, 64, 2, 0, 0), (2, 1, 1, 0, 0)], ""),
        (&[(1, 64, 3, 0, 1), (2, 1, 2, 0, 1), (1, 64, 1, 1, 1)], "x"),
        (&[(1, 0, 1, 0, 0)], ""),
        (&[(1, 64, 2, 0, 1), (2, 0, 1, 0, 1)], "x"),
        (&[(1, 64, 2, 0, 1), (2, 1024, 1, 0, 1)], "x"),
        (&[(1, 64, 0, 0, 0)], ""),
        (&[(1, 64, 3, 0, 1), (1, 64, 1, 0, 0), (1, 64, 2, 0, 1)], "x"),
        (&[(1, 64, 2, 0, 1), (1, 64, 0, 0, 1)], "x"),
        (&[(1, 64, 2, 0, 1), (2, 1, 1, 1, 0)], "x"),
        (&[(3, 64, 1, 0, 0)], ""),
    ];
    for (elements, text) in cases {
        assert_eq!(check_tree(words(elements), text), Err(19), "{elements:?}");
    }
    assert_eq!(check_tree(vec![0x1040_0001, 0x4000_0000, 0x4000_0000], ""), Err(19));
    let mut trailing = words(&[(1, 64, 2, 0, 1), (2, 1, 1, 0, 1)]);
    trailing.push(0);
    assert_eq!(check_tree(trailing, "x"), Err(19));
}

#[test]
fn limits_of_trees() {
    let mut wide = node(64, vec![node(64, []); 16_382]).words();
    assert_eq!(check_tree(wide.clone(), ""), Ok(()));
    wide.push(0);
    assert_eq!(wide.len(), 49_150);
    assert_eq!(check_tree(wide.clone(), ""), Err(19));
    wide.extend([0, 0]);
    assert_eq!(check_tree(wide, ""), Err(18));
    for (length, result) in [(65_535, Ok(())), (65_536, Err(18))] {
        let tree = node(64, [token(1, vec![b'x'; length])]);
        assert_eq!(check_tree(tree.words(), &"x".repeat(length)), result);
    }
}

#[test]
fn depth() {
    let chain = |depth: usize| {
        let mut tree = node(64, []);
        for _ in 1..depth {
            tree = node(64, [tree]);
        }
        tree
    };
    assert_eq!(check_tree(chain(128).words(), ""), Ok(()));
    assert_eq!(check_tree(chain(129).words(), ""), Err(20));
    // A token counts too.
    let mut tree = node(64, [token(1, "x")]);
    for _ in 1..127 {
        tree = node(64, [tree]);
    }
    assert_eq!(check_tree(tree.words(), "x"), Ok(()));
    assert_eq!(check_tree(node(64, [tree]).words(), "x"), Err(20));
}

/// `abc `: 0 root, 1 METHOD_CALL_EXPR of IDENT 2, 3 RECORD_EXPR_FIELD of IDENT 4, 5 PATH of
/// IDENT 6, 7 WHITESPACE.
fn check_facts(facts: &[u32]) -> Result<(), u32> {
    let one = |kind, text| node(kind, [token(1, text)]);
    let root = node(2048, [one(65, "a"), one(9, "b"), one(2, "c"), token(2, " ")]);
    let file = File { tree: root.words(), text: root.text(), facts: facts.to_vec() };
    check_job(&job_on(file))
}

#[test]
fn facts_one_by_one() {
    let cases = [
        (0, 5, [1, 0, 0], true),
        (0, 3, [1, 0, 0], false),
        (0, 7, [1, 0, 0], false),
        (0, 5, [1, 1, 0], false),
        (0, 5, [1, 0, 1], false),
        (6, 8, [1, 0, 0], false),
        (8, 1, [1, 0, 0], false),
        (1, 5, [1, 1, 0], false),
        (2, 1, [1, 1, 2], true),
        (2, 1, [1, 2, 0], false),
        (2, 1, [1, 1, 3], false),
        (2, 1, [1, 0, 1], true),
        (2, 0, [1, 0, 1], false),
        (3, 1, [0, 9, 0], true),
        (3, 1, [1, 9, 0], false),
        (3, 1, [0, 9, 1], false),
        (3, 5, [0, 9, 0], false),
        (4, 5, [1, 0, 0], false),
        (5, 3, [4, 0, 0], true),
        (5, 3, [6, 0, 0], false),
        (5, 3, [3, 0, 0], false),
        (5, 3, [9, 0, 0], false),
        (5, 3, [4, 1, 0], false),
        (6, 5, [1, 0, 0], true),
        (6, 0, [1, 0, 0], true),
        (6, 2, [1, 0, 0], false),
        (7, 5, [1, 0, 0], false),
    ];
    for (sort, element, values, passes) in cases {
        let expected = if passes { Ok(()) } else { Err(21) };
        let facts = fact(sort, element, values);
        assert_eq!(check_facts(&facts), expected, "{sort} {element} {values:?}");
    }
}

#[test]
fn facts_together() {
    let step = |step, of| fact(3, 1, [step, of, 0]);
    let module = |of| fact(6, 0, [of, 0, 0]);
    assert_eq!(check_facts(&[step(1, 9), step(0, 9)].concat()), Ok(()));
    assert_eq!(check_facts(&[step(0, 9), step(0, 8)].concat()), Err(21));
    assert_eq!(check_facts(&[step(0, 9), step(2, 9)].concat()), Err(21));
    assert_eq!(check_facts(&[module(1), module(2)].concat()), Err(21));
    let same = [fact(0, 5, [1, 0, 0]), fact(6, 5, [1, 0, 0])].concat();
    assert_eq!(check_facts(&same), Ok(()));
    assert_eq!(check_facts(&same[..7]), Err(21));
    assert_eq!(check_facts(&[0x9000_0005, 0x9000_0001, 0xa000_0000, 0xa000_0000]), Err(21));
    assert_eq!(check_facts(&[0x8000_0005, 0xa000_0001, 0xa000_0000, 0xa000_0000]), Err(21));
}

#[test]
fn number_of_facts() {
    let steps = |count: u32| {
        let facts: Vec<u32> = (0..count).flat_map(|i| fact(3, 1, [i, 9, 0])).collect();
        check_facts(&facts)
    };
    assert_eq!(steps(16_383), Ok(()));
    assert_eq!(steps(16_384), Err(21));
}

/// `$a ` with the tree of `__placeholder_a`, a PATH.
fn placeholder_tree() -> (File, RuleSide) {
    let root = node(2, [token(1, "__placeholder_a")]);
    let tree = File { tree: root.words(), text: root.text(), facts: vec![] };
    (tree, RuleSide { given: 1, list: common::lex("$a "), ..RuleSide::default() })
}

fn check_rule_tree(change: impl FnOnce(&mut File, &mut RuleSide)) -> u32 {
    let (mut tree, mut rule) = placeholder_tree();
    change(&mut tree, &mut rule);
    checker::check_tree(&TreeCheck { tree, rule: Some(rule) })
}

#[test]
fn rule_trees_by_themselves() {
    assert_eq!(check_rule_tree(|_, _| ()), 0);
    assert_eq!(check_rule_tree(|_, rule| rule.given = 2), 0);
    // Its list comes first, also where the tree is absent or too large.
    assert_eq!(check_rule_tree(|_, rule| rule.list = common::lex("${a")), 3);
    let refused = |tree: &mut File, rule: &mut RuleSide, words| {
        tree.tree = words;
        rule.list = TokenList { words: vec![0], text: vec![] };
    };
    assert_eq!(check_rule_tree(|tree, rule| refused(tree, rule, vec![])), 1);
    assert_eq!(check_rule_tree(|tree, rule| refused(tree, rule, vec![0; 49_152])), 1);
    assert_eq!(check_rule_tree(|tree, _| tree.text.push(b' ')), 19);
    assert_eq!(check_rule_tree(|_, rule| rule.list = common::lex("$b")), 19);
}

#[test]
fn rule_trees_without_a_list_or_absent() {
    assert_eq!(check_rule_tree(|_, rule| rule.given = 0), 19);
    let large = |tree: &mut File, rule: &mut RuleSide| {
        tree.tree = vec![0; 49_152];
        rule.given = 0;
    };
    assert_eq!(check_rule_tree(large), 18);
    let absent = |given, facts: &[u32]| {
        check_rule_tree(|tree, rule| {
            *tree = File { text: vec![0; 70_000], facts: facts.to_vec(), ..File::default() };
            rule.given = given;
        })
    };
    for given in [0, 1] {
        assert_eq!(absent(given, &[]), 0);
        assert_eq!(absent(given, &fact(1, 0, [1, 1, 0])), 21);
    }
}

#[test]
fn facts_of_rule_trees() {
    let facts = |side, facts: &[u32]| {
        check_rule_tree(|tree, rule| {
            tree.facts = facts.to_vec();
            rule.side = side;
            rule.fact_text = b"abc".to_vec();
        })
    };
    let (path, kind) = (fact(1, 0, [1, 7, 0]), fact(4, 0, [1, 0, 0]));
    let text = |start, length| fact(7, 0, [1, start, length]);
    assert_eq!((facts(0, &path), facts(1, &path)), (0, 0));
    assert_eq!((facts(0, &kind), facts(1, &kind)), (0, 21));
    assert_eq!((facts(0, &text(0, 3)), facts(1, &text(0, 3))), (21, 0));
    assert_eq!((facts(1, &text(3, 0)), facts(u32::MAX, &text(1, 3))), (0, 21));
    assert_eq!(facts(1, &[text(0, 3), fact(7, 0, [2, 0, 3])].concat()), 0);
    assert_eq!(facts(1, &[text(0, 3), text(1, 2)].concat()), 21);
    assert_eq!((facts(0, &fact(1, 0, [1, 8, 0])), facts(0, &fact(1, 1, [1, 7, 0]))), (21, 21));
}

#[test]
fn parses() {
    let check = |words: &[u32], text: &str| {
        checker::check_parses(&Parses { words: words.into(), text: text.into() })
    };
    let head = |kind, count, start, end| {
        vec![element_word(8, kind, count), word(START, start), word(END, end)]
    };
    let range = |start, end| vec![word(START, start), word(END, end)];
    let x = head(64, 0, 0, 1);
    let passing = [
        (vec![], ""),
        (x.clone(), "x"),
        ([head(64, 1, 0, 1), range(0, 1)].concat(), "x"),
        (head(7, 0, 0, 1), "x"),
        ([x.clone(), head(65, 0, 0, 1)].concat(), "x"),
        ([head(64, 2, 0, 1), range(0, 1), range(0, 1)].concat(), "x"),
    ];
    for (words, text) in passing {
        assert_eq!(check(&words, text), Ok(()), "{words:x?}");
    }
    let refused = [
        ([head(64, 1, 0, 1), range(0, 2)].concat(), "xy"),
        (head(64, 0, 0, 2), "x"),
        (head(64, 0, 1, 0), "x"),
        ([head(64, 1, 0, 1), range(1, 0)].concat(), "x"),
        (head(64, 1, 0, 1), "x"),
        ([head(64, 1, 0, 1), vec![word(START, 0)]].concat(), "x"),
        (head(0, 0, 0, 1), "x"),
        ([x.clone(), head(64, 1, 1, 2), range(0, 1)].concat(), "xx"),
        ([head(64, 0, 0, 0), head(64, 0, 1, 1)].concat(), "x"),
        (vec![0x9040_0000, word(START, 0), word(END, 1)], "x"),
        ([x.clone(), vec![0]].concat(), "x"),
        (x[..2].to_vec(), "x"),
    ];
    for (words, text) in refused {
        assert_eq!(check(&words, text), Err(28), "{words:x?}");
    }
}

//! Each call with the smallest input that has an answer of its own.

use input::build::{Syntax, fact, node, token, token_list};
use input::pairs::{decode, encode};
use input::{File, Pair, Parses, RuleSide, Rules, Side, TokenList, TreeCheck};
use library::job::{JobAnswer, job};
use library::lists::{check_pair, raw_code, read_tokens};
use library::matching::{Range, match_node};
use library::rules::{build_rules, resolve};
use library::trees::{check_file, check_tree};
use library::walk::walk;

/// `$` and a name.
fn placeholder(name: &str) -> TokenList {
    token_list(&[(8, "$"), (1, name)])
}

/// The literal `1`.
fn one() -> Syntax {
    node(66, [token(12, "1")])
}

fn file() -> File {
    File { tree: one().words(), text: one().text(), facts: Vec::new() }
}

/// The pattern `1` without a template.
fn rules() -> Rules {
    let mut pattern =
        Side { list: token_list(&[(12, "1")]), code: one().text(), ..Side::default() };
    pattern.trees[0].words = one().words();
    encode(&[Pair { pattern, ..Pair::default() }], b"")
}

#[test]
fn a_list_is_read_checked_and_written() {
    let read = read_tokens(&placeholder("a"));
    assert_eq!((read.refusal, read.count, read.constraints), (0, 1, 0));
    assert_eq!((read.placeholders[0].start, read.placeholders[0].end), (1, 2));
    assert_eq!(read_tokens(&TokenList { words: vec![0], text: Vec::new() }).refusal, 1);

    assert_eq!(check_pair(&placeholder("a"), None), 0);
    assert_eq!(check_pair(&placeholder("a"), Some(&placeholder("b"))), 15);

    let mut out = [7; 16];
    let written = raw_code(&placeholder("a"), &mut out);
    assert_eq!((written.refusal, written.length), (0, 15));
    assert_eq!(out, *b"__placeholder_a\0");
    assert_eq!(raw_code(&placeholder("a"), &mut out[..14]).refusal, 16);
}

#[test]
fn a_tree_is_checked() {
    assert_eq!(check_file(&file()), 0);
    assert_eq!(check_file(&File::default()), 19);
    let list = token_list(&[(12, "1")]);
    let rule = RuleSide { given: 1, list, side: 0, fact_text: Vec::new() };
    let mut check = TreeCheck { tree: file(), rule: Some(rule) };
    assert_eq!(check_tree(&check), 0);
    check.tree.text = b"2".to_vec();
    assert_eq!(check_tree(&check), 19);
}

#[test]
fn rules_are_built_and_resolved() {
    let built = build_rules(&rules(), 0);
    assert_eq!((built.refusal, built.rules, built.found, built.template), (0, 1, 1, 0));
    assert_eq!(build_rules(&rules(), 1).found, 0);
    assert_eq!(resolve(&rules(), 0, 0, 1).found, 1);
    assert_eq!(resolve(&rules(), 0, 1, 0).found, 0);
}

#[test]
fn a_node_is_matched() {
    let ask = |node, range| match_node(&rules(), &file(), node, 0, range, &mut [7; 2]);
    let given = Range { given: 1, start: 1, end: 1 };
    assert_eq!((ask(0, Range::default()).refusal, ask(0, Range::default()).matched), (0, 1));
    assert_eq!((ask(0, given).refusal, ask(0, given).matched), (0, 0));
    assert_eq!(ask(1, Range::default()).refusal, 23);
}

/// `1 ==>> 2`, where the kind of a type is never parsed.
fn one_to_two() -> Rules {
    let two = node(2050, [token(12, "2")]);
    let mut pairs = decode(&rules()).expect("a directory that can be cut");
    pairs[0].has_template = true;
    pairs[0].template =
        Side { list: token_list(&[(12, "2")]), code: two.text(), ..Side::default() };
    pairs[0].template.trees[0].words = two.words();
    encode(&pairs, b"")
}

/// The file with its node in a module.
fn file_in_module() -> File {
    File { facts: fact(6, 0, [1, 0, 0]).to_vec(), ..file() }
}

const EDITED: &[u8; 15] = b"\0\0\0\x50\x01\0\0\x60\x01\0\0\x702\0\0";

#[test]
fn a_job_is_done() {
    let (rules, file, parses) = (one_to_two(), file_in_module(), Parses::default());
    let ask = |candidates: &[u32], out: &mut [u8]| {
        job(&rules, &file, &parses, candidates, Range::default(), out)
    };
    let mut out = [7; 15];
    assert_eq!(ask(&[0, 0], &mut out), JobAnswer { length: 13, ..JobAnswer::default() });
    assert_eq!(out, *EDITED);
    assert_eq!(ask(&[0, 0], &mut [7; 12]).refusal, 30);
    assert_eq!(ask(&[1, 0], &mut [7; 15]).refusal, 25);
    assert_eq!(ask(&[], &mut []), JobAnswer::default());
}

#[test]
fn a_file_is_walked() {
    let (file, parses) = (file_in_module(), Parses::default());
    let ask = |rules: &Rules, range, out: &mut [u8]| walk(rules, &file, &parses, range, out);
    let mut out = [7; 15];
    let list = JobAnswer { length: 13, ..JobAnswer::default() };
    assert_eq!(ask(&one_to_two(), Range::default(), &mut out), list);
    assert_eq!(out, *EDITED);
    assert_eq!(ask(&one_to_two(), Range::default(), &mut [7; 12]).refusal, 30);
    assert_eq!(ask(&rules(), Range::default(), &mut [7; 15]).refusal, 27);
    let backward = Range { given: 1, start: 2, end: 1 };
    assert_eq!(ask(&one_to_two(), backward, &mut [7; 15]).refusal, 25);
    let behind = Range { given: 1, start: 1, end: 1 };
    assert_eq!(ask(&one_to_two(), behind, &mut []), JobAnswer::default());
}

//! Whole jobs by the checker alone: which matches are kept where, and the list that comes of it.

mod common;

use checker::{Laid, WholeJob};
use common::*;
use input::build::{Syntax, add_parse, fact, node, token};
use input::{Job, Pair, Parses, Task};

/// A kind that is never parsed.
const PLAIN: u32 = 2050;

/// A rule of a pattern and a template, each with its list.
fn rule(pattern: (&str, Syntax), template: (&str, Syntax)) -> Pair {
    pair(side(pattern.0, 0, &pattern.1, &[]), Some(side(template.0, 0, &template.1, &[])))
}

fn place(name: &str) -> Syntax {
    node(67, [token(1, format!("__placeholder_{name}"))])
}

fn word(text: &str) -> Syntax {
    node(66, [ident(text)])
}

/// `$a ==>> <$a>`.
fn angles() -> Pair {
    rule(("$a", place("a")), ("<$a>", node(PLAIN, [mark("<"), place("a"), mark(">")])))
}

/// The first text in place of the second.
fn constant(from: Syntax, to: &str) -> Pair {
    let text = String::from_utf8(from.text()).expect("UTF-8");
    rule((&text, from), (to, node(PLAIN, [ident(to)])))
}

/// A job over code whose nodes are all in module 1.
fn job(pairs: &[Pair], root: &Syntax, candidates: &[[u32; 2]]) -> Job {
    let nodes = root.elements().into_iter().enumerate().filter(|(_, e)| e.is_node());
    let facts: Vec<[u32; 4]> = nodes.map(|(i, _)| fact(6, i, [1, 0, 0])).collect();
    let candidates = candidates.concat();
    Job { rules: rules(pairs, ""), file: file(root, &facts), candidates, ..Job::default() }
}

/// The replacements of a job's list, one behind the other.
fn replaced(job: &Job) -> String {
    let whole = WholeJob::new(Task::Job, job).expect("a job that is not refused");
    let Laid::List(list) = whole.write(&Parses::default(), 4096).laid else {
        panic!("no list");
    };
    let edits = input::edits::read(&list).expect("a list");
    let texts = edits.into_iter().flat_map(|edit| edit.replacement).collect();
    String::from_utf8(texts).expect("UTF-8")
}

#[test]
fn on_one_node_the_lower_rule_holds_the_other() {
    let both = [[0, 0], [0, 1]];
    let word = word("x");
    let pairs = [angles(), constant(word.clone(), "Y")];
    assert_eq!(replaced(&job(&pairs, &word, &both)), "<Y>");
    let [first, second] = pairs;
    assert_eq!(replaced(&job(&[second, first], &word, &both)), "Y");
}

#[test]
fn the_earlier_placeholder_takes_what_two_hold() {
    let empty = || node(66, []);
    let pattern = node(68, [place("a"), place("b")]);
    let template = node(PLAIN, [place("b"), mark("|"), place("a")]);
    let outer = rule(("$a$b", pattern), ("$b|$a", template));
    let inner = constant(empty(), "E");
    let code = node(68, [word("x"), empty()]);
    // Elements 1 and 3 are the two children.
    let job = job(&[outer, inner], &code, &[[3, 1], [0, 0]]);
    assert_eq!(replaced(&job), "|xE");
}

#[test]
fn bytes_decide_what_a_capture_holds() {
    let pattern = node(68, [place("a"), node(63, []), mark(";")]);
    let outer = rule(("$a;", pattern), ("$a;", node(PLAIN, [place("a"), mark(";")])));
    let inner = constant(node(63, []), "E");
    let code = node(68, [word("x"), node(63, []), mark(";")]);
    // The empty node is element 3, and no part of the captured one.
    assert_eq!(replaced(&job(&[outer, inner], &code, &[[0, 0], [3, 1]])), "xE;");
}

#[test]
fn a_match_that_nothing_holds_is_dropped() {
    let minus = |inner| node(68, [mark("-"), inner]);
    let outer = rule(("-$a", minus(place("a"))), ("+$a", node(PLAIN, [mark("+"), place("a")])));
    let code = minus(minus(word("x")));
    let pairs = [outer.clone(), outer, constant(word("x"), "Y")];
    // Rule 1 on either node meets rule 0 there, whose capture is smaller.
    let all = [[0, 0], [0, 1], [2, 0], [2, 1], [4, 2]];
    let job = job(&pairs, &code, &all);
    assert_eq!(replaced(&job), "++Y");
    let whole = WholeJob::new(Task::Job, &job).expect("a job that is not refused");
    assert_eq!((whole.matches.len(), whole.kept.len()), (5, 1));
}

#[test]
fn renderings_of_the_crate_double_with_each_level() {
    let around = |inner| node(68, [mark("("), inner, mark(")")]);
    let template = node(69, [mark("-"), place("a")]);
    let pairs = [rule(("($a)", around(place("a"))), ("-$a", template))];
    let code = (0..4).fold(word("x"), |inner, _| around(inner));
    let mut job = job(&pairs, &code, &[[0, 0], [2, 0], [4, 0], [6, 0]]);
    let whole = WholeJob::new(Task::Job, &job).expect("a job that is not refused");
    assert_eq!(whole.renderings(), 2 + 4 + 8 + 16);
    let asked = |whole: &WholeJob, parses: &Parses| match whole.write(parses, 99).laid {
        Laid::Asked(kind, text) => (kind, String::from_utf8(text).expect("UTF-8")),
        _ => panic!("a parse is missing"),
    };
    assert_eq!(asked(&whole, &job.parses), (69, "-x".to_owned()));
    add_parse(&mut job.parses, 69, b"-x", &[(0, 2)]);
    assert_eq!(asked(&whole, &job.parses), (69, "--(x)".to_owned()));
}

#[test]
fn a_walk_has_every_node_with_every_rule() {
    let minus = |inner| node(68, [mark("-"), inner]);
    let pattern = minus(place("a"));
    let outer = rule(("-$a", pattern), ("+$a", node(PLAIN, [mark("+"), place("a")])));
    let code = node(2048, [minus(minus(word("x"))), word("x"), node(66, [])]);
    let walk = job(&[outer, constant(word("x"), "Y")], &code, &[]);
    let whole = WholeJob::new(Task::Walk, &walk).expect("a walk that is not refused");
    let found: Vec<(u32, u32)> = whole.matches.iter().map(|m| (m.node, m.rule)).collect();
    assert_eq!(found, [(1, 0), (3, 0), (5, 1), (7, 1)]);
    let listed = found.iter().map(|&(node, rule)| [node, rule]).collect::<Vec<_>>().concat();
    let same = Job { candidates: listed, ..walk };
    let whole_job = WholeJob::new(Task::Job, &same).expect("a job that is not refused");
    assert_eq!((whole.matches, whole.kept), (whole_job.matches, whole_job.kept));
    assert_eq!(replaced(&same), "++YY");
}

#[test]
fn a_walk_counts_its_matches_before_they_are_nested() {
    let pairs = vec![angles(); 16];
    let nodes = |count: usize| node(2048, vec![node(66, []); count - 1]);
    let matches = |count| {
        let walk = job(&pairs, &nodes(count), &[]);
        WholeJob::new(Task::Walk, &walk).map(|whole| (whole.matches.len(), whole.kept.len()))
    };
    assert_eq!(matches(64), Ok((1024, 1)));
    assert_eq!(matches(65), Err(24));
}

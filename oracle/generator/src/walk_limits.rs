//! Walks at their limits, walks with two faults, and walks that take long if they are done badly: many nodes
//! with many rules, nodes that are looked into for long, and the jobs of `job_limits` without their candidates.

use crate::growing_walks::{Calls, call_of, lines};
use crate::job_limits::{
    self, JobLimit, LINE, PLAIN, RULES, a, angles, job, large, limit, line, number, pair,
};
use crate::kinds::*;
use crate::limits::{plain_file, wide};
use crate::parts::*;
use crate::tree_limits::chains;
use input::build::{add_parse, element_word, fact, node, token};
use input::pairs::{decode, encode};
use input::words::PARSE;
use input::{Answer, File, Job, Pair, Parses, Side};
use std::time::Duration;

/// The most matches; the most elements of a tree, and the most facts.
const MATCHES: usize = 1_024;
const MOST: usize = 16_383;
/// Calls in each other that fit the depth of 128.
const CALLS: usize = 62;
/// What a walk may take that has too many matches.
const WITHIN_FAST: Duration = Duration::from_millis(50);

pub fn all() -> Vec<JobLimit> {
    let mut all = orders();
    all.extend(counts());
    all.extend(every_node());
    all.extend(calls());
    all.extend(full_files());
    all.extend(looked_into());
    all.extend(jobs());
    all
}

/// 16 rules `$a ==>> +` on a root with empty nodes, so many nodes in all.
fn small(nodes: usize) -> Job {
    let root = node(SOURCE_FILE, vec![node(EXPR_STMT, []); nodes - 1]);
    Job { buffer: 64, ..job(&vec![constant(); RULES], &root, Vec::new()) }
}

/// `$a ==>> +`.
fn constant() -> Pair {
    pair(&a(), &node(PLAIN, [mark("+")]))
}

/// The same with another pair for the first.
fn with_first(job: Job, pair: Pair) -> Job {
    let mut pairs = decode(&job.rules).unwrap_or_default();
    pairs[0] = pair;
    Job { rules: encode(&pairs, b""), ..job }
}

fn without_template(job: Job) -> Job {
    with_first(job, Pair { has_template: false, template: Side::default(), ..constant() })
}

fn with_17_rules(job: Job) -> Job {
    Job { rules: encode(&vec![constant(); RULES + 1], b""), ..job }
}

/// The same with a parse of no kind.
fn malformed(mut job: Job) -> Job {
    job.parses.words = vec![element_word(PARSE, 0, 0)];
    job
}

fn backward(job: Job) -> Job {
    Job { range: Some((2, 1)), ..job }
}

/// Small walks with two faults, each with the number that comes first; and around the most matches, which
/// are counted before they are nested: of these one is kept outside, and all the others are in it.
pub fn orders() -> Vec<JobLimit> {
    let (most, over) = (LINE, LINE + 1);
    let unresolved = pair(&path_expr(path_of(ident("f"))), &node(PLAIN, [mark("+")]));
    let refused = |name, job, number| limit(name, job, Answer::Refused(number));
    vec![
        limit("1,024 matches", small(most), Answer::Edits(13)),
        refused("1,040 matches", small(over), 24),
        refused(
            "a path without a fact, and 1,040 matches",
            with_first(small(over), unresolved),
            22,
        ),
        refused("17 rules, and a backward range", backward(with_17_rules(small(1))), 24),
        refused("a backward range, and no template", backward(without_template(small(1))), 25),
        refused("a backward range, and 1,040 matches", backward(small(over)), 25),
        refused("no template, and 1,040 matches", without_template(small(over)), 27),
        refused("no template, and malformed parses", malformed(without_template(small(1))), 27),
        refused("1,040 matches, and malformed parses", malformed(small(over)), 24),
        refused("1,024 matches, and malformed parses", malformed(small(most)), 28),
        refused("1,040 matches, and no room", Job { buffer: 0, ..small(over) }, 24),
        refused("1,024 matches, and no room", Job { buffer: 0, ..small(most) }, 30),
    ]
}

/// As many matches as there may be and one more, beside each other and in each other.
fn counts() -> Vec<JobLimit> {
    let plain = pair(&number(1), &node(PLAIN, [token(NUMBER, "2")]));
    let ones = |count| {
        let root = node(SOURCE_FILE, vec![number(1); count]);
        job(std::slice::from_ref(&plain), &root, Vec::new())
    };
    let edits = Answer::Edits(13 * MATCHES);
    let but_one = Job { range: Some((0, MATCHES as u32)), ..ones(MATCHES + 1) };
    let nested =
        |nodes| job(&vec![pair(&a(), &angles(PLAIN)); RULES], &line(nodes, ident("x")), Vec::new());
    let in_each_other = Answer::Edits(12 + 2 * MATCHES + 1);
    vec![
        limit("1,024 matches beside each other", ones(MATCHES), edits.clone()),
        fast("1,025 matches beside each other", ones(MATCHES + 1)),
        limit("1,025, one of them out of the range", but_one, edits),
        limit("1,024 matches in each other", nested(LINE), in_each_other),
        fast("1,040 matches in each other", nested(LINE + 1)),
    ]
}

/// A walk with too many matches.
fn fast(name: &str, job: Job) -> JobLimit {
    JobLimit { within: WITHIN_FAST, ..limit(name, job, Answer::Refused(24)) }
}

/// 16 rules of pattern `$a` over as many nodes as there may be.
fn every_node() -> Vec<JobLimit> {
    let rules = encode(&vec![constant(); RULES], b"");
    let on = |file| Job { rules: rules.clone(), file, buffer: 4_096, ..Job::default() };
    let in_module = |file: File| {
        let facts = (0..MOST).flat_map(|node| fact(6, node, [1, 0, 0])).collect();
        File { facts, ..file }
    };
    let outside = Job { range: Some((1, 1)), ..on(in_module(wide(MOST))) };
    let tokens = File {
        facts: fact(6, 0, [1, 0, 0]).to_vec(),
        ..plain_file(&node(SOURCE_FILE, vec![mark(";"); MOST - 1]))
    };
    vec![
        fast("16 rules `$a` over 16,383 nodes", on(in_module(wide(MOST)))),
        fast("16 rules `$a` over chains of depth 128", on(in_module(chains(MOST, 128)))),
        limit("16 rules `$a`, no node in a module", on(wide(MOST)), Answer::Edits(0)),
        limit("16 rules `$a`, no node in the range", outside, Answer::Edits(0)),
        limit("16 rules `$a` over 16,382 tokens", on(tokens), Answer::Edits(13)),
    ]
}

/// `f($a) ==>> 1 - $a` on `f(f(...f(x)))`: in the crate the work doubles with each call.
fn calls() -> Vec<JobLimit> {
    let template = node(BIN_EXPR, [number(1), space(), mark("-"), space(), a()]);
    let mut rule = pair(&call_of("f", a()), &template);
    rule.pattern.trees[0].facts = fact(1, 2, [1, 3, 0]).to_vec();
    let code = (0..CALLS).fold(node(LITERAL, [ident("x")]), |inner, _| call_of("f", inner));
    let mut base = job(&[rule], &code, Vec::new());
    let paths = crate::facts::paths(&code);
    base.file.facts.extend(paths.iter().flat_map(|(path, _)| fact(0, *path, [1, 0, 0])));
    let (mut parses, mut text) = (Parses::default(), b"x".to_vec());
    for call in 1..=CALLS {
        let first = [b"1 - ", &text[..]].concat();
        let end = first.len() as u32;
        // `1 - 1 - x` is `1 - 1` less `x`: what stands right is a node only where it is `x`.
        let ranges = [(0, end), (0, 1), (4, end)];
        add_parse(&mut parses, BIN_EXPR, &first, &ranges[..if call == 1 { 3 } else { 2 }]);
        text = if call == 1 { first } else { [b"1 - (", &text[..], b")"].concat() };
    }
    let length = 12 + text.len();
    let whole = Job { parses, ..base.clone() };
    let short = Job { buffer: length - 1, ..whole.clone() };
    let asked = Answer::Asked { kind: BIN_EXPR, length: 5 };
    vec![
        limit("`f($a) ==>> 1 - $a` on 62 calls in each other, no parses", base, asked),
        limit("the same with all parses", whole, Answer::Edits(length)),
        limit("the same in a buffer one byte shorter", short, Answer::Refused(30)),
    ]
}

/// Files, rules and facts as large as they may be.
fn full_files() -> Vec<JobLimit> {
    let full = |matches| Calls { elements: MOST, rules: RULES, matches }.with_facts(MOST);
    // Each text is `ga(1)` or alike.
    let edits = |matches| Answer::Edits(matches * (12 + 5));
    let deep = |nodes, rules| lines(MOST, rules, nodes);
    let lengths = Answer::Edits(12 + 2 * MATCHES + 1);
    vec![
        limit("16,383 elements and facts, 16 rules, no match", full(0), edits(0)),
        limit("16,383 elements and facts, 16 rules, 1,024 matches", full(MATCHES), edits(MATCHES)),
        fast("16,383 elements and facts, 16 rules, 1,025 matches", full(MATCHES + 1)),
        limit("16,383 elements, 1,024 matches in each other", deep(LINE, RULES), lengths),
    ]
}

/// Nodes that are all looked into as far as the code goes down, and none matches.
fn looked_into() -> Vec<JobLimit> {
    let levels = |kind, count, inner| (0..count).fold(inner, |inner, _| node(kind, [inner]));
    let of_kind = |kind| {
        let rule = pair(&levels(kind, 100, ident("y")), &node(PLAIN, [mark("+")]));
        let line = levels(kind, 126, ident("x"));
        let root = node(SOURCE_FILE, vec![line; (MOST - 1) / 127]);
        job(&vec![rule; RULES], &root, Vec::new())
    };
    let name = "16 rules of 100 levels over lines of 126, no match";
    vec![
        large(name, of_kind(EXPR_STMT), Answer::Edits(0)),
        large("the same with token trees", of_kind(TOKEN_TREE), Answer::Edits(0)),
    ]
}

/// The jobs of `job_limits` with every node and every rule for candidates. Some are the same then.
fn jobs() -> Vec<JobLimit> {
    let mut all: Vec<JobLimit> = Vec::new();
    for limit in job_limits::all() {
        let job = Job { candidates: Vec::new(), ..limit.job };
        if all.iter().all(|other| other.job != job) {
            all.push(JobLimit { job, answer: None, ..limit });
        }
    }
    all
}

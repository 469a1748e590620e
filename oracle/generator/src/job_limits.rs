//! Jobs that take long if they are done badly: matches in each other as deep as they may be, captures
//! that a template has twice, many matches, many parses, and lists that fill a buffer.

use crate::facts::paths;
use crate::kinds::*;
use crate::limits::plain_file;
use crate::match_limits;
use crate::parts::*;
use crate::rng::Rng;
use input::build::{Syntax, add_parse, fact, node, token, token_list};
use input::pairs::{decode, encode};
use input::{Answer, File, Job, Pair, Parses, Side};
use std::time::Duration;

/// The used part of a buffer, and more than that.
const ROOM: usize = 1_048_576;
const LARGE: usize = ROOM + 7;
/// The most candidates, the most rules, and nodes for which all rules are as many.
const CANDIDATES: usize = 1_024;
pub(crate) const RULES: usize = 16;
pub(crate) const LINE: usize = CANDIDATES / RULES;
/// The greatest depth of a node above a token.
const DEPTH: usize = 127;
/// The last number of a sum.
const LAST: usize = 60;
/// What a call may take, and what it may where a rule or a parse is as large as it may be.
const WITHIN: Duration = Duration::from_secs(1);
const WITHIN_LARGE: Duration = Duration::from_secs(5);

/// The kind of a template that is never parsed, and of one that is.
pub(crate) const PLAIN: u32 = PATH_TYPE;
const PARSED: u32 = REF_EXPR;

pub struct JobLimit {
    pub name: String,
    pub job: Job,
    /// What a call may take.
    pub within: Duration,
    /// The answer that the case was made for, where it is known.
    pub answer: Option<Answer>,
}

pub fn all() -> Vec<JobLimit> {
    let mut all = sums();
    all.extend(nests());
    all.extend(lines());
    all.extend(doubled());
    all.extend(full());
    all.extend(unrelated());
    all.extend(parses());
    all.extend(many_uses());
    all.extend(large_rules());
    all.extend(matched());
    all
}

/// One rule more than there may be, and all of it small.
pub fn too_many_rules() -> Job {
    job(&vec![pair(&number(1), &number(2)); RULES + 1], &number(1), Vec::new())
}

pub(crate) fn limit(name: &str, job: Job, answer: Answer) -> JobLimit {
    JobLimit { name: name.to_owned(), job, within: WITHIN, answer: Some(answer) }
}

pub(crate) fn large(name: &str, job: Job, answer: Answer) -> JobLimit {
    JobLimit { within: WITHIN_LARGE, ..limit(name, job, answer) }
}

/// A job over code whose nodes are all in module 1.
pub(crate) fn job(pairs: &[Pair], root: &Syntax, candidates: Vec<u32>) -> Job {
    let nodes = root.elements().into_iter().enumerate().filter(|(_, e)| e.is_node());
    let facts = nodes.flat_map(|(i, _)| fact(6, i, [1, 0, 0])).collect();
    let file = File { facts, ..plain_file(root) };
    Job { rules: encode(pairs, b""), file, candidates, buffer: LARGE, ..Job::default() }
}

pub(crate) fn pair(pattern: &Syntax, template: &Syntax) -> Pair {
    Pair { pattern: side(pattern), has_template: true, template: side(template) }
}

/// A side of the expression form: a placeholder is declared where it first stands.
fn side(tree: &Syntax) -> Side {
    let mut list: Vec<(u32, Vec<u8>)> = Vec::new();
    let mut declared: Vec<&[u8]> = Vec::new();
    for (kind, text) in tree.tokens() {
        match text.strip_prefix(STAND_IN) {
            Some(name) if kind == IDENT && !declared.contains(&name) => {
                list.extend([(DOLLAR, b"$".to_vec()), (IDENT, name.to_vec())]);
                declared.push(name);
            }
            _ => list.push((kind, text.to_vec())),
        }
    }
    let mut side = Side { list: token_list(&list), code: tree.text(), ..Side::default() };
    side.trees[0].words = tree.words();
    side
}

fn placeholder(name: &str) -> Syntax {
    node(PATH_EXPR, [stand_in(name)])
}

pub(crate) fn a() -> Syntax {
    placeholder("a")
}

pub(crate) fn number(number: usize) -> Syntax {
    node(LITERAL, [token(NUMBER, number.to_string())])
}

/// Candidates of one rule.
fn with_rule(nodes: impl IntoIterator<Item = usize>, rule: usize) -> Vec<u32> {
    nodes.into_iter().flat_map(|node| [node as u32, rule as u32]).collect()
}

/// All rules with all nodes.
fn product(nodes: impl IntoIterator<Item = usize>, rules: usize) -> Vec<u32> {
    let pairs = |node| (0..rules).flat_map(move |rule| [node as u32, rule as u32]);
    nodes.into_iter().flat_map(pairs).collect()
}

fn reversed(candidates: &[u32]) -> Vec<u32> {
    candidates.chunks_exact(2).rev().flatten().copied().collect()
}

fn shuffled(candidates: &[u32]) -> Vec<u32> {
    let mut pairs: Vec<&[u32]> = candidates.chunks_exact(2).collect();
    Rng::new(&[1]).shuffle(&mut pairs);
    pairs.concat()
}

/// `$a + $b ==>> $b * $a` on `0 + 1 + ... + 60`.
fn sums() -> Vec<JobLimit> {
    let signed = |left, sign, right| node(BIN_EXPR, [left, space(), mark(sign), space(), right]);
    let pair = pair(&signed(a(), "+", placeholder("b")), &signed(placeholder("b"), "*", a()));
    let code = (1..=LAST).fold(number(0), |left, right| signed(left, "+", number(right)));
    // The sums stand on the nodes 0 to 59.
    let job = job(&[pair], &code, with_rule(0..LAST, 0));
    let (states, length) = sum_states();
    let mut all = Vec::new();
    for given in [0, 1, 30, 59, 60] {
        let (parses, answer) = states[given].clone();
        let name = format!("a sum of 61 numbers turned round, {given} parses");
        all.push(limit(&name, Job { parses, ..job.clone() }, answer));
    }
    // Before the innermost text there are the words of the edit and all factors but `1 * 0`.
    let before = 12 + (2..=LAST).map(|factor| head(factor).len()).sum::<usize>();
    let (_, asked) = &states[0];
    for (buffer, answer) in [(before + 5, asked.clone()), (before + 4, Answer::Refused(30))] {
        let name = format!("the same without parses in a buffer of {buffer}");
        all.push(limit(&name, Job { buffer, ..job.clone() }, answer));
    }
    let whole = Job { parses: states[LAST].0.clone(), ..job };
    for (buffer, answer) in [(length, Answer::Edits(length)), (length - 1, Answer::Refused(30))] {
        let name = format!("the same with all parses in a buffer of {buffer}");
        all.push(limit(&name, Job { buffer, ..whole.clone() }, answer));
    }
    let below = Job { candidates: reversed(&whole.candidates), ..whole };
    all.push(limit("the same, candidates from below", below, Answer::Edits(length)));
    all
}

/// What stands before the text of a nested product.
fn head(factor: usize) -> String {
    format!("{factor} * ")
}

/// For each number of parses from 0 to 60 these and the answer; and the length of the list.
fn sum_states() -> (Vec<(Parses, Answer)>, usize) {
    let (mut parses, mut text) = (Parses::default(), b"0".to_vec());
    let mut states = Vec::new();
    for factor in 1..=LAST {
        let head = head(factor);
        let first = [head.as_bytes(), &text].concat();
        let asked = Answer::Asked { kind: BIN_EXPR, length: first.len() };
        states.push((parses.clone(), asked));
        let (literal, end) = (head.len() as u32 - 3, first.len() as u32);
        // `1 * 0` has both as nodes; of the others the product on the right is none, since `*` takes
        // what stands left of it first.
        let mut ranges = vec![(0, end), (0, literal)];
        ranges.extend((factor == 1).then_some((literal + 3, end)));
        add_parse(&mut parses, BIN_EXPR, &first, &ranges);
        let marked = [head.as_bytes(), b"(", &text, b")"].concat();
        text = if factor == 1 { first } else { marked };
    }
    let length = 12 + text.len();
    states.push((parses, Answer::Edits(length)));
    (states, length)
}

/// A line of nodes around an element.
pub(crate) fn line(nodes: usize, inner: Syntax) -> Syntax {
    (0..nodes).fold(inner, |inner, _| node(EXPR_STMT, [inner]))
}

/// `<$a>` of a kind.
pub(crate) fn angles(kind: u32) -> Syntax {
    node(kind, [mark("<"), a(), mark(">")])
}

/// 1,024 matches in each other: 16 rules on 64 nodes.
fn nests() -> Vec<JobLimit> {
    let code = line(LINE, ident("x"));
    let candidates = product(0..LINE, RULES);
    let plain = job(&vec![pair(&a(), &angles(PLAIN)); RULES], &code, candidates.clone());
    let length = 12 + 2 * CANDIDATES + 1;
    let mut all =
        vec![limit("1,024 in each other, never parsed", plain.clone(), Answer::Edits(length))];
    for (order, candidates) in
        [("reversed", reversed(&candidates)), ("shuffled", shuffled(&candidates))]
    {
        let job = Job { candidates, ..plain.clone() };
        let name = format!("the same, candidates {order}");
        all.push(limit(&name, job, Answer::Edits(length)));
    }
    let short = Job { buffer: length - 1, ..plain };
    all.push(limit("the same in a buffer one byte shorter", short, Answer::Refused(30)));
    all.extend(parsed_nests(&code, &candidates));
    all.push(with_comments());
    all
}

/// The same with templates that are parsed, each text with and without parentheses.
fn parsed_nests(code: &Syntax, candidates: &[u32]) -> Vec<JobLimit> {
    let rules = vec![pair(&a(), &angles(PARSED)); RULES];
    let job = job(&rules, code, candidates.to_vec());
    let mut all = Vec::new();
    let asked = Answer::Asked { kind: PARSED, length: 3 };
    all.push(limit("1,024 in each other, no parses", job.clone(), asked));
    for marked in [false, true] {
        let (mut parses, mut text) = (Parses::default(), b"x".to_vec());
        let mut half = parses.clone();
        for level in 0..CANDIDATES {
            let first = [b"<", &text[..], b">"].concat();
            let end = first.len() as u32;
            let ranges = [(0, end), (1, end - 1)];
            add_parse(&mut parses, PARSED, &first, &ranges[..if marked { 1 } else { 2 }]);
            text = if marked { [b"<(", &text[..], b")>"].concat() } else { first };
            if level == CANDIDATES / 2 {
                half = parses.clone();
            }
        }
        let shown = if marked { "all in parentheses" } else { "none in parentheses" };
        let length = 12 + text.len();
        let name = format!("1,024 in each other, {shown}");
        let whole = Job { parses, ..job.clone() };
        all.push(limit(&name, whole.clone(), Answer::Edits(length)));
        let short = Job { buffer: length - 1, ..whole };
        all.push(limit("the same in a buffer one byte shorter", short, Answer::Refused(30)));
        let each = if marked { 4 } else { 2 };
        let asked = Answer::Asked { kind: PARSED, length: each * (CANDIDATES / 2 + 1) + 3 };
        all.push(limit(
            "the same with half of the parses",
            Job { parses: half, ..job.clone() },
            asked,
        ));
    }
    all
}

/// 1,024 matches in each other, of which every sixteenth notes a comment.
fn with_comments() -> JobLimit {
    let empty = || node(EXPR_STMT, []);
    let noting = node(BIN_EXPR, [a(), empty()]);
    let mut rules = vec![pair(&a(), &angles(PLAIN)); RULES - 1];
    rules.push(pair(&noting, &angles(PLAIN)));
    let wrap = |inner, _| node(BIN_EXPR, [inner, token(COMMENT, "/*c*/"), empty()]);
    let code = (0..LINE).fold(node(LITERAL, [ident("x")]), wrap);
    let job = job(&rules, &code, product(0..LINE, RULES));
    // The comment is taken out of the capture and stands behind the text.
    let length = 12 + 2 * CANDIDATES + 5 * LINE + 1;
    limit("1,024 in each other, 64 note a comment", job, Answer::Edits(length))
}

/// Candidates on a line of nodes as deep as it may be, kept and dropped.
fn lines() -> Vec<JobLimit> {
    let code = line(DEPTH, ident("x"));
    let rules = vec![pair(&a(), &angles(PLAIN)); RULES];
    let half = CANDIDATES / DEPTH;
    let all_nodes = product(0..DEPTH, half);
    let length = 12 + all_nodes.len() + 1;
    let mut all = vec![limit(
        "8 rules on a line of 127 nodes",
        job(&rules, &code, all_nodes),
        Answer::Edits(length),
    )];
    let deepest = product(DEPTH - LINE..DEPTH, RULES);
    let length = 12 + 2 * CANDIDATES + 1;
    let edits = Answer::Edits(length);
    all.push(limit("16 rules on the 64 deepest nodes", job(&rules, &code, deepest), edits));
    // Nothing holds them: all but the first of each line are dropped.
    let wrap = |inner, _| node(BIN_EXPR, [inner]);
    let nodes = (0..LINE).fold(node(LITERAL, []), wrap);
    let constants = vec![pair(&node(BIN_EXPR, [a(), node(EXPR_STMT, [])]), &angles(PLAIN)); RULES];
    let none = job(&constants, &nodes, product(0..LINE, RULES));
    all.push(limit("1,024 candidates that do not match", none, Answer::Edits(0)));
    let lone = |inner, _| node(BIN_EXPR, [mark("-"), inner]);
    let nodes = (0..LINE).fold(number(1), lone);
    let rules = vec![pair(&node(BIN_EXPR, [mark("-"), a()]), &node(PLAIN, [mark("+")])); RULES];
    // The minus signs stand on every second element.
    let minus = job(&rules, &nodes, product((0..LINE).map(|level| 2 * level), RULES));
    let name = "64 in each other, not in the template, and 960 dropped";
    all.push(limit(name, minus, Answer::Edits(13)));
    all
}

/// `$a __placeholder_a`, of a kind.
fn twice(kind: u32) -> Syntax {
    node(kind, [a(), a()])
}

/// Templates that have a capture twice: the text doubles at each level, over empty nodes nothing does.
fn doubled() -> Vec<JobLimit> {
    let mut all = Vec::new();
    let rules = |count, kind| vec![pair(&a(), &twice(kind)); count];
    let empty = node(LITERAL, []);
    let few = job(&rules(12, PLAIN), &empty, product(0..1, 12));
    all.push(limit("a capture twice over an empty node, 12 rules", few, Answer::Edits(12)));
    let empties = line(LINE - 1, empty);
    let many = job(&rules(RULES, PLAIN), &empties, product(0..LINE, RULES));
    all.push(limit("over 64 empty nodes, 16 rules", many, Answer::Edits(12)));
    let mut parsed = job(&rules(RULES, PARSED), &empties, product(0..LINE, RULES));
    let asked = Answer::Asked { kind: PARSED, length: 0 };
    all.push(limit("the same, parsed, no parses", parsed.clone(), asked));
    add_parse(&mut parsed.parses, PARSED, b"", &[(0, 0)]);
    all.push(limit("the same with the one parse", parsed, Answer::Edits(12)));
    let code = line(LINE, ident("x"));
    let one = job(&rules(RULES, PLAIN), &code, product(0..1, RULES));
    all.push(limit("a capture twice over a byte, 16 levels", one, Answer::Edits(12 + (1 << 16))));
    let filled = job(&rules(RULES, PLAIN), &code, product(0..LINE, RULES));
    all.push(limit("1,024 levels: the buffer is full", filled.clone(), Answer::Refused(30)));
    let small = Job { buffer: 100, ..filled };
    all.push(limit("the same with a small buffer", small, Answer::Refused(30)));
    let left = node(PLAIN, [a(), mark("-"), a(), mark("-"), a()]);
    let thrice = job(&vec![pair(&a(), &left); RULES], &empties, product(0..LINE, 1));
    all.push(limit("thrice over 64 empty nodes", thrice, Answer::Refused(30)));
    all
}

/// Lists that fill the used part of a buffer.
fn full() -> Vec<JobLimit> {
    let mut children = vec![a(); 16];
    children.push(token(NUMBER, "1234"));
    let rule = pair(&a(), &node(PLAIN, children));
    let code = node(SOURCE_FILE, [token(STRING, vec![b'x'; 65_535])]);
    let whole = job(&[rule], &code, vec![0, 0]);
    let filled = |buffer, answer| {
        let name = format!("a list of 1,048,576 bytes in a buffer of {buffer}");
        limit(&name, Job { buffer, ..whole.clone() }, answer)
    };
    vec![
        filled(ROOM, Answer::Edits(ROOM)),
        filled(2 * ROOM, Answer::Edits(ROOM)),
        filled(ROOM - 1, Answer::Refused(30)),
        filled(0, Answer::Refused(30)),
    ]
}

/// Matches beside each other.
fn unrelated() -> Vec<JobLimit> {
    let ones = node(SOURCE_FILE, vec![number(1); CANDIDATES]);
    let candidates = with_rule((0..CANDIDATES).map(|i| 1 + 2 * i), 0);
    let plain = pair(&number(1), &node(PLAIN, [token(NUMBER, "2")]));
    let edits = Answer::Edits(13 * CANDIDATES);
    let mut all = Vec::new();
    for (order, candidates) in [
        ("in order", candidates.clone()),
        ("reversed", reversed(&candidates)),
        ("shuffled", shuffled(&candidates)),
    ] {
        let name = format!("1,024 beside each other, candidates {order}");
        let job = job(std::slice::from_ref(&plain), &ones, candidates);
        all.push(limit(&name, job, edits.clone()));
    }
    let mut one = job(&[pair(&number(1), &number(2))], &ones, candidates);
    let asked = Answer::Asked { kind: LITERAL, length: 1 };
    all.push(limit("the same, parsed, no parses", one.clone(), asked));
    add_parse(&mut one.parses, LITERAL, b"2", &[(0, 1)]);
    all.push(limit("the same with the one parse", one, edits));
    all.push(all_different());
    all
}

/// `($a) ==>> <$a>` on 1,024 numbers, each with its parse.
fn all_different() -> JobLimit {
    let around = |inner| node(PAREN_EXPR, [mark("("), inner, mark(")")]);
    let code: Vec<Syntax> = (0..CANDIDATES).map(|i| around(number(10_000 + i))).collect();
    let rule = pair(&around(a()), &angles(PARSED));
    let nodes = (0..CANDIDATES).map(|i| 1 + 5 * i);
    let mut job = job(&[rule], &node(SOURCE_FILE, code), with_rule(nodes, 0));
    for i in (0..CANDIDATES).rev() {
        let text = format!("<{}>", 10_000 + i);
        add_parse(&mut job.parses, PARSED, text.as_bytes(), &[(0, 7)]);
    }
    let length = CANDIDATES * (12 + 9);
    limit("1,024 beside each other, each with its parse", job, Answer::Edits(length))
}

/// Many parses, long ones, and one with many ranges.
fn parses() -> Vec<JobLimit> {
    let ones = node(SOURCE_FILE, vec![number(1); CANDIDATES]);
    let candidates = with_rule((0..CANDIDATES).map(|i| 1 + 2 * i), 0);
    let rule = pair(&number(1), &number(2));
    let base = job(&[rule], &ones, candidates);
    let edits = Answer::Edits(13 * CANDIDATES);
    let mut many = base.clone();
    for i in 0..4_000 {
        add_parse(&mut many.parses, LITERAL, format!("{i:08}").as_bytes(), &[]);
    }
    add_parse(&mut many.parses, LITERAL, b"2", &[(0, 1)]);
    let mut short = base.clone();
    for i in (0..2_000).filter(|kind| kind + 64 != LITERAL) {
        add_parse(&mut short.parses, 64 + i, b"2", &[]);
    }
    add_parse(&mut short.parses, LITERAL, b"2", &[(0, 1)]);
    let mut long = base.clone();
    for i in 0..200 {
        let text = [vec![b'x'; 4_000], format!("{i:03}").into_bytes()].concat();
        add_parse(&mut long.parses, LITERAL, &text, &[]);
    }
    add_parse(&mut long.parses, LITERAL, b"2", &[(0, 1)]);
    let mut wide = base;
    add_parse(&mut wide.parses, LITERAL, b"2", &vec![(1, 1); 65_535]);
    vec![
        limit("1,024 matches, 4,001 parses", many, edits.clone()),
        limit("1,024 matches, one text of 2,000 kinds", short, edits.clone()),
        limit("1,024 matches, 200 parses that differ at their ends", long, edits.clone()),
        limit("1,024 matches, one parse of 65,535 ranges", wide, edits),
    ]
}

/// A template that has a capture as often as its code has room for: every use has a range of its own, or
/// all of them have one.
fn many_uses() -> Vec<JobLimit> {
    let count = 65_534 / (STAND_IN.len() + 1);
    let template = node(PARSED, [vec![mark("-")], vec![a(); count]].concat());
    let template = match_limits::side(&template);
    let rule = Pair { pattern: side(&a()), has_template: true, template };
    let on = |code| job(std::slice::from_ref(&rule), &node(SOURCE_FILE, [code]), vec![1, 0]);
    let (byte, empty) = (on(node(LITERAL, [ident("x")])), on(node(LITERAL, [])));
    let text = [b"-", &vec![b'x'; count][..]].concat();
    let end = text.len() as u32;
    let asked = Answer::Asked { kind: PARSED, length: text.len() };
    let mut all =
        vec![limit("a capture 4,368 times in a template, no parses", byte.clone(), asked)];
    let mut parsed = |name: &str, job: &Job, text: &[u8], ranges: &[(u32, u32)], length| {
        let mut job = job.clone();
        add_parse(&mut job.parses, PARSED, text, ranges);
        all.push(large(name, job, Answer::Edits(length)));
    };
    let whole = 12 + text.len();
    parsed("the same with a text that does not parse", &byte, &text, &[], whole);
    parsed("all in parentheses", &byte, &text, &[(0, end)], whole + 2 * count);
    let nodes: Vec<(u32, u32)> = (1..end).map(|at| (at, at + 1)).collect();
    parsed("none in parentheses", &byte, &text, &nodes, whole);
    let odd: Vec<(u32, u32)> = nodes.iter().step_by(2).copied().collect();
    parsed("every second in parentheses", &byte, &text, &odd, whole + count);
    let many = [vec![(0, 0); 65_535 - nodes.len()], nodes].concat();
    parsed("none, a parse of 65,535 ranges", &byte, &text, &many, whole);
    parsed("all without bytes, the last in parentheses", &empty, b"-", &[(0, 1)], 15);
    parsed("all without bytes, none in parentheses", &empty, b"-", &[(0, 1), (1, 1)], 13);
    all
}

/// Patterns and templates as large as they may be, with as many matches as there may be.
fn large_rules() -> Vec<JobLimit> {
    let empty = vec![node(EXPR_STMT, []); 16_000];
    let template = node(PLAIN, [vec![mark("<"), a(), mark(">")], empty].concat());
    let rules = vec![pair(&a(), &template); RULES];
    let nested = job(&rules, &line(LINE, ident("x")), product(0..LINE, RULES));
    let edits = Answer::Edits(12 + 2 * CANDIDATES + 1);
    vec![
        skipped_fields("a pattern of 16,005 elements", 8_000, &[]),
        skipped_fields("a pattern of 10,000 facts", 5_000, &[node(PATH, [])]),
        large("1,024 in each other, templates of 16,005 elements", nested, edits),
    ]
}

/// 1,024 record lists without a field match a pattern whose fields are skipped, since they have no name, and
/// each match notes a comment. Of each path there are two facts.
fn skipped_fields(name: &str, count: usize, more: &[Syntax]) -> JobLimit {
    let field = node(RECORD_FIELD, [&[token(NUMBER, "0")], more].concat());
    let fields = node(RECORD_LIST, [vec![mark("{")], vec![field; count], vec![mark("}")]].concat());
    let empty = || node(EXPR_STMT, []);
    let pattern = node(BIN_EXPR, [fields, empty()]);
    let mut rule = pair(&a(), &node(PLAIN, [mark("+")]));
    rule.pattern = match_limits::side(&pattern);
    rule.pattern.trees[0].facts = paths(&pattern)
        .into_iter()
        .rev()
        .flat_map(|(i, _)| [fact(1, i, [1, 0, 0]), fact(4, i, [1, 0, 0])].concat())
        .collect();
    let list = node(RECORD_LIST, [mark("{"), mark("}")]);
    let code = node(BIN_EXPR, [list, token(COMMENT, "/*c*/"), empty()]);
    let nodes = (0..CANDIDATES).map(|i| 1 + 6 * i);
    let job = job(&[rule], &node(SOURCE_FILE, vec![code; CANDIDATES]), with_rule(nodes, 0));
    large(&format!("1,024 matches of {name}"), job, Answer::Edits(18 * CANDIDATES))
}

/// The deepest matches and the record lists in each other that start over, as `match_limits` has them,
/// each with a template.
fn matched() -> Vec<JobLimit> {
    let lists = match_limits::all().into_iter().filter(|limit| limit.noted.is_some());
    let mut all = Vec::new();
    for found in match_limits::deep().into_iter().chain(lists) {
        let Some(mut pairs) = decode(&found.rules) else { continue };
        pairs[0].has_template = true;
        pairs[0].template = side(&node(PLAIN, [mark("-")]));
        let mut file = found.file;
        file.facts.extend(fact(6, 0, [1, 0, 0]));
        let rules = encode(&pairs, &found.rules.fact_text);
        for buffer in found.buffers {
            let (rules, file) = (rules.clone(), file.clone());
            let job = Job { rules, file, candidates: vec![0, 0], buffer, ..Job::default() };
            let name = format!("{}, a buffer of {buffer}", found.name);
            all.push(JobLimit { name, job, within: WITHIN, answer: None });
        }
    }
    all
}

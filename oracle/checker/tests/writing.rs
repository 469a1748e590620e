//! Writing the edit list: document 01's examples I, K, L, M and what ends the writing.

mod common;

use common::*;
use input::build::{Syntax, add_parse, fact, node, token};
use input::words::word;
use input::{Answer, Binding, Job, Kept, Matched, Outcome, Pair};

fn bound(start: u32, end: u32, stars: u32, self_kind: u32) -> Option<Binding> {
    Some(Binding { start, end, stars, self_kind })
}

/// A match of rule 0 without nested ones.
fn kept(node: u32, bindings: &[Option<Binding>], paths: &[(u32, u32, u32)]) -> Kept {
    let mut slots = [None; 8];
    slots[..bindings.len()].copy_from_slice(bindings);
    let matched =
        Matched { node, rule: 0, bindings: slots, comments: vec![], paths: paths.to_vec() };
    Kept { matched, inner: Default::default() }
}

fn hex(bytes: &[u8]) -> String {
    bytes.iter().map(|byte| format!("{byte:02x}")).collect()
}

fn write(job: &Job, buffer: usize, outer: &[Kept]) -> Outcome {
    checker::write(&Job { buffer, ..job.clone() }, outer)
}

fn refused(number: u32, buffer: usize) -> Outcome {
    Outcome { answer: Answer::Refused(number), buffer: vec![0; buffer] }
}

/// A text followed by zeros.
fn text(text: &[u8], buffer: usize) -> Vec<u8> {
    let mut bytes = text.to_vec();
    bytes.resize(buffer, 0);
    bytes
}

/// The replacement of a list of one edit.
fn replacement(outcome: &Outcome) -> String {
    let Answer::Edits(length) = outcome.answer else { panic!("{outcome:?}") };
    String::from_utf8(outcome.buffer[12..length].to_vec()).expect("UTF-8")
}

/// A template side whose path `name` is a definition with its text in module 1.
fn template(list: &str, tree: &Syntax, name: &str, start: u32) -> input::Side {
    let at = find(tree, &path(&[name]))[0];
    let facts = [fact(1, at, [2, 3, 0]), fact(7, at, [1, start, name.len() as u32])];
    side(list, 0, tree, &facts)
}

/// `f($p, $q) ==>> g($q, $p)` on `f(a, b)`.
fn example_i() -> (Job, Kept) {
    let pattern = call(&["f"], &[stand_in("p"), stand_in("q")]);
    let other = call(&["g"], &[stand_in("q"), stand_in("p")]);
    let swap = pair(
        side("f($p, $q)", 0, &pattern, &[resolved(&pattern, &["f"], 1, 3)]),
        Some(template("g($q, $p)", &other, "g", 0)),
    );
    let root = node(2048, [call(&["f"], &[path_expr(&["a"]), path_expr(&["b"])])]);
    let job = Job { rules: rules(&[swap], "g"), ..job_on(file(&root, &[])) };
    let found = kept(1, &[bound(2, 3, 0, 0), bound(5, 6, 0, 0)], &[(2, 0, 1)]);
    (job, found)
}

#[test]
fn example_i_and_its_room() {
    let (mut job, found) = example_i();
    let outer = [found];
    let asked =
        Outcome { answer: Answer::Asked { kind: 64, length: 7 }, buffer: text(b"g(b, a)", 19) };
    assert_eq!(write(&job, 19, &outer), asked);
    assert_eq!(write(&job, 18, &outer), refused(30, 18));
    add_parse(&mut job.parses, 64, b"g(b, a)", &[(0, 7), (2, 3), (5, 6)]);
    let list = write(&job, 19, &outer);
    assert_eq!(list.answer, Answer::Edits(19));
    assert_eq!(hex(&list.buffer), "0000005007000060070000706728622c206129");
    assert_eq!(write(&job, 24, &outer).buffer, text(&list.buffer, 24));
    assert_eq!(write(&job, 18, &outer), refused(30, 18));
    assert_eq!(write(&job, 0, &outer), refused(30, 0));
    assert_eq!(write(&job, 2_000_000, &outer).buffer.len(), 1_048_576);
    assert_eq!(write(&job, 3, &[]), Outcome { answer: Answer::Edits(0), buffer: vec![0; 3] });
}

/// `foo($a) ==>> $a.bar()` on `foo(x + y)`.
fn example_k() -> (Job, Kept) {
    let pattern = call(&["foo"], &[stand_in("a")]);
    let other = method_call(stand_in("a"), "bar", &[]);
    let both = pair(
        side("foo($a)", 0, &pattern, &[resolved(&pattern, &["foo"], 1, 3)]),
        Some(side("$a.bar()", 0, &other, &[])),
    );
    let space = || token(2, " ");
    let sum = node(68, [path_expr(&["x"]), space(), mark("+"), space(), path_expr(&["y"])]);
    let root = node(2048, [call(&["foo"], &[sum])]);
    let job = Job { rules: rules(&[both], ""), ..job_on(file(&root, &[])) };
    (job, kept(1, &[bound(4, 9, 0, 0)], &[]))
}

#[test]
fn example_k_at_every_room() {
    let (job, found) = example_k();
    let outer = [found];
    let mut parsed = job.clone();
    add_parse(&mut parsed.parses, 65, b"x + y.bar()", &[(0, 11), (0, 1), (4, 11), (4, 5)]);
    let mut not_parsed = job.clone();
    add_parse(&mut not_parsed.parses, 65, b"x + y.bar()", &[]);
    let asked = |room| Outcome {
        answer: Answer::Asked { kind: 65, length: 11 },
        buffer: text(b"x + y.bar()", room),
    };
    for jobs in [&job, &parsed, &not_parsed] {
        assert_eq!(write(jobs, 22, &outer), refused(30, 22));
    }
    for room in [23, 24] {
        assert_eq!(write(&job, room, &outer), asked(room));
        assert_eq!(write(&parsed, room, &outer), refused(30, room));
        assert_eq!(replacement(&write(&not_parsed, room, &outer)), "x + y.bar()");
    }
    assert_eq!(write(&job, 25, &outer), asked(25));
    let list = write(&parsed, 25, &outer);
    assert_eq!(hex(&list.buffer), "000000500a0000600d0000702878202b2079292e6261722829");
}

#[test]
fn example_l_comments_come_last() {
    let pattern = call(&["f"], &[stand_in("a")]);
    let other = call(&["g"], &[stand_in("a")]);
    let both = pair(
        side("f($a)", 0, &pattern, &[resolved(&pattern, &["f"], 1, 3)]),
        Some(template("g($a)", &other, "g", 0)),
    );
    let list = [mark("("), number("1"), token(2, " "), token(3, "/*c*/"), mark(")")];
    let root = node(2048, [node(64, [path_expr(&["f"]), node(7, list)])]);
    let mut job = Job { rules: rules(&[both], "g"), ..job_on(file(&root, &[])) };
    add_parse(&mut job.parses, 64, b"g(1)", &[(0, 4), (2, 3)]);
    let mut found = kept(1, &[bound(2, 3, 0, 0)], &[(2, 0, 1)]);
    found.matched.comments = vec![12];
    let outer = [found];
    let list = write(&job, 21, &outer);
    assert_eq!(hex(&list.buffer), "000000500a00006009000070672831292f2a632a2f");
    assert_eq!(write(&job, 20, &outer), refused(30, 20));
}

/// `S::f($s) ==>> h($s)` and `old() ==>> new2()` on `old().f()`, self by `&`.
fn example_m() -> (Job, Kept) {
    let pattern = call(&["S", "f"], &[stand_in("s")]);
    let other = call(&["h"], &[stand_in("s")]);
    let first = pair(
        side("S::f($s)", 0, &pattern, &[resolved(&pattern, &["S", "f"], 1, 7)]),
        Some(template("h($s)", &other, "h", 0)),
    );
    let (old, new) = (call(&["old"], &[]), call(&["new2"], &[]));
    let second = pair(
        side("old()", 0, &old, &[resolved(&old, &["old"], 3, 3)]),
        Some(template("new2()", &new, "new2", 1)),
    );
    let root = node(2048, [method_call(call(&["old"], &[]), "f", &[])]);
    let job = Job { rules: rules(&[first, second], "hnew2"), ..job_on(file(&root, &[])) };
    let mut nested = kept(2, &[], &[(2, 1, 4)]);
    nested.matched.rule = 1;
    let mut found = kept(1, &[bound(0, 5, 0, 1)], &[(2, 0, 1)]);
    found.inner[0] = vec![nested];
    (job, found)
}

#[test]
fn example_m_nested_text_before_what_holds_it() {
    let (mut job, found) = example_m();
    let outer = [found];
    assert_eq!(write(&job, 20, &outer), refused(30, 20));
    let asked = |length, words: &[u8], room| Outcome {
        answer: Answer::Asked { kind: 64, length },
        buffer: text(words, room),
    };
    assert_eq!(write(&job, 21, &outer), asked(6, b"new2()", 21));
    add_parse(&mut job.parses, 64, b"new2()", &[(0, 6)]);
    assert_eq!(write(&job, 22, &outer), asked(10, b"h(&new2())", 22));
    add_parse(&mut job.parses, 64, b"h(&new2())", &[(0, 10), (2, 9)]);
    let list = write(&job, 22, &outer);
    assert_eq!(hex(&list.buffer), "00000050090000600a0000706828266e657732282929");
    assert_eq!(write(&job, 21, &outer), refused(30, 21));
}

/// A rule of pattern `$a$b` over two nodes and any template, on a file of two tokens `xy`.
fn two_captures(template: &Syntax, list: &str) -> Job {
    let one = |name: &str| node(2049, [ident(&format!("__placeholder_{name}"))]);
    let pattern = node(68, [one("a"), one("b")]);
    let both = pair(side("$a$b", 0, &pattern, &[]), Some(side(list, 0, template, &[])));
    let root = node(2048, [node(68, [node(66, [ident("x")]), node(66, [ident("y")])])]);
    Job { rules: rules(&[both], ""), ..job_on(file(&root, &[])) }
}

fn plain_stand_in(name: &str) -> Syntax {
    node(67, [ident(&format!("__placeholder_{name}"))])
}

#[test]
fn unbound_and_room() {
    let alone = two_captures(&node(2050, [plain_stand_in("a")]), "$a");
    let behind = two_captures(&node(2050, [ident("k"), plain_stand_in("a")]), "k$a");
    let outer = [kept(1, &[], &[])];
    assert_eq!(write(&alone, 11, &outer), refused(30, 11));
    assert_eq!(write(&alone, 12, &outer), refused(29, 12));
    assert_eq!(write(&behind, 12, &outer), refused(30, 12));
    assert_eq!(write(&behind, 13, &outer), refused(29, 13));
    // A stand-in of a name that the pattern lacks is plain text.
    let unknown = two_captures(&node(2050, [plain_stand_in("z")]), "__placeholder_z");
    assert_eq!(replacement(&write(&unknown, 64, &outer)), "__placeholder_z");
}

#[test]
fn equal_empty_ranges_share_a_place() {
    let tree = node(68, [plain_stand_in("a"), plain_stand_in("b"), ident("k")]);
    let mut job = two_captures(&tree, "$a$b k");
    // The list has white space that the tree lacks: give the tree the list's text.
    let spaced = node(68, [plain_stand_in("a"), plain_stand_in("b"), token(2, " "), ident("k")]);
    let outer = [kept(1, &[bound(1, 1, 0, 0), bound(1, 1, 0, 0)], &[])];
    assert_eq!(write(&job, 64, &outer), refused(19, 64));
    job = two_captures(&spaced, "$a$b k");
    let mut other = job.clone();
    add_parse(&mut job.parses, 68, b" k", &[(0, 2)]);
    assert_eq!(replacement(&write(&job, 64, &outer)), "() k");
    add_parse(&mut other.parses, 68, b" k", &[(0, 0)]);
    assert_eq!(replacement(&write(&other, 64, &outer)), " k");
}

#[test]
fn prefixes_and_the_receiver() {
    let by_kind = |template: &Syntax, list: &str, binding| {
        let mut job = two_captures(template, list);
        let outer = [kept(1, &[binding], &[])];
        if let Answer::Asked { kind, length } = write(&job, 64, &outer).answer {
            let asked = write(&job, 64, &outer).buffer[..length].to_vec();
            add_parse(&mut job.parses, kind, &asked, &[]);
        }
        replacement(&write(&job, 64, &outer))
    };
    let starred = bound(0, 1, 1, 2);
    let receiver = method_call(stand_in("a"), "g", &[]);
    assert_eq!(by_kind(&receiver, "$a.g()", starred), "x.g()");
    let wrapped = node(72, [mark("("), stand_in("a"), mark(")")]);
    let wrapped = method_call(wrapped, "g", &[]);
    assert_eq!(by_kind(&wrapped, "($a).g()", starred), "(&mut *x).g()");
    let argument = method_call(number("1"), "g", &[stand_in("a")]);
    assert_eq!(by_kind(&argument, "1.g($a)", starred), "1.g(&mut *x)");
    let plain = node(2050, [plain_stand_in("a")]);
    assert_eq!(by_kind(&plain, "$a", bound(0, 1, 0, 1)), "&x");
    assert_eq!(by_kind(&plain, "$a", bound(0, 1, 3, 0)), "***x");
}

#[test]
fn a_rendered_path_keeps_what_stands_beside_its_name() {
    let comma = token(4, ",");
    let tree = node(
        67,
        [node(
            2,
            [
                node(2, [segment("m")]),
                token(14, "::"),
                node(
                    3,
                    [comma, name_ref("g"), node(5, [mark("<"), plain_stand_in("a"), mark(">")])],
                ),
            ],
        )],
    );
    let mut one = two_captures(&tree, "m::,g<$a>");
    let mut pairs = input::pairs::decode(&one.rules).expect("well-formed");
    pairs[0].template.trees[0].facts = fact(1, 1, [1, 3, 0]).to_vec();
    one.rules = rules(&pairs, "crate::n");
    add_parse(&mut one.parses, 67, b"crate::n,<x>", &[]);
    let outer = [kept(1, &[bound(0, 1, 0, 0)], &[(1, 0, 8)])];
    assert_eq!(replacement(&write(&one, 64, &outer)), "crate::n,<x>");
}

#[test]
fn two_edits_in_order() {
    let both: Pair = pair(
        side("1", 0, &number("1"), &[]),
        Some(side("22", 0, &node(2049, [token(12, "22")]), &[])),
    );
    let root = node(2048, [number("1"), token(2, " "), number("1")]);
    let job = Job { rules: rules(&[both], ""), ..job_on(file(&root, &[])) };
    let outer = [kept(1, &[], &[]), kept(4, &[], &[])];
    let list = write(&job, 28, &outer);
    let edit = |start, end| {
        let words = [word(5, start), word(6, end), word(7, 2)];
        [&words.map(u32::to_le_bytes).concat()[..], b"22"].concat()
    };
    assert_eq!(list.buffer, [edit(0, 1), edit(2, 3)].concat());
    assert_eq!(write(&job, 27, &outer), refused(30, 27));
}

/// `$a ==>> -$a` nested so deep, each rendering parsed and split: rendering each nested text
/// twice would double the work at each level.
fn nested_to(depth: usize) {
    let other = node(68, [mark("-"), plain_stand_in("a")]);
    let pattern = side("$a", 0, &plain_stand_in("a"), &[]);
    let both = pair(pattern, Some(side("-$a", 0, &other, &[])));
    let root = node(2048, [number("1")]);
    let mut job = Job { rules: rules(&[both], ""), ..job_on(file(&root, &[])) };
    let mut collection = vec![];
    let mut inner = "1".to_string();
    for _ in 0..depth {
        add_parse(&mut job.parses, 68, format!("-{inner}").as_bytes(), &[(0, 1)]);
        inner = format!("-({inner})");
        let mut holder = kept(1, &[bound(0, 1, 0, 0)], &[]);
        holder.inner[0] = collection;
        collection = vec![holder];
    }
    assert_eq!(replacement(&write(&job, 4000, &collection)), inner);
}

#[test]
fn nested_matches_cost_no_more_than_they_write() {
    let deep = std::thread::Builder::new().stack_size(16 << 20).spawn(|| nested_to(1024));
    deep.expect("a thread").join().expect("written");
}

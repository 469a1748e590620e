//! Matching that takes long if it is done badly: trees as wide and as deep as they may be, runs that do
//! not end, record lists of many fields, lists that start over inside each other.

mod nests;

use crate::facts::paths;
use crate::kinds::*;
use crate::limits::plain_file;
use crate::parts::*;
use crate::tree_limits::chains;
use input::build::{Syntax, fact, node, token, token_list};
use input::pairs::encode;
use input::{File, Pair, RuleTree, Rules, Side};
use std::time::Duration;

pub use nests::Noted;

/// The most elements of a tree, and the most facts.
const MOST: usize = 16_383;
/// More than the used part of a buffer.
const BUFFER: usize = 1_048_583;
/// Levels that fit the depth of 128 where each takes two.
const LEVELS: usize = 60;
/// What a call may take.
const WITHIN: Duration = Duration::from_secs(1);
/// The type of every receiver, and the function of every method call.
const TYPE: u32 = 9;
const FUNCTION: u32 = 30;

/// Rules with one rule, and a file, to match the file's root with it.
pub struct MatchLimit {
    pub name: String,
    pub rules: Rules,
    pub file: File,
    /// The lengths of the buffers to ask with.
    pub buffers: Vec<usize>,
    /// What a call may take.
    pub within: Duration,
    /// The answer has to be the crate's too.
    pub by_crate: bool,
    /// What the match notes, if there has to be one.
    pub noted: Option<Noted>,
}

pub fn all() -> Vec<MatchLimit> {
    let mut all = wide();
    all.extend(deep());
    all.extend(token_trees());
    all.extend(record_lists());
    all.extend(facts());
    all.extend(nests::all());
    all
}

fn limit(name: &str, pattern: Side, file: File) -> MatchLimit {
    of_pair(name, Pair { pattern, ..Pair::default() }, file, BUFFER)
}

fn of_pair(name: &str, pair: Pair, file: File, buffer: usize) -> MatchLimit {
    MatchLimit {
        name: name.to_owned(),
        rules: encode(&[pair], b""),
        file,
        buffers: vec![buffer],
        within: WITHIN,
        by_crate: false,
        noted: None,
    }
}

/// A pattern and a code without facts.
fn plain(name: &str, pattern: &Syntax, code: &Syntax) -> MatchLimit {
    limit(name, side(pattern), plain_file(code))
}

/// A side of the expression form: each placeholder is declared where it first stands, all else is
/// tokens as long as they may be.
pub(crate) fn side(tree: &Syntax) -> Side {
    let code = tree.text();
    let mut list: Vec<(u32, Vec<u8>)> = Vec::new();
    let mut declared: Vec<&[u8]> = Vec::new();
    let mut text: Vec<u8> = Vec::new();
    for (kind, token) in tree.tokens() {
        match token.strip_prefix(STAND_IN) {
            Some(name) if kind == IDENT && !declared.contains(&name) => {
                flush(&mut text, &mut list);
                list.extend([(DOLLAR, b"$".to_vec()), (IDENT, name.to_vec())]);
                declared.push(name);
            }
            _ => text.extend(token),
        }
    }
    flush(&mut text, &mut list);
    let mut side = Side { list: token_list(&list), code, ..Side::default() };
    side.trees[0].words = tree.words();
    side
}

fn flush(text: &mut Vec<u8>, list: &mut Vec<(u32, Vec<u8>)>) {
    list.extend(text.chunks(65_535).map(|part| (STRING, part.to_vec())));
    text.clear();
}

/// Some of one element, and more behind them.
fn many(element: Syntax, count: usize, behind: &[Syntax]) -> Vec<Syntax> {
    [vec![element; count], behind.to_vec()].concat()
}

fn wide() -> Vec<MatchLimit> {
    let tokens = |last| node(EXPR_STMT, many(ident("x"), MOST - 2, &[ident(last)]));
    let nodes = node(EXPR_STMT, vec![node(LITERAL, []); MOST - 1]);
    let noted = vec![vec![ident("x"), token(COMMENT, "/**/")]; MOST / 2].concat();
    let noted = node(EXPR_STMT, noted);
    let bare = node(EXPR_STMT, vec![ident("x"); MOST / 2]);
    let commas = node(EXPR_STMT, many(mark(","), MOST - 2, &[mark(")")]));
    let text = |last: u8| node(EXPR_STMT, [token(STRING, [&[b'x'; 65_534][..], &[last]].concat())]);
    vec![
        plain("16,382 tokens", &tokens("x"), &tokens("x")),
        plain("16,382 tokens, the last another", &tokens("x"), &tokens("y")),
        plain("16,382 empty nodes", &nodes, &nodes),
        plain("8,191 comments", &bare, &noted),
        plain("16,381 commas more", &node(EXPR_STMT, [mark(")")]), &commas),
        plain("65,535 bytes, the last another", &text(b'x'), &text(b'y')),
    ]
}

/// So many nodes of one kind around an element.
fn around(kind: u32, levels: usize, inner: Syntax) -> Syntax {
    (0..levels).fold(inner, |inner, _| node(kind, [inner]))
}

/// As deep as trees may be.
pub fn deep() -> Vec<MatchLimit> {
    let mut all = Vec::new();
    for (name, kind) in [
        ("depth 128", EXPR_STMT),
        ("depth 128, paths", PATH),
        ("depth 128, calls", CALL_EXPR),
        ("depth 128, token trees", TOKEN_TREE),
    ] {
        // A path that is not usable is matched by its children.
        let tree = around(kind, 127, token(NUMBER, "1"));
        let mut pattern = side(&tree);
        pattern.trees[0].facts =
            paths(&tree).into_iter().flat_map(|(i, _)| fact(1, i, [1, 0, 0])).collect();
        all.push(limit(name, pattern, plain_file(&tree)));
    }
    let file = chains(MOST, 128);
    let mut pattern = Side::default();
    pattern.trees[0] = RuleTree { words: file.tree.clone(), facts: Vec::new() };
    all.push(limit("16,383 elements, chains of depth 128", pattern, file));
    all.push(method_calls());
    all
}

/// `S::r(S::r($s))`, so deep, each call claimed.
fn calls(levels: usize) -> Side {
    let path = node(PATH, [path_of(ident("S")), mark("::"), segment_of(ident("r"))]);
    let call = |inner| {
        let arguments = node(ARG_LIST, [mark("("), inner, mark(")")]);
        node(CALL_EXPR, [path_expr(path.clone()), arguments])
    };
    let tree = (0..levels).fold(node(PATH_EXPR, [stand_in("s")]), |inner, _| call(inner));
    let mut pattern = side(&tree);
    for (i, _) in paths(&tree).into_iter().filter(|(_, found)| **found == path) {
        pattern.trees[0].facts.extend(fact(1, i, [FUNCTION, 7, 0]));
        pattern.trees[0].facts.extend(fact(4, i, [TYPE, 0, 0]));
    }
    pattern
}

/// `x.r().r()`, so deep.
fn methods(levels: usize) -> Syntax {
    let method = |receiver| {
        let arguments = node(ARG_LIST, [mark("("), mark(")")]);
        node(METHOD_CALL_EXPR, [receiver, node(NAME_REF, [ident("r")]), arguments])
    };
    (0..levels).fold(node(LITERAL, [ident("x")]), |inner, _| method(inner))
}

fn method_calls() -> MatchLimit {
    let mut file = plain_file(&methods(LEVELS));
    for i in 0..LEVELS {
        file.facts.extend(fact(2, i, [FUNCTION, 1, 1]));
    }
    for i in 0..=LEVELS {
        file.facts.extend(fact(3, i, [0, TYPE, 0]));
    }
    limit("60 method calls", calls(LEVELS), file)
}

fn token_trees() -> Vec<MatchLimit> {
    let placeholders = ["a", "b", "c", "d", "e", "f", "g", "h"];
    let stop = || token(IDENT, "stop");
    let one = node(TOKEN_TREE, [stand_in("a"), stop()]);
    let eight = placeholders.map(|name| vec![stand_in(name), stop()]).concat();
    let eight = node(TOKEN_TREE, eight);
    let tokens = node(TOKEN_TREE, vec![token(IDENT, "stoq"); 16_300]);
    let subtree = |text| node(TOKEN_TREE, [node(LITERAL, [token(IDENT, text)])]);
    let trees = node(TOKEN_TREE, vec![subtree("stoq"); 5_400]);
    let deep = around(LITERAL, 120, token(IDENT, "stoq"));
    let chains = node(TOKEN_TREE, vec![deep; 130]);
    let ending = vec![many(token(IDENT, "stoq"), 2_000, &[stop()]); 8].concat();
    let used_up = [vec![stand_in("a")], vec![stop(); 5_400]].concat();
    let using = [vec![ident("x")], vec![subtree("stop"); 5_400]].concat();
    vec![
        plain("a run of 16,300 tokens, no stop", &one, &tokens),
        plain("eight runs, no stop in 16,300 tokens", &eight, &tokens),
        plain("a run of 5,400 subtrees, no stop", &one, &trees),
        plain("a run of 130 chains of nodes, no stop", &one, &chains),
        plain("eight runs, eight stops in 16,008 tokens", &eight, &node(TOKEN_TREE, ending)),
        plain("5,400 stops used up", &node(TOKEN_TREE, used_up), &node(TOKEN_TREE, using)),
    ]
}

/// A field of two elements, whose name has a number.
fn field(number: usize) -> Syntax {
    node(RECORD_FIELD, [ident(&format!("f{number:04}"))])
}

/// A code whose fields have their first tokens for names.
fn named(code: &Syntax) -> File {
    let elements = code.elements();
    let fields = (0..elements.len()).filter(|&i| is_kind(elements[i], RECORD_FIELD));
    let name = |i: usize| (i..).find(|&e| !elements[e].is_node()).unwrap_or(i) as u32;
    let facts = fields.flat_map(|i| fact(5, i, [name(i), 0, 0])).collect();
    File { facts, ..plain_file(code) }
}

fn record_lists() -> Vec<MatchLimit> {
    let list = |fields: Vec<Syntax>| node(RECORD_LIST, fields);
    let rising = |count: usize| list((0..count).map(field).collect());
    let falling = |count: usize| named(&list((0..count).rev().map(field).collect()));
    let same = named(&list(vec![field(0); 8_000]));
    let nested = |inner| node(RECORD_LIST, [node(RECORD_FIELD, [ident("x"), inner])]);
    let deep = (0..LEVELS).fold(node(LITERAL, []), |inner, _| nested(inner));
    vec![
        limit("4,000 fields in reverse order", side(&rising(4_000)), falling(4_000)),
        limit("8,000 fields in reverse order", side(&rising(8_000)), falling(8_000)),
        limit("8,000 fields, one more in the pattern", side(&rising(8_001)), falling(8_000)),
        limit("8,000 fields, one more in the code", side(&rising(8_000)), falling(8_001)),
        limit("8,000 fields of one name", side(&rising(1)), same),
        limit("60 record lists by name", side(&deep), named(&deep)),
    ]
}

fn facts() -> Vec<MatchLimit> {
    vec![steps(), template_paths()]
}

/// A method call whose receiver has many types, of which the last is the wanted one.
fn steps() -> MatchLimit {
    let mut file = plain_file(&methods(1));
    file.facts.extend(fact(2, 0, [FUNCTION, 1, 2]));
    let last = MOST as u32 - 2;
    let kind = |step| if step == last { TYPE } else { TYPE + 1 };
    file.facts.extend((0..=last).flat_map(|step| fact(3, 1, [step, kind(step), 0])));
    limit("16,382 steps", calls(1), file)
}

/// `1`, with a template of paths that all have a text.
fn template_paths() -> MatchLimit {
    let literal = node(LITERAL, [token(NUMBER, "1")]);
    let template = node(EXPR_STMT, vec![node(PATH, []); MOST / 2]);
    let mut template_side = side(&template);
    let both = |i| [fact(1, i, [1, 3, 0]), fact(7, i, [1, 0, 0])].concat();
    template_side.trees[0].facts = (1..=MOST / 2).flat_map(both).collect();
    let pair = Pair { pattern: side(&literal), has_template: true, template: template_side };
    let file = File { facts: fact(6, 0, [1, 0, 0]).to_vec(), ..plain_file(&literal) };
    of_pair("8,191 paths of a template", pair, file, 0)
}

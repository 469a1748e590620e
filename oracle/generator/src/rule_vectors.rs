//! Small rules, each with the numbers that building and resolving have to give it: the order of the
//! stages, forms and templates, texts, and every fault of a directory.

use crate::facts::paths;
use crate::kinds::*;
use crate::limits::{deep_tree, number_side, one_to_two, side};
use crate::parts::*;
use crate::tree_limits;
use input::build::{Syntax, fact, node, token, token_list};
use input::pairs::{ROW, encode};
use input::words::{END, START, word};
use input::{Pair, Rules, Side, TokenList};

/// What it is, what is handed in, and the numbers of building and resolving.
pub type Vector = (&'static str, Rules, [u32; 2]);

pub fn all() -> Vec<Vector> {
    let pairs = [stages(), refused_lists(), forms(), texts()].concat();
    let encoded = |(name, pairs, numbers): (_, Vec<Pair>, _)| (name, encode(&pairs, b""), numbers);
    let mut all: Vec<Vector> = pairs.into_iter().map(encoded).collect();
    let faults = directories().into_iter();
    all.extend(faults.map(|(name, rules)| (name, rules, [1, 1])));
    all
}

type Token = (u32, &'static str);
type OfPairs = (&'static str, Vec<Pair>, [u32; 2]);

const OPEN: Token = (168, "(");

/// `$` and a name.
fn placeholder(name: &'static str) -> [Token; 2] {
    [(DOLLAR, "$"), (IDENT, name)]
}

/// `${a:kind(literal)}`.
const CONSTRAINED: [Token; 9] = [
    (DOLLAR, "$"),
    (L_CURLY, "{"),
    (IDENT, "a"),
    (COLON, ":"),
    (IDENT, "kind"),
    OPEN,
    (IDENT, "literal"),
    (R_PAREN, ")"),
    (R_CURLY, "}"),
];

/// A pair of lists, whose pattern has a malformed tree all the same.
fn lists(pattern: &[Token], template: Option<&[Token]>) -> Pair {
    let of = |list| Side { list: token_list(list), ..Side::default() };
    let mut pattern = of(pattern);
    pattern.trees[0].words = vec![0x1040_0001, word(START, 0), word(END, 1)];
    Pair {
        pattern,
        has_template: template.is_some(),
        template: template.map(of).unwrap_or_default(),
    }
}

/// `1 ==>> 2` without a tree.
fn no_form() -> Pair {
    let bare = |number| Side { list: number_side(number).list, ..Side::default() };
    Pair { pattern: bare("1"), has_template: true, template: bare("2") }
}

fn call(name: &str) -> Syntax {
    let arguments = node(ARG_LIST, [mark("("), mark(")")]);
    node(CALL_EXPR, [path_expr(path_of(ident(name))), arguments])
}

/// `f() ==>> g()` without facts.
fn unresolved() -> Pair {
    let of = |name| side(&call(name), &[(IDENT, name), OPEN, (R_PAREN, ")")]);
    Pair { pattern: of("f"), has_template: true, template: of("g") }
}

fn stages() -> Vec<OfPairs> {
    let mut stray = no_form();
    stray.pattern.trees[0].facts = vec![0];
    let mut no_list = lists(&[], None);
    no_list.pattern.list = TokenList { words: vec![0], text: Vec::new() };
    let (a, b) = (placeholder("a"), placeholder("b"));
    let number = [(DOLLAR, "$"), (NUMBER, "1")];
    let both = [&b[..], &CONSTRAINED].concat();
    vec![
        ("no pairs", Vec::new(), [0, 0]),
        ("no form", vec![no_form()], [17, 17]),
        ("a path without a fact", vec![unresolved()], [0, 22]),
        ("no form, a path without a fact", vec![unresolved(), no_form()], [17, 17]),
        ("no form, a stray word for facts", vec![stray], [17, 21]),
        ("lists 5 and 1", vec![lists(&number, None), no_list], [1, 1]),
        ("15, a malformed tree", vec![lists(&a, Some(&b))], [15, 15]),
        (
            "14 in one, 3 in the other",
            vec![lists(&a, Some(&CONSTRAINED)), lists(&CONSTRAINED[..3], None)],
            [3, 3],
        ),
        ("14 and 15 in one", vec![lists(&a, Some(&both))], [14, 14]),
    ]
}

/// A list with each refusal of a list but 1.
fn refused_lists() -> Vec<OfPairs> {
    let a = placeholder("a");
    let behind = |count: usize, tokens: &[Token]| [&CONSTRAINED[..count], tokens].concat();
    let nine = ["a", "b", "c", "d", "e", "f", "g", "h", "i"].map(placeholder).concat();
    let refused = [
        (2, behind(2, &[])),
        (3, behind(3, &[])),
        (4, behind(3, &[(NUMBER, "1")])),
        (5, behind(1, &[(NUMBER, "1")])),
        (6, behind(1, &[])),
        (7, behind(4, &[])),
        (8, behind(4, &[(IDENT, "foo")])),
        (9, behind(5, &[])),
        (10, behind(6, &[])),
        (11, behind(6, &[(IDENT, "foo"), (R_PAREN, ")")])),
        (12, [a, a].concat()),
        (13, nine),
    ];
    let vector = |(number, list): (u32, Vec<Token>)| {
        ("a list that is refused", vec![lists(&list, None)], [number; 2])
    };
    refused.map(vector).to_vec()
}

/// `f` as an expression.
fn f() -> Side {
    let mut side = side(&path_expr(path_of(ident("f"))), &[(IDENT, "f")]);
    side.trees[0].facts = fact(1, 1, [1, 3, 0]).to_vec();
    side
}

/// `f ==>> g`: the type has no template, the pattern no path, so neither must resolve.
fn left_out() -> Pair {
    let mut pattern = f();
    pattern.trees[1].words = node(PATH_TYPE, [path_of(ident("f"))]).words();
    pattern.trees[3].words = node(IDENT_PAT, [node(NAME, [ident("f")])]).words();
    let mut template = side(&path_expr(path_of(ident("g"))), &[(IDENT, "g")]);
    template.trees[0].facts = fact(1, 1, [2, 3, 0]).to_vec();
    template.trees[3].words = node(IDENT_PAT, [path_of(ident("g"))]).words();
    Pair { pattern, has_template: true, template }
}

/// `f ==>> g();` with a statement for the expression.
fn statement() -> Pair {
    let tree = node(EXPR_STMT, [call("g"), mark(";")]);
    let mut template = side(&tree, &[(IDENT, "g"), OPEN, (R_PAREN, ")"), (187, ";")]);
    template.trees.swap(0, 4);
    template.trees[4].facts = fact(1, 3, [2, 3, 0]).to_vec();
    Pair { pattern: f(), has_template: true, template }
}

/// A call that two paths claim, one of them with a type.
fn two_paths() -> Pair {
    let of = |name| path_expr(path_of(ident(name)));
    let tree = node(CALL_EXPR, [of("f"), of("g")]);
    let mut pattern = side(&tree, &[(IDENT, "fg")]);
    let facts = [fact(1, 7, [2, 7, 0]), fact(1, 2, [1, 7, 0]), fact(4, 2, [9, 0, 0])];
    pattern.trees[0].facts = facts.concat();
    Pair { pattern, ..Pair::default() }
}

fn forms() -> Vec<OfPairs> {
    let pattern = |pattern| Pair { pattern, ..Pair::default() };
    let mut lone_tree = pattern(number_side("1"));
    lone_tree.template.trees[0].words = node(LITERAL, []).words();
    let mut lone_facts = pattern(number_side("1"));
    lone_facts.template.trees[3].facts = fact(1, 0, [1, 0, 0]).to_vec();
    let mut empty = pattern(number_side("1"));
    empty.has_template = true;
    let deep = |depth| vec![pattern(side(&deep_tree(depth), &[]))];
    vec![
        ("forms that are left out", vec![left_out()], [0, 0]),
        ("a statement stands in", vec![statement()], [0, 0]),
        ("two paths claim a call", vec![two_paths()], [0, 0]),
        ("an empty template", vec![empty], [17, 17]),
        ("no template", vec![pattern(number_side("1"))], [0, 0]),
        ("no template, a tree for it", vec![lone_tree], [19, 19]),
        ("no template, facts for it", vec![lone_facts], [0, 21]),
        ("depth 128", deep(128), [0, 0]),
        ("depth 129", deep(129), [20, 20]),
    ]
}

/// White space around `1`, and another text.
fn texts() -> Vec<OfPairs> {
    let space = (WHITESPACE, " ");
    let around = [space, (NUMBER, "1"), space];
    let one = node(LITERAL, [token(NUMBER, "1")]);
    let wide = node(LITERAL, around.map(|(kind, text)| token(kind, text)));
    let pattern =
        |tree: &Syntax, list: &[Token]| vec![Pair { pattern: side(tree, list), ..Pair::default() }];
    vec![
        ("white space at the ends", pattern(&one, &around), [0, 0]),
        ("white space in the code", pattern(&wide, &around), [19, 19]),
        ("another code", pattern(&one, &[(NUMBER, "2")]), [19, 19]),
    ]
}

/// Rules as large as they may be, and many of them.
pub fn large() -> Vec<Vector> {
    let many = vec![one_to_two(); 200];
    let paths = vec![node(PATH, []); MOST - 2];
    let wide = node(LITERAL, [node(LITERAL, paths.clone())]);
    let call = node(CALL_EXPR, [node(PATH_EXPR, paths)]);
    let chain = (0..DEPTH).fold(node(PATH, []), |inner, _| node(PATH, [inner]));
    let chains = node(LITERAL, vec![chain; (MOST - 1) / (DEPTH + 1)]);
    let mut missing = resolved(&wide, 0);
    missing.pattern.trees[0].facts.truncate(4 * (MOST - 3));
    let vectors = [
        ("200 pairs", many, [0, 0]),
        ("paths that are not usable", vec![resolved(&wide, 0)], [0, 0]),
        ("paths that are not usable, the last without a fact", vec![missing], [0, 22]),
        ("paths that claim one call", vec![resolved(&call, 7)], [0, 0]),
        ("chains of qualifiers", vec![resolved(&chains, 0)], [0, 0]),
        ("depth 128 on both sides", vec![deep_sides()], [0, 0]),
    ];
    vectors.map(|(name, pairs, numbers)| (name, encode(&pairs, b""), numbers)).to_vec()
}

/// The largest trees of the greatest depth.
fn deep_sides() -> Pair {
    let mut side = Side::default();
    side.trees[0].words = tree_limits::chains(MOST, 128).tree;
    Pair { pattern: side.clone(), has_template: true, template: side }
}

/// The most elements of a tree, and the longest chain of paths below a root.
const MOST: usize = 16_383;
const DEPTH: usize = 126;

/// A pattern without text, all of whose paths have a fact with these flags.
fn resolved(tree: &Syntax, flags: u32) -> Pair {
    let mut pattern = side(tree, &[]);
    let facts = paths(tree).into_iter().map(|(i, _)| fact(1, i, [i as u32, flags, 0]));
    pattern.trees[0].facts = facts.collect::<Vec<_>>().concat();
    Pair { pattern, ..Pair::default() }
}

/// Faults of a directory, each 1.
fn directories() -> Vec<(&'static str, Rules)> {
    let whole = encode(&[one_to_two()], b"");
    let larger = |entry: usize| changed(&whole, |rules| rules.directory[entry] += 1);
    let entries = (0..ROW).filter(|entry| *entry != 3);
    let mut all: Vec<_> = entries.map(|entry| ("an entry too large", larger(entry))).collect();
    let changes: [(&'static str, fn(&mut Rules)); 9] = [
        ("an entry missing", |rules| shorten(&mut rules.directory)),
        ("an entry more", |rules| rules.directory.push(0)),
        ("a word missing", |rules| shorten(&mut rules.words)),
        ("a word more", |rules| rules.words.push(0)),
        ("a byte missing", |rules| shorten(&mut rules.bytes)),
        ("a byte more", |rules| rules.bytes.push(b'1')),
        ("a flag of 2", |rules| rules.directory[3] = 2),
        ("a template without its flag", |rules| rules.directory[3] = 0),
        ("right in 32 bits", |rules| [0, 7].iter().for_each(|i| rules.directory[*i] += 1 << 31)),
    ];
    all.extend(changes.map(|(name, change)| (name, changed(&whole, change))));
    all.extend(without_flag());
    all
}

/// Lengths that add up, but of a template that is not given.
fn without_flag() -> [(&'static str, Rules); 3] {
    let alone = encode(&[Pair { pattern: number_side("1"), ..Pair::default() }], b"");
    let with = |entry: usize| changed(&alone, |rules| rules.directory[entry] = 1);
    let [mut list, mut text, mut code] = [4, 5, 6].map(with);
    list.words.push(0);
    text.bytes.push(b'1');
    code.bytes.push(b'1');
    [
        ("a list without its flag", list),
        ("a text without its flag", text),
        ("a code without its flag", code),
    ]
}

fn changed(rules: &Rules, change: impl FnOnce(&mut Rules)) -> Rules {
    let mut rules = rules.clone();
    change(&mut rules);
    rules
}

fn shorten<T>(slice: &mut Vec<T>) {
    slice.truncate(slice.len() - 1);
}

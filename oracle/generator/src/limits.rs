//! Operations at the limits of document 01 and one beyond them.

use crate::kinds::*;
use crate::parts::*;
use crate::rng::Rng;
use input::build::{Syntax, fact, node, token, token_list};
use input::pairs::{decode, encode};
use input::{File, Job, Operation, Pair, Side};

/// What a limit case is made by.
type Make = fn() -> Operation;

const CASES: [Make; 40] = [
    || read(vec![(NUMBER, "1"); 255]),
    || read(vec![(NUMBER, "1"); 256]),
    || read(placeholders(8)),
    || read(placeholders(9)),
    || read(nots(82)),
    || read(nots(83)),
    || read(constraints(50)),
    || read(constraints(51)),
    || raw(1),
    || raw(0),
    || job_on(wide(16_383)),
    || job_on(wide(16_384)),
    || job_on(ragged(1)),
    || job_on(ragged(2)),
    || job_on(ragged(3)),
    || job_on(long(65_535)),
    || job_on(long(65_536)),
    || job_on(plain_file(&deep_tree(128))),
    || job_on(plain_file(&deep_tree(129))),
    || job_on(plain_file(&deep_token(128))),
    || job_on(plain_file(&deep_token(129))),
    || job_on(with_facts(16_383)),
    || job_on(with_facts(16_384)),
    || rule_tree(deep_tree(128)),
    || rule_tree(deep_tree(129)),
    || rules(16, true),
    || rules(17, true),
    || rules(16, false),
    || rules(17, false),
    || matching_with_rules(17),
    || candidates(1024),
    || candidates(1025),
    || walk_of(1024),
    || walk_of(1025),
    || nested(6, 4096),
    || nested(9, 4096),
    || nested(6, 1_048_580),
    || doubled(8),
    || restarts(6, true),
    || whole_buffer(),
];

/// Cases that a literal port cannot finish, for implementations that can.
const COSTLY: [Make; 6] = [
    || nested(24, 4096),
    || nested(60, 1_048_576),
    || doubled(16),
    || restarts(20, true),
    || restarts(60, true),
    || nested(60, 60),
];

pub fn count() -> u64 {
    CASES.len() as u64
}

pub fn case(index: u64) -> Operation {
    CASES[index as usize]()
}

pub fn costly_count() -> u64 {
    COSTLY.len() as u64
}

pub fn costly_case(index: u64) -> Operation {
    COSTLY[index as usize]()
}

fn read(tokens: Vec<(u32, &str)>) -> Operation {
    Operation::ReadTokens { list: token_list(&tokens) }
}

fn placeholders(count: usize) -> Vec<(u32, &'static str)> {
    let names = ["a", "b", "c", "d", "e", "f", "g", "h", "i"];
    names[..count].iter().flat_map(|name| [(DOLLAR, "$"), (IDENT, name)]).collect()
}

/// One placeholder with a constraint of so many `not`s.
fn nots(count: usize) -> Vec<(u32, &'static str)> {
    let mut tokens = vec![(DOLLAR, "$"), (L_CURLY, "{"), (IDENT, "a"), (COLON, ":")];
    tokens.extend([(IDENT, "not"), (168, "(")].repeat(count));
    tokens.extend([(IDENT, "kind"), (168, "("), (IDENT, "literal"), (R_PAREN, ")")]);
    tokens.extend([(R_PAREN, ")")].repeat(count));
    tokens.push((R_CURLY, "}"));
    tokens
}

/// One placeholder with so many constraints.
fn constraints(count: usize) -> Vec<(u32, &'static str)> {
    let one = [(COLON, ":"), (IDENT, "kind"), (168, "("), (IDENT, "literal"), (R_PAREN, ")")];
    let mut tokens = vec![(DOLLAR, "$"), (L_CURLY, "{"), (IDENT, "a")];
    tokens.extend(one.repeat(count));
    tokens.push((R_CURLY, "}"));
    tokens
}

/// Raw code longer than any buffer's used part, or as long as it.
fn raw(over: usize) -> Operation {
    let mut tokens = vec![(NUMBER, "1".repeat(65_536 - 16)); 16];
    tokens.push((NUMBER, "1".repeat(256 + over)));
    Operation::RawCode { list: token_list(&tokens), buffer: 2_000_000 }
}

fn job_on(file: File) -> Operation {
    Operation::Job(Job { file, ..Job::default() })
}

pub fn plain_file(root: &Syntax) -> File {
    File { tree: root.words(), text: root.text(), facts: Vec::new() }
}

pub fn wide(elements: usize) -> File {
    plain_file(&node(SOURCE_FILE, vec![node(EXPR_STMT, []); elements - 1]))
}

/// The largest tree and some stray words.
pub fn ragged(words: usize) -> File {
    let mut file = wide(16_383);
    file.tree.extend(vec![0; words]);
    file
}

pub fn long(bytes: usize) -> File {
    plain_file(&node(SOURCE_FILE, [token(STRING, vec![b'x'; bytes])]))
}

/// A line of empty nodes down to a depth.
pub fn deep_tree(depth: usize) -> Syntax {
    (1..depth).fold(node(EXPR_STMT, []), |tree, _| node(EXPR_STMT, [tree]))
}

/// A line of nodes with a token at a depth.
pub fn deep_token(depth: usize) -> Syntax {
    (2..depth).fold(node(EXPR_STMT, [ident("x")]), |tree, _| node(EXPR_STMT, [tree]))
}

pub fn with_facts(count: u32) -> File {
    let mut file = plain_file(&node(LITERAL, [token(NUMBER, "1")]));
    file.facts = (0..count).flat_map(|step| fact(3, 0, [step, 9, 0])).collect();
    file
}

fn rule_tree(tree: Syntax) -> Operation {
    let mut pattern = Side::default();
    pattern.trees[0].words = tree.words();
    let pair = Pair { pattern, ..Pair::default() };
    Operation::Build { rules: encode(&[pair], b""), rule: 0 }
}

/// `1 ==>> 2`.
pub fn one_to_two() -> Pair {
    Pair { pattern: number_side("1"), has_template: true, template: number_side("2") }
}

pub fn number_side(number: &str) -> Side {
    side(&node(LITERAL, [token(NUMBER, number)]), &[(NUMBER, number)])
}

pub fn side(tree: &Syntax, list: &[(u32, &str)]) -> Side {
    let mut side = Side { list: token_list(list), code: tree.text(), ..Side::default() };
    side.trees[0].words = tree.words();
    side
}

fn rules(count: usize, walk: bool) -> Operation {
    let rules = encode(&vec![one_to_two(); count], b"");
    let job = Job { rules, file: wide(1), ..Job::default() };
    if walk { Operation::Walk(job) } else { Operation::Job(job) }
}

fn matching_with_rules(count: usize) -> Operation {
    let file = plain_file(&node(LITERAL, [token(NUMBER, "1")]));
    let file = File { facts: fact(6, 0, [1, 0, 0]).to_vec(), ..file };
    let rules = encode(&vec![one_to_two(); count], b"");
    let rule = count as u32 - 1;
    Operation::MatchNode { rules, file, node: 0, rule, range: None, buffer: 0 }
}

/// So many `1`, each in module 1.
fn ones(count: usize) -> File {
    let root = node(SOURCE_FILE, vec![node(LITERAL, [token(NUMBER, "1")]); count]);
    let modules = (0..count).flat_map(|i| fact(6, 1 + 2 * i, [1, 0, 0]));
    File { facts: modules.collect(), ..plain_file(&root) }
}

fn candidates(count: usize) -> Operation {
    let rules = encode(&[one_to_two()], b"");
    let candidates = (0..count as u32).flat_map(|i| [1 + 2 * i, 0]).collect();
    Operation::Job(Job { rules, file: ones(count), candidates, buffer: 20_000, ..Job::default() })
}

fn walk_of(matches: usize) -> Operation {
    let rules = encode(&[one_to_two()], b"");
    Operation::Walk(Job { rules, file: ones(matches), buffer: 20_000, ..Job::default() })
}

/// A bare placeholder `a` in a node.
fn a() -> Syntax {
    node(PATH_EXPR, [stand_in("a")])
}

/// `($a) ==>> m$a` on parentheses so deep: each nested text is rendered in both renderings.
fn nested(depth: usize, buffer: usize) -> Operation {
    let wrapped = |inner| node(BIN_EXPR, [mark("("), inner, mark(")")]);
    let pattern = side(&wrapped(a()), &[(168, "("), (DOLLAR, "$"), (IDENT, "a"), (R_PAREN, ")")]);
    let template = node(REF_EXPR, [ident("m"), a()]);
    let template = side(&template, &[(IDENT, "m"), (DOLLAR, "$"), (IDENT, "a")]);
    let code = (0..depth).fold(node(LITERAL, [ident("x")]), |inner, _| wrapped(inner));
    walk(Pair { pattern, has_template: true, template }, &node(SOURCE_FILE, [code]), buffer)
}

/// Rules `$a ==>> $a __placeholder_a` on one empty node: each text is used twice.
fn doubled(count: usize) -> Operation {
    let pattern = side(&a(), &[(DOLLAR, "$"), (IDENT, "a")]);
    let list = [(DOLLAR, "$"), (IDENT, "a"), (IDENT, "__placeholder_a")];
    let template = side(&node(PATH_TYPE, [a(), a()]), &list);
    let pair = Pair { pattern, has_template: true, template };
    let file = File { facts: fact(6, 0, [1, 0, 0]).to_vec(), ..plain_file(&node(LITERAL, [])) };
    let rules = encode(&vec![pair; count], b"");
    Operation::Walk(Job { rules, file, buffer: 64, ..Job::default() })
}

/// Record lists so deep, each with a field `x` and a placeholder name: each starts over. In each there
/// may be a comment.
fn restarts(depth: usize, comments: bool) -> Operation {
    let list = |inner: Option<Syntax>, name: Syntax, rest: &[Syntax]| {
        let field = inner.map(|inner| node(RECORD_FIELD, [ident("x"), inner]));
        let named = [&[node(NAME_REF, [name])], rest, &[ident("k")]].concat();
        let last = node(RECORD_FIELD, named);
        node(RECORD_LIST, field.into_iter().chain([last]).collect::<Vec<_>>())
    };
    let comment = [token(COMMENT, "/**/")];
    let noted = if comments { &comment[..] } else { &[] };
    let (mut pattern, mut code) = (None, None);
    for _ in 0..=depth {
        pattern = Some(list(pattern, stand_in("n"), &[]));
        code = Some(list(code, ident("y"), noted));
    }
    let (pattern, code) = (pattern.unwrap_or(node(1, [])), code.unwrap_or(node(1, [])));
    // The first stand-in name is declared, the others are written out.
    let mut tokens = pattern.tokens().into_iter().map(|(k, t)| (k, t.to_vec())).collect::<Vec<_>>();
    let first = tokens.iter().position(|(_, text)| is_stand_in(text)).unwrap_or(0);
    tokens.splice(first..=first, [(DOLLAR, b"$".to_vec()), (IDENT, b"n".to_vec())]);
    let mut side = Side { list: token_list(&tokens), code: pattern.text(), ..Side::default() };
    side.trees[0].words = pattern.words();
    let rules = encode(&[Pair { pattern: side, ..Pair::default() }], b"");
    let file = File { facts: first_token_names(&code), ..plain_file(&code) };
    Operation::MatchNode { rules, file, node: 0, rule: 0, range: None, buffer: 1_048_576 }
}

fn first_token_names(code: &Syntax) -> Vec<u32> {
    let elements = code.elements();
    let fields = (0..elements.len()).filter(|&i| is_kind(elements[i], RECORD_FIELD));
    fields
        .flat_map(|i| {
            let name = (i..).find(|&e| !elements[e].is_node()).unwrap_or(i);
            fact(5, i, [name as u32, 0, 0])
        })
        .collect()
}

/// An edit list that fills the used part of the largest buffer: 16 captures of 65,535 bytes
/// less what the words take.
fn whole_buffer() -> Operation {
    let pattern = side(&a(), &[(DOLLAR, "$"), (IDENT, "a")]);
    let mut list = vec![(DOLLAR, "$"), (IDENT, "a")];
    list.extend(vec![(IDENT, "__placeholder_a"); 15]);
    list.push((NUMBER, "1234"));
    let mut children = vec![a(); 16];
    children.push(token(NUMBER, "1234"));
    let template = side(&node(PATH_TYPE, children), &list);
    let code = node(SOURCE_FILE, [token(STRING, vec![b'x'; 65_535])]);
    walk(Pair { pattern, has_template: true, template }, &code, 2_000_000)
}

/// A walk with every node in module 1.
fn walk(pair: Pair, root: &Syntax, buffer: usize) -> Operation {
    let nodes = root.elements().into_iter().enumerate().filter(|(_, e)| e.is_node());
    let facts = nodes.flat_map(|(i, _)| fact(6, i, [1, 0, 0])).collect();
    let file = File { facts, ..plain_file(root) };
    Operation::Walk(Job { rules: encode(&[pair], b""), file, buffer, ..Job::default() })
}

/// More candidates than allowed.
pub fn overgrow_candidates(job: &mut Job) {
    while job.candidates.len() <= 2 * 1024 {
        job.candidates.extend([0, 0]);
    }
}

/// More rules than allowed, if there are any.
pub fn overgrow_rules(job: &mut Job) {
    let fact_text = job.rules.fact_text.clone();
    if let Some(pairs) = decode(&job.rules).filter(|pairs| !pairs.is_empty()) {
        job.rules = encode(&vec![pairs; 17].concat(), &fact_text);
    }
}

/// More matches than a walk may have, if the rules can be cut: one more of them, and a file for it.
pub fn overgrow_matches(job: &mut Job) {
    let fact_text = job.rules.fact_text.clone();
    if let Some(mut pairs) = decode(&job.rules) {
        pairs.push(one_to_two());
        job.rules = encode(&pairs, &fact_text);
        job.file = ones(1_025);
    }
}

/// A file too deep, too large or with too many facts.
pub fn overgrow_file(rng: &mut Rng, file: &mut File) {
    match rng.below(4) {
        0 => *file = plain_file(&deep_tree(129)),
        1 => file.tree.resize(3 * 16_384, 0),
        2 => file.text.resize(65_536, b'x'),
        _ => file.facts = with_facts(16_384).facts,
    }
}

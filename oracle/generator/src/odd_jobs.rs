//! Jobs whose matches lie in each other: patterns that hold each other's instances, templates that have
//! a capture once, twice or not at all, prefixes, path texts, comments and empty nodes.

use crate::derive::{Filler, as_method_call, sprinkle, vary};
use crate::facts::{file_facts, pattern_facts, template_facts};
use crate::jobs::{self, candidates, range};
use crate::kinds::*;
use crate::odd_matches;
use crate::pairs::{list_of, names_in};
use crate::parts::*;
use crate::rng::Rng;
use input::build::{Syntax, node, token};
use input::pairs::encode;
use input::{File, Job, Operation, Pair, Side};

/// Sets these jobs apart from others of the same seed.
const SALT: u64 = 0x0dd_10b5;

/// Root kinds of templates: expressions, an item, and others, which are never parsed.
const ROOTS: [u32; 10] =
    [BIN_EXPR, BIN_EXPR, BIN_EXPR, REF_EXPR, REF_EXPR, LITERAL, FN, FN, PATH_TYPE, 63];

/// A job without parses. In few of them a candidate or the range is refused.
pub fn random(seed: u64, index: u64) -> Job {
    let rng = &mut Rng::new(&[SALT, seed, index]);
    let mut job = match rng.below(20) {
        0..=3 => match jobs::job(rng) {
            Operation::Job(job) | Operation::Walk(job) => return job,
            _ => Job::default(),
        },
        4..=7 => {
            let (rules, file) = odd_matches::with_templates(rng, 24);
            Job { rules, file, ..Job::default() }
        }
        _ => nest(rng),
    };
    job.candidates = candidates(rng, &job);
    let most = *rng.pick(&[6, 12, 24, 60, 1024]);
    if rng.chance(30) {
        job.candidates.truncate(2 * most);
    }
    job.range = range(rng, &job.file);
    job.buffer = if rng.chance(90) { 4096 } else { rng.below(120) };
    job
}

/// Up to five rules and code that is made of their patterns, in each other.
fn nest(rng: &mut Rng) -> Job {
    let mut fact_text = b"..".to_vec();
    let (mut pairs, mut patterns) = (Vec::new(), Vec::new());
    let methods = if rng.chance(35) { 60 } else { 10 };
    for _ in 0..*rng.pick(&[1, 2, 2, 3, 3, 4, 5]) {
        let mut tree = if rng.chance(methods) { method(rng) } else { pattern(rng) };
        trim(&mut tree);
        let names = names_in(&tree);
        let facts = pattern_facts(rng, &tree, &names);
        let pattern = side(rng, &tree, &names, facts);
        patterns.push(tree);
        let tree = template(rng, &names);
        let declared: Vec<&str> =
            names_in(&tree).into_iter().filter(|name| names.contains(name)).collect();
        let facts = template_facts(rng, &tree, &names, &mut fact_text);
        let template = side(rng, &tree, &declared, facts);
        pairs.push(Pair { pattern, has_template: rng.chance(99), template });
        if let Some(pair) = pairs.last_mut().filter(|pair| !pair.has_template) {
            pair.template = Side::default();
        }
    }
    let root = code(rng, &patterns);
    let file = File { tree: root.words(), text: root.text(), facts: file_facts(rng, &root) };
    Job { rules: encode(&pairs, &fact_text), file, ..Job::default() }
}

fn side(rng: &mut Rng, tree: &Syntax, names: &[&str], facts: Vec<u32>) -> Side {
    let list = list_of(rng, &tree.tokens(), names, 0);
    let mut side = Side { list, code: tree.text(), ..Side::default() };
    side.trees[0].words = tree.words();
    side.trees[0].facts = facts;
    side
}

/// A placeholder as a parser has it, or in a node of its own.
fn place(rng: &mut Rng, name: &str) -> Syntax {
    if rng.chance(50) { path_expr(path_of(stand_in(name))) } else { bare(name) }
}

fn bare(name: &str) -> Syntax {
    node(PATH_EXPR, [stand_in(name)])
}

fn pattern(rng: &mut Rng) -> Syntax {
    let (a, b) = (place(rng, "a"), place(rng, "b"));
    match rng.below(15) {
        0..=2 => a,
        3 => node(PAREN_EXPR, [mark("("), a, mark(")")]),
        4..=5 => node(BIN_EXPR, [a, mark("+"), b]),
        6..=7 => node(BIN_EXPR, [a, b]),
        8 => node(REF_EXPR, [mark("&"), a]),
        9 => node(BIN_EXPR, [a, node(EXPR_STMT, [])]),
        10 => node(CALL_EXPR, [path_expr(path_of(ident("f"))), arguments(vec![a, b])]),
        11 => node(TOKEN_TREE, [mark("("), stand_in("a"), mark(")")]),
        12..=13 => record(a),
        _ => node(BIN_EXPR, [b, node(REF_EXPR, [mark("&"), a])]),
    }
}

/// `S::r($a)` or `S::w($a, $b)`, which method calls match too.
fn method(rng: &mut Rng) -> Syntax {
    let (a, b) = (place(rng, "a"), place(rng, "b"));
    let name = ident(rng.pick::<&str>(&["r", "w", "w", "o"]));
    let path = node(PATH, [path_of(ident("S")), mark("::"), segment_of(name)]);
    let inside = if rng.chance(50) { vec![a] } else { vec![a, b] };
    node(CALL_EXPR, [path_expr(path), arguments(inside)])
}

fn arguments(inside: Vec<Syntax>) -> Syntax {
    let mut children = vec![mark("(")];
    for (place, argument) in inside.into_iter().enumerate() {
        if place > 0 {
            children.push(mark(","));
        }
        children.push(argument);
    }
    children.push(mark(")"));
    node(ARG_LIST, children)
}

/// `{0: $a}`: the field is skipped, so that the placeholder stays unbound where the code has no field.
fn record(a: Syntax) -> Syntax {
    let field = node(RECORD_FIELD, [token(NUMBER, "0"), mark(":"), a]);
    node(RECORD_LIST, [mark("{"), field, mark("}")])
}

fn template(rng: &mut Rng, names: &[&str]) -> Syntax {
    let count = *rng.pick(&[0, 1, 2, 2, 3, 3, 4, 5]);
    let mut parts: Vec<Syntax> = (0..count).map(|_| part(rng, names)).collect();
    let mut tree = node(*rng.pick(&ROOTS), std::mem::take(&mut parts));
    trim(&mut tree);
    tree
}

fn part(rng: &mut Rng, names: &[&str]) -> Syntax {
    if !names.is_empty() && rng.chance(60) {
        let name = *rng.pick(names);
        let place = place(rng, name);
        return match rng.below(10) {
            0..=6 => place,
            7 => node(PAREN_EXPR, [mark("("), place, mark(")")]),
            8 => {
                let name = node(NAME_REF, [ident("n")]);
                node(METHOD_CALL_EXPR, [place, mark("."), name, arguments(Vec::new())])
            }
            _ => stand_in(name),
        };
    }
    match rng.below(9) {
        0..=1 => path_expr(path_of(ident(rng.pick::<&str>(&["f", "g", "x"])))),
        2 => {
            let rest = node(GENERIC_ARGS, [mark("<"), ident("y"), mark(">")]);
            path_expr(node(PATH, [node(PATH_SEGMENT, [node(NAME_REF, [ident("g")]), rest])]))
        }
        3 => stand_in("q"),
        4 => space(),
        5 => token(COMMENT, "/*t*/"),
        6 => mark("+"),
        7 => node(EXPR_STMT, []),
        _ => node(LITERAL, [token(NUMBER, "7")]),
    }
}

/// Some instances, with comments more than elsewhere; now and then a line of nodes around them.
fn code(rng: &mut Rng, patterns: &[Syntax]) -> Syntax {
    let mut children = Vec::new();
    for _ in 0..*rng.pick(&[1, 1, 2, 3]) {
        let filled = Filler { rng, patterns, budget: 50, nest: 5 }.instance();
        let mut piece = commented(rng, filled);
        if rng.chance(50) {
            piece = vary(rng, piece);
        }
        for _ in 0..*rng.pick(&[0, 0, 0, 1, 3]) {
            piece = node(*rng.pick(&[BIN_EXPR, LITERAL, EXPR_STMT]), [piece]);
        }
        children.push(piece);
        if rng.chance(30) {
            children.push(node(*rng.pick(&[EXPR_STMT, LITERAL]), []));
        }
        if rng.chance(30) {
            children.push(token(COMMENT, "/*é*/"));
        }
    }
    node(SOURCE_FILE, children)
}

/// Comments here and there, calls as method calls, empty nodes and record lists without fields.
fn commented(rng: &mut Rng, element: Syntax) -> Syntax {
    let Syntax::Node(kind, children) = element else { return element };
    if kind == LITERAL && rng.chance(25) {
        return node(LITERAL, []);
    }
    let mut children: Vec<Syntax> =
        children.into_iter().map(|child| commented(rng, child)).collect();
    if kind == CALL_EXPR
        && rng.chance(60)
        && let Some(call) = as_method_call(&children, false)
    {
        return call;
    }
    if kind == RECORD_LIST && rng.chance(70) {
        children.retain(|child| !is_kind(child, RECORD_FIELD));
    }
    sprinkle(rng, &mut children, 8);
    node(kind, children)
}

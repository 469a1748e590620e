//! Places where a port goes astray, as the crate's own code answers them.

use input::{File, Pair};
use ssr::{Finder, MissingParse, Rendering, Workspace};

use crate::builder::*;

/// The first child of the file's root, where the tests match.
const CODE: u32 = 1;

fn matches<'a>(pair: &Pair, file: &'a File) -> Option<Captured<'a>> {
    match_node(pair, file, CODE)
}

fn captured<'a>(texts: &[&'a str]) -> Option<Captured<'a>> {
    Some((texts.iter().map(|text| Some((*text, 0, 0))).collect(), String::new()))
}

/// `S::f(..)` with the function's fact and, if wanted, the qualifier's type.
fn ufcs(list: &str, pattern: &Syntax, typed: bool) -> Pair {
    search(side(list, pattern, |tree| {
        let path = tree.nodes(PATH)[0];
        let mut facts = vec![fact(1, path, [1, 7, 0])];
        facts.extend(typed.then(|| fact(4, path, [9, 0, 0])));
        facts
    }))
}

fn s_f() -> Syntax {
    call(&["S", "f"], [placeholder("s")])
}

/// A method call of function 1 on `x`, self by `&`, with the receiver's types.
fn method(code: Syntax, types: &'static [u32]) -> File {
    file(code, |tree| {
        let call = tree.nodes(METHOD_CALL)[0];
        let receiver = tree.at(PATH_EXPR, "x");
        let step = |(step, ty): (u32, &u32)| fact(3, receiver, [step, *ty, 0]);
        let mut facts = vec![fact(2, call, [1, 1, 1]), fact(6, call, [1, 0, 0])];
        facts.extend((0..).zip(types).map(step));
        facts
    })
}

fn x_f(arguments: impl IntoIterator<Item = Syntax>) -> Syntax {
    method_call(path_expr(&["x"]), "f", arguments)
}

#[test]
fn c2_a_method_call_binds_only_arguments() {
    let generic = [token("::"), token("<"), node(OTHER, [path(&["__placeholder_t"])]), token(">")];
    let segment = node(SEGMENT, [name_ref("f"), node(GENERIC_ARGS, generic)]);
    let function = node(PATH_EXPR, [node(PATH, [path(&["S"]), token("::"), segment])]);
    let pattern = node(CALL, [function, arg_list([placeholder("s")])]);
    let expected = Some((vec![None, Some(("x", 0, 1))], String::new()));
    assert_eq!(matches(&ufcs("S::f::<$t>($s)", &pattern, true), &method(x_f([]), &[9])), expected);

    let arguments = node(ARG_LIST, [token("("), token("/*c*/"), token(")")]);
    let code = node(METHOD_CALL, [path_expr(&["x"]), token("."), name_ref("f"), arguments]);
    let expected = Some((vec![Some(("x", 2, 1))], String::new()));
    assert_eq!(matches(&ufcs("S::f($s)", &s_f(), true), &method(code, &[7, 8, 9])), expected);
}

#[test]
fn c3_a_path_call_looks_at_the_first_arguments_type() {
    let pair = ufcs("S::f($s)", &s_f(), true);
    let code = |typed: bool| {
        file(call(&["S", "f"], [path_expr(&["x"])]), |tree| {
            let mut facts = vec![fact(0, tree.at(PATH, "S::f"), [1, 0, 0])];
            facts.extend(typed.then(|| fact(3, tree.at(PATH_EXPR, "x"), [0, 9, 0])));
            facts
        })
    };
    assert_eq!(matches(&pair, &code(false)), None);
    assert_eq!(matches(&pair, &code(true)), captured(&["x"]));
}

#[test]
fn c4_without_a_qualifier_type_the_receiver_is_not_consumed() {
    let pair = ufcs("S::f($s)", &s_f(), false);
    assert_eq!(matches(&pair, &method(x_f([]), &[9])), None);
    assert_eq!(matches(&pair, &method(x_f([path_expr(&["y"])]), &[9])), captured(&["y"]));
}

#[test]
fn c5_only_the_last_writer_counts() {
    let pattern = call(&["S", "f"], [placeholder("s"), placeholder("s")]);
    let pair = ufcs("S::f($s, __placeholder_s)", &pattern, true);
    assert_eq!(matches(&pair, &method(x_f([path_expr(&["y"])]), &[9])), captured(&["y"]));
}

fn token_tree(children: impl IntoIterator<Item = Syntax>) -> Syntax {
    let inner = children.into_iter();
    node(TOKEN_TREE, [token("(")].into_iter().chain(inner).chain([token(")")]))
}

fn tokens(texts: &[&str]) -> Vec<Syntax> {
    texts.iter().map(|text| token(text)).collect()
}

/// Whether a macro call's token tree matches another.
fn macro_match(
    list: &str,
    pattern: &[&str],
    code: &[&str],
) -> Option<(Vec<Option<String>>, String)> {
    let pair = search(side(list, &token_tree(tokens(pattern)), no_facts));
    let file = file(token_tree(tokens(code)), no_facts);
    let (values, comments) = matches(&pair, &file)?;
    Some((values.iter().map(|value| value.map(|value| value.0.to_owned())).collect(), comments))
}

#[test]
fn c6_token_trees() {
    let a = "__placeholder_a";
    let one = |text: &str| Some((vec![Some(text.to_owned())], String::new()));
    assert_eq!(macro_match("($a)", &[a], &[" ", "x", " "]), one(" x "));
    assert_eq!(macro_match("($a)", &[a], &[]), None);
    assert_eq!(macro_match("($a,)", &[a, ","], &["1"]), None);
    assert_eq!(macro_match("($a,)", &[a, ","], &[",", ","]), one(","));
    assert_eq!(macro_match("(${a:kind(literal)})", &[a], &["x"]), one("x"));
    assert_eq!(macro_match("($a)", &[a], &["/*c*/", "x"]), one("/*c*/x"));
    let fixed = |comments: &str| Some((vec![], comments.to_owned()));
    assert_eq!(macro_match("(x)", &["x"], &["/*c*/", "x"]), fixed("/*c*/"));
    assert_eq!(macro_match("(x)", &["x"], &["x", ","]), fixed(""));
    assert_eq!(macro_match("(x,)", &["x", ","], &["x"]), fixed(""));
}

#[test]
fn c7_the_stop_text_is_used_up() {
    let tree = |children: Vec<Syntax>| node(TOKEN_TREE, children);
    let pattern = |list: &str, rest: &[&str]| {
        let mut children = tokens(&["__placeholder_a"]);
        children.extend(tokens(rest));
        search(side(list, &tree(children), no_facts))
    };
    let code = |last: &str| file(tree(vec![token("x"), token_tree([]), token(last)]), no_facts);
    assert_eq!(matches(&pattern("$a(b", &["(", "b"]), &code("(")), captured(&["x()"]));
    assert_eq!(matches(&pattern("$a(", &["("]), &code("y")), captured(&["x()y"]));
    assert_eq!(matches(&pattern("$a(b", &["(", "b"]), &code("b")), None);
}

fn field(name: &str, value: Syntax) -> Syntax {
    node(FIELD, [name_ref(name), token(":"), value])
}

fn record(parts: impl IntoIterator<Item = Syntax>) -> Syntax {
    let mut children = vec![token("{")];
    for (i, part) in parts.into_iter().enumerate() {
        children.extend((i > 0).then(|| token(",")));
        children.push(part);
    }
    children.push(token("}"));
    node(FIELD_LIST, children)
}

/// A record list with a fact of sort 5 at its first fields.
fn record_file(code: Syntax, named: usize) -> File {
    file(code, |tree| {
        let name = |field: &u32| fact(5, *field, [field + 2, 0, 0]);
        tree.nodes(FIELD).iter().take(named).map(name).collect()
    })
}

#[test]
fn c8_records_by_name() {
    let x_a = search(side("{x:$a}", &record([field("x", placeholder("a"))]), no_facts));
    let twice = record([field("x", literal("1")), field("x", literal("2"))]);
    assert_eq!(matches(&x_a, &record_file(twice, 2)), captured(&["2"]));
    let spread = node(
        FIELD_LIST,
        [
            token("{"),
            field("x", literal("1")),
            token(","),
            token(".."),
            path_expr(&["z"]),
            token("}"),
        ],
    );
    assert_eq!(matches(&x_a, &record_file(spread, 1)), captured(&["1"]));
    let two = record([field("x", literal("1")), field("y", literal("2"))]);
    assert_eq!(matches(&x_a, &record_file(two.clone(), 2)), None);
    assert_eq!(matches(&x_a, &record_file(two, 1)), captured(&["1"]));

    let by_number = search(side("{0:$a}", &record([field("0", placeholder("a"))]), no_facts));
    let unbound = Some((vec![None], String::new()));
    assert_eq!(matches(&by_number, &record_file(record([]), 0)), unbound);
    let zero = record([field("0", literal("5"))]);
    assert_eq!(matches(&by_number, &record_file(zero, 1)), None);
}

#[test]
fn c8_a_record_list_starts_over() {
    let noted = |name: &str, value: &str| {
        let comment = format!("/*{name}*/");
        node(FIELD, [name_ref(name), token(":"), token(&comment), literal(value)])
    };
    let pattern =
        record([field("x", placeholder("a")), field("__placeholder_n", placeholder("b"))]);
    let pair = search(side("{x:$a,$n:$b}", &pattern, no_facts));
    let file = record_file(record([noted("x", "1"), noted("y", "2")]), 2);
    let values = vec![Some(("1", 0, 0)), Some(("y", 0, 0)), Some(("2", 0, 0))];
    assert_eq!(matches(&pair, &file), Some((values, "/*x*//*x*//*y*/".to_owned())));
}

#[test]
fn c10_a_stand_in_written_out_is_a_placeholder() {
    let pattern = call(&["f"], [placeholder("a"), placeholder("a")]);
    let pair = search(side("f($a, __placeholder_a)", &pattern, resolves(&[("f", 1, 3)])));
    let file = file(call(&["f"], [literal("1"), literal("2")]), |tree| {
        vec![fact(0, tree.at(PATH, "f"), [1, 0, 0])]
    });
    assert_eq!(matches(&pair, &file), captured(&["2"]));
}

#[test]
fn c16_two_rules_on_one_node() {
    let a = || node(PATH_EXPR, [token("__placeholder_a")]);
    let angles = node(OTHER, [token("<"), token("__placeholder_a"), token(">")]);
    let any = rule(side("$a", &a(), no_facts), side("<$a>", &angles, no_facts));
    let x = rule(
        side("x", &node(LITERAL, [token("x")]), no_facts),
        side("Y", &node(OTHER, [token("Y")]), no_facts),
    );
    let file = file(node(LITERAL, [token("x")]), |_| vec![fact(6, CODE, [1, 0, 0])]);
    let text = |pairs: [Pair; 2]| edited(&pairs, "", &file, &parses(&[]));
    assert_eq!(text([any.clone(), x.clone()]), Rendering::Edited("<Y>".to_owned()));
    assert_eq!(text([x, any]), Rendering::Edited("Y".to_owned()));
}

#[test]
fn c19_prefix_unless_receiver() {
    let own = |tree: &Tree| {
        let paths = tree.nodes(PATH);
        let x = paths.iter().filter(|path| **path == tree.at(PATH, "x"));
        x.map(|path| fact(1, *path, [5, 1, 0])).collect()
    };
    let parenthesised = node(PAREN_EXPR, [token("("), placeholder("s"), token(")")]);
    let templates = [
        ("$s.g()", method_call(placeholder("s"), "g", []), "x.g()"),
        ("($s).g()", method_call(parenthesised, "g", []), "(&*x).g()"),
        ("x.g($s)", method_call(path_expr(&["x"]), "g", [placeholder("s")]), "x.g(&*x)"),
    ];
    for (list, template, expected) in templates {
        let facts = |tree: &Tree| if list.starts_with('x') { own(tree) } else { Vec::new() };
        let pattern = ufcs("S::f($s)", &s_f(), true).pattern;
        let pair = rule(pattern, side(list, &template, facts));
        let text = edited(&[pair], "", &method(x_f([]), &[7, 9]), &parses(&[]));
        assert_eq!(text, Rendering::Edited(expected.to_owned()));
    }
}

#[test]
fn c29_a_shorthand_takes_the_whole_field() {
    let pattern = record([node(FIELD, [placeholder("a")])]);
    let pair = search(side("{$a}", &pattern, no_facts));
    let file = record_file(record([field("x", literal("1"))]), 1);
    assert_eq!(matches(&pair, &file), captured(&["x:1"]));
}

#[test]
fn an_unbound_placeholder_panics() {
    let pattern = record([field("0", placeholder("a"))]);
    let template = node(OTHER, [token("__placeholder_a")]);
    let pair = rule(side("{0:$a}", &pattern, no_facts), side("$a", &template, no_facts));
    let file = file(record([]), |_| vec![fact(6, CODE, [1, 0, 0])]);
    let text = edited(&[pair], "", &file, &parses(&[]));
    assert!(
        matches!(text, Rendering::Panicked(message) if message.contains("unknown placeholder $a"))
    );
}

#[test]
fn a_prefix_before_a_nested_edit_may_cut_a_character() {
    let pattern = ufcs("S::f($s)", &s_f(), true).pattern;
    let pairs = [
        rule(pattern, side("$s", &node(OTHER, [token("__placeholder_s")]), no_facts)),
        rule(
            side("x", &path_expr(&["x"]), resolves(&[("x", 3, 3)])),
            side("b", &node(OTHER, [token("b")]), no_facts),
        ),
    ];
    let code = |name: &str| {
        file(method_call(path_expr(&[name]), "f", []), |tree| {
            let (call, receiver) = (tree.nodes(METHOD_CALL)[0], tree.nodes(PATH_EXPR)[0]);
            let mut facts = vec![fact(2, call, [1, 1, 1]), fact(3, receiver, [0, 9, 0])];
            facts.extend([fact(0, tree.nodes(PATH)[0], [3, 0, 0])]);
            facts.extend([call, receiver].map(|node| fact(6, node, [1, 0, 0])));
            facts
        })
    };
    let text = |name| edited(&pairs, "", &code(name), &parses(&[]));
    assert_eq!(text("ab"), Rendering::Edited("bb".to_owned()));
    assert!(matches!(text("aé"), Rendering::Panicked(_)));
}

/// Document 01 has the earlier placeholder take it; the crate goes by the order of a hash map.
#[test]
fn two_captured_ranges_hold_one_match() {
    let placeholder = |name: &str| node(OTHER, [token(&format!("__placeholder_{name}"))]);
    let pattern = node(BIN_EXPR, [placeholder("a"), placeholder("b"), token("k")]);
    let template = || node(OTHER, [token("k")]);
    let pairs = [
        rule(side("$a$b k", &pattern, no_facts), side("k", &template(), no_facts)),
        rule(side("", &node(REST, []), no_facts), side("k", &template(), no_facts)),
    ];
    let file = file(node(BIN_EXPR, [node(REST, []), node(OTHER, []), token("k")]), |_| {
        [CODE, CODE + 1].map(|node| fact(6, node, [1, 0, 0])).to_vec()
    });
    let (kept, _) = walk(&pairs, "", &file, &parses(&[]), MissingParse::Stop).unwrap();
    let held: Vec<usize> = kept[0].inner.iter().map(Vec::len).collect();
    assert_eq!((kept.len(), held.iter().sum::<usize>()), (1, 1));
    assert_eq!(held[2..], [0; 6]);
}

/// Document 01 has the later path in the tree count; the crate goes by the order of a hash map.
#[test]
fn two_paths_claim_one_call() {
    let pattern = node(CALL, [path_expr(&["f"]), path_expr(&["g"]), arg_list([])]);
    let pair = search(side("f g()", &pattern, resolves(&[("f", 1, 7), ("g", 2, 7)])));
    let workspace = Workspace::new(&[pair], b"", None).unwrap();
    let resolved = Finder::new(&workspace).unwrap().resolved();
    let [(call, function, None)] = resolved[0].pattern.calls[..] else { panic!("one call") };
    assert_eq!((call, (1..=2).contains(&function)), (0, true));
}

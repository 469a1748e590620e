//! Document 01's examples A to N.

use input::{BuiltRule, File, Pair, Parses, Placeholder, TemplateTree};
use ssr::{
    Asked, Finder, MissingParse, NotFed, Rendering, ResolvedSide, Stopped, Workspace, build,
    check_pair, raw_code, read_tokens,
};

use crate::builder::*;

fn refused(list: &str) -> u32 {
    match read_tokens(&lex(list)) {
        Err(Stopped::Refused(number)) => number,
        other => panic!("{list}: {other:?}"),
    }
}

#[test]
fn a_to_g_reading() {
    let a = |name_start, nots| Placeholder { name_start, name_length: 1, nots };
    assert_eq!(read_tokens(&lex("$a")), Ok(vec![a(1, vec![])]));
    assert_eq!(read_tokens(&lex("${a:not(kind(literal))}")), Ok(vec![a(2, vec![1])]));
    for (list, number) in [
        ("${a:kind(foo}", 9),
        ("${a:kind(foo)}", 11),
        ("${1}", 6),
        ("${}", 3),
        ("${a }", 4),
        ("${", 2),
        ("$ a", 5),
        ("$", 6),
        ("${a:", 7),
        ("${a:}", 8),
        ("${a:kind(", 10),
        ("${a:kind( literal)}", 10),
        ("$a$a", 12),
    ] {
        assert_eq!(refused(list), number, "{list}");
    }
}

#[test]
fn placeholders_in_list_order() {
    let list = lex("f(${z:kind(literal):not(not(kind(literal)))}, $a, x, ${m})");
    let placeholders = read_tokens(&list).unwrap();
    let name = |p: &Placeholder| {
        let start = p.name_start as usize;
        String::from_utf8(list.text[start..start + p.name_length as usize].to_vec()).unwrap()
    };
    let names: Vec<String> = placeholders.iter().map(name).collect();
    assert_eq!(names, ["z", "a", "m"]);
    assert_eq!(placeholders[0].nots, [0, 2]);
    assert_eq!(raw_code(&lex(" f($a, ${b}) ")).unwrap(), " f(__placeholder_a, __placeholder_b) ");
}

#[test]
fn pairs() {
    let check = |pattern, template| check_pair(&lex(pattern), Some(&lex(template)));
    assert_eq!(check("f($a)", "g($a)"), Ok(()));
    assert_eq!(check("f($a)", "g(${a:kind(literal)}, $b)"), Err(Stopped::Refused(14)));
    assert_eq!(check("f($a)", "g($b)"), Err(Stopped::Refused(15)));
    assert_eq!(check("$", "${"), Err(Stopped::Refused(2)));
    assert_eq!(check_pair(&lex("f($a)"), None), Ok(()));
}

#[test]
fn h_and_j_trailing_commas() {
    let code = |arguments| {
        file(node(CALL, [path_expr(&["f"]), arguments]), |tree| {
            vec![fact(0, tree.at(PATH, "f"), [1, 0, 0])]
        })
    };
    let with_comma = |argument| node(ARG_LIST, [token("("), argument, token(","), token(")")]);
    let one = Some((vec![Some(("1", 0, 0))], String::new()));
    let f = [("f", 1, 3)];

    let h = search(side("f($a)", &call(&["f"], [placeholder("a")]), resolves(&f)));
    assert_eq!(match_node(&h, &code(with_comma(literal("1"))), 1), one);

    let j = node(CALL, [path_expr(&["f"]), with_comma(placeholder("a"))]);
    let j = search(side("f($a,)", &j, resolves(&f)));
    assert_eq!(match_node(&j, &code(arg_list([literal("1")])), 1), one);
}

/// The file's facts of one call: the path of its function, and module 1 at the call.
fn call_facts(function: &str) -> impl Fn(&Tree) -> Vec<[u32; 4]> + '_ {
    move |tree| {
        let call = tree.nodes(CALL)[0];
        vec![fact(0, tree.at(PATH, function), [1, 0, 0]), fact(6, call, [1, 0, 0])]
    }
}

#[test]
fn i_arguments_change_places() {
    let pair = rule(
        side(
            "f($p, $q)",
            &call(&["f"], [placeholder("p"), placeholder("q")]),
            resolves(&[("f", 1, 3)]),
        ),
        side("g($q, $p)", &call(&["g"], [placeholder("q"), placeholder("p")]), defines("g", 2, 0)),
    );
    let file = file(call(&["f"], [path_expr(&["a"]), path_expr(&["b"])]), call_facts("f"));
    let parse = call(&["g"], [path_expr(&["b"]), path_expr(&["a"])]);
    let parses = parses(&[(CALL, "g(b, a)", Some(parse))]);
    let text = edited(&[pair], "g", &file, &parses);
    assert_eq!(text, Rendering::Edited("g(b, a)".to_owned()));
}

#[test]
fn k_parentheses() {
    let sum =
        |right| node(BIN_EXPR, [path_expr(&["x"]), token(" "), token("+"), token(" "), right]);
    let pair = rule(
        side("foo($a)", &call(&["foo"], [placeholder("a")]), resolves(&[("foo", 1, 3)])),
        side("$a.bar()", &method_call(placeholder("a"), "bar", []), no_facts),
    );
    let file = file(call(&["foo"], [sum(path_expr(&["y"]))]), call_facts("foo"));
    let parse = sum(method_call(path_expr(&["y"]), "bar", []));
    let parses = parses(&[(METHOD_CALL, "x + y.bar()", Some(parse))]);
    let text = edited(&[pair], "", &file, &parses);
    assert_eq!(text, Rendering::Edited("(x + y).bar()".to_owned()));
}

#[test]
fn l_comments_go_behind() {
    let pair = rule(
        side("f($a)", &call(&["f"], [placeholder("a")]), resolves(&[("f", 1, 3)])),
        side("g($a)", &call(&["g"], [placeholder("a")]), defines("g", 2, 0)),
    );
    let arguments = [token("("), literal("1"), token(" "), token("/*c*/"), token(")")];
    let code = node(CALL, [path_expr(&["f"]), node(ARG_LIST, arguments)]);
    let file = file(code, call_facts("f"));
    let parses = parses(&[(CALL, "g(1)", Some(call(&["g"], [literal("1")])))]);
    let text = edited(&[pair], "g", &file, &parses);
    assert_eq!(text, Rendering::Edited("g(1)/*c*/".to_owned()));
}

/// Example M: two rules and a file.
pub fn m() -> (Vec<Pair>, &'static str, File) {
    let qualified = |tree: &Tree| {
        let path = tree.at(PATH, "S::f");
        vec![fact(1, path, [1, 7, 0]), fact(4, path, [9, 0, 0])]
    };
    let pairs = vec![
        rule(
            side("S::f($s)", &call(&["S", "f"], [placeholder("s")]), qualified),
            side("h($s)", &call(&["h"], [placeholder("s")]), defines("h", 2, 0)),
        ),
        rule(
            side("old()", &call(&["old"], []), resolves(&[("old", 3, 3)])),
            side("new2()", &call(&["new2"], []), defines("new2", 4, 1)),
        ),
    ];
    let file = file(method_call(call(&["old"], []), "f", []), |tree| {
        let (method, inner) = (tree.nodes(METHOD_CALL)[0], tree.nodes(CALL)[0]);
        vec![
            fact(0, tree.at(PATH, "old"), [3, 0, 0]),
            fact(2, method, [1, 1, 1]),
            fact(3, inner, [0, 9, 0]),
            fact(6, method, [1, 0, 0]),
            fact(6, inner, [1, 0, 0]),
        ]
    });
    (pairs, "hnew2", file)
}

#[test]
fn m_the_crates_own_answer() {
    let (pairs, fact_text, file) = m();
    let inner = (CALL, "new2()", Some(call(&["new2"], [])));
    let with_inner = parses(std::slice::from_ref(&inner));
    let run = |parses: &Parses, missing| walk(&pairs, fact_text, &file, parses, missing).unwrap();

    let asked = |text: &str| Asked { kind: CALL, text: text.to_owned() };
    let first = run(&Parses::default(), MissingParse::Stop).1;
    assert_eq!(first.rendering, Rendering::Asked(asked("new2()")));
    let second = run(&with_inner, MissingParse::Stop).1;
    assert_eq!(second.rendering, Rendering::Asked(asked("h(new2()))")));
    assert_eq!(second.asked, [asked("new2()"), asked("h(new2()))")]);
    let all = run(&parses(&[inner, (CALL, "h(new2()))", None)]), MissingParse::Stop).1;
    assert_eq!(all.rendering, Rendering::Edited("h(new2()))".to_owned()));
    let going_on = run(&Parses::default(), MissingParse::DoesNotParse).1;
    assert_eq!(going_on, all);

    let (kept, _) = run(&with_inner, MissingParse::Stop);
    let binding = kept[0].matched.bindings[0].unwrap();
    assert_eq!((binding.start, binding.end, binding.stars, binding.self_kind), (0, 5, 0, 1));
    assert_eq!(
        kept[0].matched.paths.iter().map(|path| (path.1, path.2)).collect::<Vec<_>>(),
        [(0, 1)]
    );
    assert_eq!((kept.len(), kept[0].inner[0].len()), (1, 1));
    assert_eq!((kept[0].inner[0][0].matched.node, kept[0].inner[0][0].matched.rule), (2, 1));
}

#[test]
fn m_resolved() {
    let (pairs, fact_text, _) = m();
    let workspace = Workspace::new(&pairs, fact_text.as_bytes(), None).unwrap();
    let own = |pair| BuiltRule { pair, form: 0, template: TemplateTree::Own };
    assert_eq!(build(&workspace), Ok(vec![own(0), own(1)]));
    let resolved = Finder::new(&workspace).unwrap().resolved();
    let side = |paths, calls| ResolvedSide { paths, calls, contains_self: false };
    assert_eq!(resolved[0].pattern, side(vec![(2, 1)], vec![(0, 1, Some(9))]));
    assert_eq!(resolved[0].template, Some(side(vec![(2, 2)], vec![])));
    assert_eq!(resolved[1].pattern, side(vec![(2, 3)], vec![]));
}

#[test]
fn n_nothing_to_do() {
    let (pairs, fact_text, file) = m();
    let workspace = Workspace::new(&pairs, fact_text.as_bytes(), Some(&file)).unwrap();
    let finder = Finder::new(&workspace).unwrap();
    let nested = finder.nest(finder.find([], None).unwrap()).unwrap();
    assert!(finder.kept(&nested).is_empty());
    let rendered = finder.edited_text(&nested, &Parses::default(), MissingParse::Stop).unwrap();
    assert_eq!(rendered.rendering, Rendering::Edited("old().f()".to_owned()));
}

#[test]
fn n_depth_and_placeholders() {
    let deep = |depth: usize| {
        let root = (1..depth).fold(node(LITERAL, []), |inner, _| node(OTHER, [inner]));
        let tree = Tree::new(&root);
        File { tree: tree.words, ..File::default() }
    };
    assert!(Workspace::new(&[], b"", Some(&deep(128))).is_ok());
    let deeper = Workspace::new(&[], b"", Some(&deep(129))).err();
    assert_eq!(deeper, Some(Stopped::NotFed(NotFed::Malformed)));

    // The crate reads nine; document 01's 13 is not its own.
    let list = |count: usize| (0..count).map(|i| format!("$p{i} ")).collect::<String>();
    assert_eq!(read_tokens(&lex(&list(8))).unwrap().len(), 8);
    assert_eq!(read_tokens(&lex(&list(9))).unwrap().len(), 9);
    let nine = [search(side(&list(9), &literal("1"), no_facts))];
    let workspace = Workspace::new(&nine, b"", None).unwrap();
    let finder = Finder::new(&workspace).err();
    assert_eq!(finder, Some(Stopped::NotFed(NotFed::Placeholders)));
}

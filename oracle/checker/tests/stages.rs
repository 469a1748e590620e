//! The order of the stages, building, resolving and the checks of a job: 1, 17, 22 to 27.

mod common;

use common::*;
use input::build::{Syntax, element_word, fact, node, token};
use input::words::{END, START, word};
use input::{
    Answer, BuiltRule, File, Job, Operation, Pair, ResolvedElement, Rules, Side, TemplateTree,
};

fn bad_tree() -> File {
    File { tree: vec![0x1040_0001, word(START, 0), word(END, 1)], ..File::default() }
}

fn job(pairs: &[Pair], file: File) -> Result<(), u32> {
    check_job(&Job { rules: rules(pairs, ""), ..job_on(file) })
}

fn build(pairs: &[Pair], rule: u32) -> Answer {
    let operation = Operation::Build { rules: rules(pairs, ""), rule };
    checker::answer(&operation).expect("no matching here").answer
}

fn built(rules: u32, pair: u32, form: u32, template: TemplateTree) -> Answer {
    Answer::Built { rules, asked: Some(BuiltRule { pair, form, template }) }
}

fn resolve(pairs: &[Pair], rule: u32, side: u32, element: u32) -> Answer {
    let operation = Operation::Resolve { rules: rules(pairs, ""), rule, side, element };
    checker::answer(&operation).expect("no matching here").answer
}

/// `1 ==>> 2` in the expression form.
fn one_to_two() -> Pair {
    let template = side("2", 0, &number("2"), &[]);
    pair(side("1", 0, &number("1"), &[]), Some(template))
}

/// `f() ==>> g()` without any fact.
fn unresolved() -> Pair {
    let template = side("g()", 0, &call(&["g"], &[]), &[]);
    pair(side("f()", 0, &call(&["f"], &[]), &[]), Some(template))
}

#[test]
fn order_of_the_stages() {
    let no_form = lists("1", Some("2"));
    let bad_facts = File { facts: vec![0], ..empty_file() };
    assert_eq!(job(std::slice::from_ref(&no_form), empty_file()), Err(17));
    assert_eq!(job(&[unresolved()], empty_file()), Err(22));
    assert_eq!(job(&[unresolved(), no_form.clone()], empty_file()), Err(17));
    assert_eq!(job(std::slice::from_ref(&no_form), bad_tree()), Err(19));
    assert_eq!(job(&[no_form], bad_facts), Err(21));
    let mut broken = lists("1", None);
    broken.pattern.list.words = vec![0];
    assert_eq!(job(&[lists("$1", None), broken], bad_tree()), Err(1));
    assert_eq!(job(&[lists("$a", Some("$b"))], bad_tree()), Err(15));
    let constrained = lists("$a", Some("${a:kind(literal)}"));
    assert_eq!(job(&[constrained, lists("${a", None)], bad_tree()), Err(3));
    assert_eq!(job(&[lists("$a", Some("$b${a:kind(literal)}"))], bad_tree()), Err(14));
    assert_eq!(job(&[], empty_file()), Ok(()));
}

#[test]
fn faults_of_the_directory() {
    let whole = rules(&[one_to_two()], "");
    let check = |rules: &Rules| checker::check(&Operation::Build { rules: rules.clone(), rule: 0 });
    assert_eq!(check(&whole), Ok(()));
    for place in 0..27 {
        for change in [1, u32::MAX] {
            let mut rules = whole.clone();
            rules.directory[place] = rules.directory[place].wrapping_add(change);
            assert_eq!(check(&rules), Err(1), "{place} {change}");
        }
    }
    let one_more = |change: fn(&mut Rules)| {
        let mut rules = whole.clone();
        change(&mut rules);
        check(&rules)
    };
    assert_eq!(one_more(|r| r.directory.push(0)), Err(1));
    assert_eq!(one_more(|r| r.words.push(0)), Err(1));
    assert_eq!(one_more(|r| r.bytes.push(0)), Err(1));
    assert_eq!(check(&Rules { directory: vec![0], ..Rules::default() }), Err(1));
    assert_eq!(check(&Rules { words: vec![0], ..Rules::default() }), Err(1));
    assert_eq!(check(&Rules::default()), Ok(()));
    // Lengths whose sum passes 32 bits.
    let mut rules = whole.clone();
    rules.directory[0] = u32::MAX;
    rules.directory[4] = 2 + whole.directory[0];
    assert_eq!(check(&rules), Err(1));
}

#[test]
fn texts_of_rule_trees() {
    let tree = |text: &str| {
        let parts: Vec<Syntax> = lex(text)
            .words
            .iter()
            .zip(text.chars())
            .map(|(w, c)| token((w >> 16) & 0xfff, c.to_string()))
            .collect();
        node(66, parts)
    };
    let one = |list, text| build(&[pair(side(list, 0, &tree(text), &[]), None)], 0);
    assert_eq!(one(" 1 ", "1"), built(1, 0, 0, TemplateTree::None));
    assert_eq!(one(" 1 ", " 1 "), Answer::Refused(19));
    assert_eq!(one("2", "1"), Answer::Refused(19));
}

#[test]
fn template_given_or_not() {
    let pattern = || side("1", 0, &number("1"), &[]);
    let empty = Side::default();
    assert_eq!(build(&[pair(pattern(), Some(empty))], 0), Answer::Refused(17));
    assert_eq!(build(&[pair(pattern(), None)], 0), built(1, 0, 0, TemplateTree::None));
    // A template tree without a template list: no text is its list's.
    let mut tree_alone = pair(pattern(), None);
    tree_alone.template.trees[0].words = node(66, []).words();
    assert_eq!(build(&[tree_alone.clone()], 0), Answer::Refused(19));
    tree_alone.template.trees[0].words = vec![0; 49_152];
    assert_eq!(build(&[tree_alone], 0), Answer::Refused(18));
    // Facts of an absent tree: not looked at in building.
    let mut facts_alone = pair(pattern(), None);
    facts_alone.template.trees[3].facts = fact(1, 0, [1, 0, 0]).to_vec();
    assert_eq!(build(&[facts_alone.clone()], 0), built(1, 0, 0, TemplateTree::None));
    assert_eq!(resolve(&[facts_alone], 0, 0, 0), Answer::Refused(21));
}

#[test]
fn forms_with_a_path_push_out_the_others() {
    let (path_tree, template) = (node(67, [path(&["f"])]), node(67, [path(&["g"])]));
    let mut pattern = side("f", 0, &path_tree, &[fact(1, 1, [1, 3, 0])]);
    pattern.trees[1].words = node(2050, [path(&["f"])]).words();
    pattern.trees[3].words = node(2051, [node(2052, [ident("f")])]).words();
    let mut other = side("g", 0, &template, &[fact(1, 1, [2, 3, 0])]);
    other.trees[3].words = node(2051, [path(&["g"])]).words();
    let both = [pair(pattern, Some(other))];
    // The type form has no template and the pattern form no path: no 22 for them.
    assert_eq!(build(&both, 0), built(1, 0, 0, TemplateTree::Own));
    assert_eq!(build(&both, 1), Answer::Built { rules: 1, asked: None });
    let known = |resolution| {
        let (call, contains_self) = (None, false);
        Answer::Resolved(Some(ResolvedElement { resolution, call, contains_self }))
    };
    assert_eq!(resolve(&both, 0, 0, 1), known(Some(1)));
    assert_eq!(resolve(&both, 0, 1, 1), known(Some(2)));
    assert_eq!(resolve(&both, 0, 0, 0), known(None));
    for (rule, side, element) in [(1, 0, 1), (0, 2, 1), (0, 0, 5), (0, 0, u32::MAX)] {
        assert_eq!(resolve(&both, rule, side, element), Answer::Resolved(None));
    }
}

#[test]
fn a_statement_template_stands_in() {
    let pattern = side("1", 0, &number("1"), &[]);
    let statement = side("2;", 4, &node(2049, [number("2"), mark(";")]), &[]);
    let mut both = pair(pattern, Some(statement));
    assert_eq!(build(&[both.clone()], 0), built(1, 0, 0, TemplateTree::StandIn));
    both.pattern.trees[4] = both.pattern.trees[0].clone();
    assert_eq!(build(&[one_to_two(), both.clone()], 2), built(3, 1, 4, TemplateTree::Own));
    both.template.trees[0] = both.template.trees[4].clone();
    assert_eq!(build(&[both], 0), built(2, 0, 0, TemplateTree::Own));
}

#[test]
fn paths_that_must_resolve() {
    let check = |tree: &Syntax, list: &str, facts: &[[u32; 4]]| {
        let rules = rules(&[pair(side(list, 0, tree, facts), None)], "");
        checker::check(&Operation::Resolve { rules, rule: 0, side: 0, element: 0 })
    };
    assert_eq!(check(&path_expr(&["self"]), "self", &[]), Ok(()));
    assert_eq!(check(&stand_in("a"), "$a", &[]), Ok(()));
    assert_eq!(check(&stand_in("a"), "__placeholder_a", &[]), Err(22));
    // A path that is not usable is gone into: its qualifier must resolve then.
    let constant = path_expr(&["S", "C"]);
    let outer = resolved(&constant, &["S", "C"], 1, 2);
    assert_eq!(check(&constant, "S::C", &[outer]), Err(22));
    let inner = resolved(&constant, &["S"], 2, 3);
    assert_eq!(check(&constant, "S::C", &[outer, inner]), Ok(()));
    // `G<T>::f`: only `G<T>` is looked at, and nothing below it.
    let generic = node(5, [mark("<"), node(2050, [path(&["T"])]), mark(">")]);
    let qualifier = node(2, [node(3, [name_ref("G"), generic])]);
    let tree = node(67, [node(2, [qualifier.clone(), token(14, "::"), segment("f")])]);
    assert_eq!(check(&tree, "G<T>::f", &[]), Err(22));
    let usable = fact(1, find(&tree, &qualifier)[0], [1, 1, 0]);
    assert_eq!(check(&tree, "G<T>::f", &[usable]), Ok(()));
}

#[test]
fn calls_that_paths_claim() {
    let tree = call(&["S", "f"], &[stand_in("s")]);
    let at = find(&tree, &path(&["S", "f"]))[0];
    let ask = |facts: &[[u32; 4]], side_number, element| {
        let pattern = side("S::f($s)", 0, &tree, &facts[..facts.len().min(2)]);
        let template = side("S::f($s)", 0, &tree, &facts[..1]);
        resolve(&[pair(pattern, Some(template))], 0, side_number, element)
    };
    let known = |resolution, call| {
        let contains_self = false;
        Answer::Resolved(Some(ResolvedElement { resolution, call, contains_self }))
    };
    let (function, qualifier) = (fact(1, at, [7, 7, 0]), fact(4, at, [9, 0, 0]));
    assert_eq!(ask(&[function, qualifier], 0, 0), known(None, Some((7, Some(9)))));
    assert_eq!(ask(&[function], 0, 0), known(None, Some((7, None))));
    assert_eq!(ask(&[function, qualifier], 1, 0), known(None, Some((7, None))));
    assert_eq!(ask(&[function, qualifier], 0, at as u32), known(Some(7), None));
    assert_eq!(ask(&[fact(1, at, [7, 3, 0])], 0, 0), known(None, None));
    assert_eq!(ask(&[fact(1, at, [7, 5, 0])], 0, 0), known(None, Some((7, None))));
}

#[test]
fn the_later_path_claims_a_call() {
    let one = |name| node(67, [path(&[name])]);
    let tree = node(64, [one("f"), node(67, [node(2, [segment("g")])])]);
    let (f, g) = (find(&tree, &path(&["f"]))[0], find(&tree, &path(&["g"]))[0]);
    let facts = [fact(1, g, [2, 7, 0]), fact(1, f, [1, 7, 0]), fact(4, f, [9, 0, 0])];
    let answer = resolve(&[pair(side("f g", 0, &tree, &facts), None)], 0, 0, 0);
    assert_eq!(answer, Answer::Refused(19));
    let answer = resolve(&[pair(side("fg", 0, &tree, &facts), None)], 0, 0, 0);
    let Answer::Resolved(Some(element)) = answer else { panic!("{answer:?}") };
    assert_eq!(element.call, Some((2, None)));
}

#[test]
fn facts_by_side() {
    let tree = path_expr(&["f"]);
    let with = |sort: u32, values| {
        let facts = [resolved(&tree, &["f"], 1, 3), fact(sort, 1, values)];
        let plain = &facts[..1];
        let pattern = side("f", 0, &tree, if sort == 4 { &facts } else { plain });
        let template = side("f", 0, &tree, if sort == 7 { &facts } else { plain });
        let swapped =
            [pair(pattern.clone(), Some(template.clone())), pair(template, Some(pattern))];
        swapped.map(|pair| {
            let rules = rules(&[pair], "abc");
            checker::check(&Operation::Resolve { rules, rule: 0, side: 0, element: 0 })
        })
    };
    assert_eq!(with(4, [9, 0, 0]), [Ok(()), Err(21)]);
    assert_eq!(with(7, [1, 0, 3]), [Ok(()), Err(21)]);
    assert_eq!(with(7, [1, 3, 0]), [Ok(()), Err(21)]);
    assert_eq!(with(7, [1, 1, 3]), [Err(21), Err(21)]);
    assert_eq!(with(7, [1, 0x0fff_ffff, 0x0fff_ffff]), [Err(21), Err(21)]);
}

#[test]
fn matching_one_node() {
    let root = node(2048, [number("1"), token(2, " "), number("2")]);
    let check = |node, rule, range| {
        let file = file(&root, &[]);
        let rules = rules(&[one_to_two()], "");
        checker::check(&Operation::MatchNode { rules, file, node, rule, range, buffer: 0 })
    };
    assert_eq!(check(4, 0, None), Ok(()));
    assert_eq!(check(0, 0, Some((0, 4000))), Ok(()));
    assert_eq!(check(4, 0, Some((2, 2))), Ok(()));
    assert_eq!(check(4, 0, Some((3, 2))), Err(23));
    assert_eq!(check(3, 0, None), Err(23));
    assert_eq!(check(6, 0, None), Err(23));
    assert_eq!(check(u32::MAX, 0, None), Err(23));
    assert_eq!(check(4, 1, None), Err(23));
    assert_eq!(check(4, u32::MAX, None), Err(23));
}

#[test]
fn candidates() {
    let root = node(2048, vec![number("1"); 100]);
    let check = |candidates: Vec<u32>, range| {
        let job = Job {
            rules: rules(&[one_to_two()], ""),
            candidates,
            range,
            ..job_on(file(&root, &[]))
        };
        check_job(&job)
    };
    assert_eq!(check(vec![], None), Ok(()));
    assert_eq!(check(vec![0, 0, 1, 0], None), Ok(()));
    assert_eq!(check(vec![2, 0], None), Err(25));
    assert_eq!(check(vec![0, 1], None), Err(25));
    assert_eq!(check(vec![0], None), Err(25));
    assert_eq!(check(vec![0, 0, 0, 0], None), Err(26));
    assert_eq!(check(vec![0, 0, 0, 0, 2, 0], None), Err(25));
    assert_eq!(check(vec![0, 0, 0, 0], Some((2, 1))), Err(25));
    assert_eq!(check([0, 0].repeat(1024), None), Err(26));
    assert_eq!(check([0, 0].repeat(1025), None), Err(24));
    assert_eq!(check(vec![0; 2049], None), Err(24));
}

#[test]
fn number_of_rules() {
    let check = |count| {
        let job = Job { rules: rules(&vec![one_to_two(); count], ""), ..job_on(empty_file()) };
        let walk = checker::check(&Operation::Walk(job.clone()));
        (check_job(&job), walk)
    };
    assert_eq!(check(16), (Ok(()), Ok(())));
    assert_eq!(check(17), (Err(24), Err(24)));
    // The pairs may be many where 24 is not looked at.
    let operation = Operation::MatchNode {
        rules: rules(&vec![one_to_two(); 17], ""),
        file: empty_file(),
        node: 0,
        rule: 16,
        range: None,
        buffer: 0,
    };
    assert_eq!(checker::check(&operation), Ok(()));
}

#[test]
fn rules_without_a_template_and_parses() {
    let search = pair(side("1", 0, &number("1"), &[]), None);
    let mut job = Job { rules: rules(&[search], ""), ..job_on(empty_file()) };
    job.parses.words = vec![element_word(8, 0, 0)];
    assert_eq!(check_job(&job), Err(27));
    assert_eq!(checker::check(&Operation::Walk(job.clone())), Err(27));
    job.rules = rules(&[one_to_two()], "");
    assert_eq!(check_job(&job), Err(28));
    // Of the walk only the parses are left, which it looks at after matching.
    assert_eq!(checker::check(&Operation::Walk(job.clone())), Ok(()));
    assert_eq!(checker::check_parses(&job.parses), Err(28));
    job.range = Some((1, 0));
    assert_eq!(checker::check(&Operation::Walk(job.clone())), Err(25));
    // The walk does not look at candidates.
    job.range = None;
    job.candidates = vec![9; 5000];
    assert_eq!(checker::check(&Operation::Walk(job)), Ok(()));
}

#[test]
fn a_refused_operation_leaves_zeros() {
    let job = Job { buffer: 5, ..job_on(bad_tree()) };
    for operation in [Operation::Job(job.clone()), Operation::Walk(job)] {
        let outcome = checker::answer(&operation).expect("refused");
        assert_eq!((outcome.answer, outcome.buffer), (Answer::Refused(19), vec![0; 5]));
    }
}

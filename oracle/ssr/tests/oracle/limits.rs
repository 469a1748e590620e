//! What the crate is not asked, and where it is stopped.

use input::{File, Pair, TokenList};
use ssr::{Finder, MissingParse, NotFed, Stopped, Workspace, build, on_large_stack, read_tokens};

use crate::builder::*;

fn not_fed(pair: Pair) -> Option<Stopped> {
    Workspace::new(&[pair], b"", None).err()
}

#[test]
fn flags_and_qualifiers() {
    let with = |facts: fn(&Tree) -> Vec<[u32; 4]>| search(side("f()", &call(&["f"], []), facts));
    for flags in [0, 1, 2, 3, 4, 6, 7] {
        let pair = search(side("f()", &call(&["f"], []), resolves(&[("f", 1, flags)])));
        let workspace = Workspace::new(&[pair], b"", None).unwrap();
        let resolved = Finder::new(&workspace).unwrap().resolved();
        let (usable, associated) = (flags & 1 == 1, flags & 4 == 4);
        let calls = if usable && associated { vec![(0, 1, None)] } else { vec![] };
        assert_eq!(resolved[0].pattern.calls, calls);
        assert_eq!(resolved[0].pattern.paths.len(), usize::from(usable));
    }
    let flags = with(|_| vec![fact(1, 2, [1, 5, 0])]);
    assert_eq!(not_fed(flags), Some(Stopped::NotFed(NotFed::Flags)));
    let qualifier = with(|_| vec![fact(1, 2, [1, 7, 0]), fact(4, 2, [9, 0, 0])]);
    assert_eq!(not_fed(qualifier), Some(Stopped::NotFed(NotFed::Qualifier)));
}

#[test]
fn refusals_of_rules() {
    let pair = search(side("f()", &call(&["f"], []), no_facts));
    let workspace = Workspace::new(std::slice::from_ref(&pair), b"", None).unwrap();
    assert_eq!(Finder::new(&workspace).err(), Some(Stopped::Refused(22)));
    let mut without_trees = pair;
    without_trees.pattern.trees = Default::default();
    let workspace = Workspace::new(&[without_trees], b"", None).unwrap();
    assert_eq!(build(&workspace), Err(Stopped::Refused(17)));
}

#[test]
fn texts() {
    let text = Some(Stopped::NotFed(NotFed::Text));
    let list = TokenList { words: vec![0x2001_0001, 0x2001_0001], text: "é".into() };
    assert_eq!(read_tokens(&list).err(), text);
    let list = TokenList { words: vec![0x2001_0001], text: vec![0xff] };
    assert_eq!(read_tokens(&list).err(), text);
    let mut cut =
        File { tree: Tree::new(&node(OTHER, [token("a"), token("b")])).words, ..File::default() };
    cut.text = "é".into();
    assert_eq!(Workspace::new(&[], b"", Some(&cut)).err(), text);
}

#[test]
fn malformed_words() {
    let malformed = Some(Stopped::NotFed(NotFed::Malformed));
    let list = TokenList { words: vec![0x2001_0002], text: "a".into() };
    assert_eq!(read_tokens(&list).err(), malformed);
    let good = Tree::new(&node(OTHER, [node(OTHER, []), token("a")]));
    for (at, word) in
        [(0, 0x1802_0002), (0, 0x2802_0003), (3, 0x1802_0009), (6, 0x2001_0002), (8, 0x4000_0009)]
    {
        let mut file = File { tree: good.words.clone(), text: b"a".to_vec(), facts: Vec::new() };
        file.tree[at] = word;
        assert_eq!(Workspace::new(&[], b"", Some(&file)).err(), malformed, "{at}");
    }
    let missing = Finder::new(&Workspace::new(&[], b"", None).unwrap()).unwrap().walk(None).err();
    assert_eq!(missing, Some(Stopped::NotFed(NotFed::NoSuchNodeOrRule)));
}

/// A chain of nested nodes, each matched and rendered again with parentheses.
#[test]
fn exponential_rendering_is_stopped() {
    let a = || node(PATH_EXPR, [token("__placeholder_a")]);
    let pattern = node(BIN_EXPR, [token("("), a(), token(")")]);
    let template = node(OTHER, [token("__placeholder_a"), token("__placeholder_a")]);
    let pair =
        rule(side("($a)", &pattern, no_facts), side("$a __placeholder_a", &template, no_facts));
    let chain = (0..40).fold(node(LITERAL, []), |x, _| node(BIN_EXPR, [token("("), x, token(")")]));
    let file = file(chain, |tree| {
        tree.nodes(BIN_EXPR).into_iter().map(|node| fact(6, node, [1, 0, 0])).collect()
    });
    let stopped = walk(&[pair], "", &file, &parses(&[]), MissingParse::Stop).err();
    assert_eq!(stopped, Some(Stopped::NotFed(NotFed::TooLong)));
}

/// 16 rules on each of 64 nodes of one line: 1,024 matches nested in each other.
#[test]
fn the_longest_chain_fits_the_stack() {
    let length = on_large_stack(|| {
        let any = side("$a", &node(PATH_EXPR, [token("__placeholder_a")]), no_facts);
        let same = (0..120).fold(token("__placeholder_a"), |inner, _| node(OTHER, [inner]));
        let pairs = vec![rule(any, side("$a", &same, no_facts)); 16];
        let line = (1..64).fold(literal("x"), |inner, _| node(LITERAL, [inner]));
        let file = file(line, |tree| {
            tree.nodes(LITERAL).into_iter().map(|node| fact(6, node, [1, 0, 0])).collect()
        });
        let (kept, _) = walk(&pairs, "", &file, &parses(&[]), MissingParse::Stop).unwrap();
        let inner = |kept: &input::Kept| kept.inner[0].first().cloned();
        std::iter::successors(kept.into_iter().next(), inner).count()
    });
    assert_eq!(length, 1024);
}

//! Trees with facts at the limits and one beyond, and as large as they may be.

use crate::kinds::*;
use crate::limits::{deep_token, deep_tree, long, plain_file, ragged, wide, with_facts};
use input::build::{element_word, fact, node, token_list};
use input::words::{END, NODE, START, TOKEN, word};
use input::{File, RuleSide, TokenList, TreeCheck};

/// The most elements.
const MOST: usize = 16_383;

/// What a case is, what is handed in, and the number that document 01 gives it.
pub type Limit = (&'static str, TreeCheck, u32);

pub fn all() -> Vec<Limit> {
    let file = |(name, file, number)| (name, TreeCheck { tree: file, rule: None }, number);
    let mut all: Vec<Limit> = trees().into_iter().map(file).collect();
    all.push(file(("16,383 facts", with_facts(16_383), 0)));
    all.push(file(("16,384 facts", with_facts(16_384), 21)));
    all.push(file(("no words", File::default(), 19)));
    all.extend(trees().into_iter().map(|(name, file, number)| (name, on_rule(file), number)));
    all.extend(rules());
    all
}

/// Trees without facts, whose number is the same for the file and for a rule.
fn trees() -> Vec<(&'static str, File, u32)> {
    let plain = |tree| plain_file(&tree);
    let mut cases = vec![
        ("16,383 elements, wide", wide(MOST), 0),
        ("16,384 elements, wide", wide(MOST + 1), 18),
        ("49,150 words", ragged(1), 19),
        ("49,151 words", ragged(2), 19),
        ("49,152 words", ragged(3), 18),
        ("65,535 bytes", long(65_535), 0),
        ("65,536 bytes", long(65_536), 18),
        ("depth 128, a node", plain(deep_tree(128)), 0),
        ("depth 129, a node", plain(deep_tree(129)), 20),
        ("depth 128, a token", plain(deep_token(128)), 0),
        ("depth 129, a token", plain(deep_token(129)), 20),
        ("16,383 elements, chains of depth 128", chains(MOST, 128), 0),
        ("16,383 elements, chains of depth 129", chains(MOST, 129), 20),
        ("16,383 elements, each in the one before", nested(MOST), 20),
        ("16,383 elements, two to a level", comb(MOST), 20),
        ("16,384 elements, each in the one before", nested(MOST + 1), 18),
        ("16,383 elements, every second up to the end", overlapping(MOST), 19),
    ];
    let bent = |place: usize, word| {
        let mut file = nested(MOST);
        file.tree[place] = word;
        file
    };
    let last = 3 * (MOST - 1);
    cases.extend([
        ("nested, the last passes the end", bent(last, element_word(NODE, 64, 2)), 19),
        ("nested, the last has size 0", bent(last, element_word(NODE, 64, 0)), 19),
        ("nested, the last ends past the text", bent(last + 2, word(END, 1)), 19),
        ("nested, the last is a token", bent(last, element_word(TOKEN, 1, 1)), 19),
        ("nested, the middle one is short", bent(24_000, element_word(NODE, 64, 8_000)), 19),
        ("nested, the root is short", bent(0, element_word(NODE, 64, 16_382)), 19),
    ]);
    cases
}

/// Each element a node whose size is all the rest.
pub fn nested(elements: usize) -> File {
    laid(elements, |i| elements - i)
}

/// A root and below it chains of empty nodes down to a depth.
pub fn chains(elements: usize, depth: usize) -> File {
    let chain = depth - 1;
    laid(elements, |i| match i {
        0 => elements,
        _ => (chain - (i - 1) % chain).min(elements - i),
    })
}

/// A line of nodes, each with an empty node before the next one.
fn comb(elements: usize) -> File {
    laid(elements, |i| if i % 2 == 0 { elements - i } else { 1 })
}

/// Nodes of size 2, in each one whose size is all the rest: where the children of each node were
/// looked through without a look at the parents, the time would grow with the square of the size.
fn overlapping(elements: usize) -> File {
    laid(elements, |i| if i % 2 == 0 { elements - i } else { 2 })
}

/// Empty nodes of these sizes.
fn laid(elements: usize, size: impl Fn(usize) -> usize) -> File {
    let element = |i| [element_word(NODE, LITERAL, size(i) as u32), word(START, 0), word(END, 0)];
    File { tree: (0..elements).flat_map(element).collect(), ..File::default() }
}

/// The tree as a pattern's, whose list is its text.
fn on_rule(tree: File) -> TreeCheck {
    let tokens: Vec<(u32, &[u8])> = tree.text.chunks(65_535).map(|text| (STRING, text)).collect();
    let rule = RuleSide { given: 1, list: token_list(&tokens), ..RuleSide::default() };
    TreeCheck { tree, rule: Some(rule) }
}

/// What only a rule's tree has.
fn rules() -> Vec<Limit> {
    let bad_list = TokenList { words: vec![0], text: Vec::new() };
    let with = |tree, given, list| {
        let rule = RuleSide { given, list, ..RuleSide::default() };
        TreeCheck { tree, rule: Some(rule) }
    };
    let absent = |facts: Vec<u32>, bytes| {
        on_rule(File { facts, text: vec![b'x'; bytes], ..File::default() })
    };
    let none = TokenList::default;
    vec![
        ("16,383 modules at a path", modules(16_383), 0),
        ("16,384 modules at a path", modules(16_384), 21),
        ("an absent tree", absent(Vec::new(), 0), 0),
        ("an absent tree over 65,536 bytes", absent(Vec::new(), 65_536), 0),
        ("an absent tree with a fact", absent(fact(1, 0, [1, 1, 0]).to_vec(), 0), 21),
        ("an absent tree with a stray word", absent(vec![0], 0), 21),
        ("an absent tree, its list refused", with(File::default(), 1, bad_list.clone()), 1),
        ("too large, its list refused", with(wide(MOST + 1), 1, bad_list.clone()), 1),
        ("no list, well-formed", with(wide(9), 0, none()), 19),
        ("no list, too large", with(wide(MOST + 1), 0, none()), 18),
        ("no list, over 65,535 bytes", with(long(65_536), 0, none()), 18),
        ("no list, too deep", with(plain_file(&deep_tree(129)), 0, none()), 19),
        ("no list, absent", with(File::default(), 0, none()), 0),
        ("no list, absent, list words not looked at", with(File::default(), 0, bad_list), 0),
    ]
}

/// So many modules for one path of a template, their texts empty.
fn modules(count: u32) -> TreeCheck {
    let mut check = on_rule(plain_file(&node(PATH, [])));
    check.tree.facts = (0..count).flat_map(|module| fact(7, 0, [module, 0, 0])).collect();
    if let Some(rule) = &mut check.rule {
        rule.side = 1;
    }
    check
}

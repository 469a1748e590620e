//! Damaged copies of rules: the directory, the slices, a pair's parts, and the trees in every way
//! that `bent_trees` names.

use crate::bent_trees::words::*;
use crate::bent_trees::{self, HARMLESS};
use crate::damage::bytes;
use crate::kinds::EXPR_STMT;
use crate::lists;
use crate::rng::Rng;
use crate::tokens::soup;
use input::build::element_word;
use input::pairs::{ROW, decode, encode};
use input::words::{END, FACT, NODE, START, fact_element, fact_sort, word};
use input::{Pair, RuleSide, RuleTree, Rules, Side, TokenList, TreeCheck};

/// Sets these copies apart from others of the same seed.
const SALT: u64 = 0xbe27;

/// Damages a copy; false where it has nothing of the sort to damage.
type Damage = fn(&mut Rng, &mut Rules) -> bool;

/// All other ways to damage a copy but those of its trees.
const DAMAGES: [(&str, Damage); 26] = [
    ("directory: an entry one off", |rng, r| bend(rng, &mut r.directory, one_off)),
    ("directory: an entry huge", |rng, r| bend(rng, &mut r.directory, huge)),
    ("directory: one bit", |rng, r| bend(rng, &mut r.directory, other_bit)),
    ("directory: two entries swapped", |rng, r| swap(rng, &mut r.directory, ROW)),
    ("directory: a border moved", |rng, r| move_part(rng, &mut r.directory, 3)),
    ("directory: right in 32 bits", |rng, r| move_part(rng, &mut r.directory, u32::MAX)),
    ("directory: a flag", other_flag),
    ("directory: an entry dropped", |rng, r| drop_words(rng, &mut r.directory, 1)),
    ("directory: an entry added", |rng, r| add_word(rng, &mut r.directory)),
    ("directory: a row dropped", |rng, r| drop_words(rng, &mut r.directory, ROW)),
    ("directory: a row of 0 added", |_, r| more(&mut r.directory, [0; ROW])),
    ("words: word kind", |rng, r| bend(rng, &mut r.words, other_word_kind)),
    ("words: one bit", |rng, r| bend(rng, &mut r.words, other_bit)),
    ("words: two swapped", |rng, r| swap(rng, &mut r.words, 1)),
    ("words: one dropped", |rng, r| drop_words(rng, &mut r.words, 1)),
    ("words: one added", |rng, r| add_word(rng, &mut r.words)),
    ("bytes: changed", |rng, r| changed(rng, &mut r.bytes)),
    ("fact text: changed", |rng, r| changed(rng, &mut r.fact_text)),
    ("pair: dropped or repeated", other_pairs),
    ("pair: other lists", |rng, r| on_pair(rng, r, other_lists)),
    ("pair: the pattern's list for both", |rng, r| on_pair(rng, r, same_lists)),
    ("pair: no template", |rng, r| on_pair(rng, r, no_template)),
    ("pair: an empty template", |rng, r| on_pair(rng, r, empty_template)),
    ("pair: a tree in another place", |rng, r| on_side(rng, r, move_tree)),
    ("pair: a tree deep down", |rng, r| on_side(rng, r, deepen)),
    ("pair: no facts", |rng, r| {
        on_side(rng, r, |_, side| side.trees.iter_mut().for_each(no_facts))
    }),
];

/// What refuses with the numbers of lists, of which there are many.
const LISTS: (&str, Damage) =
    ("pair: another list", |rng, r| on_side(rng, r, |rng, side| side.list = lists::bent(rng)));

/// Damages a copy once or, in some cases, several times: the names of what was done.
pub fn bend_copy(seed: u64, index: u64, copy: &mut Rules) -> Vec<&'static str> {
    let rng = &mut Rng::new(&[SALT, seed, index]);
    let wanted = *rng.pick(&[1, 1, 1, 1, 2, 3]);
    let mut names = Vec::new();
    while names.len() < wanted {
        let (name, damage) = match rng.below(10) {
            0..=4 => {
                names.extend(bend_tree(rng, copy));
                continue;
            }
            5 => &LISTS,
            _ => rng.pick(&DAMAGES),
        };
        if damage(rng, copy) {
            names.push(*name);
        }
    }
    names
}

/// Whether, done by itself, this has to leave the answer as it was.
pub fn is_harmless(name: &str) -> bool {
    HARMLESS.contains(&name)
}

/// Damages a tree of a copy with its list and its facts, mostly one that is there.
fn bend_tree(rng: &mut Rng, copy: &mut Rules) -> Option<&'static str> {
    let (name, damage) = rng.pick(&bent_trees::DAMAGES);
    let mut pairs = decode(copy).filter(|pairs| !pairs.is_empty())?;
    let place = rng.below(pairs.len());
    let pair = &mut pairs[place];
    let side = u32::from(pair.has_template && rng.chance(50));
    let trees = if side == 0 { &pair.pattern.trees } else { &pair.template.trees };
    let present: Vec<usize> = (0..5).filter(|&form| !trees[form].words.is_empty()).collect();
    let form = if present.is_empty() { rng.below(5) } else { *rng.pick(&present) };
    let mut check = TreeCheck::of_rule(pair, side, form, &copy.fact_text);
    let done = damage(rng, &mut check);
    let fact_text = put_back(pair, form, check);
    *copy = encode(&pairs, &fact_text);
    done.then_some(*name)
}

/// Puts a tree with its list in the place that it has now: the fact text.
fn put_back(pair: &mut Pair, form: usize, check: TreeCheck) -> Vec<u8> {
    let RuleSide { given, list, side, fact_text } = check.rule.unwrap_or_default();
    if side != 0 {
        pair.has_template = given != 0;
    }
    let of = if side == 0 { &mut pair.pattern } else { &mut pair.template };
    of.list = list;
    of.code = check.tree.text;
    of.trees[form] = RuleTree { words: check.tree.tree, facts: check.tree.facts };
    fact_text
}

fn one_off(rng: &mut Rng, old: u32) -> u32 {
    if rng.chance(50) { old.wrapping_add(1) } else { old.wrapping_sub(1) }
}

fn huge(rng: &mut Rng, _: u32) -> u32 {
    *rng.pick(&[u32::MAX, u32::MAX - 1, 1 << 31, 0x0fff_ffff, 65_536])
}

/// Up to `most` of one entry go to another that counts the same, words or bytes.
fn move_part(rng: &mut Rng, directory: &mut [u32], most: u32) -> bool {
    let Some(row) = place(rng, directory, ROW) else { return false };
    let bytes = [1, 2, 5, 6];
    let words: Vec<usize> =
        (0..ROW).filter(|entry| !bytes.contains(entry) && *entry != 3).collect();
    let entries = if rng.chance(30) { &bytes[..] } else { &words };
    let (from, to) = (row + rng.pick(entries), row + rng.pick(entries));
    let amount = 1 + rng.below(most as usize) as u32;
    directory[from] = directory[from].wrapping_sub(amount);
    directory[to] = directory[to].wrapping_add(amount);
    from != to
}

/// Another number where a template is said to be given or not.
fn other_flag(rng: &mut Rng, copy: &mut Rules) -> bool {
    let Some(row) = place(rng, &copy.directory, ROW) else { return false };
    let flag = &mut copy.directory[row + 3];
    *flag = *rng.pick(&[1 - (*flag).min(1), 2, 256, 1 << 31, u32::MAX]);
    true
}

fn more<T, const N: usize>(slice: &mut Vec<T>, added: [T; N]) -> bool {
    slice.extend(added);
    true
}

fn changed(rng: &mut Rng, text: &mut Vec<u8>) -> bool {
    bytes(rng, text);
    true
}

/// Changes the pairs; false where there are none or the directory is refused.
fn on_pairs(copy: &mut Rules, change: impl FnOnce(&mut Vec<Pair>)) -> bool {
    let Some(mut pairs) = decode(copy).filter(|pairs| !pairs.is_empty()) else { return false };
    change(&mut pairs);
    *copy = encode(&pairs, &copy.fact_text);
    true
}

fn on_pair(rng: &mut Rng, copy: &mut Rules, change: fn(&mut Rng, &mut Pair)) -> bool {
    on_pairs(copy, |pairs| {
        let place = rng.below(pairs.len());
        change(rng, &mut pairs[place]);
    })
}

/// Changes a pattern or a template that is given.
fn on_side(rng: &mut Rng, copy: &mut Rules, change: fn(&mut Rng, &mut Side)) -> bool {
    on_pairs(copy, |pairs| {
        let place = rng.below(pairs.len());
        let Pair { pattern, has_template, template } = &mut pairs[place];
        let side = if *has_template && rng.chance(50) { template } else { pattern };
        change(rng, side);
    })
}

fn other_pairs(rng: &mut Rng, copy: &mut Rules) -> bool {
    on_pairs(copy, |pairs| {
        let place = rng.below(pairs.len());
        if rng.chance(50) {
            pairs.remove(place);
        } else {
            pairs.insert(place, pairs[place].clone());
        }
    })
}

fn other_lists(rng: &mut Rng, pair: &mut Pair) {
    pair.has_template = true;
    pair.pattern.list = soup(rng, false);
    pair.template.list = soup(rng, true);
}

/// A template with the pattern's list, whose constraints it may not have.
fn same_lists(_: &mut Rng, pair: &mut Pair) {
    pair.has_template = true;
    pair.template.list = pair.pattern.list.clone();
    pair.template.code = pair.pattern.code.clone();
}

/// The template's trees may stay, which refuses them.
fn no_template(rng: &mut Rng, pair: &mut Pair) {
    pair.has_template = false;
    pair.template.list = TokenList::default();
    pair.template.code = Vec::new();
    if rng.chance(50) {
        pair.template = Side::default();
    }
}

fn empty_template(_: &mut Rng, pair: &mut Pair) {
    pair.has_template = true;
    pair.template = Side::default();
}

/// A tree goes to another form, or is there twice.
fn move_tree(rng: &mut Rng, side: &mut Side) {
    let (from, to) = (rng.below(5), rng.below(5));
    if rng.chance(50) {
        side.trees.swap(from, to);
    } else {
        side.trees[to] = side.trees[from].clone();
    }
}

/// So many nodes around a tree that it is as deep as it may be, or one deeper.
fn deepen(rng: &mut Rng, side: &mut Side) {
    let end = side.code.len() as u32;
    let tree = &mut side.trees[rng.below(5)];
    let elements = tree.words.len() / 3;
    let around = 128 - deepest(&tree.words).min(128) + usize::from(rng.chance(70));
    if elements == 0 || elements + around > 4_000 {
        return;
    }
    let size = |i: usize| (elements + around - i) as u32;
    let node = |i| [element_word(NODE, EXPR_STMT, size(i)), word(START, 0), word(END, end)];
    tree.words.splice(0..0, (0..around).flat_map(node));
    for [head, ..] in tree.facts.as_chunks_mut::<4>().0 {
        *head = word(FACT, fact_sort(*head) << 24 | (fact_element(*head) + around as u32));
    }
}

/// The depth of a well-formed tree.
fn deepest(words: &[u32]) -> usize {
    let mut ends: Vec<usize> = Vec::new();
    let mut deepest = 0;
    for (i, element) in words.chunks_exact(3).enumerate() {
        ends.retain(|end| *end > i);
        ends.push(i + (element[0] & 0xffff) as usize);
        deepest = deepest.max(ends.len());
    }
    deepest
}

fn no_facts(tree: &mut RuleTree) {
    tree.facts.clear();
}

//! Checking trees with their facts: the file's and a rule's.

use input::words::{
    END, FACT, FACT_VALUE, NODE, START, TOKEN, fact_element, fact_sort, low16, syntax_kind, value,
    word_kind,
};
use input::{File, RuleSide, TreeCheck};

use super::lists::read;

/// Whose facts they are; a template's may point into a fact text of so many bytes.
#[derive(Clone, Copy)]
enum Place {
    File,
    Pattern,
    Template(usize),
}

/// The number of a tree with its facts, 0 where nothing refuses.
pub fn check_tree(check: &TreeCheck) -> u32 {
    match &check.rule {
        None => check_file(&check.tree),
        Some(rule) => check_rule_tree(&check.tree, rule),
    }
}

/// 18 to 21, 0 where nothing refuses.
pub fn check_file(file: &File) -> u32 {
    if is_too_large(file) { 18 } else { check_words(file, Place::File) }
}

/// 1 to 13 and 18 to 21, 0 where nothing refuses.
pub fn check_rule_tree(tree: &File, rule: &RuleSide) -> u32 {
    let list = match (rule.given != 0).then(|| read(&rule.list)).transpose() {
        Ok(list) => list,
        Err(number) => return number,
    };
    if tree.tree.is_empty() {
        return if tree.facts.is_empty() { 0 } else { 21 };
    }
    if is_too_large(tree) {
        return 18;
    }
    if !list.is_some_and(|list| list.has_code(&rule.list, &tree.text)) {
        return 19;
    }
    let template = Place::Template(rule.fact_text.len());
    check_words(tree, if rule.side == 0 { Place::Pattern } else { template })
}

fn is_too_large(file: &File) -> bool {
    file.tree.len() / 3 > 16_383 || file.text.len() > 65_535
}

/// 19 to 21, 0 where nothing refuses.
fn check_words(file: &File, place: Place) -> u32 {
    let File { tree, text, facts } = file;
    match check_elements(tree, text.len()) {
        None => 19,
        Some(depth) if depth > 128 => 20,
        Some(_) if check_facts(tree, facts, place).is_none() => 21,
        Some(_) => 0,
    }
}

/// The depth of a tree, in one pass; nothing for a malformed one.
fn check_elements(tree: &[u32], text: usize) -> Option<usize> {
    let (elements, rest) = tree.as_chunks::<3>();
    let &[root, _, end] = elements.first()?;
    let whole = word_kind(root) == NODE && low16(root) as usize == elements.len();
    if !rest.is_empty() || !whole || value(end) as usize != text {
        return None;
    }
    // The nodes around an element: where their elements end, and where their text does.
    let mut around: Vec<(u32, u32)> = Vec::with_capacity(128);
    let (mut place, mut depth) = (0, 0);
    let mut last = elements.len() as u32;
    for (i, &[head, start, end]) in (0u32..).zip(elements) {
        while last == i {
            let (_, end) = around.pop()?;
            if end != place {
                return None;
            }
            last = around.last()?.0;
        }
        let next = i + low16(head);
        if word_kind(end) != END || start != START << 28 | place || next > last {
            return None;
        }
        depth = depth.max(around.len() + 1);
        match word_kind(head) {
            NODE if syntax_kind(head) != 0 && next > i + 1 => {
                around.push((next, value(end)));
                last = next;
            }
            NODE if syntax_kind(head) != 0 && next == i + 1 && value(end) == place => {}
            TOKEN if is_token(head) && value(end) > place => place = value(end),
            _ => return None,
        }
    }
    around.iter().all(|(_, end)| *end == place).then_some(depth)
}

fn is_token(head: u32) -> bool {
    (1..=1023).contains(&syntax_kind(head)) && low16(head) == 1
}

/// Nothing for malformed facts of a tree that passed.
fn check_facts(tree: &[u32], facts: &[u32], place: Place) -> Option<()> {
    let (quadruples, rest) = facts.as_chunks::<4>();
    if !rest.is_empty() || quadruples.len() > 16_383 {
        return None;
    }
    let mut keys: Vec<u64> = Vec::with_capacity(quadruples.len());
    for &[head, first, second, third] in quadruples {
        let kinds = [first, second, third].iter().all(|word| word_kind(*word) == FACT_VALUE);
        let (sort, element) = (fact_sort(head), fact_element(head));
        let node = *tree.get(3 * element as usize)?;
        let values = [first, second, third].map(value);
        let fits = word_kind(node) == NODE
            && match place {
                Place::File => fits_file(tree, node, sort, element, values),
                Place::Pattern => fits_rule(node, sort, values, None),
                Place::Template(fact_text) => fits_rule(node, sort, values, Some(fact_text)),
            };
        if word_kind(head) != FACT || !kinds || !fits {
            return None;
        }
        let at = if sort == 3 || sort == 7 { values[0] } else { 0 };
        keys.push(u64::from(sort) << 52 | u64::from(element) << 28 | u64::from(at));
    }
    keys.sort_unstable();
    let (mut before, steps) = (None, 3 << 52..4 << 52);
    for key in keys {
        let later = steps.contains(&key) && key & 0x0fff_ffff > 0;
        if before == Some(key) || later && before != Some(key - 1) {
            return None;
        }
        before = Some(key);
    }
    Some(())
}

fn fits_file(
    tree: &[u32],
    node: u32,
    sort: u32,
    element: u32,
    [first, second, third]: [u32; 3],
) -> bool {
    let kind = syntax_kind(node);
    match sort {
        0 => kind == 2 && second == 0 && third == 0,
        2 => kind == 65 && second <= 1 && third <= 2,
        3 => (64..=1023).contains(&kind) && third == 0,
        5 => {
            let inside = element < first && first < element + low16(node);
            let token = || word_kind(tree[3 * first as usize]) == TOKEN;
            kind == 9 && inside && token() && second == 0 && third == 0
        }
        6 => second == 0 && third == 0,
        _ => false,
    }
}

fn fits_rule(node: u32, sort: u32, [_, second, third]: [u32; 3], fact_text: Option<usize>) -> bool {
    syntax_kind(node) == 2
        && match (sort, fact_text) {
            (1, _) => second <= 7 && third == 0,
            (4, None) => second == 0 && third == 0,
            (7, Some(length)) => second as usize + third as usize <= length,
            _ => false,
        }
}

//! The directory of pairs: one row of 27 lengths a pair (docs/FORMAT.md, "Rules").

use crate::Rules;

/// A token list: its words and the text that its tokens fill.
#[derive(Clone, Debug, Default, PartialEq, Eq)]
pub struct TokenList {
    pub words: Vec<u32>,
    pub text: Vec<u8>,
}

/// A rule tree with its facts; no words: absent.
#[derive(Clone, Debug, Default, PartialEq, Eq)]
pub struct RuleTree {
    pub words: Vec<u32>,
    pub facts: Vec<u32>,
}

/// One side of a pair: its token list, the raw code its trees were parsed from, and the trees of the five forms.
#[derive(Clone, Debug, Default, PartialEq, Eq)]
pub struct Side {
    pub list: TokenList,
    pub code: Vec<u8>,
    pub trees: [RuleTree; 5],
}

/// A pair. Without a template list `template` has an empty list and code; its trees may still be handed in (and refuse).
#[derive(Clone, Debug, Default, PartialEq, Eq)]
pub struct Pair {
    pub pattern: Side,
    pub has_template: bool,
    pub template: Side,
}

/// Lengths in a row of the directory.
pub const ROW: usize = 27;

/// The pairs laid out as they are handed in.
pub fn encode(pairs: &[Pair], fact_text: &[u8]) -> Rules {
    let mut rules = Rules { fact_text: fact_text.to_vec(), ..Rules::default() };
    for pair in pairs {
        let (p, t) = (&pair.pattern, &pair.template);
        rules.directory.extend([length(&p.list.words), length(&p.list.text), length(&p.code)]);
        rules.directory.push(u32::from(pair.has_template));
        rules.directory.extend([length(&t.list.words), length(&t.list.text), length(&t.code)]);
        rules.words.extend(p.list.words.iter().chain(&t.list.words));
        for bytes in [&p.list.text, &p.code, &t.list.text, &t.code] {
            rules.bytes.extend(bytes);
        }
        for form in 0..5 {
            for tree in [&p.trees[form], &t.trees[form]] {
                rules.directory.extend([length(&tree.words), length(&tree.facts)]);
                rules.words.extend(tree.words.iter().chain(&tree.facts));
            }
        }
    }
    rules
}

fn length<T>(part: &[T]) -> u32 {
    u32::try_from(part.len()).expect("a part's length fits a word")
}

/// The pairs of a directory, or nothing where it is malformed (refusal 1).
pub fn decode(rules: &Rules) -> Option<Vec<Pair>> {
    if !rules.directory.len().is_multiple_of(ROW) {
        return None;
    }
    let (mut words, mut bytes) = (rules.words.as_slice(), rules.bytes.as_slice());
    let mut pairs = Vec::new();
    for row in rules.directory.chunks(ROW) {
        let has_template = match row[3] {
            0 if row[4..7] == [0, 0, 0] => false,
            1 => true,
            _ => return None,
        };
        let mut pair = Pair { has_template, ..Pair::default() };
        pair.pattern.list.words = cut(&mut words, row[0])?;
        pair.template.list.words = cut(&mut words, row[4])?;
        pair.pattern.list.text = cut(&mut bytes, row[1])?;
        pair.pattern.code = cut(&mut bytes, row[2])?;
        pair.template.list.text = cut(&mut bytes, row[5])?;
        pair.template.code = cut(&mut bytes, row[6])?;
        for (form, lengths) in row[7..].chunks(4).enumerate() {
            pair.pattern.trees[form] = tree(&mut words, lengths[0], lengths[1])?;
            pair.template.trees[form] = tree(&mut words, lengths[2], lengths[3])?;
        }
        pairs.push(pair);
    }
    (words.is_empty() && bytes.is_empty()).then_some(pairs)
}

fn tree(words: &mut &[u32], tree: u32, facts: u32) -> Option<RuleTree> {
    Some(RuleTree { words: cut(words, tree)?, facts: cut(words, facts)? })
}

fn cut<T: Clone>(from: &mut &[T], length: u32) -> Option<Vec<T>> {
    let (part, rest) = from.split_at_checked(length as usize)?;
    *from = rest;
    Some(part.to_vec())
}

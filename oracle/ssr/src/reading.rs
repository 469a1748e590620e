//! Token lists: reading, checking a pair, raw code. Each is asked of the crate through `FromStr`,
//! with a tree for every form so that building has something to build.

use std::rc::Rc;

use ide_db::FxHashMap;
use input::{Placeholder, TokenList, words};
use parser::{Edition, LexedStr, Tokens};
use syntax::tree::Tree;
use syntax::{SmolStr, SyntaxKind};

use crate::feed::tokens;
use crate::fragments::{self, PairTrees, Trees};
use crate::parsing::{self, Constraint, ParsedRule};
use crate::run::run;
use crate::{NotFed, SsrPattern, SsrRule, Stopped};

/// The placeholders in list order, or the crate's refusal (2 to 12).
pub fn read_tokens(list: &TokenList) -> Result<Vec<Placeholder>, Stopped> {
    let tokens = tokens(list)?;
    let found = read(&tokens)?;
    names(list, &tokens)?.iter().map(|name| with_constraints(name, &found)).collect()
}

/// A placeholder's name and where it stands in the list's text.
struct PlacedName {
    name: String,
    start: u32,
    length: u32,
}

/// The names of the placeholders in list order.
///
/// The crate keeps placeholders in a map. Their order is asked of it too: a prefix of the list
/// reads fine exactly where a token or a placeholder ends, so the tokens between one such prefix
/// and the next are one element, and a placeholder's name is the token after its `$` or `${`.
fn names(list: &TokenList, tokens: &Tokens) -> Result<Vec<PlacedName>, Stopped> {
    let mut names = Vec::new();
    let (mut start, mut known) = (0, 0);
    for end in 1..=tokens.len() {
        let count = match read(&tokens[..end].to_vec()) {
            Ok(found) => found.len(),
            Err(Stopped::Refused(_)) => continue,
            Err(other) => return Err(other),
        };
        if count > known {
            let braces = usize::from(tokens[start + 1].0 != SyntaxKind::IDENT);
            let at = start + 1 + braces;
            names.push(PlacedName {
                name: tokens[at].1.clone(),
                start: list.words[..at].iter().map(|word| words::low16(*word)).sum(),
                length: words::low16(list.words[at]),
            });
        }
        (start, known) = (end, count);
    }
    Ok(names)
}

fn with_constraints(
    placed: &PlacedName,
    found: &FxHashMap<SmolStr, parsing::Placeholder>,
) -> Result<Placeholder, Stopped> {
    let placeholder = found.values().find(|placeholder| placeholder.ident.0 == placed.name);
    let placeholder = placeholder.ok_or(NotFed::Malformed)?;
    let nots = placeholder.constraints.iter().map(nots).collect();
    Ok(Placeholder { name_start: placed.start, name_length: placed.length, nots })
}

fn nots(constraint: &Constraint) -> u32 {
    match constraint {
        Constraint::Kind(_) => 0,
        Constraint::Not(inner) => 1 + nots(inner),
    }
}

/// The raw code of a list, or the crate's refusal (2 to 12).
pub fn raw_code(list: &TokenList) -> Result<String, Stopped> {
    let (_, code) = parse(tokens(list)?, None, dummy_trees(false))?;
    Ok(code)
}

/// Nothing if the pair is fine, or the lowest of its refusals (2 to 12, 14, 15).
pub fn check_pair(pattern: &TokenList, template: Option<&TokenList>) -> Result<(), Stopped> {
    let lists = [Some(pattern), template];
    let mut lowest = None;
    for list in lists.into_iter().flatten() {
        match read(&tokens(list)?) {
            Ok(_) => {}
            Err(Stopped::Refused(number)) => {
                lowest = Some(lowest.map_or(number, |other: u32| other.min(number)));
            }
            Err(other) => return Err(other),
        }
    }
    if let Some(number) = lowest {
        return Err(Stopped::Refused(number));
    }
    let template = template.map(tokens).transpose()?;
    let trees = dummy_trees(template.is_some());
    parse(tokens(pattern)?, template, trees).map(|_| ())
}

/// Hands a list in for [`parse_once`] and [`tokens_once`].
pub fn hand_in(list: &TokenList) -> Result<(), Stopped> {
    parser::hand_in(vec![("pattern", tokens(list)?)]);
    Ok(())
}

/// Has the crate read the list handed in, once and no more: whether it reads. This is for timing.
pub fn parse_once() -> bool {
    "pattern".parse::<parsing::RawPattern>().is_ok()
}

/// What of [`parse_once`] is done before the crate reads: the tokens with their texts are made, by
/// the stand-ins.
pub fn tokens_once() -> usize {
    let lexed = LexedStr::new(Edition::CURRENT, "pattern");
    let token = |i| (lexed.kind(i), SmolStr::from(lexed.text(i)));
    let tokens: Vec<(SyntaxKind, SmolStr)> = (0..lexed.len()).map(token).collect();
    tokens.len()
}

fn read(tokens: &Tokens) -> Result<FxHashMap<SmolStr, parsing::Placeholder>, Stopped> {
    let (mut rules, _) = parse(tokens.clone(), None, dummy_trees(false))?;
    Ok(rules.swap_remove(0).placeholders_by_stand_in)
}

fn dummy_trees(template: bool) -> PairTrees {
    let tree: Rc<Tree> = Tree::context();
    let trees: Trees = std::array::from_fn(|_| Some(tree.root()));
    PairTrees { pattern: trees.clone(), template: template.then_some(trees) }
}

/// Has the crate read one pair: the parsed rules and the pattern's raw code.
pub(crate) fn parse(
    pattern: Tokens,
    template: Option<Tokens>,
    trees: PairTrees,
) -> Result<(Vec<ParsedRule>, String), Stopped> {
    let has_template = template.is_some();
    parser::hand_in(vec![("pattern", pattern), ("template", template.unwrap_or_default())]);
    fragments::start_building(trees);
    let parsed = run(|| {
        if has_template {
            "pattern==>>template".parse().map(|rule: SsrRule| rule.parsed_rules)
        } else {
            "pattern".parse().map(|pattern: SsrPattern| pattern.parsed_rules)
        }
    });
    let code = fragments::finish_building();
    parser::hand_in(Vec::new());
    Ok((parsed??, code))
}

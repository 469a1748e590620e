//! What is handed in, decoded for the crate.

use std::rc::Rc;

use ide_db::RootDatabase;
use input::{File, Pair, Parses, RuleTree, Side, TokenList, words};
use parser::Tokens;
use syntax::tree::{Origin, Tree, TreeError};
use syntax::{SyntaxKind, SyntaxNode, TextRange};

use crate::fragments::{PairTrees, ParseTable, Trees};
use crate::{NotFed, Stopped};

/// The rules' lists, trees and facts and, where it is needed, the file.
pub struct Workspace {
    pub(crate) db: RootDatabase,
    pub(crate) pairs: Vec<FedPair>,
    pub(crate) file: Option<Rc<Tree>>,
}

pub(crate) struct FedPair {
    pub(crate) pattern: Tokens,
    pub(crate) template: Option<Tokens>,
    pub(crate) trees: PairTrees,
    /// The pattern's list as it was handed in.
    pub(crate) pattern_list: TokenList,
}

impl Workspace {
    pub fn new(
        pairs: &[Pair],
        fact_text: &[u8],
        file: Option<&File>,
    ) -> Result<Workspace, Stopped> {
        let fact_text = Rc::from(fact_text);
        let mut workspace =
            Workspace { db: RootDatabase::default(), pairs: Vec::new(), file: None };
        for (number, pair) in pairs.iter().enumerate() {
            let number = u32::try_from(number).map_err(|_| NotFed::Malformed)?;
            let fed = feed_pair(number, pair, &fact_text)?;
            for tree in fed.trees.template.iter().flatten().flatten() {
                workspace.db.add_template_tree(tree.tree().clone());
            }
            workspace.pairs.push(fed);
        }
        if let Some(file) = file {
            let none = Rc::from([]);
            let tree = Tree::decode(Origin::File, &file.tree, &file.text, &file.facts, &none);
            workspace.file = Some(tree.map_err(not_fed)?);
        }
        Ok(workspace)
    }
}

fn feed_pair(number: u32, pair: &Pair, fact_text: &Rc<[u8]>) -> Result<FedPair, NotFed> {
    let pattern_trees = trees(number, &pair.pattern, false, fact_text)?;
    let mut fed = FedPair {
        pattern: tokens(&pair.pattern.list)?,
        template: None,
        trees: PairTrees { pattern: pattern_trees, template: None },
        pattern_list: pair.pattern.list.clone(),
    };
    if pair.has_template {
        fed.template = Some(tokens(&pair.template.list)?);
        fed.trees.template = Some(trees(number, &pair.template, true, fact_text)?);
    }
    Ok(fed)
}

fn trees(pair: u32, side: &Side, template: bool, fact_text: &Rc<[u8]>) -> Result<Trees, NotFed> {
    let mut trees = Trees::default();
    for (form, (place, handed)) in trees.iter_mut().zip(&side.trees).enumerate() {
        if !handed.words.is_empty() {
            let origin = Origin::Rule { pair, form: form as u32, template };
            *place = Some(rule_tree(origin, handed, &side.code, fact_text)?);
        }
    }
    Ok(trees)
}

fn rule_tree(
    origin: Origin,
    handed: &RuleTree,
    code: &[u8],
    fact_text: &Rc<[u8]>,
) -> Result<SyntaxNode, NotFed> {
    let tree =
        Tree::decode(origin, &handed.words, code, &handed.facts, fact_text).map_err(not_fed)?;
    for (sort, element, values) in tree.facts() {
        if sort == 1 && values[1] == 5 {
            return Err(NotFed::Flags);
        }
        let path = tree.node(element).ok_or(NotFed::Malformed)?;
        if sort == 4 && path.children().all(|child| child.kind() != SyntaxKind::PATH) {
            return Err(NotFed::Qualifier);
        }
    }
    Ok(tree.root())
}

fn not_fed(error: TreeError) -> NotFed {
    match error {
        TreeError::Malformed => NotFed::Malformed,
        TreeError::Text => NotFed::Text,
    }
}

impl From<NotFed> for Stopped {
    fn from(not_fed: NotFed) -> Stopped {
        Stopped::NotFed(not_fed)
    }
}

/// The tokens of a list: kind and text.
pub(crate) fn tokens(list: &TokenList) -> Result<Tokens, NotFed> {
    let mut rest = std::str::from_utf8(&list.text).map_err(|_| NotFed::Text)?;
    let mut tokens = Tokens::new();
    for word in &list.words {
        let length = words::low16(*word) as usize;
        if words::word_kind(*word) != words::TOKEN || length > rest.len() {
            return Err(NotFed::Malformed);
        }
        let (text, after) = rest.split_at_checked(length).ok_or(NotFed::Text)?;
        let kind = SyntaxKind::token(words::syntax_kind(*word) as u16);
        tokens.push((kind, text.to_owned()));
        rest = after;
    }
    if rest.is_empty() { Ok(tokens) } else { Err(NotFed::Malformed) }
}

/// The handed parses by kind and text. A text that is not UTF-8 is left out: the crate renders
/// UTF-8 and cannot ask for it.
pub(crate) fn parse_table(parses: &Parses) -> Result<ParseTable, NotFed> {
    let mut table = ParseTable::new();
    let mut rest = parses.words.as_slice();
    while !rest.is_empty() {
        let (head, after) = rest.split_at_checked(3).ok_or(NotFed::Malformed)?;
        let count = words::low16(head[0]) as usize;
        let (ranges, after) = after.split_at_checked(2 * count).ok_or(NotFed::Malformed)?;
        let ranges: Result<Vec<TextRange>, NotFed> = ranges.chunks(2).map(range).collect();
        let tree = Tree::of_ranges(&ranges?).map(|tree| tree.root());
        let (start, end) = (words::value(head[1]) as usize, words::value(head[2]) as usize);
        let text = parses.text.get(start..end).ok_or(NotFed::Malformed)?;
        if let Ok(text) = std::str::from_utf8(text) {
            table.entry(words::syntax_kind(head[0])).or_default().insert(text.to_owned(), tree);
        }
        rest = after;
    }
    Ok(table)
}

fn range(two: &[u32]) -> Result<TextRange, NotFed> {
    let (start, end) = (words::value(two[0]), words::value(two[1]));
    if start > end { Err(NotFed::Malformed) } else { Ok(TextRange::new(start.into(), end.into())) }
}

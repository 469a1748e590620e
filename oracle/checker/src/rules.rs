//! The trees of all pairs (18 to 21), the rules left (17) and their resolving (22).

use crate::facts::{Facts, Place};
use crate::lists::PairLists;
use crate::lowest::Lowest;
use crate::tokens::{ReadList, STAND_IN, read_tokens};
use crate::tree::{Tree, check_limits};
use input::{BuiltRule, File, Pair, RuleSide, Side, TemplateTree};
use std::collections::BTreeMap;

const PATH: u32 = 2;
const PATH_SEGMENT: u32 = 3;
const NAME_REF: u32 = 4;
const GENERIC_ARGUMENTS: u32 = 5;
const SELF: u32 = 11;
const CALL_EXPR: u32 = 64;
const USABLE: u32 = 1;
const ASSOCIATED: u32 = 4;

/// A tree that passed, with its facts.
type Checked = Option<(Tree, Facts)>;

/// The trees of a pair, by form.
pub struct PairTrees {
    pattern: [Checked; 5],
    template: [Checked; 5],
}

/// Checks every tree of every pair; `fact_text` is none where facts are not looked at (building).
pub fn read_trees(
    pairs: &[Pair],
    lists: &[PairLists],
    fact_text: Option<usize>,
) -> Result<Vec<PairTrees>, u32> {
    let mut lowest = Lowest::default();
    let mut all = Vec::new();
    for (pair, lists) in pairs.iter().zip(lists) {
        let side = |side, list, place| read_side(side, list, place, fact_text);
        let pattern = lowest.keep(side(&pair.pattern, Some(&lists.pattern), Place::Pattern));
        let template = lowest.keep(side(&pair.template, lists.template.as_ref(), Place::Template));
        if let (Some(pattern), Some(template)) = (pattern, template) {
            all.push(PairTrees { pattern, template });
        }
    }
    lowest.end().map(|()| all)
}

fn read_side(
    side: &Side,
    list: Option<&ReadList>,
    place: Place,
    fact_text: Option<usize>,
) -> Result<[Checked; 5], u32> {
    let wanted = list.map(ReadList::trimmed_code);
    let mut lowest = Lowest::default();
    let mut trees = [const { None }; 5];
    for (form, tree) in side.trees.iter().enumerate() {
        let (words, facts) = (&tree.words, &tree.facts);
        let result = read_tree(words, &side.code, wanted.as_deref(), facts, place, fact_text);
        trees[form] = lowest.keep(result).flatten();
    }
    lowest.end().map(|()| trees)
}

/// Checks a rule's tree that is handed in by itself, after its list: 1 to 13, 18 to 21.
pub fn check_rule_tree(tree: &File, beside: &RuleSide) -> Result<(), u32> {
    let list = (beside.given != 0).then(|| read_tokens(&beside.list)).transpose()?;
    let wanted = list.as_ref().map(ReadList::trimmed_code);
    let place = if beside.side == 0 { Place::Pattern } else { Place::Template };
    let fact_text = Some(beside.fact_text.len());
    read_tree(&tree.tree, &tree.text, wanted.as_deref(), &tree.facts, place, fact_text).map(drop)
}

fn read_tree(
    words: &[u32],
    code: &[u8],
    wanted: Option<&[u8]>,
    facts: &[u32],
    place: Place,
    fact_text: Option<usize>,
) -> Result<Checked, u32> {
    let mut found = None;
    if !words.is_empty() {
        // Without its list no text is the right one.
        if wanted.is_none() {
            check_limits(words, code)?;
            return Err(19);
        }
        found = Some(Tree::read(words, code, wanted)?);
    }
    let facts = match fact_text {
        Some(length) => Facts::read(facts, found.as_ref(), place, length)?,
        None => Facts::default(),
    };
    Ok(found.map(|tree| (tree, facts)))
}

/// A tree of a rule with what resolving finds in it.
#[derive(Debug)]
pub struct Resolved {
    pub tree: Tree,
    /// The resolution of each resolved path.
    pub paths: BTreeMap<usize, u32>,
    /// Function and qualifier type of each call that a resolved path claims.
    pub calls: BTreeMap<usize, (u32, Option<u32>)>,
    pub contains_self: bool,
    pub facts: Facts,
}

/// A rule left after building.
#[derive(Debug)]
pub struct Rule {
    pub pair: u32,
    pub form: u32,
    pub template_tree: TemplateTree,
    /// The stand-in names of the pattern's placeholders, in pattern order.
    pub stand_ins: Vec<Vec<u8>>,
    /// For each placeholder the `not`s of each of its constraints.
    pub nots: Vec<Vec<u32>>,
    pub pattern: Resolved,
    pub template: Option<Resolved>,
}

impl Rule {
    /// What building says of it.
    pub fn built(&self) -> BuiltRule {
        BuiltRule { pair: self.pair, form: self.form, template: self.template_tree }
    }

    /// The placeholder that a stand-in name names.
    pub fn placeholder(&self, text: &[u8]) -> Option<usize> {
        self.stand_ins.iter().position(|name| name == text)
    }
}

/// The rules left, by pair and then by form, not resolved yet; 17 if a pair has none.
pub fn build(lists: &[PairLists], trees: Vec<PairTrees>) -> Result<Vec<Rule>, u32> {
    let mut all = Vec::new();
    for (pair, (lists, trees)) in lists.iter().zip(trees).enumerate() {
        let mut rules = pair_rules(pair as u32, lists, trees);
        if rules.is_empty() {
            return Err(17);
        }
        if rules.iter().any(has_path) {
            rules.retain(has_path);
        }
        all.extend(rules);
    }
    Ok(all)
}

fn pair_rules(pair: u32, lists: &PairLists, trees: PairTrees) -> Vec<Rule> {
    let stand_ins: Vec<Vec<u8>> =
        lists.pattern.names().iter().map(|name| [STAND_IN, name].concat()).collect();
    let nots = lists.pattern.placeholders.iter().map(|placeholder| placeholder.nots.clone());
    let nots: Vec<Vec<u32>> = nots.collect();
    let mut rules = Vec::new();
    for form in 0..5 {
        let Some(pattern) = &trees.pattern[form] else {
            continue;
        };
        let (template_tree, template) = match &lists.template {
            None => (TemplateTree::None, &None),
            Some(_) if form == 0 && trees.template[0].is_none() => {
                (TemplateTree::StandIn, &trees.template[4])
            }
            Some(_) => (TemplateTree::Own, &trees.template[form]),
        };
        if template_tree == TemplateTree::None || template.is_some() {
            rules.push(Rule {
                pair,
                form: form as u32,
                template_tree,
                stand_ins: stand_ins.clone(),
                nots: nots.clone(),
                pattern: unresolved(pattern),
                template: template.as_ref().map(unresolved),
            });
        }
    }
    rules
}

fn unresolved((tree, facts): &(Tree, Facts)) -> Resolved {
    Resolved {
        tree: tree.clone(),
        paths: BTreeMap::new(),
        calls: BTreeMap::new(),
        contains_self: tree.tokens_below(0).any(|token| tree.is_token(token, SELF)),
        facts: facts.clone(),
    }
}

fn has_path(rule: &Rule) -> bool {
    let tree = &rule.pattern.tree;
    (0..tree.elements.len()).any(|i| tree.is_node(i, PATH))
}

/// Resolves the rules left; 22 if a path that must resolve has no fact.
pub fn resolve(rules: &mut [Rule]) -> Result<(), u32> {
    for rule in rules {
        resolve_tree(&mut rule.pattern, &rule.stand_ins)?;
        if let Some(template) = &mut rule.template {
            resolve_tree(template, &rule.stand_ins)?;
        }
    }
    Ok(())
}

fn resolve_tree(resolved: &mut Resolved, stand_ins: &[Vec<u8>]) -> Result<(), u32> {
    let tree = &resolved.tree;
    let mut i = 0;
    while i < tree.elements.len() {
        let size = tree.elements[i].size;
        if tree.is_node(i, PATH) && is_self(tree, i) {
            i += size;
            continue;
        }
        if tree.is_node(i, PATH) && must_resolve(tree, i, stand_ins) {
            let [resolution, flags, _] = resolved.facts.get(1, i).ok_or(22u32)?;
            if flags & USABLE != 0 {
                resolved.paths.insert(i, resolution);
                i += size;
                continue;
            }
        }
        i += 1;
    }
    claim_calls(resolved);
    Ok(())
}

/// The calls that resolved paths of associated functions claim; the later path counts.
fn claim_calls(resolved: &mut Resolved) {
    let elements = &resolved.tree.elements;
    for (&path, &resolution) in &resolved.paths {
        let grandparent = elements[path].parent.and_then(|parent| elements[parent].parent);
        let flags = resolved.facts.get(1, path).map_or(0, |values| values[1]);
        if let Some(call) = grandparent
            && elements[call].kind == CALL_EXPR
            && flags & ASSOCIATED != 0
        {
            let qualifier = resolved.facts.get(4, path).map(|values| values[0]);
            resolved.calls.insert(call, (resolution, qualifier));
        }
    }
}

fn must_resolve(tree: &Tree, path: usize, stand_ins: &[Vec<u8>]) -> bool {
    let qualifier = tree.first_child(path, PATH);
    !qualifiers(tree, qualifier).any(|path| has_generic_arguments(tree, path))
        && !qualifiers(tree, Some(path)).any(|path| is_placeholder(tree, path, stand_ins))
}

/// A path, its first PATH child, that one's, and so on.
fn qualifiers(tree: &Tree, path: Option<usize>) -> impl Iterator<Item = usize> {
    std::iter::successors(path, |&path| tree.first_child(path, PATH))
}

fn has_generic_arguments(tree: &Tree, path: usize) -> bool {
    tree.first_child(path, PATH_SEGMENT)
        .is_some_and(|segment| tree.first_child(segment, GENERIC_ARGUMENTS).is_some())
}

/// The first token of the NAME_REF of a path's segment.
fn name_token(tree: &Tree, path: usize) -> Option<usize> {
    let segment = tree.first_child(path, PATH_SEGMENT)?;
    let name = tree.first_child(segment, NAME_REF)?;
    tree.first_token(name)
}

fn is_self(tree: &Tree, path: usize) -> bool {
    name_token(tree, path).is_some_and(|token| tree.is_token(token, SELF))
}

/// By the text alone, whatever the kind of the token.
fn is_placeholder(tree: &Tree, path: usize, stand_ins: &[Vec<u8>]) -> bool {
    name_token(tree, path)
        .is_some_and(|token| stand_ins.iter().any(|name| name == tree.text_of(token)))
}

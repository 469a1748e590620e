//! Building and resolving, asked of the crate.

use crate::predicates::{Difference, of_lists, of_resolving, of_rules};
use crate::whole_rules::{JudgedSide, Sides, built_answer, resolved_answer};
use input::{Answer, BuiltRule, Operation, Pair, Rules, Side, TemplateTree, pairs, words};
use ssr::{Finder, NotFed, ResolvedRuleSides, Stopped, Workspace};

fn pairs_of(rules: &Rules) -> Result<Vec<Pair>, Stopped> {
    pairs::decode(rules).ok_or(Stopped::NotFed(NotFed::Malformed))
}

/// The lowest refusal of the lists of all pairs.
fn lists_refusal(pairs: &[Pair]) -> Result<Option<u32>, Stopped> {
    let mut lowest = None;
    for pair in pairs {
        let template = pair.has_template.then_some(&pair.template.list);
        match ssr::check_pair(&pair.pattern.list, template) {
            Ok(()) => {}
            Err(Stopped::Refused(number)) => {
                lowest = Some(lowest.map_or(number, |other: u32| other.min(number)));
            }
            Err(other) => return Err(other),
        }
    }
    Ok(lowest)
}

/// An answer of the crate, or its refusal.
pub(crate) type Asked<T> = Result<Result<T, u32>, Stopped>;

fn asked<T>(result: Result<T, Stopped>) -> Asked<T> {
    match result {
        Ok(found) => Ok(Ok(found)),
        Err(Stopped::Refused(number)) => Ok(Err(number)),
        Err(other) => Err(other),
    }
}

/// The rules that the crate leaves.
pub(crate) fn all_built(pairs: &[Pair], fact_text: &[u8]) -> Asked<Vec<BuiltRule>> {
    if let Some(number) = lists_refusal(pairs)? {
        return Ok(Err(number));
    }
    let workspace = Workspace::new(pairs, fact_text, None)?;
    asked(ssr::build(&workspace))
}

/// What the crate resolves, for each rule that it leaves.
pub(crate) fn all_resolved(pairs: &[Pair], fact_text: &[u8]) -> Asked<Vec<Sides>> {
    if let Some(number) = lists_refusal(pairs)? {
        return Ok(Err(number));
    }
    let workspace = Workspace::new(pairs, fact_text, None)?;
    let sides = |finder: Finder| {
        let resolved = finder.resolved().into_iter();
        resolved.zip(finder.rules()).map(|(sides, built)| sides_of(pairs, built, sides)).collect()
    };
    asked(Finder::new(&workspace).map(sides))
}

fn sides_of(pairs: &[Pair], built: &BuiltRule, sides: ResolvedRuleSides) -> Sides {
    let pair = &pairs[built.pair as usize];
    let template_form = if built.template == TemplateTree::StandIn { 4 } else { built.form };
    let judged = |side: &Side, form: u32, resolved| {
        let root = side.trees[form as usize].words.first();
        JudgedSide { elements: root.map_or(0, |root| words::low16(*root) as usize), resolved }
    };
    let pattern = judged(&pair.pattern, built.form, sides.pattern);
    let template = sides.template.map(|side| judged(&pair.template, template_form, side));
    [Some(pattern), template]
}

pub(crate) fn build(rules: &Rules, rule: u32) -> Result<Answer, Stopped> {
    let built = all_built(&pairs_of(rules)?, &rules.fact_text)?;
    Ok(built_answer(&built, rule as usize))
}

pub(crate) fn resolve(
    rules: &Rules,
    rule: u32,
    side: u32,
    element: u32,
) -> Result<Answer, Stopped> {
    let resolved = all_resolved(&pairs_of(rules)?, &rules.fact_text)?;
    Ok(resolved_answer(&resolved, rule as usize, side, element as usize))
}

/// The crate's refusal of rules: of a list or a pair, 17 or 22.
pub(crate) fn refusal(rules: &Rules) -> Result<Answer, Stopped> {
    match resolve(rules, 0, 0, 0)? {
        Answer::Refused(number) => Ok(Answer::Refused(number)),
        _ => Ok(Answer::Valid),
    }
}

/// The listed differences that cover an operation's lists or rules.
pub(crate) fn covered(operation: &Operation) -> Vec<Difference> {
    let rules = match operation {
        Operation::ReadTokens { list } | Operation::RawCode { list, .. } => {
            return of_lists([list]).into_iter().collect();
        }
        Operation::CheckPair { pattern, template } => {
            return of_lists([pattern].into_iter().chain(template)).into_iter().collect();
        }
        Operation::Build { rules, .. }
        | Operation::Resolve { rules, .. }
        | Operation::MatchNode { rules, .. } => rules,
        Operation::Job(job) | Operation::Walk(job) => &job.rules,
    };
    let pairs = pairs::decode(rules).unwrap_or_default();
    if matches!(operation, Operation::Resolve { .. }) {
        return of_resolving(&pairs);
    }
    of_rules(&pairs)
}

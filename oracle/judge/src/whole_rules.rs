//! All rules of a call at once: those left, and what each resolves to. So every question of building
//! and resolving has its answer, and the crate is asked but once.

use crate::is_own;
use crate::predicates::{Difference, of_resolving};
use crate::rules::{Asked, all_built, all_resolved};
use checker::{Resolved, Rule, built_rules, checked_rules};
use input::{Answer, BuiltRule, Pair, ResolvedElement, Rules, pairs};
use ssr::{NotFed, ResolvedSide, Stopped};
use std::fmt::Debug;

/// A tree of a rule: how many elements it has, and what resolving finds in it.
#[derive(Clone, Debug, PartialEq, Eq)]
pub struct JudgedSide {
    pub elements: usize,
    pub resolved: ResolvedSide,
}

/// Pattern and template of a rule.
pub type Sides = [Option<JudgedSide>; 2];

/// What the crate's own source says to an answer of the checker.
#[derive(Clone, Debug)]
pub enum Backing {
    Same,
    /// It is refused with a number that the crate does not have.
    NotAsked,
    NotFed(NotFed),
    /// They differ as a listed difference lets them, and in nothing else.
    Listed,
    /// How they differ.
    Other(String),
}

/// The checker's answer, what there is or the refusal, held against the crate's.
#[derive(Debug)]
pub struct Held<T> {
    pub answer: Result<T, u32>,
    pub backing: Backing,
}

/// What is known of the rules of a call.
#[derive(Debug)]
pub struct WholeRules {
    /// The rules left.
    pub built: Held<Vec<BuiltRule>>,
    /// What each of them resolves to.
    pub resolved: Held<Vec<Sides>>,
}

impl WholeRules {
    /// The answer of building that asks for a rule.
    pub fn built_answer(&self, rule: usize) -> Answer {
        built_answer(&self.built.answer, rule)
    }

    /// The answer of resolving that asks for an element.
    pub fn resolved_answer(&self, rule: usize, side: u32, element: usize) -> Answer {
        resolved_answer(&self.resolved.answer, rule, side, element)
    }
}

/// Judges all rules of a call. Facts are no part of building, so the crate builds without them.
pub fn whole_rules(rules: &Rules) -> WholeRules {
    // Of a directory that is refused (1) the crate is not asked.
    let pairs = pairs::decode(rules).unwrap_or_default();
    let bare: Vec<Pair> = pairs.iter().cloned().map(without_facts).collect();
    let built = built_rules(rules).map(|rules| rules.iter().map(Rule::built).collect());
    let resolved = checked_rules(rules, None).map(|rules| rules.iter().map(sides).collect());
    let covered = of_resolving(&pairs);
    WholeRules {
        built: held(
            built,
            || all_built(&bare, b""),
            |found, answer| is_refusal_listed(&covered, found, answer),
        ),
        resolved: held(
            resolved,
            || all_resolved(&pairs, &rules.fact_text),
            |found, answer| {
                is_refusal_listed(&covered, found, answer)
                    || is_call_listed(&covered, found, answer)
            },
        ),
    }
}

/// The pair as building sees it.
pub fn without_facts(mut pair: Pair) -> Pair {
    for tree in pair.pattern.trees.iter_mut().chain(&mut pair.template.trees) {
        tree.facts.clear();
    }
    pair
}

pub(crate) fn held<T: PartialEq + Debug>(
    answer: Result<T, u32>,
    ask: impl FnOnce() -> Asked<T>,
    is_listed: impl FnOnce(&Result<T, u32>, &Result<T, u32>) -> bool,
) -> Held<T> {
    let own = answer.as_ref().is_err_and(|number| is_own(*number));
    let backing = match (!own).then(ask) {
        None => Backing::NotAsked,
        Some(Err(Stopped::NotFed(not_fed))) => Backing::NotFed(not_fed),
        Some(Ok(found)) if found == answer => Backing::Same,
        Some(Ok(found)) if is_listed(&found, &answer) => Backing::Listed,
        Some(other) => Backing::Other(format!("the crate has {other:?}, the checker {answer:?}")),
    };
    Held { answer, backing }
}

/// Of a list with a ninth placeholder the crate names another fault, or one behind it.
pub(crate) fn is_refusal_listed<T>(
    covered: &[Difference],
    found: &Result<T, u32>,
    answer: &Result<T, u32>,
) -> bool {
    covered.contains(&Difference::NinthPlaceholder) && found.is_err() && answer.is_err()
}

/// Of two paths that claim a call either may count: its function and its type.
fn is_call_listed(
    covered: &[Difference],
    found: &Result<Vec<Sides>, u32>,
    answer: &Result<Vec<Sides>, u32>,
) -> bool {
    let (Ok(found), Ok(answer)) = (found, answer) else { return false };
    let bare = |rules: &[Sides]| {
        let mut rules = rules.to_vec();
        let calls = |side: &mut JudgedSide| {
            side.resolved.calls.iter_mut().for_each(|call| *call = (call.0, 0, None));
        };
        rules.iter_mut().flatten().flatten().for_each(calls);
        rules
    };
    covered.contains(&Difference::TwoPathsOneCall) && bare(found) == bare(answer)
}

/// The sides of a rule as the checker resolved it.
fn sides(rule: &Rule) -> Sides {
    [Some(&rule.pattern), rule.template.as_ref()].map(|side| side.map(judged_side))
}

fn judged_side(side: &Resolved) -> JudgedSide {
    let number = |element: &usize| *element as u32;
    let paths = side.paths.iter().map(|(path, resolution)| (number(path), *resolution));
    let calls = side.calls.iter().map(|(call, (function, kind))| (number(call), *function, *kind));
    let resolved = ResolvedSide {
        paths: paths.collect(),
        calls: calls.collect(),
        contains_self: side.contains_self,
    };
    JudgedSide { elements: side.tree.elements.len(), resolved }
}

pub(crate) fn built_answer(built: &Result<Vec<BuiltRule>, u32>, rule: usize) -> Answer {
    match built {
        Ok(built) => Answer::Built { rules: built.len() as u32, asked: built.get(rule).copied() },
        Err(number) => Answer::Refused(*number),
    }
}

pub(crate) fn resolved_answer(
    resolved: &Result<Vec<Sides>, u32>,
    rule: usize,
    side: u32,
    element: usize,
) -> Answer {
    let rules = match resolved {
        Ok(rules) => rules,
        Err(number) => return Answer::Refused(*number),
    };
    let side = rules.get(rule).and_then(|sides| sides.get(side as usize)?.as_ref());
    let found = side.filter(|side| element < side.elements);
    Answer::Resolved(found.map(|side| about(&side.resolved, element as u32)))
}

fn about(side: &ResolvedSide, element: u32) -> ResolvedElement {
    let path = side.paths.iter().find(|path| path.0 == element);
    let call = side.calls.iter().find(|call| call.0 == element);
    ResolvedElement {
        resolution: path.map(|path| path.1),
        call: call.map(|call| (call.1, call.2)),
        contains_self: side.contains_self,
    }
}

//! All nodes of a file with all rules of a call: the crate is made ready once for all questions. What
//! it answers is held against the checker's own matching, which also answers where the crate cannot be
//! asked.

use crate::predicates::{Difference, of_rules};
use crate::rules::all_resolved;
use crate::whole_rules::{Backing, held, is_refusal_listed};
use checker::{Attempt, Facts, Found, Rule, Tree, Ways, checked_file, checked_rules, refused};
use input::{Answer, File, Matched, Outcome, Pair, Rules, pairs, used};
use ssr::{Finder, Stopped, Workspace};

/// What is asked about one node. Numbers may be as large as they like.
#[derive(Clone, Copy, Debug, PartialEq, Eq)]
pub struct MatchQuestion {
    pub node: usize,
    pub rule: usize,
    pub range: Option<(usize, usize)>,
    /// The length of the buffer.
    pub buffer: usize,
}

/// What is known of the answer to a question.
#[derive(Debug)]
pub struct JudgedMatch {
    pub outcome: Outcome,
    pub backing: Backing,
    /// The ways that matching went, none where the question is refused.
    pub ways: Ways,
}

/// Rules and a file, made ready.
pub struct WholeMatches<'a> {
    checked: Result<Checked, u32>,
    /// What the crate's own source says to what the checker says of rules and file.
    backing: Backing,
    covered: Vec<Difference>,
    finder: Option<Finder<'a>>,
}

struct Checked {
    rules: Vec<Rule>,
    file: (Tree, Facts),
}

/// Makes rules and a file ready, and asks. Deep matches need `ssr::on_large_stack`.
pub fn whole_matches<T>(rules: &Rules, file: &File, ask: impl FnOnce(&WholeMatches<'_>) -> T) -> T {
    let checked = checked(rules, file);
    // Of a directory that is refused (1) the crate is not asked.
    let pairs = pairs::decode(rules).unwrap_or_default();
    let covered = of_rules(&pairs);
    let without_finder = |checked: Result<Checked, u32>, backing| WholeMatches {
        checked,
        backing,
        covered: covered.clone(),
        finder: None,
    };
    if let Err(number) = checked {
        let backing = refusal_backing(&pairs, rules, number, &covered);
        return ask(&without_finder(checked, backing));
    }
    let workspace = match Workspace::new(&pairs, &rules.fact_text, Some(file)) {
        Ok(workspace) => workspace,
        Err(stopped) => return ask(&without_finder(checked, stopped_backing(stopped))),
    };
    match Finder::new(&workspace) {
        Ok(finder) => {
            let backing = rules_backing(&finder, &checked);
            ask(&WholeMatches { checked, backing, covered, finder: Some(finder) })
        }
        Err(stopped) => ask(&without_finder(checked, stopped_backing(stopped))),
    }
}

fn checked(rules: &Rules, file: &File) -> Result<Checked, u32> {
    let rules = checked_rules(rules, Some(file))?;
    Ok(Checked { rules, file: checked_file(file)? })
}

/// What the crate says to rules that the checker refuses.
pub(crate) fn refusal_backing(
    pairs: &[Pair],
    rules: &Rules,
    number: u32,
    covered: &[Difference],
) -> Backing {
    let ask = || all_resolved(pairs, &rules.fact_text).map(|found| found.map(drop));
    held(Err(number), ask, |found, answer| is_refusal_listed(covered, found, answer)).backing
}

/// The crate stopped where the checker found nothing to refuse.
pub(crate) fn stopped_backing(stopped: Stopped) -> Backing {
    match stopped {
        Stopped::NotFed(not_fed) => Backing::NotFed(not_fed),
        other => Backing::Other(format!("the crate has {other:?}, the checker no refusal")),
    }
}

/// Both leave the same rules, or no answer to a question is the crate's.
fn rules_backing(finder: &Finder, checked: &Result<Checked, u32>) -> Backing {
    let rules = checked.as_ref().map_or(&[][..], |checked| &checked.rules);
    if finder.rules().iter().copied().eq(rules.iter().map(Rule::built)) {
        return Backing::Same;
    }
    Backing::Other(format!("the crate has the rules {:?}", finder.rules()))
}

impl WholeMatches<'_> {
    /// The number that all questions are refused with, 0 where none is.
    pub fn number(&self) -> u32 {
        self.checked.as_ref().err().copied().unwrap_or(0)
    }

    /// How many rules there are, none where they are refused.
    pub fn rules(&self) -> usize {
        self.checked.as_ref().map_or(0, |checked| checked.rules.len())
    }

    /// The numbers of the file's nodes, none where something is refused.
    pub fn nodes(&self) -> Vec<usize> {
        let Ok(checked) = &self.checked else { return Vec::new() };
        let elements = &checked.file.0.elements;
        (0..elements.len()).filter(|&element| elements[element].node).collect()
    }

    /// The bytes of a node.
    pub fn range(&self, node: usize) -> Option<(usize, usize)> {
        let element = self.checked.as_ref().ok()?.file.0.elements.get(node)?;
        Some((element.start, element.end))
    }

    pub fn ask(&self, question: MatchQuestion) -> JudgedMatch {
        let refuse = |number, backing| JudgedMatch {
            outcome: refused(number, question.buffer),
            backing,
            ways: Ways::default(),
        };
        let checked = match &self.checked {
            Ok(checked) => checked,
            Err(number) => return refuse(*number, self.backing.clone()),
        };
        let MatchQuestion { node, rule, range, buffer } = question;
        let is_node = checked.file.0.elements.get(node).is_some_and(|element| element.node);
        let backward = range.is_some_and(|(start, end)| start > end);
        let rule = checked.rules.get(rule).filter(|_| is_node && !backward);
        let Some(rule) = rule else { return refuse(23, Backing::NotAsked) };
        let Attempt { found, ways } = checker::match_node(rule, &checked.file, node, range);
        let backing = self.backing_of(question, found.as_ref());
        let outcome = outcome(&checked.file.0, found.as_ref(), buffer);
        JudgedMatch { outcome, backing, ways }
    }

    /// What the crate says to the checker's match.
    fn backing_of(&self, question: MatchQuestion, found: Option<&Found>) -> Backing {
        let Some(finder) = self.finder.as_ref().filter(|_| matches!(self.backing, Backing::Same))
        else {
            return self.backing.clone();
        };
        // No element has such numbers, so that the largest of 32 bits stands for those above it.
        let low = |number: usize| u32::try_from(number).unwrap_or(u32::MAX);
        let range = question.range.map(|(start, end)| (low(start), low(end)));
        match finder.get_match(low(question.node), low(question.rule), range) {
            Ok(own) if is_same(own.as_ref(), found) => Backing::Same,
            Ok(_) if self.covered.contains(&Difference::TwoPathsOneCall) => Backing::Listed,
            Ok(own) => Backing::Other(format!("the crate has {own:?}, the checker {found:?}")),
            Err(Stopped::NotFed(not_fed)) => Backing::NotFed(not_fed),
            Err(other) => Backing::Other(format!("the crate has {other:?}, the checker {found:?}")),
        }
    }
}

fn is_same(own: Option<&Matched>, found: Option<&Found>) -> bool {
    let (own, found) = match (own, found) {
        (Some(own), Some(found)) => (own, found),
        (own, found) => return own.is_none() && found.is_none(),
    };
    let comments = found.notes.first(own.comments.len() + 1);
    let own_comments = own.comments.iter().map(|comment| *comment as usize);
    own.bindings == found.bindings && own_comments.eq(comments)
}

/// The outcome of a question that is not refused before matching.
fn outcome(file: &Tree, found: Option<&Found>, buffer: usize) -> Outcome {
    let Some(found) = found else {
        return Outcome { answer: Answer::NoMatch, buffer: vec![0; used(buffer)] };
    };
    if found.notes.length > used(buffer) as u128 {
        return refused(16, buffer);
    }
    let comments = found.notes.first(usize::MAX);
    let mut text: Vec<u8> = comments.iter().flat_map(|&c| file.text_of(c)).copied().collect();
    let answer = Answer::Match { bindings: found.bindings, comments: text.len() };
    text.resize(used(buffer), 0);
    Outcome { answer, buffer: text }
}

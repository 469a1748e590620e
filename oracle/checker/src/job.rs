//! A whole job or walk by the checker alone: its candidates matched, its matches nested, its list written.

use crate::answer::{padded, refused};
use crate::check::{checked_candidates, checked_file, checked_walk};
use crate::facts::Facts;
use crate::job_ways::{JobWay, JobWays};
use crate::matching::match_node;
use crate::nest::nest;
use crate::parses::read_parses;
use crate::rules::Rule;
use crate::tree::Tree;
use crate::write::{Event, Source, is_asked, write_list};
use input::{Answer, Job, Kept, Matched, Outcome, Parses, Task, used};
use std::collections::BTreeMap;

const IDENT: u32 = 1;
const DEFINITION: u32 = 2;
/// The most matches of a walk.
pub const MATCHES: usize = 1_024;

/// A job or walk that nothing refuses before its parses (28) are looked at, with its matches nested.
pub struct WholeJob {
    rules: Vec<Rule>,
    file: (Tree, Facts),
    fact_text: Vec<u8>,
    /// The accepted candidates in their order. Of noted comments there are no more than could ever fit.
    pub matches: Vec<Matched>,
    pub kept: Vec<Kept>,
    ways: JobWays,
}

/// What writing gave: a list, or the event that ended it.
pub struct Written {
    pub laid: Laid,
    pub ways: JobWays,
}

/// The bytes that a buffer holds, and what they are.
pub enum Laid {
    List(Vec<u8>),
    Asked(u32, Vec<u8>),
    Refused(u32),
}

impl Laid {
    /// The outcome with a buffer of so many bytes, which the bytes fit.
    pub fn outcome(self, buffer: usize) -> Outcome {
        let (answer, bytes) = match self {
            Laid::List(list) => (Answer::Edits(list.len()), list),
            Laid::Asked(kind, text) => (Answer::Asked { kind, length: text.len() }, text),
            Laid::Refused(number) => return refused(number, buffer),
        };
        Outcome { answer, buffer: padded(bytes, buffer) }
    }
}

impl WholeJob {
    /// Checks, matches and nests; 1 to 27.
    pub fn new(task: Task, job: &Job) -> Result<WholeJob, u32> {
        let rules = match task {
            Task::Job => checked_candidates(job)?,
            Task::Walk => checked_walk(job)?,
        };
        let file = checked_file(&job.file)?;
        let matches = match task {
            Task::Job => {
                let candidates = job.candidates.chunks_exact(2).map(|pair| (pair[0], pair[1]));
                found(&rules, &file, candidates, job.range).collect()
            }
            Task::Walk => walked(&rules, &file, job.range)?,
        };
        let (kept, mut ways) = nest(&file.0, matches.clone());
        ways.insert_if(has_two_modules(&kept), JobWay::TwoModules);
        let fact_text = job.rules.fact_text.clone();
        Ok(WholeJob { rules, file, fact_text, matches, kept, ways })
    }

    /// Writes with these parses in this room; 28 to 30, Asked or the list.
    pub fn write(&self, parses: &Parses, buffer: usize) -> Written {
        let parses = match read_parses(parses) {
            Ok(parses) => parses,
            Err(number) => return Written { laid: Laid::Refused(number), ways: self.ways },
        };
        let parses = parses.into_iter().map(|parse| ((parse.kind, parse.text), parse));
        let source = Source {
            rules: &self.rules,
            file: &self.file.0,
            fact_text: &self.fact_text,
            parses: parses.collect::<BTreeMap<_, _>>(),
        };
        let (result, ways) = write_list(&source, used(buffer), &self.kept);
        let laid = match result {
            Ok(list) => Laid::List(list),
            Err(Event::Refused(number)) => Laid::Refused(number),
            Err(Event::Asked(kind, text)) => Laid::Asked(kind, text),
        };
        Written { laid, ways: self.ways.with(ways) }
    }

    /// How often the crate renders a template at most: nested texts in both renderings of what holds
    /// them, and wherever a template has their capture.
    pub fn renderings(&self) -> u64 {
        self.renderings_of(&self.kept)
    }

    fn renderings_of(&self, collection: &[Kept]) -> u64 {
        collection.iter().fold(0, |sum, kept| {
            let rule = &self.rules[kept.matched.rule as usize];
            let inner = kept.inner.iter().enumerate().filter(|(_, inner)| !inner.is_empty());
            let inside = inner.fold(1, |sum: u64, (slot, inner)| {
                sum.saturating_add(uses(rule, slot).saturating_mul(self.renderings_of(inner)))
            });
            let root = rule.template.as_ref().map_or(0, |template| template.tree.elements[0].kind);
            sum.saturating_add(inside.saturating_mul(if is_asked(root) { 2 } else { 1 }))
        })
    }
}

/// How often a template has a capture.
fn uses(rule: &Rule, slot: usize) -> u64 {
    let Some(template) = &rule.template else { return 0 };
    let tree = &template.tree;
    let is_use = |&token: &usize| {
        tree.is_token(token, IDENT) && rule.placeholder(tree.text_of(token)) == Some(slot)
    };
    tree.tokens_below(0).filter(is_use).count() as u64
}

/// The matches among every node with every rule; 24 where they are too many.
fn walked(
    rules: &[Rule],
    file: &(Tree, Facts),
    range: Option<(u32, u32)>,
) -> Result<Vec<Matched>, u32> {
    let nodes = (0..).zip(&file.0.elements).filter(|(_, element)| element.node);
    let candidates =
        nodes.flat_map(|(node, _)| (0..rules.len() as u32).map(move |rule| (node, rule)));
    let matches: Vec<Matched> = found(rules, file, candidates, range).take(MATCHES + 1).collect();
    if matches.len() > MATCHES { Err(24) } else { Ok(matches) }
}

/// The candidates that match.
fn found(
    rules: &[Rule],
    file: &(Tree, Facts),
    candidates: impl Iterator<Item = (u32, u32)>,
    range: Option<(u32, u32)>,
) -> impl Iterator<Item = Matched> {
    let range = range.map(|(start, end)| (start as usize, end as usize));
    candidates
        .filter_map(move |(node, rule)| matched(&rules[rule as usize], file, (node, rule), range))
}

fn matched(
    rule: &Rule,
    file: &(Tree, Facts),
    (node, number): (u32, u32),
    range: Option<(usize, usize)>,
) -> Option<Matched> {
    let found = match_node(rule, file, node as usize, range).found?;
    // A comment has a byte, so that one more than there are bytes in a buffer never fits.
    let comments = found.notes.first(used(usize::MAX) + 1);
    Some(Matched {
        node,
        rule: number,
        bindings: found.bindings,
        comments: comments.into_iter().map(|comment| comment as u32).collect(),
        paths: paths(rule, &file.1, node as usize),
    })
}

/// The texts of the template's definitions for the module of a matched node.
fn paths(rule: &Rule, facts: &Facts, node: usize) -> Vec<(u32, u32, u32)> {
    let (Some(template), Some([module, ..])) = (&rule.template, facts.get(6, node)) else {
        return Vec::new();
    };
    let text = |&path: &usize| {
        let [_, flags, _] = template.facts.get(1, path)?;
        let [_, start, length] = template.facts.get_at(7, path, module)?;
        (flags & DEFINITION != 0).then_some((path as u32, start, length))
    };
    template.paths.keys().filter_map(text).collect()
}

/// Whether two kept matches of one rule have other path texts.
fn has_two_modules(kept: &[Kept]) -> bool {
    let mut known: BTreeMap<u32, &[(u32, u32, u32)]> = BTreeMap::new();
    let mut waiting: Vec<&Kept> = kept.iter().collect();
    while let Some(kept) = waiting.pop() {
        let paths = &kept.matched.paths[..];
        if *known.entry(kept.matched.rule).or_insert(paths) != paths {
            return true;
        }
        waiting.extend(kept.inner.iter().flatten());
    }
    false
}

//! The whole outcome of an operation where no matching is needed.

use crate::check::{built_rules, check, checked_rules};
use crate::rules::Rule;
use crate::tokens::read_tokens;
use input::{Answer, Operation, Outcome, ResolvedElement, Rules, used};

/// The outcome of a refused operation, of reading tokens, checking a pair, writing raw code,
/// building and resolving; nothing where matching decides.
pub fn answer(operation: &Operation) -> Option<Outcome> {
    if let Err(number) = check(operation) {
        return Some(refused(number, buffer(operation)));
    }
    let (answer, text) = match operation {
        Operation::ReadTokens { list } => {
            (Answer::Placeholders(read_tokens(list).ok()?.placeholders), Vec::new())
        }
        Operation::CheckPair { .. } => (Answer::Valid, Vec::new()),
        Operation::RawCode { list, .. } => {
            let code = read_tokens(list).ok()?.raw_code();
            (Answer::RawCode(code.len()), code)
        }
        Operation::Build { rules, rule } => (built(rules, *rule)?, Vec::new()),
        Operation::Resolve { rules, rule, side, element } => {
            (resolved(rules, *rule, *side, *element)?, Vec::new())
        }
        Operation::MatchNode { .. } | Operation::Job(_) | Operation::Walk(_) => return None,
    };
    Some(Outcome { answer, buffer: padded(text, buffer(operation)) })
}

/// A refusal returns its number only and leaves the used part of the buffer all 0.
pub fn refused(number: u32, buffer: usize) -> Outcome {
    Outcome { answer: Answer::Refused(number), buffer: padded(Vec::new(), buffer) }
}

/// A result, then 0 up to the end of the used part.
pub fn padded(mut result: Vec<u8>, buffer: usize) -> Vec<u8> {
    result.resize(used(buffer), 0);
    result
}

fn buffer(operation: &Operation) -> usize {
    match operation {
        Operation::RawCode { buffer, .. } | Operation::MatchNode { buffer, .. } => *buffer,
        Operation::Job(job) | Operation::Walk(job) => job.buffer,
        _ => 0,
    }
}

fn built(rules: &Rules, asked: u32) -> Option<Answer> {
    let rules = built_rules(rules).ok()?;
    let asked = rules.get(asked as usize).map(Rule::built);
    Some(Answer::Built { rules: rules.len() as u32, asked })
}

fn resolved(rules: &Rules, rule: u32, side: u32, element: u32) -> Option<Answer> {
    let rules = checked_rules(rules, None).ok()?;
    let rule = rules.get(rule as usize);
    Some(Answer::Resolved(rule.and_then(|rule| resolved_element(rule, side, element as usize))))
}

fn resolved_element(rule: &Rule, side: u32, element: usize) -> Option<ResolvedElement> {
    let resolved = match side {
        0 => &rule.pattern,
        1 => rule.template.as_ref()?,
        _ => return None,
    };
    resolved.tree.elements.get(element)?;
    Some(ResolvedElement {
        resolution: resolved.paths.get(&element).copied(),
        call: resolved.calls.get(&element).copied(),
        contains_self: resolved.contains_self,
    })
}

//! Asks the oracle a case's walk, stage by stage, and compares the answers.

use input::edits::{Edit, apply};
use input::{Answer, Job, Matched, Operation, TemplateTree, pairs, used, words};
use judge::judge;
use judge::predicates::{Difference, Shape, of_matches, of_rules};
use ssr::{Finder, MissingParse, Rendering, Stopped, Workspace, check_pair};

use corpus::case::{Case, CaseAnswer, CaseMatch};

/// How a case compares: nothing if equal, else what differs; and the predicates that cover it.
/// The judge has document 01's differences in it, so it is held to the very bytes.
pub struct Comparison {
    pub difference: Option<String>,
    pub covered: Vec<Difference>,
    pub judged: Option<String>,
}

type Compared = Result<(), String>;

/// How the crate's panic at an unbound placeholder of the template begins.
const UNBOUND: &str = "Internal error: replacement referenced unknown placeholder";

pub fn compare(case: &Case) -> Comparison {
    let mut covered = of_rules(&case.pairs);
    let difference = walk(case, &mut covered).err();
    Comparison { difference, covered, judged: judged(case).err() }
}

/// The walk with a buffer of all the room there may be, judged.
fn judged(case: &Case) -> Compared {
    let walk = Operation::Walk(Job {
        rules: pairs::encode(&case.pairs, &case.fact_text),
        file: case.file.clone(),
        candidates: Vec::new(),
        range: case.restrict,
        parses: case.parses.clone(),
        buffer: used(usize::MAX),
    });
    let judgement = judge(&walk);
    let outcome = judgement.outcome.ok_or("the judge has no outcome")?;
    let (same, rest) = match (&case.answer, &outcome.answer) {
        (CaseAnswer::Refused(number), Answer::Refused(found)) => (number == found, 0),
        (CaseAnswer::Edits(list, _), Answer::Edits(length)) => {
            (outcome.buffer[..*length] == list[..], *length)
        }
        _ => (false, 0),
    };
    if same && outcome.buffer[rest..].iter().all(|byte| *byte == 0) {
        Ok(())
    } else {
        Err(format!("judged {:?}", outcome.answer))
    }
}

fn walk(case: &Case, covered: &mut Vec<Difference>) -> Compared {
    if let Some(number) = lists_stage(case)? {
        return refused(case, number);
    }
    let workspace =
        Workspace::new(&case.pairs, &case.fact_text, Some(&case.file)).map_err(shown)?;
    // The crate names 17 while it builds and 22 while it resolves, in document 01's order.
    let finder = match Finder::new(&workspace) {
        Ok(finder) => finder,
        Err(Stopped::Refused(number)) => return refused(case, number),
        Err(stopped) => return Err(shown(stopped)),
    };
    let rules: Vec<(u32, u32)> = finder.rules().iter().map(|rule| (rule.pair, rule.form)).collect();
    if case.rules.as_ref() != Some(&rules) {
        return Err("rules left".to_owned());
    }
    let found = finder.walk(case.restrict).map_err(shown)?;
    let matched = finder.matched(&found);
    compare_matches(case, &matched)?;
    // 27 is document 01's; the crate panics once such a rule has a match.
    if finder.rules().iter().any(|rule| rule.template == TemplateTree::None) {
        return refused(case, 27);
    }
    let nested = finder.nest(found).map_err(shown)?;
    let kept = finder.kept(&nested);
    covered.extend(of_matches(&Shape::new(&case.file.tree), &matched, &kept));
    let outer: Vec<u32> = kept.iter().map(|kept| kept.matched.node).collect();
    let rendered = finder.edited_text(&nested, &case.parses, MissingParse::Stop).map_err(shown)?;
    compare_rendering(case, &outer, rendered.rendering)
}

fn shown(stopped: Stopped) -> String {
    format!("{stopped:?}")
}

fn compare_rendering(case: &Case, outer: &[u32], rendering: Rendering) -> Compared {
    match rendering {
        Rendering::Edited(text) => compare_edits(case, outer, text.as_bytes()),
        Rendering::Panicked(message) if message.contains(UNBOUND) => refused(case, 29),
        Rendering::Panicked(message) => Err(format!("panicked: {message}")),
        Rendering::Asked(asked) => Err(format!("asked for a parse of kind {}", asked.kind)),
    }
}

/// The lowest of the lists' and pairs' refusals.
fn lists_stage(case: &Case) -> Result<Option<u32>, String> {
    let mut lowest: Option<u32> = None;
    for pair in &case.pairs {
        let template = pair.has_template.then_some(&pair.template.list);
        match check_pair(&pair.pattern.list, template) {
            Ok(()) => {}
            Err(Stopped::Refused(number)) => {
                lowest = Some(lowest.map_or(number, |other| other.min(number)));
            }
            Err(stopped) => return Err(shown(stopped)),
        }
    }
    Ok(lowest)
}

fn refused(case: &Case, number: u32) -> Compared {
    match &case.answer {
        CaseAnswer::Refused(expected) if *expected == number => Ok(()),
        CaseAnswer::Refused(expected) => Err(format!("refused {number} for {expected}")),
        CaseAnswer::Edits(..) => Err(format!("refused {number} for an edit list")),
    }
}

fn compare_matches(case: &Case, matched: &[Matched]) -> Compared {
    let Some(expected) = &case.matches else { return Err("matches".to_owned()) };
    if expected.len() != matched.len() {
        return Err(format!("{} matches for {}", matched.len(), expected.len()));
    }
    for (expected, matched) in expected.iter().zip(matched) {
        if !same_match(case, expected, matched) {
            return Err(format!("match at node {} of rule {}", expected.node, expected.rule));
        }
    }
    Ok(())
}

fn same_match(case: &Case, expected: &CaseMatch, matched: &Matched) -> bool {
    let (bound, unbound) = matched.bindings.split_at(expected.bindings.len().min(8));
    let comments: Vec<u8> =
        matched.comments.iter().flat_map(|comment| element_text(case, *comment)).copied().collect();
    (expected.node, expected.rule) == (matched.node, matched.rule)
        && expected.bindings == bound
        && unbound.iter().all(Option::is_none)
        && expected.comments.as_bytes() == comments
}

fn element_text(case: &Case, element: u32) -> &[u8] {
    let (start, end) = element_range(case, element);
    case.file.text.get(start..end).unwrap_or_default()
}

fn element_range(case: &Case, element: u32) -> (usize, usize) {
    let words = case.file.tree.get(3 * element as usize + 1..3 * element as usize + 3);
    match words {
        Some(&[start, end]) => (words::value(start) as usize, words::value(end) as usize),
        _ => (0, 0),
    }
}

fn compare_edits(case: &Case, outer: &[u32], text: &[u8]) -> Compared {
    let edits = match &case.answer {
        CaseAnswer::Edits(_, edits) => edits,
        CaseAnswer::Refused(number) => return Err(format!("an edited text for refused {number}")),
    };
    let same_range =
        |(edit, node): (&Edit, &u32)| (edit.start, edit.end) == element_range(case, *node);
    if edits.len() != outer.len() || !edits.iter().zip(outer).all(same_range) {
        return Err("ranges of the outer matches".to_owned());
    }
    if apply(edits, &case.file.text)? != text {
        return Err("edited text".to_owned());
    }
    Ok(())
}

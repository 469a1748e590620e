//! Records of building and resolving for the sample: the vectors, then small rules that no parser
//! makes and damaged copies of them.

use std::collections::BTreeMap;

use generator::bent_rules::bend_copy;
use generator::odd_rules;
use generator::rule_vectors::{self, Vector};
use input::{Answer, Rules};
use judge::{WholeRules, whole_rules};
use library::rules::BuiltRules;

use crate::judged::rules::{built_rules, resolved_element};
use crate::rules::{OPERATIONS, Operation, Question, sort};
use crate::sample::{bytes, record, trimmed, words};

/// The numbers of the operations in a record.
const BUILD_RULES: u32 = 6;
const RESOLVE: u32 = 7;

/// The numbers that small generated rules have often enough.
const NUMBERS: [u32; 7] = [1, 14, 15, 17, 19, 21, 22];

/// About the most elements of the first tree of a generated side, and the most words and bytes of
/// its rules.
const ELEMENTS: usize = 9;
const WORDS: usize = 110;
const BYTES: usize = 120;
/// Copies that are looked through.
const COPIES: u64 = 100_000;
/// For so many lists of the sample there is one record of each refusal, and for so many one of each
/// other sort of answer.
const LISTS: [usize; 2] = [440, 88];

pub fn make(seed: u64, count: usize) -> Result<Vec<u8>, String> {
    let mut sample = Vec::new();
    for (index, vector) in rule_vectors::all().into_iter().enumerate() {
        sample.extend(of_vector(index, vector)?);
    }
    sample.extend(generated(seed, LISTS.map(|lists| count.div_ceil(lists)))?);
    Ok(sample)
}

/// Both operations; of the many faults of directories and lists, and of what is large, one question.
fn of_vector(index: usize, (name, rules, numbers): Vector) -> Result<Vec<u8>, String> {
    let whole = judged(&rules)?;
    if OPERATIONS.map(|operation| operation.number(&whole)) != numbers {
        return Err(format!("{name}: the numbers are not {numbers:?}"));
    }
    let few = (1..=13).contains(&numbers[0]) || rules.words.len() > WORDS;
    let operations = if few { &OPERATIONS[index % 2..][..1] } else { &OPERATIONS };
    let mut sample = Vec::new();
    for operation in operations {
        let mut asked = telling(*operation, &whole);
        asked.truncate(if few { 1 } else { asked.len() });
        for question in asked {
            sample.extend(rules_record(&rules, &whole, *operation, question)?);
        }
    }
    Ok(sample)
}

fn judged(rules: &Rules) -> Result<WholeRules, String> {
    let whole = whole_rules(rules);
    for operation in OPERATIONS {
        if let Some(what) = operation.disagreement(&whole) {
            return Err(format!("not judged: {what}"));
        }
    }
    Ok(whole)
}

/// Both sides of every rule and what is past the last one, and every element that resolves to
/// something; of a refusal one question.
fn telling(operation: Operation, whole: &WholeRules) -> Vec<Question> {
    let mut asked: Vec<Question> = operation.questions(whole).into_iter().filter(fits).collect();
    asked.retain(|question| {
        let first = question.element == 0 && question.side < 2;
        first || resolves(&operation.judged(whole, *question))
    });
    if operation.number(whole) != 0 {
        asked.truncate(1);
    }
    asked
}

fn resolves(answer: &Answer) -> bool {
    let Answer::Resolved(Some(element)) = answer else { return false };
    element.resolution.is_some() || element.call.is_some()
}

/// Whether a question can be stored.
fn fits(question: &Question) -> bool {
    let fits = |number: usize| u32::try_from(number).is_ok();
    fits(question.rule) && fits(question.element)
}

/// Up to so many records of each refusal but those of lists, and of each other sort of answer.
fn generated(seed: u64, [refusals, others]: [usize; 2]) -> Result<Vec<u8>, String> {
    let mut sample = Vec::new();
    let mut met: BTreeMap<(u32, &str), usize> = BTreeMap::new();
    for rules in (0..COPIES).filter_map(|index| small(seed, index)) {
        let whole = judged(&rules)?;
        for operation in OPERATIONS {
            let number = operation.number(&whole);
            if (2..=13).contains(&number) {
                continue;
            }
            let most = if number == 0 { others } else { refusals };
            let mut asked = operation.questions(&whole).into_iter().filter(fits);
            let wanted = asked.find(|question| {
                let key = (number, sort(&operation.judged(&whole, *question)));
                let met = met.entry(key).or_default();
                *met += 1;
                *met <= most
            });
            if let Some(question) = wanted {
                sample.extend(rules_record(&rules, &whole, operation, question)?);
            }
        }
    }
    let mut missing = NUMBERS.iter().filter(|number| !met.keys().any(|key| key.0 == **number));
    match missing.next() {
        Some(number) if refusals > 0 => Err(format!("number {number} is missing")),
        _ => Ok(sample),
    }
}

/// Well-formed rules or a damaged copy, where they are small.
fn small(seed: u64, index: u64) -> Option<Rules> {
    let mut rules = odd_rules::random(seed, index / 2, ELEMENTS);
    if index % 2 == 1 {
        bend_copy(seed, index, &mut rules);
    }
    let bytes = rules.bytes.len() + rules.fact_text.len();
    (rules.words.len() <= WORDS && bytes <= BYTES).then_some(rules)
}

fn rules_record(
    rules: &Rules,
    whole: &WholeRules,
    operation: Operation,
    question: Question,
) -> Result<Vec<u8>, String> {
    let [directory, rule_words] = [&rules.directory, &rules.words].map(|part| words(part));
    let Question { rule, side, element } = question;
    let [rule, element] = [rule, element].map(|number| bytes([number as u32]));
    let answer = operation.judged(whole, question);
    let answer = answer_bytes(operation, &answer).ok_or("an answer does not fit")?;
    Ok(match operation {
        Operation::Building => {
            record(BUILD_RULES, &[&directory, &rule_words, &rules.bytes, &rule, &answer])
        }
        Operation::Resolving => {
            let side = bytes([side]);
            let parts: [&[u8]; 8] = [
                &directory,
                &rule_words,
                &rules.bytes,
                &rules.fact_text,
                &rule,
                &side,
                &element,
                &answer,
            ];
            record(RESOLVE, &parts)
        }
    })
}

/// The fields of the exported struct in their order.
fn answer_bytes(operation: Operation, answer: &Answer) -> Option<Vec<u8>> {
    let fields = match operation {
        Operation::Building => {
            let BuiltRules { refusal, rules, found, pair, form, template } = built_rules(answer)?;
            vec![refusal, rules as u32, found, pair as u32, form as u32, template]
        }
        Operation::Resolving => {
            let of = resolved_element(answer)?;
            let path = [of.refusal, of.found, of.resolved, of.resolution];
            let call = [of.call, of.function, of.typed, of.qualifier_type, of.contains_self];
            [&path[..], &call].concat()
        }
    };
    Some(trimmed(bytes(fields)))
}

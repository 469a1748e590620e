//! A sample of judged operations, for crates/replay. crates/replay/src/records.rt says what a record is.

use std::collections::BTreeMap;

use generator::{Class, case};
use input::build::token_list;
use input::{Answer, Operation, Task, TokenList};
use judge::judge;

use crate::comparison::with_lists;
use crate::jobs_sample;
use crate::judged;
use crate::matching_sample;
use crate::rules_sample;
use crate::tree_sample;

/// The number of an operation in a record: document 01's order.
const READ_TOKENS: u32 = 1;
const CHECK_PAIR: u32 = 2;
const RAW_CODE: u32 = 3;

/// The longest generated list: those at the limits are longer.
const WORDS: usize = 64;

/// The most of the generated lists with one answer: refusals 1 to 13 and 0 to 8 placeholders are
/// 22 answers, and some of them are rare.
const SHARE: usize = 21;

/// Cases that are looked through for answers that are still to come.
const CASES: u64 = 100_000;

pub fn make(seed: u64, count: usize) -> Result<Vec<u8>, String> {
    let mut sample = Vec::new();
    let lists = lists(seed, count)?;
    for list in &lists {
        sample.extend(read_tokens(list)?);
    }
    // Neighbours in the sample are about as often read as refused.
    for two in lists.windows(2).step_by(3) {
        sample.extend(check_pair(&two[0], Some(&two[1]))?);
        sample.extend(check_pair(&two[1], None)?);
    }
    for (list, spare) in lists.iter().step_by(2).zip([0, 1, 9].into_iter().cycle()) {
        let length = ssr::raw_code(list).map_or(0, |code| code.len());
        sample.extend(raw_code(list, (length + spare).saturating_sub(1))?);
    }
    sample.extend(tree_sample::make(seed));
    sample.extend(rules_sample::make(seed, count)?);
    sample.extend(matching_sample::make(seed, count)?);
    sample.extend(jobs_sample::make(Task::Job, seed, count)?);
    sample.extend(jobs_sample::make(Task::Walk, seed, count)?);
    Ok(sample)
}

fn check_pair(pattern: &TokenList, template: Option<&TokenList>) -> Result<Vec<u8>, String> {
    let operation = Operation::CheckPair { pattern: pattern.clone(), template: template.cloned() };
    let outcome = judge(&operation).outcome.ok_or("a pair was not judged")?;
    let number =
        judged::lists::check_pair(&outcome.answer).ok_or("no answer of checking a pair")?;
    let none = TokenList::default();
    let other = template.unwrap_or(&none);
    let parts = [
        &list_words(pattern),
        &pattern.text,
        &bytes([u32::from(template.is_some())]),
        &list_words(other),
        &other.text,
        &trimmed(bytes([number])),
    ];
    Ok(record(CHECK_PAIR, &parts.map(Vec::as_slice)))
}

fn raw_code(list: &TokenList, buffer: usize) -> Result<Vec<u8>, String> {
    let operation = Operation::RawCode { list: list.clone(), buffer };
    let outcome = judge(&operation).outcome.ok_or("a raw code was not judged")?;
    let (answer, out) = judged::lists::raw_code(&outcome, buffer).ok_or("no answer of raw code")?;
    let answer = bytes([answer.refusal, answer.length as u32]);
    let parts =
        [&list_words(list), &list.text, &bytes([buffer as u32]), &trimmed(out), &trimmed(answer)];
    Ok(record(RAW_CODE, &parts.map(Vec::as_slice)))
}

fn list_words(list: &TokenList) -> Vec<u8> {
    words(&list.words)
}

pub fn words(words: &[u32]) -> Vec<u8> {
    bytes(words.iter().copied())
}

/// A record: its length, then the operation's number and the parts, the expected answer last.
pub fn record(operation: u32, parts: &[&[u8]]) -> Vec<u8> {
    let mut body = operation.to_le_bytes().to_vec();
    for part in parts {
        body.extend((part.len() as u32).to_le_bytes());
        body.extend(*part);
    }
    let mut record = (body.len() as u32).to_le_bytes().to_vec();
    record.append(&mut body);
    record
}

pub fn bytes(words: impl IntoIterator<Item = u32>) -> Vec<u8> {
    words.into_iter().flat_map(u32::to_le_bytes).collect()
}

/// An answer's bytes up to the last that is not 0.
pub fn trimmed(mut answer: Vec<u8>) -> Vec<u8> {
    let end = answer.iter().rposition(|byte| *byte != 0).map_or(0, |at| at + 1);
    answer.truncate(end);
    answer
}

fn read_tokens(list: &TokenList) -> Result<Vec<u8>, String> {
    let read = judged::lists::read_tokens(&judged(list)?).ok_or("an answer does not fit")?;
    let mut words = vec![read.refusal, read.count as u32];
    for place in read.placeholders {
        words.extend([place.start, place.end, place.constraints].map(|number| number as u32));
    }
    words.push(read.constraints as u32);
    let mut answer = bytes(words);
    answer.extend(read.nots);
    Ok(record(READ_TOKENS, &[&list_words(list), &list.text, &trimmed(answer)]))
}

fn judged(list: &TokenList) -> Result<Answer, String> {
    let outcome = judge(&Operation::ReadTokens { list: list.clone() }).outcome;
    outcome.map(|outcome| outcome.answer).ok_or("a list was not judged".into())
}

/// Lists at the limits, then generated ones: about as many for each refusal and each number of
/// placeholders.
fn lists(seed: u64, count: usize) -> Result<Vec<TokenList>, String> {
    let mut lists = at_limits();
    let mut met: BTreeMap<(u32, usize), usize> = BTreeMap::new();
    for list in (0..CASES).flat_map(|index| generated(seed, index)) {
        if lists.len() >= count {
            break;
        }
        if list.words.len() > WORDS || lists.contains(&list) {
            continue;
        }
        let answer = match judged(&list)? {
            Answer::Refused(number) => (number, 0),
            Answer::Placeholders(found) => (0, found.len()),
            other => return Err(format!("{other:?} is no answer of reading tokens")),
        };
        let met = met.entry(answer).or_default();
        if *met < count / SHARE {
            *met += 1;
            lists.push(list);
        }
    }
    let answers = (1..=13).map(|number| (number, 0)).chain((0..=8).map(|found| (0, found)));
    let missing: Vec<(u32, usize)> = answers.filter(|answer| !met.contains_key(answer)).collect();
    if missing.is_empty() { Ok(lists) } else { Err(format!("answers {missing:?} are missing")) }
}

/// The lists of one case of each class, those of the exhaustive one far apart.
fn generated(seed: u64, index: u64) -> impl Iterator<Item = TokenList> {
    let count = Class::TokensAll.count().unwrap_or(1);
    let all = case(Class::TokensAll, seed, (seed + index) * 7_919 % count);
    let classes = [Class::Tokens, Class::Lists].map(|class| case(class, seed, index));
    let cases = [all].into_iter().chain(classes).flatten();
    cases.flat_map(with_lists).filter_map(|operation| match operation {
        Operation::ReadTokens { list } => Some(list),
        _ => None,
    })
}

/// No token; eight and nine placeholders, the ninth's name new and not; 255 and 256 tokens; the
/// most constraints and the most `not`s.
fn at_limits() -> Vec<TokenList> {
    let names = ["a", "b", "c", "d", "e", "f", "g", "h", "i"];
    let placeholders = |names: &[&'static str]| -> Vec<Token> {
        names.iter().flat_map(|name| [(8, "$"), (1, *name)]).collect()
    };
    let repeated = [&names[..8], &["a"]].concat();
    let braces = |inside: Vec<Token>| {
        [&[(8, "$"), (9, "{"), (1, "a"), (10, ":")], &inside[..], &[(6, "}")]].concat()
    };
    let kind = [(1, "kind"), (168, "("), (1, "literal"), (5, ")")];
    let kinds = [&kind[..], &[(10, ":")]].concat().repeat(50);
    let nots = [[(1, "not"), (168, "(")].repeat(82), kind.to_vec(), [(5, ")")].repeat(82)].concat();
    let lists = [
        Vec::new(),
        placeholders(&names[..8]),
        placeholders(&names),
        placeholders(&repeated),
        [(1, "x")].repeat(255),
        [(1, "x")].repeat(256),
        braces(kinds[..249].to_vec()),
        braces(nots),
    ];
    lists.iter().map(|tokens| token_list(tokens)).collect()
}

type Token = (u32, &'static str);

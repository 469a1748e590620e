//! The parses that a job is handed (28).

use input::Parses;
use input::words::{END, PARSE, START, low16, syntax_kind, value, word_kind};
use std::collections::BTreeSet;

/// A parse: the kind and the text that it is of, and its node ranges, none if it does not parse.
#[derive(Clone, Debug, PartialEq, Eq)]
pub struct Parse<'a> {
    pub kind: u32,
    pub text: &'a [u8],
    pub ranges: Vec<(usize, usize)>,
}

/// The parses in turn.
pub fn read_parses(parses: &Parses) -> Result<Vec<Parse<'_>>, u32> {
    let mut all = Vec::new();
    let mut known = BTreeSet::new();
    let mut words = parses.words.as_slice();
    while !words.is_empty() {
        let parse = read_parse(&mut words, &parses.text).ok_or(28u32)?;
        // Lengths first, so that long texts are seldom compared.
        if !known.insert((parse.kind, parse.text.len(), parse.text)) {
            return Err(28);
        }
        all.push(parse);
    }
    Ok(all)
}

fn read_parse<'a>(words: &mut &[u32], text: &'a [u8]) -> Option<Parse<'a>> {
    let (&first, rest) = words.split_first()?;
    *words = rest;
    let kind = syntax_kind(first);
    if word_kind(first) != PARSE || kind == 0 {
        return None;
    }
    let (start, end) = read_range(words, text.len())?;
    let text = &text[start..end];
    let mut ranges = Vec::new();
    for _ in 0..low16(first) {
        ranges.push(read_range(words, text.len())?);
    }
    Some(Parse { kind, text, ranges })
}

/// A start and an end, in order and not past `length`.
fn read_range(words: &mut &[u32], length: usize) -> Option<(usize, usize)> {
    let [start, end, rest @ ..] = *words else {
        return None;
    };
    let kinds = word_kind(*start) == START && word_kind(*end) == END;
    let (start, end) = (value(*start) as usize, value(*end) as usize);
    *words = rest;
    (kinds && start <= end && end <= length).then_some((start, end))
}

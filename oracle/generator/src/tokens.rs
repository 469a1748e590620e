//! Token lists: all short ones over a small alphabet, and random ones that lean towards the
//! grammar of placeholders.

use crate::kinds::*;
use crate::rng::Rng;
use input::build::token_list;
use input::{Operation, TokenList};

type Token = (u32, &'static str);

const DOLLAR_TOKEN: Token = (DOLLAR, "$");
const OPEN: Token = (L_CURLY, "{");
const CLOSE: Token = (R_CURLY, "}");
const COLON_TOKEN: Token = (COLON, ":");
const LEFT: Token = (168, "(");
const RIGHT: Token = (R_PAREN, ")");
const KIND: Token = (IDENT, "kind");
const NOT: Token = (IDENT, "not");
const LITERAL_NAME: Token = (IDENT, "literal");
const A: Token = (IDENT, "a");

const ALPHABET: [Token; 12] = [
    DOLLAR_TOKEN,
    OPEN,
    CLOSE,
    COLON_TOKEN,
    LEFT,
    RIGHT,
    KIND,
    NOT,
    LITERAL_NAME,
    A,
    (NUMBER, "1"),
    (WHITESPACE, " "),
];

/// What the short lists stand behind, so that every state of reading is met.
const PREFIXES: [&[Token]; 6] = [
    &[],
    &[DOLLAR_TOKEN, OPEN, A],
    &[DOLLAR_TOKEN, OPEN, A, COLON_TOKEN],
    &[DOLLAR_TOKEN, OPEN, A, COLON_TOKEN, NOT, LEFT],
    &[DOLLAR_TOKEN, OPEN, A, COLON_TOKEN, KIND, LEFT, LITERAL_NAME],
    &[DOLLAR_TOKEN, OPEN, A, COLON_TOKEN, NOT, LEFT, KIND, LEFT, LITERAL_NAME, RIGHT],
];

const LONGEST: u32 = 4;

fn short_lists() -> u64 {
    (0..=LONGEST).map(|length| (ALPHABET.len() as u64).pow(length)).sum()
}

/// How many lists `list` has.
pub fn count() -> u64 {
    short_lists() * PREFIXES.len() as u64
}

/// One of all the lists: a prefix and up to four tokens.
pub fn list(index: u64) -> Operation {
    let mut tokens = PREFIXES[(index / short_lists()) as usize].to_vec();
    let mut rest = index % short_lists();
    let size = ALPHABET.len() as u64;
    let mut length = 0;
    while rest >= size.pow(length) {
        rest -= size.pow(length);
        length += 1;
    }
    for _ in 0..length {
        tokens.push(ALPHABET[(rest % size) as usize]);
        rest /= size;
    }
    Operation::ReadTokens { list: token_list(&tokens) }
}

/// Reading, checking or writing out random lists.
pub fn random(rng: &mut Rng) -> Operation {
    let list = soup(rng, false);
    match rng.below(4) {
        0 => Operation::RawCode { buffer: raw_buffer(rng, &list), list },
        1 => {
            let template = rng.chance(90).then(|| soup(rng, true));
            Operation::CheckPair { pattern: list, template }
        }
        _ => Operation::ReadTokens { list },
    }
}

fn raw_buffer(rng: &mut Rng, list: &TokenList) -> usize {
    let length = checker::read_tokens(list).map_or(20, |read| read.raw_code().len());
    let sizes = crate::jobs::awkward_buffers(length);
    *rng.pick(&sizes)
}

/// Plain tokens and placeholders, most of them whole.
pub fn soup(rng: &mut Rng, template: bool) -> TokenList {
    let names = ["a", "b", "c", "d", "e", "f", "kind", "not", "ab", "literal"];
    let mut tokens: Vec<Token> = Vec::new();
    let pieces = match rng.below(200) {
        0 => 250,
        1..=5 => 25,
        _ => rng.below(12),
    };
    let mut next = 0;
    for _ in 0..pieces {
        let name = if rng.chance(94) { names[next % 10] } else { *rng.pick(&names) };
        match rng.below(100) {
            0..=44 => {
                next += 1;
                tokens.extend(placeholder(rng, (IDENT, name), template));
            }
            45..=92 => tokens.push(*rng.pick(&[A, LEFT, RIGHT, (WHITESPACE, " "), (COMMA, ",")])),
            93 => tokens.push(*rng.pick(&ALPHABET)),
            _ => tokens.push((COMMENT, "/*c*/")),
        }
    }
    if !tokens.is_empty() && rng.chance(20) {
        let place = rng.below(tokens.len());
        tokens[place] = *rng.pick(&ALPHABET);
    }
    if rng.chance(10) {
        tokens.truncate(rng.below(tokens.len() + 1));
    }
    let mut list = token_list(&tokens);
    if rng.chance(1) {
        crate::damage::words(rng, &mut list.words, 1);
    }
    list
}

fn placeholder(rng: &mut Rng, name: Token, template: bool) -> Vec<Token> {
    if rng.chance(50) {
        return vec![DOLLAR_TOKEN, name];
    }
    let mut tokens = vec![DOLLAR_TOKEN, OPEN, name];
    let constraints = if template && rng.chance(95) { 0 } else { rng.below(3) };
    for _ in 0..constraints {
        let nots = if rng.chance(3) { rng.below(90) } else { rng.below(4) };
        tokens.push(COLON_TOKEN);
        tokens.extend([NOT, LEFT].repeat(nots));
        tokens.extend([KIND, LEFT, LITERAL_NAME, RIGHT]);
        tokens.extend([RIGHT].repeat(nots));
    }
    tokens.push(CLOSE);
    tokens
}

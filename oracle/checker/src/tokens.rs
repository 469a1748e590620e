//! Reading one token list (refusals 1 to 13) and its raw code.

use input::words::{TOKEN, low16, syntax_kind, word_kind};
use input::{Placeholder, TokenList};

/// What a placeholder's name is written behind in raw code.
pub const STAND_IN: &[u8] = b"__placeholder_";

const IDENT: u32 = 1;
const WHITESPACE: u32 = 2;
const R_CURLY: u32 = 6;
const DOLLAR: u32 = 8;
const L_CURLY: u32 = 9;
const COLON: u32 = 10;

/// A token of a list: its kind and where its text stands.
#[derive(Clone, Copy)]
struct Token {
    kind: u32,
    start: usize,
    end: usize,
}

/// A part of a list that was read.
#[derive(Clone, Copy)]
enum Part {
    Plain(Token),
    Placeholder(usize),
}

/// A list that reads: its placeholders in order, and what its raw code is made of.
pub struct ReadList<'a> {
    pub placeholders: Vec<Placeholder>,
    parts: Vec<Part>,
    text: &'a [u8],
}

impl ReadList<'_> {
    /// The names of the placeholders, in order.
    pub fn names(&self) -> Vec<&[u8]> {
        self.placeholders.iter().map(|p| name(self.text, p)).collect()
    }

    /// The raw code, white space at the ends included.
    pub fn raw_code(&self) -> Vec<u8> {
        self.code(&self.parts)
    }

    /// The raw code without WHITESPACE tokens at its ends: the text of the list's trees.
    pub fn trimmed_code(&self) -> Vec<u8> {
        let mut parts = self.parts.as_slice();
        while let [first, rest @ ..] = parts
            && is_whitespace(first)
        {
            parts = rest;
        }
        while let [rest @ .., last] = parts
            && is_whitespace(last)
        {
            parts = rest;
        }
        self.code(parts)
    }

    fn code(&self, parts: &[Part]) -> Vec<u8> {
        let mut code = Vec::new();
        for part in parts {
            match part {
                Part::Plain(token) => code.extend(&self.text[token.start..token.end]),
                Part::Placeholder(k) => {
                    code.extend(STAND_IN);
                    code.extend(name(self.text, &self.placeholders[*k]));
                }
            }
        }
        code
    }
}

fn is_whitespace(part: &Part) -> bool {
    matches!(part, Part::Plain(token) if token.kind == WHITESPACE)
}

fn name<'a>(text: &'a [u8], placeholder: &Placeholder) -> &'a [u8] {
    let start = placeholder.name_start as usize;
    &text[start..start + placeholder.name_length as usize]
}

/// Reads a list in full.
pub fn read_tokens(list: &TokenList) -> Result<ReadList<'_>, u32> {
    let tokens = cut_tokens(list)?;
    let mut reader = Reader { tokens, at: 0, text: &list.text };
    let mut read = ReadList { placeholders: Vec::new(), parts: Vec::new(), text: &list.text };
    while let Some(token) = reader.next() {
        if token.kind != DOLLAR {
            read.parts.push(Part::Plain(token));
            continue;
        }
        let placeholder = reader.placeholder()?;
        if read.names().contains(&name(&list.text, &placeholder)) {
            return Err(12);
        }
        if read.placeholders.len() == 8 {
            return Err(13);
        }
        read.parts.push(Part::Placeholder(read.placeholders.len()));
        read.placeholders.push(placeholder);
    }
    Ok(read)
}

/// The tokens of a list, or 1.
fn cut_tokens(list: &TokenList) -> Result<Vec<Token>, u32> {
    if list.words.len() > 255 {
        return Err(1);
    }
    let mut tokens = Vec::new();
    let mut start = 0;
    for &word in &list.words {
        let (kind, length) = (syntax_kind(word), low16(word) as usize);
        if word_kind(word) != TOKEN || !(1..=1023).contains(&kind) || length == 0 {
            return Err(1);
        }
        tokens.push(Token { kind, start, end: start + length });
        start += length;
    }
    if start == list.text.len() { Ok(tokens) } else { Err(1) }
}

struct Reader<'a> {
    tokens: Vec<Token>,
    at: usize,
    text: &'a [u8],
}

impl Reader<'_> {
    fn next(&mut self) -> Option<Token> {
        let token = self.tokens.get(self.at).copied();
        self.at += 1;
        token
    }

    fn text(&self, token: Token) -> &[u8] {
        &self.text[token.start..token.end]
    }

    /// What follows a `$`.
    fn placeholder(&mut self) -> Result<Placeholder, u32> {
        let mut nots = Vec::new();
        let name = match self.next() {
            None => None,
            Some(token) if token.kind == IDENT => Some(token),
            Some(token) if token.kind == L_CURLY => self.braces(&mut nots)?,
            Some(_) => return Err(5),
        };
        let name = name.ok_or(6u32)?;
        Ok(Placeholder {
            name_start: name.start as u32,
            name_length: (name.end - name.start) as u32,
            nots,
        })
    }

    /// What follows `${`: one token, a name or not, then constraints up to `}`.
    fn braces(&mut self, nots: &mut Vec<u32>) -> Result<Option<Token>, u32> {
        let first = self.next().ok_or(2u32)?;
        loop {
            let token = self.next().ok_or(3u32)?;
            match token.kind {
                COLON => nots.push(self.constraint()?),
                R_CURLY => return Ok((first.kind == IDENT).then_some(first)),
                _ => return Err(4),
            }
        }
    }

    /// A constraint: how many `not`s stand around its kind.
    fn constraint(&mut self) -> Result<u32, u32> {
        let mut nots = 0;
        loop {
            let token = self.next().ok_or(7u32)?;
            match self.text(token) {
                b"kind" => break,
                b"not" => self.parenthesis(b"(")?,
                _ => return Err(8),
            }
            nots += 1;
        }
        self.parenthesis(b"(")?;
        let kind = self.next().filter(|token| token.kind == IDENT).ok_or(10u32)?;
        self.parenthesis(b")")?;
        if self.text(kind) != b"literal" {
            return Err(11);
        }
        for _ in 0..nots {
            self.parenthesis(b")")?;
        }
        Ok(nots)
    }

    /// A parenthesis is known by its text, whatever its kind.
    fn parenthesis(&mut self, which: &[u8]) -> Result<(), u32> {
        match self.next() {
            Some(token) if self.text(token) == which => Ok(()),
            _ => Err(9),
        }
    }
}

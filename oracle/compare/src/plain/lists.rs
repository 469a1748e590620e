//! Reading token lists and checking pairs, with the library's answers.

use input::TokenList;
use input::words::{low16, syntax_kind};
use library::lists::{CONSTRAINTS, NamedPlaceholder, PLACEHOLDERS, ReadTokens};

const IDENT: u32 = 1;
const WHITESPACE: u32 = 2;
const R_CURLY: u32 = 6;
const DOLLAR: u32 = 8;
const L_CURLY: u32 = 9;
const COLON: u32 = 10;

const STAND_IN: &[u8] = b"__placeholder_";

const NOTHING: ReadTokens = ReadTokens {
    refusal: 0,
    count: 0,
    placeholders: [NamedPlaceholder { start: 0, end: 0, constraints: 0 }; PLACEHOLDERS],
    constraints: 0,
    nots: [0; CONSTRAINTS],
};

/// A list that was read.
pub struct ReadList {
    answer: ReadTokens,
    /// Where each placeholder stands in the text, with its `$` and braces.
    places: [(usize, usize); PLACEHOLDERS],
}

pub fn read_tokens(list: &TokenList) -> ReadTokens {
    match read(list) {
        Ok(read) => read.answer,
        Err(refusal) => ReadTokens { refusal, ..NOTHING },
    }
}

/// 1 to 15, 0 for a pair that is fine.
pub fn check_pair(pattern: &TokenList, template: Option<&TokenList>) -> u32 {
    let first = read(pattern);
    let Some(template) = template else { return first.err().unwrap_or(0) };
    match (first, read(template)) {
        (Ok(first), Ok(second)) => check_template(pattern, &first.answer, template, &second.answer),
        (Ok(_), Err(number)) | (Err(number), Ok(_)) => number,
        (Err(first), Err(second)) => first.min(second),
    }
}

fn check_template(
    pattern: &TokenList,
    defined: &ReadTokens,
    template: &TokenList,
    used: &ReadTokens,
) -> u32 {
    if used.constraints > 0 {
        return 14;
    }
    let is_defined = |name: &[u8]| names(pattern, defined).any(|other| other == name);
    if names(template, used).all(is_defined) { 0 } else { 15 }
}

fn names<'a>(list: &'a TokenList, read: &ReadTokens) -> impl Iterator<Item = &'a [u8]> {
    let placeholders = read.placeholders.into_iter().take(read.count);
    placeholders.map(|placeholder| &list.text[placeholder.start..placeholder.end])
}

/// Reads a list, or gives 1 to 13.
pub fn read(list: &TokenList) -> Result<ReadList, u32> {
    if !is_well_formed(list) {
        return Err(1);
    }
    let mut reader = Reader { words: &list.words, text: &list.text, next: 0 };
    let mut read = ReadList { answer: NOTHING, places: [(0, 0); PLACEHOLDERS] };
    while let Some(token) = reader.next() {
        if token.kind == DOLLAR {
            reader.placeholder(token.start, &mut read)?;
        }
    }
    Ok(read)
}

fn is_well_formed(list: &TokenList) -> bool {
    // Kind 2, a token kind of up to 1,023 that is not 0, and a length that is not 0.
    let is_token = |word: u32| word >> 26 == 8 && syntax_kind(word) != 0 && low16(word) != 0;
    let add = |(good, length): (bool, usize), word: &u32| {
        (good & is_token(*word), length + low16(*word) as usize)
    };
    list.words.len() <= 255 && list.words.iter().fold((true, 0), add) == (true, list.text.len())
}

#[derive(Clone, Copy)]
struct Token {
    kind: u32,
    start: usize,
    end: usize,
}

/// The rest of a well-formed list.
struct Reader<'a> {
    words: &'a [u32],
    text: &'a [u8],
    /// Where the next token starts.
    next: usize,
}

impl Reader<'_> {
    fn next(&mut self) -> Option<Token> {
        let (word, rest) = self.words.split_first()?;
        let (start, end) = (self.next, self.next + low16(*word) as usize);
        (self.words, self.next) = (rest, end);
        Some(Token { kind: syntax_kind(*word), start, end })
    }

    fn has_text(&self, token: Token, text: &[u8]) -> bool {
        &self.text[token.start..token.end] == text
    }

    /// What follows a `$`, which starts at `start`.
    fn placeholder(&mut self, start: usize, read: &mut ReadList) -> Result<(), u32> {
        let constraints = read.answer.constraints;
        let first = self.next().ok_or(6u32)?;
        let name = match first.kind {
            IDENT => first,
            L_CURLY => self.braces(&mut read.answer)?,
            _ => return Err(5),
        };
        let count = read.answer.count;
        let known = read.answer.placeholders[..count].iter();
        let text = &self.text[name.start..name.end];
        if known.into_iter().any(|other| self.text[other.start..other.end] == *text) {
            return Err(12);
        }
        let place = read.answer.placeholders.get_mut(count).ok_or(13u32)?;
        let constraints = read.answer.constraints - constraints;
        *place = NamedPlaceholder { start: name.start, end: name.end, constraints };
        read.places[count] = (start, self.next);
        read.answer.count += 1;
        Ok(())
    }

    /// What follows `${`: its first token, if that is a name.
    fn braces(&mut self, answer: &mut ReadTokens) -> Result<Token, u32> {
        let first = self.next().ok_or(2u32)?;
        loop {
            match self.next().ok_or(3u32)?.kind {
                COLON => {
                    answer.nots[answer.constraints] = self.constraint()?;
                    answer.constraints += 1;
                }
                R_CURLY if first.kind == IDENT => return Ok(first),
                R_CURLY => return Err(6),
                _ => return Err(4),
            }
        }
    }

    /// The `not`s of a constraint.
    fn constraint(&mut self) -> Result<u8, u32> {
        let mut nots = 0;
        loop {
            let token = self.next().ok_or(7u32)?;
            if self.has_text(token, b"kind") {
                break;
            }
            if !self.has_text(token, b"not") {
                return Err(8);
            }
            self.parenthesis(b"(")?;
            nots += 1;
        }
        self.parenthesis(b"(")?;
        let kind = self.next().filter(|token| token.kind == IDENT).ok_or(10u32)?;
        self.parenthesis(b")")?;
        if !self.has_text(kind, b"literal") {
            return Err(11);
        }
        (0..nots).try_for_each(|_| self.parenthesis(b")"))?;
        Ok(nots)
    }

    fn parenthesis(&mut self, which: &[u8]) -> Result<(), u32> {
        let token = self.next().ok_or(9u32)?;
        if self.has_text(token, which) { Ok(()) } else { Err(9) }
    }
}

impl ReadList {
    /// Whether a text is the list's raw code without the WHITESPACE tokens at its ends.
    pub fn has_code(&self, list: &TokenList, code: &[u8]) -> bool {
        self.rest_of_code(list, code).is_some_and(<[u8]>::is_empty)
    }

    /// What stands behind the list's code in a text that starts with it.
    fn rest_of_code<'a>(&self, list: &TokenList, code: &'a [u8]) -> Option<&'a [u8]> {
        let white = |words: &mut dyn Iterator<Item = &u32>| -> usize {
            words.take_while(|w| syntax_kind(**w) == WHITESPACE).map(|w| low16(*w) as usize).sum()
        };
        let mut at = white(&mut list.words.iter());
        let end = list.text.len() - white(&mut list.words.iter().rev());
        let mut rest = code;
        let placeholders = self.answer.placeholders.iter().zip(self.places);
        for (name, (start, behind)) in placeholders.take(self.answer.count) {
            rest = rest.strip_prefix(&list.text[at..start])?.strip_prefix(STAND_IN)?;
            rest = rest.strip_prefix(&list.text[name.start..name.end])?;
            at = behind;
        }
        rest.strip_prefix(&list.text[at..end.max(at)])
    }
}

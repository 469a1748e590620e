//! One operation as lines of text, for storing cases and for handing them on.
//!
//! The first line is the version, the second `operation NAME`, then come the operation's
//! `key value` lines in a fixed order, each exactly once. Words are eight hexadecimal digits
//! each, separated by blanks; bytes are hexadecimal digits without blanks; numbers are decimal;
//! a range is `none` or `A B`; a key with an empty value stands alone.

use crate::{File, Job, Operation, Parses, Rules, TokenList};
use std::fmt::Write as _;

const VERSION: &str = "suphreak-case 1";

/// The case file of an operation.
pub fn write(operation: &Operation) -> String {
    let mut out = Output { text: format!("{VERSION}\n") };
    out.line("operation", name(operation));
    match operation {
        Operation::ReadTokens { list } => out.list("words", "text", list),
        Operation::CheckPair { pattern, template } => {
            out.list("pattern_words", "pattern_text", pattern);
            out.line("template", if template.is_some() { "given" } else { "none" });
            if let Some(template) = template {
                out.list("template_words", "template_text", template);
            }
        }
        Operation::RawCode { list, buffer } => {
            out.list("words", "text", list);
            out.number("buffer", *buffer);
        }
        Operation::Build { rules, rule } => {
            out.rules(rules);
            out.number("rule", *rule);
        }
        Operation::Resolve { rules, rule, side, element } => {
            out.rules(rules);
            out.number("rule", *rule);
            out.number("side", *side);
            out.number("element", *element);
        }
        Operation::MatchNode { rules, file, node, rule, range, buffer } => {
            out.rules(rules);
            out.file(file);
            out.number("node", *node);
            out.number("rule", *rule);
            out.range(*range);
            out.number("buffer", *buffer);
        }
        Operation::Job(job) | Operation::Walk(job) => out.job(job),
    }
    out.text
}

fn name(operation: &Operation) -> &'static str {
    match operation {
        Operation::ReadTokens { .. } => "read_tokens",
        Operation::CheckPair { .. } => "check_pair",
        Operation::RawCode { .. } => "raw_code",
        Operation::Build { .. } => "build",
        Operation::Resolve { .. } => "resolve",
        Operation::MatchNode { .. } => "match_node",
        Operation::Job(_) => "job",
        Operation::Walk(_) => "walk",
    }
}

struct Output {
    text: String,
}

impl Output {
    fn line(&mut self, key: &str, value: &str) {
        self.text.push_str(key);
        if !value.is_empty() {
            self.text.push(' ');
            self.text.push_str(value);
        }
        self.text.push('\n');
    }

    fn words(&mut self, key: &str, words: &[u32]) {
        self.text.push_str(key);
        for word in words {
            write!(self.text, " {word:08x}").expect("a string takes all");
        }
        self.text.push('\n');
    }

    fn bytes(&mut self, key: &str, bytes: &[u8]) {
        let mut value = String::with_capacity(2 * bytes.len());
        for byte in bytes {
            write!(value, "{byte:02x}").expect("a string takes all");
        }
        self.line(key, &value);
    }

    fn number(&mut self, key: &str, number: impl std::fmt::Display) {
        self.line(key, &number.to_string());
    }

    fn range(&mut self, range: Option<(u32, u32)>) {
        let value = match range {
            None => "none".to_string(),
            Some((start, end)) => format!("{start} {end}"),
        };
        self.line("range", &value);
    }

    fn list(&mut self, words: &str, text: &str, list: &TokenList) {
        self.words(words, &list.words);
        self.bytes(text, &list.text);
    }

    fn rules(&mut self, rules: &Rules) {
        self.words("directory", &rules.directory);
        self.words("rule_words", &rules.words);
        self.bytes("rule_bytes", &rules.bytes);
        self.bytes("fact_text", &rules.fact_text);
    }

    fn file(&mut self, file: &File) {
        self.words("tree", &file.tree);
        self.bytes("text", &file.text);
        self.words("facts", &file.facts);
    }

    fn job(&mut self, job: &Job) {
        self.rules(&job.rules);
        self.file(&job.file);
        self.words("candidates", &job.candidates);
        self.range(job.range);
        self.words("parse_words", &job.parses.words);
        self.bytes("parse_text", &job.parses.text);
        self.number("buffer", job.buffer);
    }
}

/// The operation of a case file, or what is wrong with it and in which line.
pub fn read(text: &str) -> Result<Operation, String> {
    let mut input = Input { lines: text.lines(), number: 0 };
    if input.next_line()? != VERSION {
        return Err(input.fault(&format!("expected `{VERSION}`")));
    }
    let operation = read_operation(&mut input)?;
    match input.lines.next() {
        None => Ok(operation),
        Some(_) => {
            input.number += 1;
            Err(input.fault("expected the end of the file"))
        }
    }
}

fn read_operation(input: &mut Input) -> Result<Operation, String> {
    Ok(match input.value("operation")? {
        "read_tokens" => Operation::ReadTokens { list: input.list("words", "text")? },
        "check_pair" => Operation::CheckPair {
            pattern: input.list("pattern_words", "pattern_text")?,
            template: input.template()?,
        },
        "raw_code" => Operation::RawCode {
            list: input.list("words", "text")?,
            buffer: input.number("buffer")?,
        },
        "build" => Operation::Build { rules: input.rules()?, rule: input.number("rule")? },
        "resolve" => Operation::Resolve {
            rules: input.rules()?,
            rule: input.number("rule")?,
            side: input.number("side")?,
            element: input.number("element")?,
        },
        "match_node" => Operation::MatchNode {
            rules: input.rules()?,
            file: input.file()?,
            node: input.number("node")?,
            rule: input.number("rule")?,
            range: input.range()?,
            buffer: input.number("buffer")?,
        },
        "job" => Operation::Job(input.job()?),
        "walk" => Operation::Walk(input.job()?),
        _ => return Err(input.fault("unknown operation")),
    })
}

struct Input<'a> {
    lines: std::str::Lines<'a>,
    /// Number of the line last taken, from 1.
    number: usize,
}

impl<'a> Input<'a> {
    fn fault(&self, what: &str) -> String {
        format!("line {}: {what}", self.number)
    }

    fn next_line(&mut self) -> Result<&'a str, String> {
        self.number += 1;
        self.lines.next().ok_or_else(|| self.fault("the file ends too early"))
    }

    fn value(&mut self, key: &str) -> Result<&'a str, String> {
        let line = self.next_line()?;
        let (found, value) = line.split_once(' ').unwrap_or((line, ""));
        if found == key { Ok(value) } else { Err(self.fault(&format!("expected the key `{key}`"))) }
    }

    fn words(&mut self, key: &str) -> Result<Vec<u32>, String> {
        let value = self.value(key)?;
        if value.is_empty() {
            return Ok(Vec::new());
        }
        value.split(' ').map(|word| self.word(word)).collect()
    }

    fn word(&self, word: &str) -> Result<u32, String> {
        let digits = word.len() == 8 && word.bytes().all(|b| b.is_ascii_hexdigit());
        match u32::from_str_radix(word, 16) {
            Ok(number) if digits => Ok(number),
            _ => Err(self.fault("a word is eight hexadecimal digits")),
        }
    }

    fn bytes(&mut self, key: &str) -> Result<Vec<u8>, String> {
        let value = self.value(key)?.as_bytes();
        let (pairs, rest) = value.as_chunks::<2>();
        let bytes: Option<Vec<u8>> =
            pairs.iter().map(|[high, low]| Some(digit(*high)? << 4 | digit(*low)?)).collect();
        match bytes {
            Some(bytes) if rest.is_empty() => Ok(bytes),
            _ => Err(self.fault("bytes are pairs of hexadecimal digits")),
        }
    }

    fn number<N: std::str::FromStr>(&mut self, key: &str) -> Result<N, String> {
        let value = self.value(key)?;
        self.decimal(value)
    }

    fn decimal<N: std::str::FromStr>(&self, value: &str) -> Result<N, String> {
        let digits = value.bytes().all(|b| b.is_ascii_digit());
        match value.parse() {
            Ok(number) if digits => Ok(number),
            _ => Err(self.fault("expected a decimal number in range")),
        }
    }

    fn range(&mut self) -> Result<Option<(u32, u32)>, String> {
        let value = self.value("range")?;
        if value == "none" {
            return Ok(None);
        }
        let (start, end) =
            value.split_once(' ').ok_or_else(|| self.fault("a range is `none` or two numbers"))?;
        Ok(Some((self.decimal(start)?, self.decimal(end)?)))
    }

    fn list(&mut self, words: &str, text: &str) -> Result<TokenList, String> {
        Ok(TokenList { words: self.words(words)?, text: self.bytes(text)? })
    }

    fn template(&mut self) -> Result<Option<TokenList>, String> {
        match self.value("template")? {
            "none" => Ok(None),
            "given" => Ok(Some(self.list("template_words", "template_text")?)),
            _ => Err(self.fault("a template is `none` or `given`")),
        }
    }

    fn rules(&mut self) -> Result<Rules, String> {
        Ok(Rules {
            directory: self.words("directory")?,
            words: self.words("rule_words")?,
            bytes: self.bytes("rule_bytes")?,
            fact_text: self.bytes("fact_text")?,
        })
    }

    fn file(&mut self) -> Result<File, String> {
        Ok(File {
            tree: self.words("tree")?,
            text: self.bytes("text")?,
            facts: self.words("facts")?,
        })
    }

    fn job(&mut self) -> Result<Job, String> {
        Ok(Job {
            rules: self.rules()?,
            file: self.file()?,
            candidates: self.words("candidates")?,
            range: self.range()?,
            parses: Parses { words: self.words("parse_words")?, text: self.bytes("parse_text")? },
            buffer: self.number("buffer")?,
        })
    }
}

fn digit(byte: u8) -> Option<u8> {
    char::from(byte).to_digit(16).and_then(|digit| u8::try_from(digit).ok())
}

#[cfg(test)]
mod tests {
    use super::*;

    fn sample() -> Vec<Operation> {
        let list = TokenList { words: vec![0x2008_0001, 0x2001_0001], text: b"$a".to_vec() };
        let rules = Rules {
            directory: vec![1, 2, u32::MAX],
            words: vec![0, 0xffff_ffff],
            bytes: vec![0, 255, 16],
            fact_text: Vec::new(),
        };
        let file = File { tree: vec![7], text: b"x\n".to_vec(), facts: vec![] };
        let job = Job {
            rules: rules.clone(),
            file: file.clone(),
            candidates: vec![1, 2, 3],
            range: Some((5, 4_294_967_295)),
            parses: Parses { words: vec![9], text: vec![1] },
            buffer: usize::MAX,
        };
        vec![
            Operation::ReadTokens { list: list.clone() },
            Operation::CheckPair { pattern: list.clone(), template: None },
            Operation::CheckPair { pattern: list.clone(), template: Some(TokenList::default()) },
            Operation::RawCode { list, buffer: 0 },
            Operation::Build { rules: rules.clone(), rule: 3 },
            Operation::Resolve { rules: rules.clone(), rule: 1, side: 2, element: 3 },
            Operation::MatchNode { rules, file, node: 1, rule: 2, range: None, buffer: 12 },
            Operation::Job(job.clone()),
            Operation::Walk(Job { range: None, ..job }),
        ]
    }

    #[test]
    fn what_is_written_reads_back() {
        for operation in sample() {
            assert_eq!(read(&write(&operation)), Ok(operation));
        }
    }

    #[test]
    fn a_file_cut_anywhere_is_refused_or_the_same() {
        for operation in sample() {
            let whole = write(&operation);
            for end in 0..whole.len() - 1 {
                if let Ok(other) = read(&whole[..end]) {
                    // Only a cut in the last number can still be a file.
                    assert_eq!(write(&other).lines().count(), whole.lines().count());
                }
            }
        }
    }

    #[test]
    fn faults_name_their_line() {
        let cases = [
            ("", "line 1: the file ends too early"),
            ("suphreak-case 2", "line 1: expected `suphreak-case 1`"),
            ("suphreak-case 1\noperation fly", "line 2: unknown operation"),
            ("suphreak-case 1\noperation read_tokens\ntext", "line 3: expected the key `words`"),
            (
                "suphreak-case 1\noperation read_tokens\nwords 123",
                "line 3: a word is eight hexadecimal digits",
            ),
            (
                "suphreak-case 1\noperation read_tokens\nwords\ntext 0",
                "line 4: bytes are pairs of hexadecimal digits",
            ),
            (
                "suphreak-case 1\noperation read_tokens\nwords\ntext é",
                "line 4: bytes are pairs of hexadecimal digits",
            ),
            (
                "suphreak-case 1\noperation raw_code\nwords\ntext\nbuffer 99999999999999999999999",
                "line 5: expected a decimal number in range",
            ),
            (
                "suphreak-case 1\noperation raw_code\nwords\ntext\nbuffer +1",
                "line 5: expected a decimal number in range",
            ),
            (
                "suphreak-case 1\noperation read_tokens\nwords\ntext\n\n",
                "line 5: expected the end of the file",
            ),
        ];
        for (text, message) in cases {
            assert_eq!(read(text), Err(message.to_string()), "{text:?}");
        }
    }
}

//! What the tests build their input from. Kinds beside document 01's: 12 number, 14 `::`,
//! 67 path expression, 68 binary expression, 2,048 source file.
#![allow(dead_code)]

use input::build::{Syntax, fact, node, token, token_list};
use input::pairs::encode;
use input::{File, Job, Operation, Pair, Rules, Side, TokenList};

/// The kind of a punctuation byte.
pub fn punctuation(byte: u8) -> u32 {
    match byte {
        b',' => 4,
        b')' => 5,
        b'}' => 6,
        b']' => 7,
        b'$' => 8,
        b'{' => 9,
        b':' => 10,
        _ => 128 + u32::from(byte),
    }
}

/// A small lexer for test texts: names, numbers, white space, block comments, single bytes.
pub fn lex(text: &str) -> TokenList {
    let bytes = text.as_bytes();
    let mut tokens = Vec::new();
    let mut at = 0;
    while at < bytes.len() {
        let run = |same: fn(&u8) -> bool| bytes[at..].iter().take_while(|b| same(b)).count();
        let (kind, length) = match bytes[at] {
            b' ' => (2, run(|b| *b == b' ')),
            b if b.is_ascii_digit() => (12, run(u8::is_ascii_digit)),
            b if b.is_ascii_alphabetic() || b == b'_' => {
                let length = run(|b| b.is_ascii_alphanumeric() || *b == b'_');
                (if &bytes[at..at + length] == b"self" { 11 } else { 1 }, length)
            }
            b'/' => (3, text[at..].find("*/").expect("a closed comment") + 2),
            b => (punctuation(b), 1),
        };
        tokens.push((kind, bytes[at..at + length].to_vec()));
        at += length;
    }
    token_list(&tokens)
}

pub fn ident(name: &str) -> Syntax {
    token(if name == "self" { 11 } else { 1 }, name)
}

pub fn mark(text: &str) -> Syntax {
    token(punctuation(text.as_bytes()[0]), text)
}

pub fn name_ref(name: &str) -> Syntax {
    node(4, [ident(name)])
}

pub fn segment(name: &str) -> Syntax {
    node(3, [name_ref(name)])
}

pub fn path(names: &[&str]) -> Syntax {
    let mut path = node(2, [segment(names[0])]);
    for name in &names[1..] {
        path = node(2, [path, token(14, "::"), segment(name)]);
    }
    path
}

pub fn path_expr(names: &[&str]) -> Syntax {
    node(67, [path(names)])
}

pub fn stand_in(name: &str) -> Syntax {
    path_expr(&[&format!("__placeholder_{name}")])
}

pub fn number(text: &str) -> Syntax {
    node(66, [token(12, text)])
}

pub fn arguments(arguments: &[Syntax]) -> Syntax {
    let mut children = vec![mark("(")];
    for (place, argument) in arguments.iter().enumerate() {
        if place > 0 {
            children.extend([mark(","), token(2, " ")]);
        }
        children.push(argument.clone());
    }
    children.push(mark(")"));
    node(7, children)
}

pub fn call(names: &[&str], list: &[Syntax]) -> Syntax {
    node(64, [path_expr(names), arguments(list)])
}

pub fn method_call(receiver: Syntax, name: &str, list: &[Syntax]) -> Syntax {
    node(65, [receiver, mark("."), name_ref(name), arguments(list)])
}

/// The numbers of the elements that are this tree.
pub fn find(root: &Syntax, wanted: &Syntax) -> Vec<usize> {
    let elements = root.elements();
    (0..elements.len()).filter(|&i| elements[i] == wanted).collect()
}

/// A side of one tree: its list as lexed, its code the tree's text.
pub fn side(list: &str, form: usize, tree: &Syntax, facts: &[[u32; 4]]) -> Side {
    let mut side = Side { list: lex(list), code: tree.text(), ..Side::default() };
    side.trees[form].words = tree.words();
    side.trees[form].facts = facts.concat();
    side
}

pub fn pair(pattern: Side, template: Option<Side>) -> Pair {
    Pair { pattern, has_template: template.is_some(), template: template.unwrap_or_default() }
}

/// A pair of two lists without trees.
pub fn lists(pattern: &str, template: Option<&str>) -> Pair {
    let list = |text: &str| Side { list: lex(text), ..Side::default() };
    pair(list(pattern), template.map(list))
}

pub fn rules(pairs: &[Pair], fact_text: &str) -> Rules {
    encode(pairs, fact_text.as_bytes())
}

pub fn file(tree: &Syntax, facts: &[[u32; 4]]) -> File {
    File { tree: tree.words(), text: tree.text(), facts: facts.concat() }
}

/// A file of one empty node.
pub fn empty_file() -> File {
    file(&node(64, []), &[])
}

/// A job without rules on a file.
pub fn job_on(file: File) -> Job {
    Job { file, ..Job::default() }
}

pub fn check_job(job: &Job) -> Result<(), u32> {
    checker::check(&Operation::Job(job.clone()))
}

/// A fact of sort 1 on the path that is this tree.
pub fn resolved(root: &Syntax, names: &[&str], resolution: u32, flags: u32) -> [u32; 4] {
    fact(1, find(root, &path(names))[0], [resolution, flags, 0])
}

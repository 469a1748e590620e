//! Small trees, lists, facts and parses in document 01's words.

use input::words::{self, word};
use input::{File, Kept, Pair, Parses, RuleTree, Side, TokenList};
use ssr::{Finder, MissingParse, Rendered, Rendering, Stopped, Workspace};

pub const IDENT: u32 = 1;
pub const WHITESPACE: u32 = 2;
pub const COMMENT: u32 = 3;
pub const SELF: u32 = 11;
pub const NUMBER: u32 = 12;
pub const COLON2: u32 = 14;

pub const TOKEN_TREE: u32 = 1;
pub const PATH: u32 = 2;
pub const SEGMENT: u32 = 3;
pub const NAME_REF: u32 = 4;
pub const GENERIC_ARGS: u32 = 5;
pub const ARG_LIST: u32 = 7;
pub const FIELD_LIST: u32 = 8;
pub const FIELD: u32 = 9;
pub const CALL: u32 = 64;
pub const METHOD_CALL: u32 = 65;
pub const LITERAL: u32 = 66;
pub const PATH_EXPR: u32 = 67;
pub const BIN_EXPR: u32 = 68;
pub const PAREN_EXPR: u32 = 70;
pub const SOURCE_FILE: u32 = 2048;
pub const OTHER: u32 = 2050;
pub const REST: u32 = 2051;

#[derive(Clone)]
pub enum Syntax {
    Node(u32, Vec<Syntax>),
    Token(u32, String),
}

pub fn node(kind: u32, children: impl IntoIterator<Item = Syntax>) -> Syntax {
    Syntax::Node(kind, children.into_iter().collect())
}

/// A token by its text; punctuation other than document 01's is numbered 128 and its byte.
pub fn token(text: &str) -> Syntax {
    Syntax::Token(token_kind(text), text.to_owned())
}

fn token_kind(text: &str) -> u32 {
    match text {
        "::" => COLON2,
        "self" => SELF,
        "," => 4,
        ")" => 5,
        "}" => 6,
        "]" => 7,
        "$" => 8,
        "{" => 9,
        ":" => 10,
        _ if text.starts_with("/*") => COMMENT,
        _ if text.starts_with(char::is_whitespace) => WHITESPACE,
        _ if text.starts_with(|c: char| c.is_ascii_digit()) => NUMBER,
        _ if text.starts_with(|c: char| c.is_alphabetic() || c == '_') => IDENT,
        _ => 128 + u32::from(text.as_bytes()[0]),
    }
}

pub fn name_ref(name: &str) -> Syntax {
    node(NAME_REF, [token(name)])
}

pub fn path(names: &[&str]) -> Syntax {
    let (last, before) = names.split_last().expect("a path has a name");
    let segment = node(SEGMENT, [name_ref(last)]);
    if before.is_empty() {
        return node(PATH, [segment]);
    }
    node(PATH, [path(before), token("::"), segment])
}

pub fn path_expr(names: &[&str]) -> Syntax {
    node(PATH_EXPR, [path(names)])
}

pub fn placeholder(name: &str) -> Syntax {
    path_expr(&[&format!("__placeholder_{name}")])
}

pub fn literal(text: &str) -> Syntax {
    node(LITERAL, [token(text)])
}

pub fn arg_list(arguments: impl IntoIterator<Item = Syntax>) -> Syntax {
    let mut children = vec![token("(")];
    for (i, argument) in arguments.into_iter().enumerate() {
        if i > 0 {
            children.extend([token(","), token(" ")]);
        }
        children.push(argument);
    }
    children.push(token(")"));
    node(ARG_LIST, children)
}

pub fn call(names: &[&str], arguments: impl IntoIterator<Item = Syntax>) -> Syntax {
    node(CALL, [path_expr(names), arg_list(arguments)])
}

pub fn method_call(
    receiver: Syntax,
    name: &str,
    arguments: impl IntoIterator<Item = Syntax>,
) -> Syntax {
    node(METHOD_CALL, [receiver, token("."), name_ref(name), arg_list(arguments)])
}

/// A tree in words, with its text.
pub struct Tree {
    pub words: Vec<u32>,
    pub text: String,
}

impl Tree {
    pub fn new(root: &Syntax) -> Tree {
        let mut tree = Tree { words: Vec::new(), text: String::new() };
        tree.push(root);
        tree
    }

    fn push(&mut self, syntax: &Syntax) {
        let (at, start) = (self.words.len(), self.text.len() as u32);
        self.words.extend([0; 3]);
        let (kind, children) = match syntax {
            Syntax::Node(kind, children) => (word(words::NODE, kind << 16), children.as_slice()),
            Syntax::Token(kind, text) => {
                self.text.push_str(text);
                (word(words::TOKEN, kind << 16), [].as_slice())
            }
        };
        for child in children {
            self.push(child);
        }
        let size = (self.words.len() - at) as u32 / 3;
        let end = self.text.len() as u32;
        self.words[at..at + 3].copy_from_slice(&[
            kind | size,
            word(words::START, start),
            word(words::END, end),
        ]);
    }

    fn range(&self, element: u32) -> (usize, usize) {
        let at = 3 * element as usize;
        (words::value(self.words[at + 1]) as usize, words::value(self.words[at + 2]) as usize)
    }

    /// The nodes of that kind.
    pub fn nodes(&self, kind: u32) -> Vec<u32> {
        let head = |element: &u32| self.words[3 * *element as usize];
        let of_kind = |element: &u32| {
            words::word_kind(head(element)) == words::NODE
                && words::syntax_kind(head(element)) == kind
        };
        (0..self.words.len() as u32 / 3).filter(of_kind).collect()
    }

    /// The first node of that kind and text.
    pub fn at(&self, kind: u32, text: &str) -> u32 {
        let has_text = |element: &u32| {
            let (start, end) = self.range(*element);
            &self.text[start..end] == text
        };
        self.nodes(kind).into_iter().find(has_text).expect("there is such a node")
    }

    /// The ranges of all nodes: a parse of the text.
    fn node_ranges(&self) -> Vec<(u32, u32)> {
        let head = |element: &u32| self.words[3 * *element as usize];
        let nodes = (0..self.words.len() as u32 / 3)
            .filter(|element| words::word_kind(head(element)) == words::NODE);
        nodes.map(|element| self.range(element)).map(|(a, b)| (a as u32, b as u32)).collect()
    }
}

pub fn fact(sort: u32, element: u32, values: [u32; 3]) -> [u32; 4] {
    let [a, b, c] = values.map(|value| word(words::FACT_VALUE, value));
    [word(words::FACT, (sort << 24) | element), a, b, c]
}

/// Lexes as far as the tests need it.
pub fn lex(text: &str) -> TokenList {
    let mut list = TokenList { words: Vec::new(), text: text.as_bytes().to_vec() };
    let mut rest = text;
    while !rest.is_empty() {
        let length = token_length(rest);
        let kind = token_kind(&rest[..length]);
        list.words.push(word(words::TOKEN, (kind << 16) | length as u32));
        rest = &rest[length..];
    }
    list
}

fn token_length(text: &str) -> usize {
    let run = |of: fn(char) -> bool| text.find(|c| !of(c)).unwrap_or(text.len());
    match token_kind(text) {
        _ if text.starts_with("/*") => text.find("*/").map_or(text.len(), |end| end + 2),
        _ if text.starts_with("::") => 1,
        WHITESPACE => run(char::is_whitespace),
        _ if text.starts_with(|c: char| c.is_alphanumeric() || c == '_') => {
            run(|c| c.is_alphanumeric() || c == '_')
        }
        _ => 1,
    }
}

/// A side with an expression tree.
pub fn side(list: &str, root: &Syntax, facts: impl Fn(&Tree) -> Vec<[u32; 4]>) -> Side {
    let tree = Tree::new(root);
    let facts = facts(&tree).concat();
    let mut side = Side { list: lex(list), code: tree.text.into_bytes(), ..Side::default() };
    side.trees[0] = RuleTree { words: tree.words, facts };
    side
}

pub fn search(pattern: Side) -> Pair {
    Pair { pattern, ..Pair::default() }
}

pub fn rule(pattern: Side, template: Side) -> Pair {
    Pair { pattern, has_template: true, template }
}

pub fn no_facts(_: &Tree) -> Vec<[u32; 4]> {
    Vec::new()
}

/// Facts of sort 1 for the paths with these texts: resolution and flags.
pub fn resolves<'a>(paths: &'a [(&'a str, u32, u32)]) -> impl Fn(&Tree) -> Vec<[u32; 4]> + 'a {
    |tree| {
        let of = |(text, number, flags): &(&str, u32, u32)| {
            fact(1, tree.at(PATH, text), [*number, *flags, 0])
        };
        paths.iter().map(of).collect()
    }
}

/// A definition in a template: resolution, and its own text in module 1 as a part of the fact text.
pub fn defines<'a>(path: &'a str, number: u32, start: u32) -> impl Fn(&Tree) -> Vec<[u32; 4]> + 'a {
    move |tree| {
        let element = tree.at(PATH, path);
        let length = path.len() as u32;
        vec![fact(1, element, [number, 3, 0]), fact(7, element, [1, start, length])]
    }
}

/// The file with the root's children, and its facts.
pub fn file(children: Syntax, facts: impl Fn(&Tree) -> Vec<[u32; 4]>) -> File {
    let tree = Tree::new(&node(SOURCE_FILE, [children]));
    let facts = facts(&tree).concat();
    File { tree: tree.words, text: tree.text.into_bytes(), facts }
}

/// Parses: root kind, text, node ranges; each text parsed into the tree given, or not at all.
pub fn parses(of: &[(u32, &str, Option<Syntax>)]) -> Parses {
    let mut parses = Parses::default();
    for (kind, text, tree) in of {
        let ranges = tree.as_ref().map(|root| Tree::new(root).node_ranges()).unwrap_or_default();
        let start = parses.text.len() as u32;
        parses.text.extend(text.as_bytes());
        let end = parses.text.len() as u32;
        parses.words.push(word(words::PARSE, (kind << 16) | ranges.len() as u32));
        parses.words.extend([word(words::START, start), word(words::END, end)]);
        for (start, end) in ranges {
            parses.words.extend([word(words::START, start), word(words::END, end)]);
        }
    }
    parses
}

/// A match: the captured texts with stars and self kind, and the noted comments.
pub type Captured<'a> = (Vec<Option<(&'a str, u32, u32)>>, String);

/// The match of a pair's first rule on a node of the file.
pub fn match_node<'a>(pair: &Pair, file: &'a File, node: u32) -> Option<Captured<'a>> {
    let workspace = Workspace::new(std::slice::from_ref(pair), b"", Some(file)).unwrap();
    let finder = Finder::new(&workspace).unwrap();
    let matched = finder.get_match(node, 0, None).unwrap()?;
    let text = std::str::from_utf8(&file.text).unwrap();
    let part = |start: u32, end: u32| &text[start as usize..end as usize];
    let count = pair.pattern.list.words.iter().filter(|w| words::syntax_kind(**w) == 8).count();
    let captured = matched.bindings[..count]
        .iter()
        .map(|binding| binding.map(|b| (part(b.start, b.end), b.stars, b.self_kind)));
    let comments = matched.comments.iter().map(|element| {
        let at = 3 * *element as usize;
        part(words::value(file.tree[at + 1]), words::value(file.tree[at + 2]))
    });
    Some((captured.collect(), comments.collect()))
}

/// The walk's rendering.
pub fn walk(
    pairs: &[Pair],
    fact_text: &str,
    file: &File,
    parses: &Parses,
    missing: MissingParse,
) -> Result<(Vec<Kept>, Rendered), Stopped> {
    let workspace = Workspace::new(pairs, fact_text.as_bytes(), Some(file))?;
    let finder = Finder::new(&workspace)?;
    let nested = finder.nest(finder.walk(None)?)?;
    Ok((finder.kept(&nested), finder.edited_text(&nested, parses, missing)?))
}

/// The walk's edited text, where every parse that is asked for is handed in or does not parse.
pub fn edited(pairs: &[Pair], fact_text: &str, file: &File, parses: &Parses) -> Rendering {
    walk(pairs, fact_text, file, parses, MissingParse::DoesNotParse).unwrap().1.rendering
}

//! Record lists in each other that each start over: what is inside is matched again in each, and its
//! comments are noted again. So the work doubles with each list if it is done twice, and the comments
//! do in any case.

use super::{LEVELS, MatchLimit, TYPE, named, side};
use crate::facts::paths;
use crate::kinds::*;
use crate::parts::*;
use input::build::{Syntax, fact, node, token};
use input::pairs::encode;
use input::{Answer, Outcome, Pair};
use std::time::Duration;

/// The used part of a buffer.
const ROOM: usize = 1_048_576;
/// What a call may take.
const WITHIN: Duration = Duration::from_millis(50);
/// Up to so many lists the crate answers too.
const BY_CRATE: usize = 12;
/// Lists whose comments fill the used part of a buffer, and the tokens in the innermost.
const FILLING: usize = 16;
const TOKENS: usize = 12_000;
/// What every path means, and the function of every method call.
const RESOLUTION: u32 = 1;

/// The fields of the lists.
#[derive(Clone, Copy, PartialEq)]
enum Fields {
    /// `y: inner, $n: k`.
    Plain,
    /// Also `x: S::r::<$g>($v)` and, at the end, `x: $v`. By name, the first is matched with the code's
    /// last, a call, and in order with a method call, which does not bind `$g`.
    Repeated,
    /// In some lists `a: inner, b: $v, $n: k`, which the code has as `b: inner, a: inner, z: k`. The
    /// names are paths of one meaning: by name, the first is matched with the code's second.
    Crossed,
}

/// Which lists have a comment.
#[derive(Clone, Copy, PartialEq)]
enum Comments {
    None,
    Each,
    Innermost,
    /// Each, as long as needed to fill the used part of a buffer.
    Filling,
}

/// What a match notes.
#[derive(Clone, Default)]
pub struct Noted {
    pub length: u128,
    /// All of it where it fits a buffer.
    bytes: Vec<u8>,
}

impl Noted {
    fn of(bytes: &[u8]) -> Noted {
        Noted { length: bytes.len() as u128, bytes: bytes.to_vec() }
    }

    fn all(parts: &[&Noted]) -> Noted {
        let length = parts.iter().map(|part| part.length).sum();
        let bytes = if length > ROOM as u128 {
            Vec::new()
        } else {
            parts.iter().flat_map(|part| &part.bytes).copied().collect()
        };
        Noted { length, bytes }
    }

    /// Whether an outcome is that of a match that notes this.
    pub fn is_told(&self, outcome: &Outcome) -> bool {
        match outcome.answer {
            Answer::Refused(16) => self.length > outcome.buffer.len() as u128,
            Answer::Match { comments, .. } => {
                self.length == comments as u128 && outcome.buffer[..comments] == self.bytes
            }
            _ => false,
        }
    }
}

/// A list of the pattern with one of the code, and what matching them notes.
struct Nest {
    pattern: Syntax,
    code: Syntax,
    noted: Noted,
}

/// Where a list has its comment.
const FIRST: usize = 0;
const BEFORE_VALUE: usize = 1;
const IN_PLACEHOLDER: usize = 2;
const OTHER_FIELD: usize = 3;

/// A list's comment, if any, and its place.
struct Comment(Option<(usize, Vec<u8>)>);

impl Comment {
    fn text(&self, place: usize) -> Option<&[u8]> {
        self.0.as_ref().filter(|(own, _)| *own == place).map(|(_, text)| &text[..])
    }

    fn noted(&self, place: usize) -> Noted {
        self.text(place).map(Noted::of).unwrap_or_default()
    }

    /// A field with the comment before its value, if that is its place.
    fn field(&self, name: Syntax, place: usize, value: Syntax) -> Syntax {
        node(RECORD_FIELD, [vec![name], self.tokens(place), vec![value]].concat())
    }

    fn tokens(&self, place: usize) -> Vec<Syntax> {
        self.text(place).map(|text| token(COMMENT, text)).into_iter().collect()
    }
}

fn field(name: Syntax, value: Syntax) -> Syntax {
    node(RECORD_FIELD, [name, value])
}

fn placeholder(name: &str) -> Syntax {
    node(NAME_REF, [stand_in(name)])
}

struct Nests {
    fields: Fields,
    comments: Comments,
    lists: usize,
    /// Comments so far: each has its own text.
    count: usize,
}

impl Nests {
    /// So many lists in each other.
    fn nest(&mut self, lists: usize) -> Nest {
        if lists == 0 {
            return self.innermost();
        }
        let comment = self.comment(lists - 1);
        // The code has what is inside twice, so that only few lists can be such.
        let crossed = lists.is_multiple_of(self.lists.div_ceil(3));
        let inner = self.nest(lists - 1);
        match self.fields {
            Fields::Crossed if crossed => {
                let other = self.nest(lists - 1);
                crossed_list(&comment, inner, other)
            }
            Fields::Repeated => repeated_list(&comment, inner, lists.is_multiple_of(2)),
            _ => plain_list(&comment, inner),
        }
    }

    /// A token tree where there is room for it.
    fn innermost(&self) -> Nest {
        let tokens = if self.comments == Comments::Filling { TOKENS } else { 1 };
        let tree = |inside: Vec<Syntax>| {
            let tree = [vec![mark("(")], inside, vec![mark(")")]].concat();
            node(MACRO_CALL, [path_of(ident("m")), mark("!"), node(TOKEN_TREE, tree)])
        };
        let mut inside = vec![ident("t"); tokens];
        if tokens > 1 {
            // No UTF-8, so that the crate is not asked: it would not end soon.
            inside[0] = token(STRING, [0xff]);
        }
        let code = tree(inside);
        Nest { pattern: tree(vec![stand_in("t")]), code, noted: Noted::default() }
    }

    /// The comment of the list with so many others inside.
    fn comment(&mut self, level: usize) -> Comment {
        let places = if self.fields == Fields::Plain { 3 } else { 4 };
        let (place, length) = match self.comments {
            Comments::None => return Comment(None),
            Comments::Innermost if level > 0 => return Comment(None),
            Comments::Each => (level % places, 8),
            // 60 lists note 2^64 bytes, 30 note 2^34: a count of 64 or of 32 bits would be 0.
            Comments::Innermost => (FIRST, 32),
            // Those of level i are noted 2^(15-i) times: 16 bytes each are 16 less than 2^20.
            Comments::Filling if level + 1 == self.lists => (IN_PLACEHOLDER, 32),
            Comments::Filling => (IN_PLACEHOLDER, 16),
        };
        self.count += 1;
        let (number, width) = (self.count, length - 4);
        Comment(Some((place, format!("/*{number:0width$}*/").into_bytes())))
    }
}

fn plain_list(comment: &Comment, inner: Nest) -> Nest {
    let pattern =
        node(RECORD_LIST, [field(ident("y"), inner.pattern), field(placeholder("n"), ident("k"))]);
    let fields = [
        comment.field(ident("y"), BEFORE_VALUE, inner.code),
        comment.field(node(NAME_REF, [ident("z")]), IN_PLACEHOLDER, ident("k")),
    ];
    let code = node(RECORD_LIST, [&comment.tokens(FIRST)[..], &fields].concat());
    let value = Noted::all(&[&comment.noted(BEFORE_VALUE), &inner.noted]);
    let in_order = [&comment.noted(FIRST), &value, &comment.noted(IN_PLACEHOLDER)];
    let noted = Noted::all(&[&value, &Noted::all(&in_order)]);
    Nest { pattern, code, noted }
}

/// `S::r::<generic>(argument)`.
fn call(generic: Syntax, argument: Syntax) -> Syntax {
    let generic = node(GENERIC_ARGS, [mark("<"), node(PATH_TYPE, [generic]), mark(">")]);
    let segment = node(PATH_SEGMENT, [node(NAME_REF, [ident("r")]), generic]);
    let path = node(PATH, [path_of(ident("S")), mark("::"), segment]);
    node(CALL_EXPR, [path_expr(path), node(ARG_LIST, [mark("("), argument, mark(")")])])
}

/// `receiver.r()`.
fn method_call(receiver: Syntax) -> Syntax {
    let arguments = node(ARG_LIST, [mark("("), mark(")")]);
    node(METHOD_CALL_EXPR, [receiver, mark("."), node(NAME_REF, [ident("r")]), arguments])
}

/// `x` before `y` or behind it, and again at the end.
fn repeated_list(comment: &Comment, inner: Nest, x_first: bool) -> Nest {
    let any = || node(PATH_EXPR, [stand_in("v")]);
    let one = || node(LITERAL, [token(NUMBER, "1")]);
    let mut wanted =
        [field(ident("x"), call(stand_in("g"), any())), field(ident("y"), inner.pattern)];
    let mut given = [
        field(ident("x"), method_call(one())),
        comment.field(ident("y"), BEFORE_VALUE, inner.code),
    ];
    let value = Noted::all(&[&comment.noted(BEFORE_VALUE), &inner.noted]);
    let last = comment.noted(OTHER_FIELD);
    let mut by_name = [&last, &value];
    if !x_first {
        wanted.reverse();
        given.reverse();
        by_name.reverse();
    }
    let behind = [field(placeholder("n"), ident("k")), field(ident("x"), any())];
    let pattern = node(RECORD_LIST, [wanted, behind].concat());
    let behind = [
        comment.field(node(NAME_REF, [ident("z")]), IN_PLACEHOLDER, ident("k")),
        comment.field(ident("x"), OTHER_FIELD, call(ident("T"), one())),
    ];
    let code = node(RECORD_LIST, [&comment.tokens(FIRST)[..], &given, &behind].concat());
    let in_order = [&comment.noted(FIRST), &value, &comment.noted(IN_PLACEHOLDER), &last];
    let noted = Noted::all(&[&Noted::all(&by_name), &Noted::all(&in_order)]);
    Nest { pattern, code, noted }
}

/// The pattern is inside once, the code twice, with comments of its own each time.
fn crossed_list(comment: &Comment, inner: Nest, other: Nest) -> Nest {
    let name = |name| path_of(ident(name));
    let fields = [
        field(name("a"), inner.pattern),
        field(name("b"), node(PATH_EXPR, [stand_in("v")])),
        field(placeholder("n"), ident("k")),
    ];
    let pattern = node(RECORD_LIST, fields);
    let fields = [
        comment.field(name("b"), BEFORE_VALUE, inner.code),
        comment.field(name("a"), OTHER_FIELD, other.code),
        comment.field(node(NAME_REF, [ident("z")]), IN_PLACEHOLDER, ident("k")),
    ];
    let code = node(RECORD_LIST, [&comment.tokens(FIRST)[..], &fields].concat());
    // What the placeholder captures is not noted.
    let [first, value, last, third] =
        [FIRST, BEFORE_VALUE, IN_PLACEHOLDER, OTHER_FIELD].map(|place| comment.noted(place));
    let by_name = Noted::all(&[&third, &other.noted, &value]);
    let in_order = Noted::all(&[&first, &value, &inner.noted, &third, &last]);
    Nest { pattern, code, noted: Noted::all(&[&by_name, &in_order]) }
}

/// So many lists, with buffers of no, some and all room, and around what they need.
fn limit(fields: Fields, comments: Comments, lists: usize) -> MatchLimit {
    let Nest { pattern, code, noted } = Nests { fields, comments, lists, count: 0 }.nest(lists);
    let mut buffers = vec![0, 100, ROOM];
    if let Some(length) = usize::try_from(noted.length).ok().filter(|length| *length <= ROOM) {
        buffers.extend([length.saturating_sub(1), length]);
    }
    buffers.sort_unstable();
    buffers.dedup();
    let mut pair = Pair { pattern: side(&pattern), ..Pair::default() };
    pair.pattern.trees[0].facts = pattern_facts(&pattern);
    let mut file = named(&code);
    file.facts.extend(code_facts(&code));
    MatchLimit {
        name: format!("{lists} lists that start over{}{}", fields.name(), comments.name()),
        rules: encode(&[pair], b""),
        file,
        buffers,
        within: WITHIN,
        by_crate: lists <= BY_CRATE,
        noted: Some(noted),
    }
}

/// Every path is usable, and one with a qualifier is of an associated function.
fn pattern_facts(pattern: &Syntax) -> Vec<u32> {
    let mut facts = Vec::new();
    for (i, path) in paths(pattern) {
        let qualified = child_of_kind(path, PATH).is_some();
        facts.extend(fact(1, i, [RESOLUTION, if qualified { 7 } else { 1 }, 0]));
        if qualified {
            facts.extend(fact(4, i, [TYPE, 0, 0]));
        }
    }
    facts
}

fn code_facts(code: &Syntax) -> Vec<u32> {
    let fact_of = |(i, element): (usize, &Syntax)| match element.kind() {
        _ if !element.is_node() => None,
        PATH => Some(fact(0, i, [RESOLUTION, 0, 0])),
        METHOD_CALL_EXPR => Some(fact(2, i, [RESOLUTION, 1, 1])),
        LITERAL => Some(fact(3, i, [0, TYPE, 0])),
        _ => None,
    };
    code.elements().into_iter().enumerate().filter_map(fact_of).flatten().collect()
}

impl Fields {
    fn name(self) -> &'static str {
        match self {
            Fields::Plain => "",
            Fields::Repeated => ", a name twice in each",
            Fields::Crossed => ", some with names crossed",
        }
    }
}

impl Comments {
    fn name(self) -> &'static str {
        match self {
            Comments::None => ", no comments",
            Comments::Each => ", a comment in each",
            Comments::Innermost => ", a comment in the innermost",
            Comments::Filling => ", whose comments fill a buffer, around 12,000 tokens",
        }
    }
}

pub fn all() -> Vec<MatchLimit> {
    let mut all = Vec::new();
    for fields in [Fields::Plain, Fields::Repeated, Fields::Crossed] {
        for comments in [Comments::None, Comments::Each, Comments::Innermost] {
            let counts = (1..=BY_CRATE).chain([LEVELS / 2, LEVELS]);
            all.extend(counts.map(|lists| limit(fields, comments, lists)));
        }
    }
    let filling = limit(Fields::Plain, Comments::Filling, FILLING);
    all.push(MatchLimit { within: super::WITHIN, ..filling });
    all
}

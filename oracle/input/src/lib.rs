//! What document 01's operations are handed: plain words and bytes, damaged ones too.
//! docs/FORMAT.md is the normative page; nothing here refuses anything but a directory
//! that cannot be cut (refusal 1).

pub mod build;
pub mod case_file;
pub mod edits;
pub mod pairs;
pub mod words;

pub use pairs::{Pair, RuleTree, Side, TokenList};

/// The rules as handed in: a directory of lengths, one word slice, one byte slice, one fact text.
#[derive(Clone, Debug, Default, PartialEq, Eq)]
pub struct Rules {
    pub directory: Vec<u32>,
    pub words: Vec<u32>,
    pub bytes: Vec<u8>,
    pub fact_text: Vec<u8>,
}

/// The file: its tree's words, its text and its facts.
#[derive(Clone, Debug, Default, PartialEq, Eq)]
pub struct File {
    pub tree: Vec<u32>,
    pub text: Vec<u8>,
    pub facts: Vec<u32>,
}

/// A tree with its facts that is checked by itself: the file's or, with what a rule's tree has
/// beside it, a rule's. The text of a rule's tree is its code.
#[derive(Clone, Debug, Default, PartialEq, Eq)]
pub struct TreeCheck {
    pub tree: File,
    pub rule: Option<RuleSide>,
}

impl TreeCheck {
    /// The tree of a form of a pair; `side` is 0 for the pattern's, else the template's.
    pub fn of_rule(pair: &Pair, side: u32, form: usize, fact_text: &[u8]) -> TreeCheck {
        let of = if side == 0 { &pair.pattern } else { &pair.template };
        let RuleTree { words, facts } = of.trees[form].clone();
        let given = u32::from(side == 0 || pair.has_template);
        let (list, fact_text) = (of.list.clone(), fact_text.to_vec());
        TreeCheck {
            tree: File { tree: words, text: of.code.clone(), facts },
            rule: Some(RuleSide { given, list, side, fact_text }),
        }
    }
}

/// What a rule's tree has beside it.
#[derive(Clone, Debug, Default, PartialEq, Eq)]
pub struct RuleSide {
    /// 0 where the side has no list, which is not looked at then.
    pub given: u32,
    pub list: TokenList,
    /// 0 for the pattern's, else the template's.
    pub side: u32,
    pub fact_text: Vec<u8>,
}

/// The parses handed in, over one parse text.
#[derive(Clone, Debug, Default, PartialEq, Eq)]
pub struct Parses {
    pub words: Vec<u32>,
    pub text: Vec<u8>,
}

/// A job as handed in. `candidates` has two words a candidate: node, rule.
#[derive(Clone, Debug, Default, PartialEq, Eq)]
pub struct Job {
    pub rules: Rules,
    pub file: File,
    pub candidates: Vec<u32>,
    pub range: Option<(u32, u32)>,
    pub parses: Parses,
    /// Length of the output buffer.
    pub buffer: usize,
}

/// What is done with a job as handed in.
#[derive(Clone, Copy, Debug, Default, PartialEq, Eq)]
pub enum Task {
    /// The job over its candidate list.
    #[default]
    Job,
    /// The whole-file walk; the job's candidates are not looked at.
    Walk,
}

impl Task {
    pub fn on(self, job: Job) -> Operation {
        match self {
            Task::Job => Operation::Job(job),
            Task::Walk => Operation::Walk(job),
        }
    }
}

/// One of document 01's operations with all that it is handed.
#[derive(Clone, Debug, PartialEq, Eq)]
pub enum Operation {
    /// Reading tokens.
    ReadTokens { list: TokenList },
    /// Checking a pair; the template may be absent.
    CheckPair { pattern: TokenList, template: Option<TokenList> },
    /// Writing raw code.
    RawCode { list: TokenList, buffer: usize },
    /// Building rules, with the number of the rule asked for.
    Build { rules: Rules, rule: u32 },
    /// Resolving, with the rule, side (0 pattern, 1 template) and element asked for.
    Resolve { rules: Rules, rule: u32, side: u32, element: u32 },
    /// Matching one node.
    MatchNode {
        rules: Rules,
        file: File,
        node: u32,
        rule: u32,
        range: Option<(u32, u32)>,
        buffer: usize,
    },
    /// `Task::Job`.
    Job(Job),
    /// `Task::Walk`.
    Walk(Job),
}

/// A bound placeholder: range in the file, stars, self kind (0 owned, 1 `&`, 2 `&mut`).
#[derive(Clone, Copy, Debug, PartialEq, Eq)]
pub struct Binding {
    pub start: u32,
    pub end: u32,
    pub stars: u32,
    pub self_kind: u32,
}

/// An accepted candidate: `get_match`'s answer in words.
#[derive(Clone, Debug, PartialEq, Eq)]
pub struct Matched {
    pub node: u32,
    pub rule: u32,
    /// In pattern order; slots past the pattern's placeholders are unbound.
    pub bindings: [Option<Binding>; 8],
    /// The noted comments, as element numbers of the file's tree, in turn.
    pub comments: Vec<u32>,
    /// The texts of the template's resolved definitions in the matched node's module:
    /// element of the template tree, start and length in the fact text; rising elements.
    pub paths: Vec<(u32, u32, u32)>,
}

/// A kept match with the collection of each of its captured ranges, each in document 01's order.
#[derive(Clone, Debug, PartialEq, Eq)]
pub struct Kept {
    pub matched: Matched,
    pub inner: [Vec<Kept>; 8],
}

/// A placeholder as reading gives it: where its name stands in the text, and the `not`s of each constraint.
#[derive(Clone, Debug, PartialEq, Eq)]
pub struct Placeholder {
    pub name_start: u32,
    pub name_length: u32,
    pub nots: Vec<u32>,
}

/// Which template tree a rule renders.
#[derive(Clone, Copy, Debug, PartialEq, Eq)]
pub enum TemplateTree {
    /// The rule has no template.
    None,
    /// The tree of the rule's own form.
    Own,
    /// The statement tree, for a missing expression tree.
    StandIn,
}

/// The rule asked for in building.
#[derive(Clone, Copy, Debug, PartialEq, Eq)]
pub struct BuiltRule {
    pub pair: u32,
    pub form: u32,
    pub template: TemplateTree,
}

/// The element asked for in resolving.
#[derive(Clone, Copy, Debug, Default, PartialEq, Eq)]
pub struct ResolvedElement {
    /// The resolution of a resolved path.
    pub resolution: Option<u32>,
    /// Function, and qualifier type if any, of a call that UFCS may match.
    pub call: Option<(u32, Option<u32>)>,
    pub contains_self: bool,
}

/// The answer of an operation, its buffer's used part apart.
#[derive(Clone, Debug, PartialEq, Eq)]
pub enum Answer {
    /// Refused with document 01's number.
    Refused(u32),
    /// Placeholders in list order.
    Placeholders(Vec<Placeholder>),
    /// The pair is fine.
    Valid,
    /// Length of the raw code.
    RawCode(usize),
    /// Number of rules left, and the rule asked for if there is one.
    Built {
        rules: u32,
        asked: Option<BuiltRule>,
    },
    /// What is known of the element asked for; nothing where rule, side or element do not exist.
    Resolved(Option<ResolvedElement>),
    NoMatch,
    /// Eight slots in pattern order, and the length of the noted comments.
    Match {
        bindings: [Option<Binding>; 8],
        comments: usize,
    },
    /// Kind and length of the text to parse.
    Asked {
        kind: u32,
        length: usize,
    },
    /// Length of the edit list.
    Edits(usize),
}

/// An operation's whole outcome: its answer and the used part of its buffer (empty where it has none).
#[derive(Clone, Debug, PartialEq, Eq)]
pub struct Outcome {
    pub answer: Answer,
    pub buffer: Vec<u8>,
}

/// The part of an output buffer that is used.
pub fn used(buffer: usize) -> usize {
    buffer.min(1_048_576)
}

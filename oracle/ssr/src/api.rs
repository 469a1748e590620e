//! What the oracle answers, besides the shared types of `input`.

/// Why the crate gave no result.
#[derive(Clone, Debug, PartialEq, Eq)]
pub enum Stopped {
    /// An error of the crate, as document 01's number.
    Refused(u32),
    /// The crate panicked, with this message.
    Panicked(String),
    NotFed(NotFed),
}

/// What the crate cannot be asked.
#[derive(Clone, Copy, Debug, PartialEq, Eq)]
pub enum NotFed {
    /// A text is not UTF-8, or a token, an element or a path text cuts a character.
    Text,
    /// Flags 5 of a rule's path (sort 1): usable, an associated function, and no definition.
    Flags,
    /// A qualifier type (sort 4) at a path without a qualifier.
    Qualifier,
    /// More than eight placeholders (refusal 13), which eight bindings do not hold.
    Placeholders,
    /// Words that document 01's checks 1 and 18 to 21 refuse.
    Malformed,
    /// A node, a rule or the file that was asked for does not exist.
    NoSuchNodeOrRule,
    /// The crate is exponential here and was stopped.
    TooLong,
}

/// A text that the crate wanted parsed, with the template's root kind.
#[derive(Clone, Debug, PartialEq, Eq)]
pub struct Asked {
    pub kind: u32,
    pub text: String,
}

/// What to do at a text without a handed parse.
#[derive(Clone, Copy, Debug, PartialEq, Eq)]
pub enum MissingParse {
    /// Stop there.
    Stop,
    /// Go on as if the text did not parse.
    DoesNotParse,
}

/// How rendering ended.
#[derive(Clone, Debug, PartialEq, Eq)]
pub enum Rendering {
    /// The file's text, edited.
    Edited(String),
    /// A text without a handed parse was met.
    Asked(Asked),
    /// The crate panicked, with this message.
    Panicked(String),
}

#[derive(Clone, Debug, PartialEq, Eq)]
pub struct Rendered {
    pub rendering: Rendering,
    /// Every text that the crate wanted parsed, once each, in the order of first asking.
    pub asked: Vec<Asked>,
}

/// One side of a resolved rule.
#[derive(Clone, Debug, Default, PartialEq, Eq)]
pub struct ResolvedSide {
    /// Element and resolution of each resolved path, by element.
    pub paths: Vec<(u32, u32)>,
    /// Element, function and qualifier type of each call that UFCS may match, by element.
    pub calls: Vec<(u32, u32, Option<u32>)>,
    pub contains_self: bool,
}

/// A resolved rule.
#[derive(Clone, Debug, Default, PartialEq, Eq)]
pub struct ResolvedRuleSides {
    pub pattern: ResolvedSide,
    pub template: Option<ResolvedSide>,
}

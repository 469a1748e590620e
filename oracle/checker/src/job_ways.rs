//! The ways that a job goes, so that a run of many jobs can say which of them it reached.

/// A way that nesting or writing may go.
#[derive(Clone, Copy, Debug, PartialEq, Eq)]
pub enum JobWay {
    SeveralOuter,
    Nested,
    /// Three or more in each other.
    NestedDeep,
    /// On the node of the one that holds it.
    SameNode,
    SeveralNested,
    /// No captured range of the one that it meets, on an ancestor or on its node, holds it.
    Dropped,
    DroppedOnNode,
    /// Held by a captured range that is not the first; by two of them; an empty node.
    LaterRange,
    TwoRanges,
    EmptyHeld,
    /// A template has a capture twice, and that holds a match.
    Twice,
    TwiceNested,
    /// A template does not have a capture, and that holds a match.
    Unused,
    UnusedNested,
    Ref,
    RefMut,
    Stars,
    /// A prefix before a capture that holds a match; in parentheses; left out before a method call.
    PrefixNested,
    PrefixMarked,
    PrefixLeftOut,
    Comments,
    CommentsNested,
    /// Comments behind a second rendering.
    CommentsSecond,
    PathText,
    /// A path's text with something of its segment behind it.
    PathRest,
    /// Path texts of one rule in two modules.
    TwoModules,
    EmptyNode,
    EmptyCapture,
    /// A capture in parentheses; one that holds a match; one where another needs none.
    Parentheses,
    ParenthesesNested,
    SomeParentheses,
    /// Every capture is a node of the parse.
    NoParentheses,
    /// Two captures share one range.
    SharedRange,
    DoesNotParse,
    /// A template whose kind is never parsed.
    NeverAsked,
    /// A stand-in name that is no placeholder of the pattern.
    PlainStandIn,
    /// The event that ends the writing is inside a nested text.
    AskedNested,
    UnboundNested,
    FullNested,
    /// 30 in the words of an edit, in a second rendering, in comments.
    FullWords,
    FullSecond,
    FullComments,
}

pub const JOB_WAYS: [(JobWay, &str); 42] = [
    (JobWay::SeveralOuter, "two or more outer matches"),
    (JobWay::Nested, "a match in a capture of another"),
    (JobWay::NestedDeep, "three or more in each other"),
    (JobWay::SameNode, "on the node of the one that holds it"),
    (JobWay::SeveralNested, "two or more in one capture"),
    (JobWay::Dropped, "dropped below another"),
    (JobWay::DroppedOnNode, "dropped on the node of another"),
    (JobWay::LaterRange, "held by a later placeholder"),
    (JobWay::TwoRanges, "held by two captured ranges"),
    (JobWay::EmptyHeld, "an empty node held"),
    (JobWay::Twice, "a capture twice in a template"),
    (JobWay::TwiceNested, "twice, holding a match"),
    (JobWay::Unused, "a capture that no template has"),
    (JobWay::UnusedNested, "unused, holding a match"),
    (JobWay::Ref, "the prefix &"),
    (JobWay::RefMut, "the prefix &mut"),
    (JobWay::Stars, "stars"),
    (JobWay::PrefixNested, "a prefix before a nested text"),
    (JobWay::PrefixMarked, "a prefix in parentheses"),
    (JobWay::PrefixLeftOut, "a prefix left out"),
    (JobWay::Comments, "comments behind a text"),
    (JobWay::CommentsNested, "behind a nested text"),
    (JobWay::CommentsSecond, "behind a second rendering"),
    (JobWay::PathText, "a path text"),
    (JobWay::PathRest, "with more of its segment"),
    (JobWay::TwoModules, "path texts in two modules"),
    (JobWay::EmptyNode, "an edit of an empty node"),
    (JobWay::EmptyCapture, "a capture without bytes"),
    (JobWay::Parentheses, "parentheses"),
    (JobWay::ParenthesesNested, "around a nested text"),
    (JobWay::SomeParentheses, "around one capture of several"),
    (JobWay::NoParentheses, "a parse that needs none"),
    (JobWay::SharedRange, "two captures with one range"),
    (JobWay::DoesNotParse, "a text that does not parse"),
    (JobWay::NeverAsked, "a kind that is never parsed"),
    (JobWay::PlainStandIn, "a stand-in name as plain text"),
    (JobWay::AskedNested, "asked inside a nested text"),
    (JobWay::UnboundNested, "29 inside a nested text"),
    (JobWay::FullNested, "30 inside a nested text"),
    (JobWay::FullWords, "30 in the words of an edit"),
    (JobWay::FullSecond, "30 in a second rendering"),
    (JobWay::FullComments, "30 in comments"),
];

/// A set of ways.
#[derive(Clone, Copy, Debug, Default, PartialEq, Eq)]
pub struct JobWays(u64);

impl JobWays {
    pub fn contains(self, way: JobWay) -> bool {
        self.0 & (1 << way as u32) != 0
    }

    pub fn with(self, other: JobWays) -> JobWays {
        JobWays(self.0 | other.0)
    }

    pub(crate) fn insert(&mut self, way: JobWay) {
        self.0 |= 1 << way as u32;
    }

    pub(crate) fn insert_if(&mut self, gone: bool, way: JobWay) {
        if gone {
            self.insert(way);
        }
    }
}

//! The ways that matching goes, so that a run of many cases can say which of them it reached.

/// A way that matching one node may go.
#[derive(Clone, Copy, Debug, PartialEq, Eq)]
pub enum Way {
    /// A call that a path claims meets a method call of its function.
    MethodCall,
    /// Its receiver is the first argument, after so many steps of autoderef.
    Receiver,
    SeveralSteps,
    /// The function takes self but the path has no type: the receiver stays out.
    ReceiverLeftOut,
    /// The function takes no self.
    NoSelf,
    /// Such a call meets a call.
    Call,
    ResolvedPath,
    PathArguments,
    RecordByName,
    /// A later field of the code has the same name as an earlier one, and takes its place.
    RepeatedField,
    /// A field of the code without a name (sort 5).
    NamelessField,
    /// A field of the pattern that has no lone identifier first.
    SkippedField,
    Restart,
    /// A record list starts over after so many of its fields were matched by name.
    RestartAfterNone,
    RestartAfterOne,
    RestartAfterMore,
    /// A list that starts over matches a field with the same one by name and in order, or by name
    /// with another than in order.
    SamePair,
    OtherPair,
    /// So many lists in each other start over; the last is four or more.
    TwoDeep,
    ThreeDeep,
    FourDeep,
    TokenTree,
    TokenRun,
    /// A run ends at its stop text; at a subtree that begins with it; or the subtree uses up an
    /// element that is no node, and the run goes on.
    StoppedByToken,
    StoppedByTree,
    StopUsedUp,
    /// The code's comma before what closes the pattern, and the pattern's before what closes the
    /// code.
    CodeComma,
    PatternComma,
    Constraint,
    /// A placeholder is bound again.
    Rebound,
    EmptyNode,
    Template,
    /// A text of the template's for the module of the node.
    TemplatePath,
}

pub const WAYS: [(Way, &str); 33] = [
    (Way::MethodCall, "a claimed call meets a method call"),
    (Way::Receiver, "its receiver is the first argument"),
    (Way::SeveralSteps, "after one step or more"),
    (Way::ReceiverLeftOut, "its receiver is left out"),
    (Way::NoSelf, "its function takes no self"),
    (Way::Call, "a claimed call meets a call"),
    (Way::ResolvedPath, "a resolved path"),
    (Way::PathArguments, "with type arguments"),
    (Way::RecordByName, "a record list by name"),
    (Way::RepeatedField, "a name twice in the code"),
    (Way::NamelessField, "a field without a name in the code"),
    (Way::SkippedField, "a field of the pattern skipped"),
    (Way::Restart, "a record list starts over"),
    (Way::RestartAfterNone, "after no field by name"),
    (Way::RestartAfterOne, "after one field by name"),
    (Way::RestartAfterMore, "after two fields or more by name"),
    (Way::SamePair, "a pair by name and in order"),
    (Way::OtherPair, "another pair by name than in order"),
    (Way::TwoDeep, "two that start over in each other"),
    (Way::ThreeDeep, "three in each other"),
    (Way::FourDeep, "four or more in each other"),
    (Way::TokenTree, "a token tree"),
    (Way::TokenRun, "a run of tokens"),
    (Way::StoppedByToken, "stopped by a token"),
    (Way::StoppedByTree, "stopped by a subtree"),
    (Way::StopUsedUp, "a subtree uses the stop up"),
    (Way::CodeComma, "a comma more in the code"),
    (Way::PatternComma, "a comma more in the pattern"),
    (Way::Constraint, "a constraint"),
    (Way::Rebound, "a placeholder bound again"),
    (Way::EmptyNode, "an empty node bound"),
    (Way::Template, "a template"),
    (Way::TemplatePath, "a path of a template"),
];

/// A set of ways.
#[derive(Clone, Copy, Debug, Default, PartialEq, Eq)]
pub struct Ways(u64);

impl Ways {
    pub fn contains(self, way: Way) -> bool {
        self.0 & (1 << way as u32) != 0
    }

    pub(super) fn insert(&mut self, way: Way) {
        self.0 |= 1 << way as u32;
    }
}

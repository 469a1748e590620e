//! A call of matching one node.

use input::{File, Rules};
use judge::MatchQuestion;
use library::matching::{MatchedNode, Range, match_node};

use crate::judged::BEFORE;

/// What the library answers and leaves in the buffer.
pub type Given = (MatchedNode, Vec<u8>);

/// What is asked, as it is handed over: the range's ends are there without a range too.
#[derive(Clone, Copy, Debug, PartialEq, Eq)]
pub struct Call {
    pub node: usize,
    pub rule: usize,
    /// 0 where no range is given.
    pub range_given: u32,
    pub range_start: usize,
    pub range_end: usize,
    /// The length of the buffer.
    pub buffer: usize,
}

impl Call {
    /// The call that asks a question and nothing else.
    pub fn of(question: MatchQuestion) -> Call {
        let MatchQuestion { node, rule, range, buffer } = question;
        let (range_start, range_end) = range.unwrap_or_default();
        let range_given = u32::from(range.is_some());
        Call { node, rule, range_given, range_start, range_end, buffer }
    }

    pub fn question(&self) -> MatchQuestion {
        let range = (self.range_given != 0).then_some((self.range_start, self.range_end));
        MatchQuestion { node: self.node, rule: self.rule, range, buffer: self.buffer }
    }

    /// Asks the library. Before the call, no byte of the buffer is 0.
    pub fn ask(&self, rules: &Rules, file: &File) -> Given {
        let &Call { node, rule, range_given: given, range_start: start, range_end: end, buffer } =
            self;
        let mut out = vec![BEFORE; buffer];
        (match_node(rules, file, node, rule, Range { given, start, end }, &mut out), out)
    }
}

#[cfg(test)]
mod tests {
    use super::*;

    #[test]
    fn a_call_asks_its_question() {
        let question = MatchQuestion { node: 3, rule: 1, range: Some((7, 2)), buffer: 5 };
        assert_eq!(Call::of(question).question(), question);
        let other = Call { range_given: u32::MAX, ..Call::of(question) };
        assert_eq!(other.question(), question);
        let none = Call { range_given: 0, ..Call::of(question) };
        assert_eq!(none.question(), MatchQuestion { range: None, ..question });
    }
}

//! Answers about matching one node.

use input::{Answer, Outcome};
use library::matching::{Binding, MatchedNode};

use super::BEFORE;

/// Matching one node, with the whole buffer after the call; nothing if the outcome is none of it.
pub fn match_node(outcome: Outcome, buffer: usize) -> Option<(MatchedNode, Vec<u8>)> {
    let answer = matched_node(&outcome.answer)?;
    let mut out = outcome.buffer;
    out.resize(buffer, BEFORE);
    Some((answer, out))
}

fn matched_node(answer: &Answer) -> Option<MatchedNode> {
    let mut of = MatchedNode::default();
    match answer {
        Answer::Refused(number) => of.refusal = *number,
        Answer::NoMatch => {}
        Answer::Match { bindings, comments } => {
            (of.matched, of.length) = (1, *comments);
            of.bindings = bindings.map(binding);
        }
        _ => return None,
    }
    Some(of)
}

/// A binding; all 0 for none.
pub fn binding(binding: Option<input::Binding>) -> Binding {
    let Some(input::Binding { start, end, stars, self_kind }) = binding else {
        return Binding::default();
    };
    Binding { bound: 1, start, end, stars, self_kind }
}

#[cfg(test)]
mod tests {
    use super::*;

    #[test]
    fn a_judged_outcome_has_one_answer_and_one_buffer() {
        let refused = Outcome { answer: Answer::Refused(16), buffer: vec![0; 2] };
        let answer = MatchedNode { refusal: 16, ..MatchedNode::default() };
        assert_eq!(match_node(refused, 2), Some((answer, vec![0; 2])));

        let binding = input::Binding { start: 2, end: 3, stars: 1, self_kind: 2 };
        let mut bindings = [None; 8];
        bindings[1] = Some(binding);
        let comments = b"/**/".to_vec();
        let outcome = Outcome { answer: Answer::Match { bindings, comments: 4 }, buffer: comments };
        let (answer, out) = match_node(outcome, 6).expect("an answer of matching");
        assert_eq!((answer.refusal, answer.matched, answer.length), (0, 1, 4));
        assert_eq!(answer.bindings[0], Binding::default());
        let wanted = Binding { bound: 1, start: 2, end: 3, stars: 1, self_kind: 2 };
        assert_eq!(answer.bindings[1], wanted);
        assert_eq!(out, *b"/**/\xa5\xa5");

        let other = Outcome { answer: Answer::Valid, buffer: Vec::new() };
        assert_eq!(match_node(other, 0), None);
    }
}

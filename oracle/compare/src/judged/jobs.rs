//! Answers about jobs.

use input::{Answer, Outcome};
use library::job::JobAnswer;

use super::BEFORE;

/// A job, with the whole buffer after the call; nothing if the outcome is none of it.
pub fn job(outcome: Outcome, buffer: usize) -> Option<(JobAnswer, Vec<u8>)> {
    let none = JobAnswer::default();
    let answer = match outcome.answer {
        Answer::Refused(refusal) => JobAnswer { refusal, ..none },
        Answer::Asked { kind, length } => JobAnswer { asked: 1, kind, length, ..none },
        Answer::Edits(length) => JobAnswer { length, ..none },
        _ => return None,
    };
    let mut out = outcome.buffer;
    out.resize(buffer, BEFORE);
    Some((answer, out))
}

#[cfg(test)]
mod tests {
    use super::*;

    #[test]
    fn a_judged_outcome_has_one_answer_and_one_buffer() {
        let asked = Answer::Asked { kind: 64, length: 2 };
        let outcome = Outcome { answer: asked, buffer: b"f(\0".to_vec() };
        let wanted = JobAnswer { refusal: 0, asked: 1, kind: 64, length: 2 };
        assert_eq!(job(outcome, 5), Some((wanted, b"f(\0\xa5\xa5".to_vec())));

        let outcome = Outcome { answer: Answer::Refused(30), buffer: vec![0] };
        let wanted = JobAnswer { refusal: 30, ..JobAnswer::default() };
        assert_eq!(job(outcome, 1), Some((wanted, vec![0])));

        let outcome = Outcome { answer: Answer::Edits(0), buffer: Vec::new() };
        assert_eq!(job(outcome, 0), Some((JobAnswer::default(), Vec::new())));
        assert_eq!(job(Outcome { answer: Answer::Valid, buffer: Vec::new() }, 0), None);
    }
}

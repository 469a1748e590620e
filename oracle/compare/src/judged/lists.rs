//! Answers about token lists.

use input::{Answer, Outcome};
use library::lists::{CONSTRAINTS, NamedPlaceholder, PLACEHOLDERS, RawCode, ReadTokens};

use super::BEFORE;

/// Reading tokens; nothing if the answer is none of it.
pub fn read_tokens(answer: &Answer) -> Option<ReadTokens> {
    let mut read = ReadTokens {
        refusal: 0,
        count: 0,
        placeholders: [NamedPlaceholder::default(); PLACEHOLDERS],
        constraints: 0,
        nots: [0; CONSTRAINTS],
    };
    match answer {
        Answer::Refused(number) => read.refusal = *number,
        Answer::Placeholders(found) => {
            read.count = found.len();
            for (place, placeholder) in read.placeholders.iter_mut().zip(found) {
                place.start = placeholder.name_start as usize;
                place.end = place.start + placeholder.name_length as usize;
                place.constraints = placeholder.nots.len();
            }
            let nots = found.iter().flat_map(|placeholder| &placeholder.nots);
            read.constraints = nots.clone().count();
            for (place, nots) in read.nots.iter_mut().zip(nots) {
                *place = u8::try_from(*nots).ok()?;
            }
        }
        _ => return None,
    }
    Some(read)
}

/// Checking a pair; nothing if the answer is none of it.
pub fn check_pair(answer: &Answer) -> Option<u32> {
    match answer {
        Answer::Refused(number) => Some(*number),
        Answer::Valid => Some(0),
        _ => None,
    }
}

/// Writing raw code, with the whole buffer after the call; nothing if the outcome is none of it.
pub fn raw_code(outcome: &Outcome, buffer: usize) -> Option<(RawCode, Vec<u8>)> {
    let answer = match outcome.answer {
        Answer::Refused(refusal) => RawCode { refusal, length: 0 },
        Answer::RawCode(length) => RawCode { refusal: 0, length },
        _ => return None,
    };
    let mut out = outcome.buffer.clone();
    out.resize(buffer, BEFORE);
    Some((answer, out))
}

//! What the library is asked about rules and a file, with what it has to answer.

use generator::Rng;
use input::{Answer, used};
use judge::{JudgedMatch, MatchQuestion, WholeMatches};

use super::call::Call;
use crate::rules::NO_NUMBER;

/// One pair of so many is asked once more though it does not match, and one of so many with a buffer
/// that has bytes beyond its used part.
const MORE: usize = 24;
const LARGE: usize = 2_000;
/// Room for the comments of nearly all matches, to know how long they are.
const ROOMY: usize = 4_096;

/// How pairs of a node and a rule are asked about.
#[derive(Clone, Copy)]
pub struct Plan {
    pub range: Option<(usize, usize)>,
    pub buffer: usize,
    /// The most pairs that are asked about, those that match before the others.
    pub most: usize,
    /// One case of so many is asked for what does not exist.
    pub others: usize,
}

pub struct Asked {
    pub call: Call,
    pub judged: JudgedMatch,
}

impl Asked {
    pub fn new(whole: &WholeMatches, call: Call) -> Asked {
        Asked { judged: whole.ask(call.question()), call }
    }

    /// The length of the noted comments of a match; one more than there is room for where they do
    /// not fit.
    fn needs(&self) -> Option<usize> {
        match self.judged.outcome.answer {
            Answer::Match { comments, .. } => Some(comments),
            Answer::Refused(16) => Some(self.call.buffer + 1),
            _ => None,
        }
    }
}

/// Every node with every rule, in this order.
pub fn all_pairs(whole: &WholeMatches) -> Vec<(usize, usize)> {
    let pairs = |node| (0..whole.rules()).map(move |rule| (node, rule));
    whole.nodes().into_iter().flat_map(pairs).collect()
}

/// Some pairs, and how many they are; then those of them that match once more, in ranges and with
/// buffers around what they need.
pub fn of_pairs(
    whole: &WholeMatches,
    pairs: &[(usize, usize)],
    plan: Plan,
    rng: &mut Rng,
) -> (Vec<Asked>, usize) {
    let Plan { range, buffer, most, .. } = plan;
    let call = |&(node, rule)| Call::of(MatchQuestion { node, rule, range, buffer });
    let mut asked: Vec<Asked> = pairs.iter().map(|pair| Asked::new(whole, call(pair))).collect();
    if asked.len() > most {
        asked.sort_by_key(|asked| asked.needs().is_none());
        asked.truncate(most);
    }
    let count = asked.len();
    for place in 0..count {
        let more = again(whole, &asked[place], rng);
        asked.extend(more.into_iter().map(|call| Asked::new(whole, call)));
    }
    (asked, count)
}

/// Questions about a pair that was asked without anything special.
fn again(whole: &WholeMatches, asked: &Asked, rng: &mut Rng) -> Vec<Call> {
    let call = asked.call;
    let mut more = Vec::new();
    let mut needs = asked.needs();
    if needs.is_some_and(|length| length > call.buffer) && call.buffer < ROOMY {
        needs = Asked::new(whole, Call { buffer: ROOMY, ..call }).needs();
    }
    if let Some(length) = needs {
        let lengths = [length, length.saturating_sub(1), length + 1, 0, 1];
        more.push(Call { buffer: *rng.pick(&lengths), ..call });
        if length > 0 {
            more.extend([length, length - 1].map(|buffer| Call { buffer, ..call }));
        }
    }
    if needs.is_some() || rng.one_in(MORE) {
        more.push(with_range(whole, call, rng));
    }
    if rng.one_in(LARGE) {
        more.push(Call { buffer: used(usize::MAX) + rng.below(9), ..call });
    }
    more
}

/// The call in a range: the node's own, one a byte off, one of other ends; or in none, though there
/// are ends that would be refused.
fn with_range(whole: &WholeMatches, call: Call, rng: &mut Rng) -> Call {
    let (start, end) = whole.range(call.node).unwrap_or_default();
    let far = *rng.pick(&[65_536, u32::MAX as usize, 1 << 32, usize::MAX]);
    let ends = [
        (start, end),
        (start, end),
        (start + 1, end.max(start + 1)),
        (start, end.max(start + 1) - 1),
        (start.saturating_sub(1), end + 1),
        (0, far),
        (far, usize::MAX),
        (end, end),
    ];
    let (range_start, range_end) = *rng.pick(&ends);
    if rng.one_in(6) {
        return Call { range_given: 0, range_start: far, range_end, ..call };
    }
    let range_given = *rng.pick(&[1, 1, 1, 2, 256, u32::MAX]);
    Call { range_given, range_start, range_end, ..call }
}

/// Numbers that no node or no rule has, a token's among them, and backward ranges. Where all is
/// refused, that is the answer to these too.
pub fn nothing_such(whole: &WholeMatches, elements: usize, rng: &mut Rng) -> Vec<Asked> {
    let nodes = whole.nodes();
    let token = (0..elements).find(|element| nodes.get(*element) != Some(element));
    let token = token.unwrap_or(elements);
    let buffer = if rng.chance(80) { rng.below(20) } else { 64 };
    let call = Call::of(MatchQuestion { node: 0, rule: 0, range: None, buffer });
    let far = *rng.pick(&NO_NUMBER);
    let calls = [
        call,
        Call { node: *rng.pick(&[token, elements, far]), ..call },
        Call { rule: *rng.pick(&[whole.rules(), far]), ..call },
        Call { range_given: 1, range_start: far, range_end: rng.below(9), ..call },
    ];
    calls.into_iter().map(|call| Asked::new(whole, call)).collect()
}

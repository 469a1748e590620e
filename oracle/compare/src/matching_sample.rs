//! Records of matching one node for the sample: each refusal, each way that matching goes, each number
//! of bound placeholders, receivers with stars and self kinds.
//!
//! The layout of such a record, as crates/replay's src/records.rt says what a record is: operation 8,
//! and fifteen parts in the order of the parameters of `ssr_match_node`. Numbers and words are four
//! bytes each, the lowest first.
//!
//! | part | what |
//! |---|---|
//! | 1 to 4 | the rules: directory (words), words (words), bytes, fact text |
//! | 5 to 7 | the file: tree (words), text, facts (words) |
//! | 8 to 12 | a number each: node, rule, range_given, range_start, range_end |
//! | 13 | a number: the length of the buffer, whose bytes are all 165 before the call |
//! | 14 | the buffer after the call, up to the last byte that is not 0 |
//! | 15 | the answer, 43 numbers, up to the last byte that is not 0 |
//!
//! The answer's numbers are refusal, matched, length, and for each of the eight bindings bound, start,
//! end, stars and self_kind. Directory, words, tree and facts have at most 512 words each, the buffer
//! has at most 64 bytes. Without a range (range_given 0) its ends may be backward: nothing looks at
//! them.

use std::collections::BTreeMap;

use checker::{WAYS, Way};
use generator::bent_matches::bend_copy;
use generator::{Rng, odd_matches, rule_vectors};
use input::{Answer, Binding, File, Rules};
use judge::{Backing, whole_matches};
use library::matching::MatchedNode;

use crate::judged;
use crate::matching::call::Call;
use crate::matching::questions::{Asked, Plan, all_pairs, nothing_such, of_pairs};
use crate::sample::{bytes, record, trimmed, words};

/// The number of the operation in a record.
const MATCH_NODE: u32 = 8;

/// About the most elements of a generated pattern.
const ELEMENTS: usize = 9;
/// The most words of one part.
const PART: usize = 512;

/// The most words and the most bytes of rules and file together.
#[derive(Clone, Copy)]
struct Room {
    words: usize,
    bytes: usize,
}

const SMALL: Room = Room { words: 330, bytes: 260 };
/// A vector's tree may have 129 levels.
const VECTOR: Room = Room { words: 700, bytes: 260 };
/// Record lists in each other.
const NEST: Room = Room { words: 700, bytes: 520 };
/// The longest buffer.
const BUFFER: usize = 64;
/// Cases that are looked through; of these every second is a damaged copy.
const CASES: u64 = 100_000;
/// Whole cases that are looked through again with more room, for what the small ones lack.
const LARGER_CASES: u64 = 20_000;
/// For so many lists of the sample there is each of the shares once.
const LISTS: usize = 440;

/// Numbers that have to be among the records. 18 takes more than there is room for.
const NUMBERS: [u32; 10] = [1, 14, 15, 19, 20, 21, 17, 22, 23, 16];

/// What a record is wanted for.
#[derive(Clone, Copy, Debug, PartialEq, Eq, PartialOrd, Ord)]
enum Reason {
    Refused(u32),
    /// So many placeholders are bound.
    Bound(usize),
    Noted,
    /// A placeholder took a receiver: dereferenced, or by a function with such a self kind.
    Starred,
    TakenBy(u32),
    /// A way that a match goes, and one that ends without a match, by its place in `WAYS`.
    Matched(usize),
    Failed(usize),
}

impl Reason {
    /// How many records are wanted for it.
    fn share(self) -> usize {
        match self {
            Reason::Refused(16 | 23) => 8,
            Reason::Refused(17..) => 4,
            Reason::Refused(_) => 1,
            Reason::Bound(_) => 4,
            Reason::Noted => 8,
            Reason::Starred | Reason::TakenBy(_) => 4,
            Reason::Matched(_) => 4,
            Reason::Failed(_) => 2,
        }
    }

    /// What a binding has beside its bytes.
    fn of_binding(binding: &Binding) -> impl Iterator<Item = Reason> {
        let starred = (binding.stars > 0).then_some(Reason::Starred);
        let taken = (binding.self_kind > 0).then_some(Reason::TakenBy(binding.self_kind));
        starred.into_iter().chain(taken)
    }

    fn all_of(asked: &Asked) -> Vec<Reason> {
        let ways = |reason: fn(usize) -> Reason| {
            let gone = |place: &usize| asked.judged.ways.contains(WAYS[*place].0);
            (0..WAYS.len()).filter(gone).map(reason).collect::<Vec<_>>()
        };
        match asked.judged.outcome.answer {
            Answer::Refused(number) => vec![Reason::Refused(number)],
            Answer::Match { bindings, comments } => {
                let mut reasons = ways(Reason::Matched);
                reasons.push(Reason::Bound(bindings.iter().flatten().count()));
                reasons.extend((comments > 0).then_some(Reason::Noted));
                reasons.extend(bindings.iter().flatten().flat_map(Reason::of_binding));
                reasons
            }
            _ => ways(Reason::Failed),
        }
    }
}

pub fn make(seed: u64, count: usize) -> Result<Vec<u8>, String> {
    let mut choice = Choice { times: count.div_ceil(LISTS), ..Choice::default() };
    for (_, rules, _) in rule_vectors::all() {
        choice.add(&rules, &small_file(seed), VECTOR, seed)?;
    }
    for index in 0..CASES {
        let (mut rules, mut file) = odd_matches::random(seed, index / 2, ELEMENTS);
        if index % 2 == 1 {
            bend_copy(seed, index, &mut rules, &mut file);
        }
        choice.add(&rules, &file, SMALL, index)?;
    }
    for index in 0..LARGER_CASES {
        let (rules, file) = odd_matches::random(seed, index, ELEMENTS);
        choice.add(&rules, &file, NEST, index)?;
    }
    choice.finish()
}

/// A file for rules that are refused, or have nothing to match there.
fn small_file(seed: u64) -> File {
    let files = (0..).map(|index| odd_matches::random(seed, index, ELEMENTS).1);
    let is_small = |file: &File| file.tree.len() + file.facts.len() <= 60;
    files.take(CASES as usize).find(is_small).unwrap_or_default()
}

/// The records chosen so far, and how many there are for each reason.
#[derive(Default)]
struct Choice {
    times: usize,
    met: BTreeMap<Reason, usize>,
    sample: Vec<u8>,
}

impl Choice {
    /// Chooses among the questions about rules and a file, where these are small.
    fn add(&mut self, rules: &Rules, file: &File, room: Room, index: u64) -> Result<(), String> {
        if !is_small(rules, file, room) {
            return Ok(());
        }
        let rng = &mut Rng::new(&[index]);
        let plan = Plan { range: None, buffer: rng.below(24), most: usize::MAX, others: 1 };
        let asked = whole_matches(rules, file, |whole| {
            let (mut asked, _) = of_pairs(whole, &all_pairs(whole), plan, rng);
            asked.extend(nothing_such(whole, file.tree.len() / 3, rng));
            asked
        });
        for asked in asked.into_iter().filter(|asked| fits(&asked.call)) {
            if self.is_wanted(&asked) {
                self.sample.extend(match_record(rules, file, asked)?);
            }
        }
        Ok(())
    }

    /// Whether a record is still wanted for one of its reasons: then it counts for all of them.
    fn is_wanted(&mut self, asked: &Asked) -> bool {
        let reasons = Reason::all_of(asked);
        let met = |reason| self.met.get(reason).copied().unwrap_or(0);
        let wanted = reasons.iter().any(|reason| met(reason) < self.times * reason.share());
        if wanted {
            reasons.into_iter().for_each(|reason| *self.met.entry(reason).or_default() += 1);
        }
        wanted
    }

    fn finish(self) -> Result<Vec<u8>, String> {
        let numbers = NUMBERS.into_iter().map(Reason::Refused);
        // More placeholders take more room, and so do more lists: they come as they come.
        let bound = (0..=4).map(Reason::Bound);
        let has_room = |place: &usize| WAYS[*place].0 != Way::FourDeep;
        let ways = (0..WAYS.len()).filter(has_room).map(Reason::Matched);
        let receivers = [Reason::Starred, Reason::TakenBy(1), Reason::TakenBy(2)];
        let mut missing = numbers.chain(bound).chain(ways).chain([Reason::Noted]).chain(receivers);
        match missing.find(|reason| !self.met.contains_key(reason)) {
            Some(reason) if self.times > 0 => Err(format!("{reason:?} is missing")),
            _ => Ok(self.sample),
        }
    }
}

fn is_small(rules: &Rules, file: &File, room: Room) -> bool {
    let words = [&rules.directory, &rules.words, &file.tree, &file.facts].map(Vec::len);
    let texts = [&rules.bytes, &rules.fact_text, &file.text].map(Vec::len);
    words.iter().all(|words| *words <= PART)
        && words.iter().sum::<usize>() <= room.words
        && texts.iter().sum::<usize>() <= room.bytes
}

/// Whether a call can be stored.
fn fits(call: &Call) -> bool {
    let numbers = [call.node, call.rule, call.range_start, call.range_end];
    numbers.iter().all(|number| u32::try_from(*number).is_ok()) && call.buffer <= BUFFER
}

fn match_record(rules: &Rules, file: &File, asked: Asked) -> Result<Vec<u8>, String> {
    let Asked { call, judged } = asked;
    if let Backing::Other(what) = judged.backing {
        return Err(format!("not judged: {what}"));
    }
    let (answer, out) = judged::matching::match_node(judged.outcome, call.buffer)
        .ok_or("no answer of matching one node")?;
    let [directory, rule_words] = [&rules.directory, &rules.words].map(|part| words(part));
    let [tree, facts] = [&file.tree, &file.facts].map(|part| words(part));
    let number = |number: usize| bytes([number as u32]);
    let range_given = bytes([call.range_given]);
    let numbers = [call.node, call.rule, call.range_start, call.range_end, call.buffer];
    let [node, rule, start, end, buffer] = numbers.map(number);
    let (out, answer) = (trimmed(out), trimmed(answer_bytes(&answer)));
    let parts: [&[u8]; 15] = [
        &directory,
        &rule_words,
        &rules.bytes,
        &rules.fact_text,
        &tree,
        &file.text,
        &facts,
        &node,
        &rule,
        &range_given,
        &start,
        &end,
        &buffer,
        &out,
        &answer,
    ];
    Ok(record(MATCH_NODE, &parts))
}

/// The fields of the exported struct in their order.
fn answer_bytes(answer: &MatchedNode) -> Vec<u8> {
    let mut fields = vec![answer.refusal, answer.matched, answer.length as u32];
    for binding in answer.bindings {
        fields.extend([binding.bound, binding.start, binding.end]);
        fields.extend([binding.stars, binding.self_kind]);
    }
    bytes(fields)
}

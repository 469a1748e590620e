//! Damaged copies of jobs and walks: candidates, ranges, parses, templates and buffers in the ways that are
//! named here, rules and file in those that `bent_matches` names.

use crate::bent_matches;
use crate::damage::{bytes, words};
use crate::jobs::{nodes, rule_count};
use crate::limits::{overgrow_candidates, overgrow_matches, overgrow_rules};
use crate::rng::Rng;
use input::build::{add_parse, element_word};
use input::pairs::{decode, encode};
use input::words::{END, PARSE, START, low16, value, word};
use input::{Job, Pair, Parses, Side, Task};

/// Sets these copies apart from others of the same seed.
const SALT: u64 = 0xbe27_10b5;

pub type Bend = fn(&mut Rng, &mut Job);

/// The candidates, which a walk does not have.
const OF_JOBS: [(&str, Bend); 8] = [
    ("candidates in another order", |rng, job| shuffle(rng, &mut job.candidates)),
    ("candidates left out", |rng, job| {
        let left = rng.below(job.candidates.len() / 2 + 1);
        job.candidates.truncate(2 * left);
    }),
    ("a candidate twice", |rng, job| {
        let copy = job.candidates.chunks_exact(2).next().map(<[u32]>::to_vec);
        job.candidates.extend(copy.unwrap_or_default());
        shuffle(rng, &mut job.candidates);
    }),
    ("a node that is none", |rng, job| {
        let nodes = nodes(&job.file);
        let elements = job.file.tree.len() as u32 / 3;
        let token = (0..elements).find(|element| !nodes.contains(element)).unwrap_or(elements);
        let node = *rng.pick(&[token, elements, u32::MAX, 0x5555_5556, 0x8000_0000]);
        job.candidates.extend([node, 0]);
    }),
    ("a rule that is none", |rng, job| {
        let rules = rule_count(&job.rules) as u32;
        job.candidates.extend([0, *rng.pick(&[rules, u32::MAX, 1 << 16])]);
    }),
    ("a lone last word", |_, job| job.candidates.push(0)),
    ("a candidate's word", |rng, job| words(rng, &mut job.candidates, 2)),
    ("over 1,024 candidates", |_, job| overgrow_candidates(job)),
];

const OF_WALKS: [(&str, Bend); 1] = [("over 1,024 matches", |_, job| overgrow_matches(job))];

const OF_BOTH: [(&str, Bend); 17] = [
    ("over 16 rules", |_, job| overgrow_rules(job)),
    ("a backward range", |rng, job| job.range = Some((1 + rng.below(9) as u32, 0))),
    ("a range", |rng, job| {
        let length = job.file.text.len() + 2;
        let (one, other) = (rng.below(length) as u32, rng.below(length) as u32);
        job.range = Some((one.min(other), one.max(other)));
    }),
    ("a large range", |_, job| job.range = Some((0, u32::MAX))),
    ("no template", |rng, job| {
        let fact_text = job.rules.fact_text.clone();
        if let Some(mut pairs) = decode(&job.rules).filter(|pairs| !pairs.is_empty()) {
            let place = rng.below(pairs.len());
            let pattern = pairs[place].pattern.clone();
            pairs[place] = Pair { pattern, has_template: false, template: Side::default() };
            job.rules = encode(&pairs, &fact_text);
        }
    }),
    ("a parse that nothing asks for", |rng, job| idle_parse(rng, &mut job.parses)),
    ("a parse twice", |rng, job| {
        idle_parse(rng, &mut job.parses);
        // Without words of a parse at the front, the copy is not twice in the list.
        let _ = first_again(&mut job.parses);
    }),
    ("a parse of another kind", |rng, job| {
        if let Some(first) = job.parses.words.first_mut() {
            *first = element_word(PARSE, 64 + rng.below(2000) as u32, low16(*first));
        }
    }),
    ("a parse's word", |rng, job| words(rng, &mut job.parses.words, 3)),
    ("a parse that is cut", |rng, job| {
        let left = rng.below(job.parses.words.len() + 1);
        job.parses.words.truncate(left);
    }),
    ("the text of the parses", |rng, job| bytes(rng, &mut job.parses.text)),
    ("a parse of no kind", |_, job| {
        job.parses.words.extend([word(PARSE, 0), word(START, 0), word(END, 0)]);
    }),
    ("no parses", |_, job| job.parses = Parses::default()),
    ("a parse without ranges", |_, job| {
        if let Some(first) = job.parses.words.first().copied() {
            let end = job.parses.words.len().min(3 + 2 * low16(first) as usize);
            job.parses.words.drain(end.min(3)..end);
            job.parses.words[0] = first & 0xffff_0000;
        }
    }),
    ("a small buffer", |rng, job| job.buffer = rng.below(60)),
    ("a large buffer", |rng, job| job.buffer = 1_048_570 + rng.below(12)),
    ("rules or file", |rng, job| {
        bent_matches::bend_copy(rng.number(), 0, &mut job.rules, &mut job.file);
    }),
];

/// The ways in which a job or a walk is damaged.
pub fn bends(task: Task) -> Vec<(&'static str, Bend)> {
    match task {
        Task::Job => [&OF_JOBS[..], &OF_BOTH].concat(),
        Task::Walk => [&OF_WALKS[..], &OF_BOTH].concat(),
    }
}

/// Damages a copy, in some cases in two or three ways: the names of what was done.
pub fn bend_copy(task: Task, seed: u64, index: u64, job: &mut Job) -> Vec<&'static str> {
    let rng = &mut Rng::new(&[SALT, seed, index]);
    let (bends, mut names) = (bends(task), Vec::new());
    for _ in 0..*rng.pick(&[1, 1, 1, 1, 2, 3]) {
        // Rules and file have many ways of their own.
        let last = bends.len() - 1;
        let place = if rng.chance(12) { last } else { rng.below(last) };
        let (name, bend) = bends[place];
        bend(rng, job);
        names.push(name);
    }
    names
}

fn shuffle(rng: &mut Rng, candidates: &mut [u32]) {
    let (pairs, _) = candidates.as_chunks_mut::<2>();
    rng.shuffle(pairs);
}

fn idle_parse(rng: &mut Rng, parses: &mut Parses) {
    let kind = *rng.pick(&[7, 64, 1025, 4095]);
    let text = format!("idle {}", rng.below(1000));
    let ranges = [(0, 4), (5, 5), (0, 4)];
    add_parse(parses, kind, text.as_bytes(), &ranges[..rng.below(4)]);
}

/// The first parse once more, with its text at another place; nothing where the words are damaged.
fn first_again(parses: &mut Parses) -> Option<()> {
    let head = parses.words.first_chunk::<3>()?;
    let ranges = 2 * low16(head[0]) as usize;
    let (start, end) = (value(head[1]) as usize, value(head[2]) as usize);
    let text = parses.text.get(start..end)?.to_vec();
    let mut again = parses.words.get(..3 + ranges)?.to_vec();
    let at = parses.text.len();
    again[1] = word(START, at as u32);
    again[2] = word(END, (at + text.len()) as u32);
    parses.text.extend(text);
    parses.words.extend(again);
    Some(())
}

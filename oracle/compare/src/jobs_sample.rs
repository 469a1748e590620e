//! Records of jobs and of walks for the sample: each refusal, each way that they go, what is asked for and what
//! is written.
//!
//! The layout of such a record, as crates/replay's src/records.rt says what a record is: operation 9, a job,
//! and sixteen parts in the order of the parameters of `ssr_job`, or operation 10, a walk, and fifteen, since
//! `ssr_walk` has no candidates. Numbers and words are four bytes each, the lowest first.
//!
//! | part | what |
//! |---|---|
//! | 1 to 4 | the rules: directory (words), words (words), bytes, fact text |
//! | 5 to 7 | the file: tree (words), text, facts (words) |
//! | 8, 9 | parses (words), parse text |
//! | 10 | candidates (words), of a job |
//! | 3 more | a number each: range_given, range_start, range_end |
//! | 1 more | a number: the length of the buffer, whose bytes are all 165 before the call |
//! | 1 more | the buffer after the call, up to the last byte that is not 0 |
//! | the last | the answer, four numbers (refusal, asked, kind, length), up to the last byte that is not 0 |
//!
//! Directory, words, tree, facts, parses and candidates have at most 512 words each, the buffer has at
//! most 256 bytes.

use std::collections::BTreeMap;
use std::sync::Arc;

use checker::JOB_WAYS;
use generator::{add_made_up, bent_jobs, job_limits, odd_jobs, walk_limits};
use input::{Answer, Job, Parses, Task};
use judge::{Backing, JudgedJob, used_by, whole_job};

use crate::jobs::asked_for;
use crate::jobs::call::Call;
use crate::judged;
use crate::sample::{bytes, record, trimmed, words};

/// The number of the operation in a record.
const JOB: u32 = 9;
const WALK: u32 = 10;

/// The most words of one part, and of all parts together; the most bytes of all texts.
const PART: usize = 512;
const WORDS: usize = 720;
const BYTES: usize = 400;
/// The most words of a walk with 16 rules and over 1,024 matches.
const MANY_WORDS: usize = 1_300;
/// The longest buffer.
const BUFFER: usize = 256;
/// Jobs that are looked through, each with a damaged copy.
const CASES: u64 = 20_000;
/// Steps of a job that are looked through.
const ASKINGS: usize = 6;
/// For so many lists of the sample there is each of the shares once.
const LISTS: usize = 440;

/// Numbers that have to be among the records: the job's own, of which a walk has no 26.
const NUMBERS: [u32; 7] = [26, 24, 25, 27, 28, 29, 30];

/// What a record is wanted for.
#[derive(Clone, Copy, Debug, PartialEq, Eq, PartialOrd, Ord)]
enum Reason {
    Refused(u32),
    /// 24 for the matches of a walk.
    TooManyMatches,
    Asked,
    List,
    /// A way that a job goes, by its place in `JOB_WAYS`: to its list, and otherwise.
    Written(usize),
    Other(usize),
}

impl Reason {
    /// How many records are wanted for it: few for a walk, which does what a job does with all it finds.
    fn share(self, task: Task) -> usize {
        let (of_jobs, of_walks) = match self {
            Reason::Refused(24..) => (6, 2),
            Reason::Refused(_) => (1, 1),
            Reason::TooManyMatches => (0, 3),
            Reason::Asked | Reason::List => (12, 6),
            Reason::Written(_) => (3, 1),
            Reason::Other(_) => (1, 0),
        };
        if task == Task::Job { of_jobs } else { of_walks }
    }

    fn all_of(judged: &JudgedJob) -> Vec<Reason> {
        if judged.too_many_matches {
            return vec![Reason::TooManyMatches];
        }
        let ways = |reason: fn(usize) -> Reason| {
            let gone = |place: &usize| judged.ways.contains(JOB_WAYS[*place].0);
            (0..JOB_WAYS.len()).filter(gone).map(reason).collect::<Vec<_>>()
        };
        match judged.outcome.answer {
            Answer::Refused(number) => {
                [ways(Reason::Other), vec![Reason::Refused(number)]].concat()
            }
            Answer::Edits(_) => [ways(Reason::Written), vec![Reason::List]].concat(),
            _ => [ways(Reason::Other), vec![Reason::Asked]].concat(),
        }
    }
}

pub fn make(task: Task, seed: u64, count: usize) -> Result<Vec<u8>, String> {
    let mut choice = Choice { task, times: count.div_ceil(LISTS), ..Choice::default() };
    choice.add(&job_limits::too_many_rules(), WORDS)?;
    let orders = if task == Task::Walk { walk_limits::orders() } else { Vec::new() };
    for limit in orders {
        choice.add(&limit.job, MANY_WORDS)?;
    }
    for index in 0..CASES {
        let job = odd_jobs::random(seed, index);
        let parses = choice.add(&job, WORDS)?;
        let mut bent = Job { parses, ..job };
        bent_jobs::bend_copy(task, seed, index, &mut bent);
        choice.add(&bent, WORDS)?;
    }
    choice.finish()
}

/// The records chosen so far, and how many there are for each reason.
#[derive(Default)]
struct Choice {
    task: Task,
    times: usize,
    met: BTreeMap<Reason, usize>,
    sample: Vec<u8>,
}

impl Choice {
    /// Chooses among the answers to a job of at most so many words, with one more of the parses that it asks
    /// for each time: its parses then.
    fn add(&mut self, job: &Job, words: usize) -> Result<Parses, String> {
        let mut parses = job.parses.clone();
        if !self.is_small(job, &parses, words) {
            return Ok(parses);
        }
        let call = Call::of(self.task, job.clone());
        whole_job(self.task, job, true, |whole| {
            for _ in 0..ASKINGS {
                let parsed = whole.with(&parses, true);
                let judged = parsed.ask(job.buffer.min(BUFFER));
                let next = asked_for(&judged);
                let needs = used_by(&judged.outcome.answer);
                let call = call.with_parses(Arc::new(parses.clone()));
                for buffer in [job.buffer.min(BUFFER), needs, needs.saturating_sub(1), 13] {
                    self.choose(call.with_buffer(buffer), parsed.ask(buffer))?;
                }
                let Some((kind, text)) = next else { break };
                add_made_up(&mut parses, kind, &text);
                if !self.is_small(job, &parses, words) {
                    break;
                }
            }
            Ok(())
        })
        .map(|()| parses)
    }

    /// A record that is still wanted for one of its reasons counts for all of them.
    fn choose(&mut self, call: Call, judged: JudgedJob) -> Result<(), String> {
        let reasons = Reason::all_of(&judged);
        let met = |reason| self.met.get(reason).copied().unwrap_or(0);
        let share = |reason: &Reason| self.times * reason.share(self.task);
        if reasons.iter().any(|reason| met(reason) < share(reason)) {
            reasons.into_iter().for_each(|reason| *self.met.entry(reason).or_default() += 1);
            self.sample.extend(job_record(call, judged)?);
        }
        Ok(())
    }

    fn finish(self) -> Result<Vec<u8>, String> {
        let (is_walk, own) = match self.task {
            Task::Job => (false, &NUMBERS[..]),
            Task::Walk => (true, &NUMBERS[1..]),
        };
        let numbers = own.iter().copied().map(Reason::Refused);
        let too_many = is_walk.then_some(Reason::TooManyMatches);
        let mut wanted = numbers.chain([Reason::Asked, Reason::List]).chain(too_many);
        let gone = |place| {
            let met = |reason| self.met.contains_key(&reason);
            met(Reason::Written(place)) || met(Reason::Other(place))
        };
        if let Some(place) = (0..JOB_WAYS.len()).find(|place| !is_walk && !gone(*place)) {
            return Err(format!("`{}` is missing", JOB_WAYS[place].1));
        }
        match wanted.find(|reason| !self.met.contains_key(reason)) {
            Some(reason) => Err(format!("{reason:?} is missing")),
            None => Ok(self.sample),
        }
    }

    fn is_small(&self, job: &Job, parses: &Parses, most: usize) -> bool {
        let (rules, file) = (&job.rules, &job.file);
        let words = [&rules.directory, &rules.words, &file.tree, &file.facts, &parses.words];
        let candidates = (self.task == Task::Job).then_some(&job.candidates);
        let words = words.into_iter().chain(candidates).map(Vec::len);
        let texts = [&rules.bytes, &rules.fact_text, &file.text, &parses.text].map(Vec::len);
        words.clone().all(|words| words <= PART)
            && words.sum::<usize>() <= most
            && texts.iter().sum::<usize>() <= BYTES
    }
}

fn job_record(call: Call, judged: JudgedJob) -> Result<Vec<u8>, String> {
    if let Backing::Other(what) = judged.backing {
        return Err(format!("not judged: {what}"));
    }
    let (answer, out) =
        judged::jobs::job(judged.outcome, call.buffer).ok_or("no answer of a job")?;
    let (rules, file) = (&call.job.rules, &call.job.file);
    let [directory, rule_words] = [&rules.directory, &rules.words].map(|part| words(part));
    let [tree, facts] = [&file.tree, &file.facts].map(|part| words(part));
    let [parses, candidates] = [&call.parses.words, &call.job.candidates].map(|part| words(part));
    let given = bytes([call.range.given]);
    let numbers = [call.range.start, call.range.end, call.buffer];
    let [start, end, buffer] = numbers.map(|number| bytes([number as u32]));
    let fields = [answer.refusal, answer.asked, answer.kind, answer.length as u32];
    let (out, answer) = (trimmed(out), trimmed(bytes(fields)));
    let rules: [&[u8]; 4] = [&directory, &rule_words, &rules.bytes, &rules.fact_text];
    let file_and_parses: [&[u8]; 5] = [&tree, &file.text, &facts, &parses, &call.parses.text];
    let rest: [&[u8]; 6] = [&given, &start, &end, &buffer, &out, &answer];
    let (operation, candidates): (u32, &[&[u8]]) = match call.task {
        Task::Job => (JOB, &[&candidates]),
        Task::Walk => (WALK, &[]),
    };
    Ok(record(operation, &[&rules[..], &file_and_parses, candidates, &rest].concat()))
}

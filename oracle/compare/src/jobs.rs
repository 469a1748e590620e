//! Jobs and walks: the library's answers and buffers held against the judge's.

pub mod call;
mod corpus;
mod limits;
mod tally;

use std::sync::Arc;

use checker::MATCHES;
use generator::{
    Rng, add_made_up, bent_jobs, nodes, odd_jobs, rule_count, rule_vectors, walk_limits,
};
use input::{Answer, Job, Parses, Task};
use judge::{JudgedJob, WholeJobs, used_by, whole_job};

use call::{Call, handed_range};
pub use corpus::{among_others, corpus, matching};
pub use limits::{limits, shown};
use tally::{Asked, Tally};

/// How often a job is given the parse that it asks for.
const ASKINGS: usize = 40;
/// One call of so many has a buffer with bytes beyond its used part.
const LARGE: usize = 500;
/// The longest list, and the longest text that is asked for, of a job that is tried with every buffer.
const LONGEST: usize = 1_200;
/// How far beyond its list the buffers of such a job go.
const BEYOND: usize = 3;

/// `count` jobs or walks, each with the parses that it asks for one after another, and a damaged copy of
/// each. Every number has to come up, and they have to go every way.
pub fn generated(task: Task, seed: u64, count: u64) -> bool {
    let (mut whole, mut copies) = (Tally::of(task), Tally::of(task));
    for (name, job) in vectors() {
        let rng = &mut Rng::new(&[seed]);
        add(&mut copies, &|| name.to_owned(), &job, rng, 1);
    }
    let expected = task == Task::Job || with_two_faults(&mut copies);
    for index in 0..count {
        let rng = &mut Rng::new(&[seed, index]);
        let mut job = odd_jobs::random(seed, index);
        job.parses = add(&mut whole, &|| format!("job {index}"), &job, rng, ASKINGS);
        let names = bent_jobs::bend_copy(task, seed, index, &mut job);
        let name = || format!("a copy of job {index}, {}", names.join(", "));
        add(&mut copies, &name, &job, rng, 2);
    }
    println!("as generated:");
    let equal = whole.print(true);
    println!("vectors, and damaged copies:");
    let equal = copies.print(false) & equal;
    let (numbers, ways) = (copies.missing_numbers(), whole.missing_ways());
    println!("numbers that did not come up: {numbers:?}");
    println!("ways that none went: {ways:?}");
    equal && expected && numbers.is_empty() && ways.is_empty()
}

/// The vectors of rules, each with a file and a candidate that there may be.
fn vectors() -> impl Iterator<Item = (&'static str, Job)> {
    let all = rule_vectors::all().into_iter().chain(rule_vectors::large());
    let file = odd_jobs::random(0, 0).file;
    all.map(move |(name, rules, _)| {
        let (file, candidates) = (file.clone(), vec![0, 0]);
        (name, Job { rules, file, candidates, buffer: 64, ..Job::default() })
    })
}

/// Walks with two faults: whether each is judged to have the number that comes first.
fn with_two_faults(tally: &mut Tally) -> bool {
    let mut expected = true;
    for limit in walk_limits::orders() {
        let job = &limit.job;
        let judged =
            whole_job(Task::Walk, job, true, |whole| whole.with(&job.parses, true).ask(job.buffer));
        println!("{}: {}", limit.name, shown(&judged.outcome.answer));
        expected &= limit.answer.as_ref() == Some(&judged.outcome.answer);
        tally.cases += 1;
        let call = Call::of(Task::Walk, job.clone());
        tally.ask(&|| limit.name.clone(), vec![Asked { call, judged }]);
    }
    if !expected {
        println!("a walk with two faults is judged otherwise than expected");
    }
    expected
}

/// Asks a job, then again with the parse that it asks for, up to so many times: its parses then.
fn add(
    tally: &mut Tally,
    name: &dyn Fn() -> String,
    job: &Job,
    rng: &mut Rng,
    askings: usize,
) -> Parses {
    tally.cases += 1;
    let task = tally.task;
    let call = Call { range: handed_range(rng, job.range), ..Call::of(task, job.clone()) };
    let other = with_other_candidates(task, job, rng).map(Arc::new);
    let mut parses = job.parses.clone();
    let mut asked = Vec::new();
    whole_job(task, job, true, |whole| {
        for _ in 0..askings {
            let parsed = whole.with(&parses, true);
            let judged = parsed.ask(job.buffer);
            let asked_for = asked_for(&judged);
            let call = call.with_parses(Arc::new(parses.clone()));
            let buffers = more_buffers(&judged, rng);
            let more =
                |buffer| Asked { call: call.with_buffer(buffer), judged: parsed.ask(buffer) };
            asked.extend(buffers.into_iter().map(more));
            asked.extend(other.clone().map(|job| {
                let call = Call { task: Task::Job, job, ..call.clone() };
                Asked { judged: parsed.ask(call.buffer), call }
            }));
            asked.push(Asked { call, judged });
            let Some((kind, text)) = asked_for else { break };
            add_made_up(&mut parses, kind, &text);
        }
    });
    tally.ask(name, asked);
    parses
}

/// A job with the same answers: its candidates in another order, which is no matter; for a walk, all
/// candidates that it has, where a job may have as many.
fn with_other_candidates(task: Task, job: &Job, rng: &mut Rng) -> Option<Job> {
    let mut candidates: Vec<u32> = match task {
        Task::Job => job.candidates.clone(),
        Task::Walk => {
            let (nodes, rules) = (nodes(&job.file), rule_count(&job.rules) as u32);
            let of_node = |node| (0..rules).flat_map(move |rule| [node, rule]);
            nodes.into_iter().flat_map(of_node).collect()
        }
    };
    rng.shuffle(candidates.as_chunks_mut::<2>().0);
    let few = task == Task::Job || candidates.len() <= 2 * MATCHES;
    few.then(|| Job { candidates, ..job.clone() })
}

/// The parse that is asked for.
pub fn asked_for(judged: &JudgedJob) -> Option<(u32, Vec<u8>)> {
    let Answer::Asked { kind, length } = judged.outcome.answer else { return None };
    Some((kind, judged.outcome.buffer[..length].to_vec()))
}

/// Around what the answer needs.
fn more_buffers(judged: &JudgedJob, rng: &mut Rng) -> Vec<usize> {
    let needs = used_by(&judged.outcome.answer);
    let mut buffers = Vec::new();
    if matches!(judged.outcome.answer, Answer::Edits(_)) {
        buffers.extend([needs, needs.saturating_sub(1)]);
    }
    buffers.push(rng.below(needs + 14));
    if rng.one_in(LARGE) {
        buffers.push(1_048_576 + rng.below(9));
    }
    buffers
}

/// `count` jobs, each with every buffer from none up to past its list: with all its parses, and with
/// some of them.
pub fn buffers(seed: u64, count: u64) -> bool {
    let mut tally = Tally::of(Task::Job);
    let (mut index, mut same) = (0, true);
    while tally.cases < count {
        let rng = &mut Rng::new(&[seed, index]);
        let job = Job { buffer: LONGEST, ..odd_jobs::random(seed, index) };
        index += 1;
        whole_job(Task::Job, &job, true, |whole| {
            let Some(states) = states(whole, &job) else { return };
            let last = states.len() - 1;
            let mut chosen = vec![last];
            chosen.extend((last > 0).then(|| rng.below(last)));
            for state in chosen {
                same &= every_buffer(&mut tally, whole, &job, &states[state], index - 1);
            }
            tally.cases += 1;
        });
    }
    let equal = tally.print(true);
    if !same {
        println!("the judge's own answers do not change at one length");
    }
    equal && same
}

/// The parses of a job, none at first and then one more at a time; nothing where the job is refused or
/// its list is long or empty.
fn states(whole: &WholeJobs, job: &Job) -> Option<Vec<Parses>> {
    let mut parses = job.parses.clone();
    let mut states = Vec::new();
    loop {
        let judged = whole.with(&parses, false).ask(job.buffer);
        states.push(parses.clone());
        match judged.outcome.answer {
            Answer::Asked { .. } if states.len() <= ASKINGS => {
                let (kind, text) = asked_for(&judged)?;
                add_made_up(&mut parses, kind, &text);
            }
            Answer::Edits(1..) | Answer::Refused(29) => return Some(states),
            _ => return None,
        }
    }
}

/// Whether the judge's answers are 30 up to a length and one other answer from there on.
fn every_buffer(
    tally: &mut Tally,
    whole: &WholeJobs,
    job: &Job,
    parses: &Parses,
    index: u64,
) -> bool {
    let parsed = whole.with(parses, true);
    let call = Call::of(Task::Job, Job { parses: parses.clone(), ..job.clone() });
    let roomy = parsed.ask(LONGEST).outcome.answer;
    let name = || format!("job {index}");
    let (mut asked, mut same, mut answered) = (Vec::new(), true, None);
    for buffer in 0..LONGEST {
        let judged = parsed.ask(buffer);
        let full = judged.outcome.answer == Answer::Refused(30);
        same &= if answered.is_none() { full || judged.outcome.answer == roomy } else { !full };
        if !full && answered.is_none() {
            answered = Some(buffer);
        }
        asked.push(Asked { call: call.with_buffer(buffer), judged });
        if answered.is_some_and(|least| buffer >= least.max(used_by(&roomy)) + BEYOND) {
            break;
        }
    }
    tally.ask(&name, asked);
    same
}

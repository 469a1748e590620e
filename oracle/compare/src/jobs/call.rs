//! A call of a job or a walk.

use std::sync::Arc;
use std::time::{Duration, Instant};

use generator::Rng;
use input::{Job, Parses, Task, case_file};
use library::job::{JobAnswer, job};
use library::matching::Range;
use library::walk::walk;

use crate::judged::BEFORE;
use crate::small_stack::{OF_JOBS, Worker};

/// Bytes behind the buffer that is handed over, which no call may reach.
const GUARD: usize = 16;

/// What the library answers and leaves in the buffer.
pub type Given = (JobAnswer, Vec<u8>);

/// A job or a walk with the parses, the range and the buffer that it is handed; those that it has itself
/// are not looked at.
#[derive(Clone)]
pub struct Call {
    pub task: Task,
    pub job: Arc<Job>,
    pub parses: Arc<Parses>,
    pub range: Range,
    pub buffer: usize,
}

impl Call {
    /// The job as it is.
    pub fn of(task: Task, job: Job) -> Call {
        let range = range_of(&job);
        let (parses, buffer) = (Arc::new(job.parses.clone()), job.buffer);
        Call { task, job: Arc::new(job), parses, range, buffer }
    }

    /// The same with another buffer.
    pub fn with_buffer(&self, buffer: usize) -> Call {
        Call { buffer, ..self.clone() }
    }

    /// The same with other parses.
    pub fn with_parses(&self, parses: Arc<Parses>) -> Call {
        Call { parses, ..self.clone() }
    }

    /// Asks the library, and how long it took. Before the call, no byte of the buffer is 0.
    pub fn ask(&self) -> (Result<Given, String>, Duration) {
        let &Call { task, job: ref of, ref parses, range, buffer } = self;
        let mut out = vec![BEFORE; buffer + GUARD];
        let start = Instant::now();
        let answer = asked(task, of, parses, range, &mut out[..buffer]);
        let time = start.elapsed();
        let untouched = out[buffer..].iter().all(|byte| *byte == BEFORE);
        out.truncate(buffer);
        let given = untouched.then_some((answer, out));
        (given.ok_or_else(|| "bytes behind the buffer changed".to_owned()), time)
    }

    /// The call as a case file.
    pub fn as_case_file(&self) -> String {
        let parses = Parses::clone(&self.parses);
        let job = Job { parses, buffer: self.buffer, ..Job::clone(&self.job) };
        case_file::write(&self.task.on(job))
    }
}

/// The library's answer to a job or a walk.
pub fn asked(task: Task, of: &Job, parses: &Parses, range: Range, out: &mut [u8]) -> JobAnswer {
    match task {
        Task::Job => job(&of.rules, &of.file, parses, &of.candidates, range, out),
        Task::Walk => walk(&of.rules, &of.file, parses, range, out),
    }
}

/// The range of a job as it is.
pub fn range_of(job: &Job) -> Range {
    let (start, end) = job.range.unwrap_or_default();
    Range { given: u32::from(job.range.is_some()), start: start as usize, end: end as usize }
}

/// The library on a small stack.
pub struct Library(Worker<Vec<Call>, Vec<Result<Given, String>>>);

impl Default for Library {
    fn default() -> Library {
        Library(Worker::new(OF_JOBS, |calls| calls.iter().map(|call| call.ask().0).collect()))
    }
}

impl Library {
    /// What it gives for each of the calls, made one after another.
    pub fn ask(&self, calls: Vec<Call>) -> Vec<Result<Given, String>> {
        self.0.ask(calls)
    }
}

/// The range of a job as it may be handed over: other numbers than 1 for a given one, ends without one,
/// and larger ends for the largest that a job has.
pub fn handed_range(rng: &mut Rng, range: Option<(u32, u32)>) -> Range {
    let far = *rng.pick(&[65_536, u32::MAX as usize, 1 << 32, 1 << 63, usize::MAX]);
    let Some((start, end)) = range else {
        let (start, end) = *rng.pick(&[(0, 0), (0, 0), (far, 0), (7, far)]);
        return Range { given: 0, start, end };
    };
    let given = *rng.pick(&[1, 1, 2, 256, u32::MAX]);
    if start > end {
        let start = if rng.chance(50) { start as usize } else { far.max(start as usize) };
        return Range { given, start, end: end as usize };
    }
    let end = if end == u32::MAX { far } else { end as usize };
    Range { given, start: start as usize, end }
}

#[cfg(test)]
mod tests {
    use super::*;

    #[test]
    fn a_range_stays_what_it_is() {
        let rng = &mut Rng::new(&[1]);
        for _ in 0..200 {
            assert_eq!(handed_range(rng, None).given, 0);
            let backward = handed_range(rng, Some((9, 3)));
            assert!(backward.given != 0 && backward.start > backward.end);
            let small = handed_range(rng, Some((2, 7)));
            assert!(small.given != 0 && (small.start, small.end) == (2, 7));
            let large = handed_range(rng, Some((2, u32::MAX)));
            assert!(large.start == 2 && large.end >= 65_536);
        }
    }
}

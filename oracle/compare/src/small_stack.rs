//! The library on a thread with a small stack.

use std::hint::black_box;
use std::panic::resume_unwind;
use std::sync::mpsc::{Receiver, Sender, channel};
use std::thread;

/// The index of facts and its spare, while they are checked.
const CHECK: usize = 2 * 16_384 * 8;
/// The tables of resolving: an index and its spare, the paths and the calls.
const TABLES: usize = 2 * 16_384 * 8 + 2 * 16_384 * 4;

/// For trees with facts and for building, with 256 KiB for all else.
pub const OF_TREES: usize = CHECK + 256 * 1024;
/// For resolving, which has its tables while it checks, with 64 KiB for all else: 16 KiB are too little.
pub const OF_RESOLVING: usize = TABLES + CHECK + 64 * 1024;

/// For matching one node: tables of resolving, the file's index and the pattern's marks, and the depth
/// of 128 levels.
pub const OF_MATCHING: usize = 2 * 1024 * 1024;

/// For a job or a walk: the same.
pub const OF_JOBS: usize = 2 * 1024 * 1024;

/// How many bytes of its stack this thread has touched so far, in whole pages, as Linux tells; 0 where it does
/// not. A thread's own data lies there too.
pub fn touched() -> usize {
    let local = black_box(0u8);
    let here = std::ptr::from_ref(&local).addr();
    let maps = std::fs::read_to_string("/proc/self/smaps").unwrap_or_default();
    let range = |line: &str| {
        let (start, end) = line.split_once(' ')?.0.split_once('-')?;
        let address = |digits| usize::from_str_radix(digits, 16).ok();
        Some(address(start)?..address(end)?)
    };
    let ours = |line: &&str| range(line).is_some_and(|range| range.contains(&here));
    let resident =
        maps.lines().skip_while(|line| !ours(line)).find(|line| line.starts_with("Rss:"));
    let kilobytes = resident.and_then(|line| line.split_whitespace().nth(1)?.parse::<usize>().ok());
    kilobytes.unwrap_or(0) * 1_024
}

/// Does some work on a stack of so many bytes; one that is used up ends the program.
pub fn on_stack<T: Send>(bytes: usize, work: impl FnOnce() -> T + Send) -> T {
    let result = thread::scope(|scope| {
        let thread = thread::Builder::new().stack_size(bytes).spawn_scoped(scope, work);
        thread.expect("a thread can be started").join()
    });
    result.unwrap_or_else(|payload| resume_unwind(payload))
}

/// A thread with a stack of so many bytes that answers one question after another. Starting one for
/// each takes longer than most answers; and what one call leaves on the stack is there for the next.
pub struct Worker<Q, A> {
    questions: Sender<Q>,
    answers: Receiver<A>,
}

impl<Q: Send + 'static, A: Send + 'static> Worker<Q, A> {
    pub fn new(bytes: usize, answer: fn(Q) -> A) -> Worker<Q, A> {
        let (questions, asked) = channel();
        let (given, answers) = channel();
        let work = move || asked.into_iter().map(answer).try_for_each(|answer| given.send(answer));
        let thread = thread::Builder::new().stack_size(bytes).spawn(work);
        thread.expect("a thread can be started");
        Worker { questions, answers }
    }

    pub fn ask(&self, question: Q) -> A {
        // A question that cannot be sent has no answer either.
        let _ = self.questions.send(question);
        self.answers.recv().expect("the thread answers while it is asked")
    }
}

#[cfg(test)]
mod tests {
    use super::*;

    #[test]
    fn what_was_touched_of_a_stack_is_told() {
        let small = on_stack(OF_JOBS, touched);
        let large = on_stack(OF_JOBS, || {
            black_box([1u8; 1 << 20]);
            touched()
        });
        assert!(small < 1 << 18 && large > 1 << 20 && large < OF_JOBS, "{small} {large}");
    }

    #[test]
    fn a_worker_answers_in_turn() {
        let worker = Worker::new(64 * 1024, |number: u32| number + 1);
        assert_eq!((0..3).map(|number| worker.ask(number)).collect::<Vec<_>>(), [1, 2, 3]);
    }
}

//! Jobs and walks that take long if they are done badly: each answer as it has to be, in time and on a
//! small stack.

use std::sync::mpsc::channel;
use std::thread;
use std::time::Duration;

use generator::job_limits::{self, JobLimit};
use generator::walk_limits;
use input::{Answer, Outcome, Task};
use judge::whole_job;

use super::call::{Call, Given};
use super::tally::difference;
use crate::judged;
use crate::small_stack::{OF_JOBS, touched};

/// How long a call is waited for.
const WAIT: Duration = Duration::from_secs(20);
/// How often a call that took too long is made: the machine may have had other work.
const TIMES: usize = 3;

/// What came of a call.
struct Asked {
    time: Duration,
    given: Result<Given, String>,
    /// The bytes of the stack that it touched.
    stack: usize,
}

/// Whether all have the judged answer in time. A call that does not come back is left alone: the end
/// of the program ends it.
pub fn limits(task: Task) -> bool {
    println!(
        "milliseconds of one call on a stack of {OF_JOBS} bytes; of a call that took too long the least of \
         {TIMES}:"
    );
    let (mut equal, mut failed, mut stack) = (0, 0, 0);
    let all = match task {
        Task::Job => job_limits::all(),
        Task::Walk => walk_limits::all(),
    };
    for limit in all {
        // In the crate the work doubles at each level.
        let judged = whole_job(task, &limit.job, false, |whole| {
            whole.with(&limit.job.parses, false).ask(limit.job.buffer).outcome
        });
        let shown = shown(&judged.answer);
        let asked = asked(&Call::of(task, limit.job.clone()), limit.within);
        let time = asked.as_ref().map_or(WAIT, |asked| asked.time);
        stack = stack.max(asked.as_ref().map_or(0, |asked| asked.stack));
        println!("{:9.3}  {}: {shown}", time.as_secs_f64() * 1_000.0, limit.name);
        match verdict(&limit, judged, asked) {
            Ok(()) => equal += 1,
            Err(what) => {
                failed += 1;
                println!("           {what}");
            }
        }
    }
    println!("{} answers: {equal} equal and in time, {failed} not", equal + failed);
    println!("the most of a stack that a call touched, in pages of 4,096: {stack} bytes");
    failed == 0
}

fn verdict(limit: &JobLimit, judged: Outcome, asked: Option<Asked>) -> Result<(), String> {
    if limit.answer.as_ref().is_some_and(|answer| *answer != judged.answer) {
        return Err(format!("judged otherwise than expected: {:?}", limit.answer));
    }
    let Asked { time, given, .. } = asked.ok_or("no answer")?;
    let judged = judged::jobs::job(judged, limit.job.buffer).ok_or("no answer of a job")?;
    difference(&given?, &judged).map_err(|what| format!("different: {what}"))?;
    if time > limit.within { Err(format!("{time:?} are too long")) } else { Ok(()) }
}

/// What comes of the call, if it comes back: the fastest, where it is made again.
fn asked(call: &Call, within: Duration) -> Option<Asked> {
    let mut least = asked_once(call.clone())?;
    for _ in 1..TIMES {
        if least.time <= within {
            break;
        }
        let again = asked_once(call.clone())?;
        least = if again.time < least.time { again } else { least };
    }
    Some(least)
}

fn asked_once(call: Call) -> Option<Asked> {
    let (sender, receiver) = channel();
    let work = move || {
        let (given, time) = call.ask();
        // Nobody may be waiting any more.
        let _ = sender.send(Asked { time, given, stack: touched() });
    };
    let thread = thread::Builder::new().stack_size(OF_JOBS).spawn(work);
    thread.expect("a thread can be started");
    receiver.recv_timeout(WAIT).ok()
}

pub fn shown(answer: &Answer) -> String {
    match answer {
        Answer::Refused(number) => format!("refused {number}"),
        Answer::Asked { length, .. } => format!("asked for {length} bytes"),
        Answer::Edits(length) => format!("a list of {length} bytes"),
        _ => "no answer of a job".to_owned(),
    }
}

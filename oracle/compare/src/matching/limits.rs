//! Matching that takes long if it is done badly: each answer as it has to be, in time and on a small
//! stack.

use std::sync::Arc;
use std::sync::mpsc::channel;
use std::thread;
use std::time::{Duration, Instant};

use generator::match_limits::{self, MatchLimit};
use input::Answer;
use judge::{Backing, JudgedMatch, MatchQuestion, WholeMatches, whole_matches};

use super::call::{Call, Given};
use crate::judged;
use crate::small_stack::OF_MATCHING;

/// How long a call is waited for.
const WAIT: Duration = Duration::from_secs(20);
/// How often a call that took too long is made: the machine may have had other work.
const TIMES: usize = 3;

/// Whether all have the judged answer in time. A call that does not come back is left alone: the end
/// of the program ends it.
pub fn limits() -> bool {
    println!(
        "milliseconds of one call, the longest, on a stack of {OF_MATCHING} bytes; of a call that took \
         too long the least of {TIMES}:"
    );
    let (mut equal, mut failed) = (0, 0);
    for limit in match_limits::all().into_iter().map(Arc::new) {
        let answers = whole_matches(&limit.rules, &limit.file, |whole| {
            let answer = |buffer: &usize| answered(&limit, whole, *buffer);
            limit.buffers.iter().map(answer).collect::<Vec<_>>()
        });
        let longest = answers.iter().map(|answer| answer.time).max().unwrap_or_default();
        let shown: Vec<&str> = answers.iter().map(|answer| &answer.shown[..]).collect();
        println!("{:9.3}  {}: {}", longest.as_secs_f64() * 1_000.0, limit.name, shown.join("; "));
        for (answer, buffer) in answers.into_iter().zip(&limit.buffers) {
            match answer.verdict {
                Ok(()) => equal += 1,
                Err(what) => {
                    failed += 1;
                    println!("           different with a buffer of {buffer} bytes: {what}");
                }
            }
        }
    }
    println!("{} answers: {equal} equal and in time, {failed} not", equal + failed);
    failed == 0
}

/// What came of a question.
struct Answered {
    time: Duration,
    /// What was judged, and by whom.
    shown: String,
    verdict: Result<(), String>,
}

fn answered(limit: &Arc<MatchLimit>, whole: &WholeMatches, buffer: usize) -> Answered {
    let question = MatchQuestion { node: 0, rule: 0, range: None, buffer };
    let judged = whole.ask(question);
    let shown = format!("{}, {}", shown(&judged.outcome.answer), whose(&judged.backing));
    let expected = expected(limit, &judged);
    let (time, verdict) = match asked(limit, Call::of(question)) {
        None => (WAIT, Err("no answer".to_owned())),
        Some((time, given)) => {
            let verdict = expected.and_then(|()| compared(judged, given, buffer));
            let late = || Err(format!("{time:?} are too long"));
            (time, if time > limit.within { late() } else { verdict })
        }
    };
    Answered { time, shown, verdict }
}

/// Whether the judged answer is the one that the case was made for.
fn expected(limit: &MatchLimit, judged: &JudgedMatch) -> Result<(), String> {
    if limit.by_crate && !matches!(judged.backing, Backing::Same) {
        return Err(format!("not the crate's own: {:?}", judged.backing));
    }
    match &limit.noted {
        Some(noted) if !noted.is_told(&judged.outcome) => {
            Err(format!("judged otherwise than expected, which notes {} bytes", noted.length))
        }
        _ => Ok(()),
    }
}

/// The time of the call and what it gives, if it comes back: the fastest, where it is made again.
fn asked(limit: &Arc<MatchLimit>, call: Call) -> Option<(Duration, Given)> {
    let mut least = asked_once(limit.clone(), call)?;
    for _ in 1..TIMES {
        if least.0 <= limit.within {
            break;
        }
        let again = asked_once(limit.clone(), call)?;
        least = if again.0 < least.0 { again } else { least };
    }
    Some(least)
}

fn asked_once(limit: Arc<MatchLimit>, call: Call) -> Option<(Duration, Given)> {
    let (sender, receiver) = channel();
    let work = move || {
        let start = Instant::now();
        let given = call.ask(&limit.rules, &limit.file);
        // Nobody may be waiting any more.
        let _ = sender.send((start.elapsed(), given));
    };
    let thread = thread::Builder::new().stack_size(OF_MATCHING).spawn(work);
    thread.expect("a thread can be started");
    receiver.recv_timeout(WAIT).ok()
}

fn compared(judged: JudgedMatch, given: Given, buffer: usize) -> Result<(), String> {
    if let Backing::Other(what) = judged.backing {
        return Err(format!("not judged: {what}"));
    }
    let wanted =
        judged::matching::match_node(judged.outcome, buffer).ok_or("no answer of matching")?;
    if given.0 != wanted.0 {
        return Err(format!("the library has {:?}, the judge {:?}", given.0, wanted.0));
    }
    if given.1 == wanted.1 { Ok(()) } else { Err("the buffer".to_owned()) }
}

fn whose(backing: &Backing) -> &'static str {
    match backing {
        Backing::Same => "as the crate has it",
        _ => "as the checker alone has it",
    }
}

fn shown(answer: &Answer) -> String {
    match answer {
        Answer::Refused(number) => format!("refused {number}"),
        Answer::Match { bindings, comments } => {
            let bound = bindings.iter().flatten().count();
            format!("a match that binds {bound} and notes {comments} bytes")
        }
        _ => "no match".to_owned(),
    }
}

//! Whole jobs and walks: the crate's source and the checker agree on matches, nesting and texts, one that is
//! made ready once is answered as it is by itself, and the limits have the answers that they were made for.

use generator::job_limits::JobLimit;
use generator::{add_made_up, bent_jobs, job_limits, odd_jobs, walk_limits};
use input::{Answer, Job, Task};
use judge::{Backing, judge, whole_job};

/// Jobs with the parses that they ask for, and damaged copies of them.
fn jobs(task: Task, count: u64) -> Vec<Job> {
    let mut all = Vec::new();
    for index in 0..count {
        let mut job = odd_jobs::random(7, index);
        let mut bent = job.clone();
        bent_jobs::bend_copy(task, 7, index, &mut bent);
        for _ in 0..6 {
            all.push(job.clone());
            let outcome = whole_job(task, &job, false, |whole| {
                whole.with(&job.parses, false).ask(job.buffer).outcome
            });
            let Answer::Asked { kind, length } = outcome.answer else { break };
            add_made_up(&mut job.parses, kind, &outcome.buffer[..length]);
        }
        all.push(bent);
    }
    all
}

#[test]
fn the_crate_agrees_and_each_by_itself_is_the_same() {
    for task in [Task::Job, Task::Walk] {
        let (mut same, mut lists, mut too_many) = (0, 0, 0);
        ssr::on_large_stack(|| {
            for job in jobs(task, 500) {
                let judged = whole_job(task, &job, true, |whole| {
                    whole.with(&job.parses, true).ask(job.buffer)
                });
                assert!(!matches!(judged.backing, Backing::Other(_)), "{judged:?}");
                same += u32::from(matches!(judged.backing, Backing::Same));
                lists += u32::from(matches!(judged.outcome.answer, Answer::Edits(1..)));
                too_many += u32::from(judged.too_many_matches);
                let alone = judge(&task.on(job.clone()));
                assert!(alone.disagreement.is_none() || !alone.covered.is_empty(), "{alone:?}");
                if let Some(outcome) = alone.outcome {
                    assert_eq!(outcome, judged.outcome, "{job:x?}");
                }
            }
        });
        assert!(same > 800 && lists > 150, "{task:?}: {same} answers of the crate, {lists} lists");
        assert_eq!(task == Task::Walk, too_many > 0);
    }
}

/// The walks with their answers: the others are of `job_limits`.
fn own_walks() -> Vec<JobLimit> {
    walk_limits::all().into_iter().filter(|limit| limit.answer.is_some()).collect()
}

#[test]
fn limits_have_their_answers() {
    ssr::on_large_stack(|| {
        for (task, limits) in [(Task::Job, job_limits::all()), (Task::Walk, own_walks())] {
            for limit in limits {
                let job = &limit.job;
                let outcome = whole_job(task, job, false, |whole| {
                    whole.with(&job.parses, false).ask(job.buffer).outcome
                });
                let answer = limit.answer.unwrap_or(outcome.answer.clone());
                assert_eq!(outcome.answer, answer, "{task:?}: {}", limit.name);
            }
        }
    });
}

#[test]
fn the_crate_has_too_many_matches_too() {
    ssr::on_large_stack(|| {
        for limit in walk_limits::orders() {
            let whole = |by_crate| {
                whole_job(Task::Walk, &limit.job, by_crate, |whole| {
                    whole.with(&limit.job.parses, by_crate).ask(limit.job.buffer)
                })
            };
            let (judged, alone) = (whole(true), whole(false));
            assert_eq!(judged.outcome, alone.outcome, "{}", limit.name);
            assert!(!judged.too_many_matches || matches!(judged.backing, Backing::Same));
            assert_eq!(judged.too_many_matches, limit.name.starts_with("1,040"), "{}", limit.name);
        }
    });
}

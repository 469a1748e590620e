//! The generator of jobs: again the same, going every way, and damaged in every way.

use checker::{JOB_WAYS, JobWays, Laid, WholeJob, check};
use generator::{add_made_up, bent_jobs, odd_jobs};
use input::{Job, Task};
use std::collections::BTreeSet;
use std::thread;

#[test]
fn the_same_seed_gives_the_same_job() {
    for index in 0..50 {
        assert_eq!(odd_jobs::random(3, index), odd_jobs::random(3, index));
        assert_ne!(odd_jobs::random(3, index), odd_jobs::random(4, index));
    }
}

/// The ways that a job goes until its list is written, or into a buffer that is too small for it.
fn ways(mut job: Job) -> JobWays {
    let Ok(whole) = WholeJob::new(Task::Job, &job) else { return JobWays::default() };
    let mut ways = JobWays::default();
    for _ in 0..40 {
        let written = whole.write(&job.parses, 4096);
        ways = ways.with(written.ways);
        match written.laid {
            Laid::Asked(kind, text) => add_made_up(&mut job.parses, kind, &text),
            Laid::List(list) => {
                for room in 0..list.len().min(200) {
                    ways = ways.with(whole.write(&job.parses, room).ways);
                }
                break;
            }
            Laid::Refused(_) => break,
        }
    }
    ways
}

#[test]
fn jobs_go_every_way() {
    let count = || {
        let gone: Vec<JobWays> = (0..1_500).map(|index| ways(odd_jobs::random(5, index))).collect();
        for (way, name) in JOB_WAYS {
            let count = gone.iter().filter(|ways| ways.contains(way)).count();
            assert!(count >= 5, "{name}: {count}");
        }
    };
    // Nested texts are written inside each other.
    let thread = thread::Builder::new().stack_size(1 << 26).spawn(count);
    thread.expect("a thread can be started").join().expect("every way is gone");
}

#[test]
fn damaged_copies_meet_every_number_of_their_own() {
    for (task, numbers) in
        [(Task::Job, &[0, 24, 25, 26, 27, 28][..]), (Task::Walk, &[0, 24, 25, 27])]
    {
        let (mut met, mut used) = (BTreeSet::new(), BTreeSet::new());
        for index in 0..4_000 {
            let mut job = odd_jobs::random(5, index / 4);
            used.extend(bent_jobs::bend_copy(task, 5, index, &mut job));
            met.insert(check(&task.on(job)).err().unwrap_or(0));
        }
        assert_eq!(used.len(), bent_jobs::bends(task).len(), "{used:?}");
        let missing = numbers.iter().find(|number| !met.contains(number));
        assert_eq!(missing, None, "{met:?}");
    }
}

//! Walks as large as one wants them are as large as that.

use checker::{Laid, WholeJob};
use generator::growing_walks::{Calls, lines};
use input::{Job, Task};

/// How many matches there are and how many are kept outside; the list has to be written.
fn matches(job: &Job) -> (usize, usize) {
    let whole = WholeJob::new(Task::Walk, job).expect("a walk that is not refused");
    assert!(matches!(whole.write(&job.parses, job.buffer).laid, Laid::List(_)));
    (whole.matches.len(), whole.kept.len())
}

#[test]
fn calls_have_as_many_elements_matches_and_facts_as_is_said() {
    for (elements, rules, count) in [(1_000, 4, 64), (8_000, 1, 0), (16_383, 16, 1_024)] {
        let calls = Calls { elements, rules, matches: count };
        let full = calls.with_facts(16_383);
        assert_eq!(full.file.facts.len(), 4 * 16_383);
        for job in [calls.walk(), full] {
            assert_eq!(job.file.tree.len(), 3 * elements);
            assert_eq!(matches(&job), (count, count));
        }
    }
}

#[test]
fn lines_have_their_matches_in_each_other() {
    for (rules, nodes, all, outer) in [(1, 1, 1_024, 1_024), (1, 126, 1_008, 8), (16, 64, 1_024, 1)]
    {
        let job = lines(2_049, rules, nodes);
        assert_eq!(job.file.tree.len(), 3 * 2_049);
        assert_eq!(matches(&job), (all, outer));
    }
}

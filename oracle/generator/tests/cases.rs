//! The generator's own promises: the same cases again, well-formed classes well-formed, and
//! every refusal met by the damaged ones.

use generator::{CLASSES, Class, awkward_buffers, case, cases, complete};
use input::{Answer, Job, Operation, case_file};
use std::collections::BTreeSet;

/// The numbers that the first cases of a class are refused with.
fn refusals(class: Class, seed: u64, count: usize) -> BTreeSet<u32> {
    let refused = |operation: Operation| match checker::answer(&operation)?.answer {
        Answer::Refused(number) => Some(number),
        _ => None,
    };
    cases(class, seed).take(count).filter_map(refused).collect()
}

#[test]
fn the_same_seed_gives_the_same_bytes() {
    for (class, name, _) in CLASSES {
        for index in [0, 1, 5, 37] {
            let text = |seed| case(class, seed, index).map(|case| case_file::write(&case));
            assert_eq!(text(7), text(7), "{name} {index}");
            if class.count().is_none() && index > 0 {
                assert_ne!(text(7), text(8), "{name} {index}");
            }
        }
    }
}

#[test]
fn a_known_case_stays_as_it_is() {
    // A change of the generator that changes its cases should be meant.
    let case = case(Class::TinySequence, 0, 5000).expect("in range");
    let text = case_file::write(&case);
    assert!(text.contains("\nrule_bytes 24615f5f706c616365686f6c6465725f61\n"), "{text}");
}

#[test]
fn case_files_read_back() {
    for (class, name, _) in CLASSES {
        for operation in cases(class, 3).take(40) {
            let text = case_file::write(&operation);
            assert_eq!(case_file::read(&text).as_ref(), Ok(&operation), "{name}");
        }
    }
}

#[test]
fn exhaustive_classes_end() {
    for (class, name, _) in CLASSES {
        if let Some(count) = class.count() {
            assert!(case(class, 0, count - 1).is_some(), "{name}");
            assert!(case(class, 0, count).is_none(), "{name}");
        }
    }
    assert!(Class::named("jobs").is_some());
    assert!(Class::named("none such").is_none());
}

#[test]
fn well_formed_classes_have_well_formed_trees() {
    for (class, count) in [
        (Class::Jobs, 1500),
        (Class::Match, 500),
        (Class::Resolve, 500),
        (Class::Build, 500),
        (Class::TinyWalk, 1000),
        (Class::TinyMixed, 1000),
    ] {
        let met = refusals(class, 11, count);
        let trees = [1, 18, 19, 20, 21];
        assert!(trees.iter().all(|number| !met.contains(number)), "{class:?} {met:?}");
    }
}

#[test]
fn exhaustive_matches_are_never_refused() {
    for class in [Class::TinySequence, Class::TinyTokenTree, Class::TinyRecord, Class::TinyWalk] {
        let count = class.count().expect("exhaustive");
        for index in (0..count).step_by(97) {
            let operation = case(class, 0, index).expect("in range");
            assert_eq!(checker::check(&operation), Ok(()), "{class:?} {index}");
        }
    }
}

#[test]
fn every_refusal_before_matching_is_met() {
    let mut met = refusals(Class::Damaged, 5, 5000);
    for number in [1, 14, 15, 16, 17, 18, 19, 20, 21, 22, 23, 24, 25, 26, 27, 28] {
        assert!(met.contains(&number), "{number} is not met by damaged cases");
    }
    met.extend(refusals(Class::Tokens, 5, 8000));
    let missing: Vec<u32> = (1..=28).filter(|number| !met.contains(number)).collect();
    assert_eq!(missing, []);
}

#[test]
fn random_jobs_pass_mostly() {
    let passing =
        cases(Class::Jobs, 2).take(1000).filter(|job| checker::check(job).is_ok()).count();
    assert!(passing > 650, "{passing} of 1000");
}

#[test]
fn a_completed_job_has_the_asked_parse() {
    let job = Job::default();
    let first = complete(&job, 64, b"g(x, y)");
    let both = complete(&first, 65, b"g(x, y)");
    assert_eq!(checker::check_parses(&both.parses), Ok(()));
    assert_eq!(first, complete(&job, 64, b"g(x, y)"));
    // The same question twice is malformed: a driver asks each but once.
    assert_eq!(checker::check_parses(&complete(&first, 64, b"g(x, y)").parses), Err(28));
    let mut counts = BTreeSet::new();
    for kind in 64..128 {
        counts.insert(complete(&job, kind, b"g(x, y)").parses.words[0] & 0xffff);
    }
    assert!(counts.contains(&0) && counts.contains(&1) && counts.len() > 3, "{counts:?}");
}

#[test]
fn buffers_around_a_length() {
    assert_eq!(awkward_buffers(0), [0, 1, 11, 12, 13, 1_048_576, 1_048_580]);
    assert!(awkward_buffers(19).starts_with(&[0, 1, 11, 12, 13, 18, 19, 20]));
}

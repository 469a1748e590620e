//! What came of the questions about jobs, or about walks.

use std::collections::BTreeMap;

use checker::{JOB_WAYS, JobWays};
use input::{Answer, Task};
use judge::{Backing, JudgedJob};
use ssr::NotFed;

use super::call::{Call, Given, Library};
use crate::judged;
use crate::small_stack::OF_JOBS;

/// The numbers of a job, in their order.
pub const NUMBERS: [u32; 28] = [
    1, 2, 3, 4, 5, 6, 7, 8, 9, 10, 11, 12, 13, 14, 15, 18, 19, 20, 21, 17, 22, 24, 25, 26, 27, 28,
    29, 30,
];

/// A call with what it has to give.
pub struct Asked {
    pub call: Call,
    pub judged: JudgedJob,
}

#[derive(Default)]
pub struct Tally {
    pub task: Task,
    library: Library,
    pub cases: u64,
    equal: u64,
    different: u64,
    by_crate: u64,
    by_checker: u64,
    /// The crate would render too often to be asked.
    too_long: u64,
    /// The crate may have another answer, by a listed difference.
    listed: u64,
    numbers: BTreeMap<u32, u64>,
    /// How often the number was 24 for the matches of a walk.
    too_many_matches: u64,
    asked: u64,
    lists: u64,
    empty_lists: u64,
    bytes: u64,
    /// For each way how many answers went it, and how many of these are lists.
    ways: BTreeMap<&'static str, (u64, u64)>,
    /// The smallest call with a difference, and what is said of it.
    smallest: Option<(usize, String)>,
}

impl Tally {
    pub fn of(task: Task) -> Tally {
        Tally { task, ..Tally::default() }
    }

    /// Asks the library, on a small stack, and compares: what it gives, where that can be told.
    pub fn ask(
        &mut self,
        name: &dyn Fn() -> String,
        asked: Vec<Asked>,
    ) -> Vec<Result<Given, String>> {
        let given = self.library.ask(asked.iter().map(|asked| asked.call.clone()).collect());
        for (Asked { call, judged }, given) in asked.into_iter().zip(&given) {
            self.count(&judged);
            let given = given.as_ref().map_err(String::clone);
            match given.and_then(|given| self.compare(judged, given, call.buffer)) {
                Ok(()) => self.equal += 1,
                Err(what) => self.note(name, &call, &what),
            }
        }
        given
    }

    /// Counts what was judged.
    fn count(&mut self, judged: &JudgedJob) {
        let is_list = match judged.outcome.answer {
            Answer::Refused(number) => {
                *self.numbers.entry(number).or_default() += 1;
                self.too_many_matches += u64::from(judged.too_many_matches);
                false
            }
            Answer::Edits(length) => {
                self.lists += 1;
                self.empty_lists += u64::from(length == 0);
                self.bytes += length as u64;
                true
            }
            _ => {
                self.asked += 1;
                false
            }
        };
        self.count_ways(judged.ways, is_list);
    }

    fn count_ways(&mut self, gone: JobWays, is_list: bool) {
        for (_, name) in JOB_WAYS.into_iter().filter(|(way, _)| gone.contains(*way)) {
            let (all, lists) = self.ways.entry(name).or_default();
            *all += 1;
            *lists += u64::from(is_list);
        }
    }

    fn compare(&mut self, judged: JudgedJob, given: &Given, buffer: usize) -> Result<(), String> {
        match judged.backing {
            Backing::Same => self.by_crate += 1,
            Backing::NotFed(NotFed::TooLong) => self.too_long += 1,
            Backing::NotAsked | Backing::NotFed(_) => self.by_checker += 1,
            Backing::Listed => self.listed += 1,
            Backing::Other(what) => return Err(format!("not judged: {what}")),
        }
        let judged = judged::jobs::job(judged.outcome, buffer).ok_or("no answer of a job")?;
        difference(given, &judged)
    }

    /// Notes a difference.
    fn note(&mut self, name: &dyn Fn() -> String, call: &Call, what: &str) {
        self.different += 1;
        let job = &call.job;
        let size = job.rules.words.len() + job.file.tree.len() + job.file.facts.len();
        if self.smallest.as_ref().is_none_or(|(known, _)| size < *known) {
            let (range, text) = (call.range, call.as_case_file());
            self.smallest = Some((size, format!("{}, {range:?}: {what}\n{text}", name())));
        }
    }

    /// The numbers that no answer was. For a walk, 24 has to come up for its rules and for its matches.
    pub fn missing_numbers(&self) -> Vec<u32> {
        let is_met = |number: u32| {
            let count = self.numbers.get(&number).copied().unwrap_or(0);
            let by_matches = self.too_many_matches;
            let is_walks_24 = number == 24 && self.task == Task::Walk;
            if is_walks_24 { by_matches > 0 && count > by_matches } else { count > 0 }
        };
        self.own_numbers().filter(|number| !is_met(*number)).collect()
    }

    /// A walk has no pair twice.
    fn own_numbers(&self) -> impl Iterator<Item = u32> {
        NUMBERS.into_iter().filter(|number| *number != 26 || self.task == Task::Job)
    }

    /// The ways that no answer went.
    pub fn missing_ways(&self) -> Vec<&'static str> {
        let names = JOB_WAYS.into_iter().map(|(_, name)| name);
        names.filter(|name| !self.ways.contains_key(name)).collect()
    }

    /// Prints all that was counted: whether all answers are equal.
    pub fn print(&self, ways: bool) -> bool {
        for number in NUMBERS {
            if let Some(count) = self.numbers.get(&number) {
                println!("{count:10}  refused {number}");
            }
        }
        if self.task == Task::Walk {
            println!("{:10}  refused 24 for over 1,024 matches", self.too_many_matches);
        }
        println!("{:10}  asked", self.asked);
        println!("{:10}  a list, {} of them empty", self.lists, self.empty_lists);
        if ways {
            println!("{:40}{:>12}{:>12}", "", "answers", "lists");
            for (_, name) in JOB_WAYS {
                let (all, lists) = self.ways.get(name).copied().unwrap_or_default();
                println!("{name:40}{all:12}{lists:12}");
            }
        }
        let Tally { cases, equal, different, by_crate, bytes, .. } = self;
        let Tally { by_checker, too_long, listed, .. } = self;
        let tasks = if self.task == Task::Walk { "walks" } else { "jobs" };
        println!(
            "{cases} {tasks}; on a stack of {OF_JOBS} bytes: {} answers, {equal} equal, {different} different; \
             {by_crate} are the crate's own, {by_checker} the checker's alone, {too_long} the checker's where \
             the crate's work doubles, {listed} the checker's by a listed difference; {bytes} bytes of lists",
            equal + different
        );
        if let Some((_, what)) = &self.smallest {
            println!("the smallest: {what}");
        }
        *different == 0
    }
}

/// How what the library gives differs from what it has to.
pub fn difference(given: &Given, judged: &Given) -> Result<(), String> {
    if given.0 != judged.0 {
        return Err(format!("the library has {:?}, the judge {:?}", given.0, judged.0));
    }
    if given.1 == judged.1 {
        return Ok(());
    }
    let same = given.1.iter().zip(&judged.1).take_while(|(given, judged)| given == judged);
    let place = same.count();
    let end = (place + 16).min(given.1.len());
    let [given, judged] = [&given.1, &judged.1].map(|out| &out[place..end]);
    Err(format!("from byte {place} on the library leaves {given:02x?}, the judge {judged:02x?}"))
}

//! The cases of a corpus as jobs, all that match in several orders, and as walks: with all parses and with
//! one more each time.

use std::collections::BTreeMap;
use std::sync::Arc;

use corpus::case::{Case, CaseAnswer};
use generator::{Rng, nodes, rule_count};
use input::build::add_parse;
use input::{Job, Parses, Task, edits, pairs, used};
use judge::{WholeJobs, whole_job};
use ssr::{Finder, Stopped, Workspace};

use super::asked_for;
use super::call::{Call, Given};
use super::tally::{Asked, Tally};
use crate::for_each_case;

/// The most candidates of a job.
const CANDIDATES: usize = 1_024;

const AS_FOUND: &str = "as found";

/// Every case as a job or a walk: its answer, its bytes and the edited text are the real build's.
pub fn corpus(task: Task) -> Result<bool, String> {
    let mut tally = Tally::of(task);
    let mut real = Real::default();
    for_each_case(|case| real.add(&mut tally, &case))?;
    let equal = tally.print(true);
    Ok(real.print(tally.cases) && equal)
}

/// How the library's answers compare with those of a real build.
#[derive(Default)]
struct Real {
    refused: u64,
    lists: u64,
    edits: u64,
    /// Cases that a listed difference covers; the real build's answer has it in it.
    covered: u64,
    /// Texts that were asked for one after another, and cases in which the crate asked for the same.
    askings: u64,
    crate_askings: u64,
    different: u64,
}

impl Real {
    fn add(&mut self, tally: &mut Tally, case: &Case) {
        let job = Job {
            rules: pairs::encode(&case.pairs, &case.fact_text),
            file: case.file.clone(),
            candidates: matching(case),
            range: case.restrict,
            parses: case.parses.clone(),
            buffer: used(usize::MAX),
        };
        let known = case.matches.as_ref().map(|matches| {
            matches.iter().flat_map(|found| [found.node, found.rule]).collect::<Vec<u32>>()
        });
        if known.is_some_and(|known| known != job.candidates) {
            self.differ(case, "the matches are not those of the real build");
        }
        for (order, candidates) in orders(tally.task, &job, &case.id) {
            tally.cases += 1;
            let job = Job { candidates, ..job.clone() };
            whole_job(tally.task, &job, true, |whole| {
                self.whole(tally, case, order, &job, whole);
                if order == AS_FOUND {
                    self.covered += u64::from(!whole.covered().is_empty());
                    self.step_by_step(tally, case, &job, whole);
                }
            });
        }
    }

    /// With all parses, in all the room, and in what the list needs and a byte less.
    fn whole(&mut self, tally: &mut Tally, case: &Case, order: &str, job: &Job, whole: &WholeJobs) {
        let name = || format!("{}, {order}", case.id);
        let parsed = whole.with(&job.parses, true);
        let call = Call::of(tally.task, job.clone());
        let mut buffers = vec![job.buffer];
        if let CaseAnswer::Edits(list, _) = &case.answer {
            buffers.extend([list.len(), list.len() + 9]);
            buffers.extend(list.len().checked_sub(1));
        }
        let asked = buffers
            .into_iter()
            .map(|buffer| Asked { call: call.with_buffer(buffer), judged: parsed.ask(buffer) });
        let given = tally.ask(&name, asked.collect());
        let Some(Ok(given)) = given.first() else {
            return self.differ(case, &format!("{order}: no answer that can be told"));
        };
        match (is_real(case, given), &case.answer) {
            (Err(what), _) => self.differ(case, &format!("{order}: {what}")),
            (Ok(()), CaseAnswer::Refused(_)) => self.refused += 1,
            (Ok(()), CaseAnswer::Edits(_, edits)) => {
                self.lists += 1;
                self.edits += edits.len() as u64;
            }
        }
    }

    /// Without parses, and then with the one that was asked for, until the list comes. What is asked
    /// for is what the crate parses, in its order.
    fn step_by_step(&mut self, tally: &mut Tally, case: &Case, job: &Job, whole: &WholeJobs) {
        let name = || format!("{}, step by step", case.id);
        let known = checker::read_parses(&case.parses).unwrap_or_default();
        let known: BTreeMap<(u32, &[u8]), _> =
            known.iter().map(|parse| ((parse.kind, parse.text), &parse.ranges)).collect();
        let call = Call::of(tally.task, job.clone());
        let mut parses = Parses::default();
        let mut texts: Vec<(u32, Vec<u8>)> = Vec::new();
        loop {
            let judged = whole.with(&parses, false).ask(job.buffer);
            let next = asked_for(&judged);
            let call = call.with_parses(Arc::new(parses.clone()));
            tally.ask(&name, vec![Asked { call, judged }]);
            let Some((kind, text)) = next else { break };
            let Some(ranges) = known.get(&(kind, &text[..])) else {
                return self.differ(case, "a text that the real build does not parse is asked for");
            };
            let ranges: Vec<(u32, u32)> =
                ranges.iter().map(|&(start, end)| (start as u32, end as u32)).collect();
            add_parse(&mut parses, kind, &text, &ranges);
            texts.push((kind, text));
        }
        self.askings += texts.len() as u64;
        let Some(own) = whole.crate_asks(&job.parses) else { return };
        let own = own.into_iter().map(|asked| (asked.kind, asked.text.into_bytes()));
        match own.eq(texts) {
            true => self.crate_askings += 1,
            false if !whole.covered().is_empty() => {}
            false => self.differ(case, "the crate asks for other texts"),
        }
    }

    fn differ(&mut self, case: &Case, what: &str) {
        self.different += 1;
        println!("{}: {what}", case.id);
    }

    /// So many answers of a real build were compared.
    fn print(&self, asked: u64) -> bool {
        let Real { refused, lists, edits, covered, askings, crate_askings, different } = self;
        println!(
            "answers of a real build: {} of {asked} equal, {lists} lists with {edits} edits and {refused} refusals; \
             {askings} texts asked for one after another, in {crate_askings} cases as by the crate; \
             {covered} cases are covered by a listed difference; {different} different",
            lists + refused
        );
        *different == 0
    }
}

/// Every node with every rule that it matches, as the crate finds them; none where the rules are
/// refused.
pub fn matching(case: &Case) -> Vec<u32> {
    let found = || -> Result<Vec<u32>, Stopped> {
        let workspace = Workspace::new(&case.pairs, &case.fact_text, Some(&case.file))?;
        let finder = Finder::new(&workspace)?;
        let matched = finder.matched(&finder.walk(case.restrict)?);
        Ok(matched.iter().flat_map(|matched| [matched.node, matched.rule]).collect())
    };
    found().unwrap_or_default()
}

/// The candidates as found, reversed, shuffled, and among others that do not match; a walk has none.
fn orders(task: Task, job: &Job, id: &str) -> Vec<(&'static str, Vec<u32>)> {
    if task == Task::Walk {
        return vec![(AS_FOUND, Vec::new())];
    }
    let rng = &mut Rng::from_bytes(id.as_bytes());
    let found = job.candidates.as_chunks::<2>().0;
    let reversed: Vec<[u32; 2]> = found.iter().rev().copied().collect();
    let mut shuffled = found.to_vec();
    rng.shuffle(&mut shuffled);
    vec![
        (AS_FOUND, found.concat()),
        ("reversed", reversed.concat()),
        ("shuffled", shuffled.concat()),
        ("among others", among_others(job, rng)),
    ]
}

/// The candidates of a job among other nodes with its rules, as many as there may be.
pub fn among_others(job: &Job, rng: &mut Rng) -> Vec<u32> {
    let mut candidates: Vec<[u32; 2]> = job.candidates.as_chunks().0.to_vec();
    let (nodes, rules) = (nodes(&job.file), rule_count(&job.rules));
    for _ in candidates.len()..if rules == 0 { 0 } else { CANDIDATES } {
        candidates.push([*rng.pick(&nodes), rng.below(rules) as u32]);
    }
    candidates.sort_unstable();
    candidates.dedup();
    rng.shuffle(&mut candidates);
    candidates.concat()
}

/// Whether an answer is the real build's, to the very bytes, and the edited text too.
fn is_real(case: &Case, (answer, out): &Given) -> Result<(), String> {
    match &case.answer {
        CaseAnswer::Refused(number) if answer.refusal == *number => Ok(()),
        CaseAnswer::Refused(number) => Err(format!("{answer:?}, and the real build has {number}")),
        CaseAnswer::Edits(list, wanted) => {
            if answer.refusal != 0 || answer.asked != 0 || out.get(..answer.length) != Some(list) {
                return Err(format!("{answer:?}, and not the list of the real build"));
            }
            let text = |edits: &[edits::Edit]| edits::apply(edits, &case.file.text);
            let edited = edits::read(&out[..answer.length]).and_then(|edits| text(&edits))?;
            if edited == text(wanted)? { Ok(()) } else { Err("another edited text".to_owned()) }
        }
    }
}

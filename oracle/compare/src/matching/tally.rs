//! What came of the questions about matching.

use std::collections::BTreeMap;

use checker::{WAYS, Ways};
use generator::Rng;
use input::{Answer, File, Operation, Rules, case_file};
use judge::{Backing, whole_matches};

use super::call::{Call, Given};
use super::questions::{Asked, Plan, all_pairs, nothing_such, of_pairs};
use crate::judged;
use crate::small_stack::{OF_MATCHING, on_stack};

/// The numbers of matching one node, in their order.
pub const NUMBERS: [u32; 23] =
    [1, 2, 3, 4, 5, 6, 7, 8, 9, 10, 11, 12, 13, 14, 15, 18, 19, 20, 21, 17, 22, 23, 16];

/// About how many pairs are asked at once.
const CHUNK: usize = 4_096;

/// Rules and a file with a name.
pub struct Named<'a> {
    pub name: &'a dyn Fn() -> String,
    pub rules: &'a Rules,
    pub file: &'a File,
}

#[derive(Default)]
pub struct Tally {
    cases: u64,
    /// Cases in which something matches.
    matching: u64,
    pairs: u64,
    equal: u64,
    different: u64,
    by_crate: u64,
    by_checker: u64,
    /// The crate may have another answer, by a listed difference.
    listed: u64,
    numbers: BTreeMap<u32, u64>,
    no_match: u64,
    matches: u64,
    /// Matches by how many placeholders they bind.
    bound: [u64; 9],
    /// Matches that note comments, and how many bytes these have.
    noting: u64,
    noted: u64,
    /// For each way how many answers went it, and how many of these are matches.
    ways: BTreeMap<&'static str, (u64, u64)>,
    /// The smallest call with a difference, and what is said of it.
    smallest: Option<(usize, String)>,
}

impl Tally {
    /// Asks the library all that is to be asked about rules and a file. What it gives for a pair of a
    /// node and a rule is shown to `see`.
    pub fn add(
        &mut self,
        case: &Named,
        plan: Plan,
        rng: &mut Rng,
        mut see: impl FnMut(&Call, &Given),
    ) {
        self.cases += 1;
        let before = self.matches;
        whole_matches(case.rules, case.file, |whole| {
            for pairs in all_pairs(whole).chunks(CHUNK) {
                let (asked, count) = of_pairs(whole, pairs, plan, rng);
                self.pairs += count as u64;
                let calls: Vec<Call> = asked[..count].iter().map(|asked| asked.call).collect();
                let given = self.ask(case, asked);
                calls.iter().zip(&given).for_each(|(call, given)| see(call, given));
            }
            if whole.number() != 0 || rng.one_in(plan.others) {
                self.ask(case, nothing_such(whole, case.file.tree.len() / 3, rng));
            }
        });
        self.matching += u64::from(self.matches > before);
    }

    /// Asks the library, on a small stack, and compares: what it gives.
    fn ask(&mut self, case: &Named, asked: Vec<Asked>) -> Vec<Given> {
        let Named { rules, file, .. } = case;
        let calls: Vec<Call> = asked.iter().map(|asked| asked.call).collect();
        let given: Vec<Given> =
            on_stack(OF_MATCHING, || calls.iter().map(|call| call.ask(rules, file)).collect());
        for ((asked, given), call) in asked.into_iter().zip(&given).zip(calls) {
            self.count(&asked);
            match self.compare(asked, given) {
                Ok(()) => self.equal += 1,
                Err(what) => {
                    self.different += 1;
                    self.note(case, call, &what);
                }
            }
        }
        given
    }

    /// Counts what was judged.
    fn count(&mut self, asked: &Asked) {
        let matched = match asked.judged.outcome.answer {
            Answer::Refused(number) => {
                *self.numbers.entry(number).or_default() += 1;
                number == 16
            }
            Answer::Match { bindings, comments } => {
                self.matches += 1;
                self.bound[bindings.iter().flatten().count()] += 1;
                self.noting += u64::from(comments > 0);
                self.noted += comments as u64;
                true
            }
            _ => {
                self.no_match += 1;
                false
            }
        };
        self.count_ways(asked.judged.ways, matched);
    }

    fn count_ways(&mut self, gone: Ways, matched: bool) {
        for (_, name) in WAYS.into_iter().filter(|(way, _)| gone.contains(*way)) {
            let (all, matches) = self.ways.entry(name).or_default();
            *all += 1;
            *matches += u64::from(matched);
        }
    }

    fn compare(&mut self, asked: Asked, given: &Given) -> Result<(), String> {
        match asked.judged.backing {
            Backing::Same => self.by_crate += 1,
            Backing::NotAsked | Backing::NotFed(_) => self.by_checker += 1,
            Backing::Listed => self.listed += 1,
            Backing::Other(what) => return Err(format!("not judged: {what}")),
        }
        let judged = judged::matching::match_node(asked.judged.outcome, asked.call.buffer);
        let judged = judged.ok_or("no answer of matching")?;
        if *given == judged {
            return Ok(());
        }
        if given.0 == judged.0 {
            return Err(format!(
                "the library leaves {:02x?}, the judge {:02x?}",
                given.1, judged.1
            ));
        }
        Err(format!("the library has {:?}, the judge {:?}", given.0, judged.0))
    }

    fn note(&mut self, case: &Named, call: Call, what: &str) {
        let Named { name, rules, file } = case;
        let size = rules.words.len() + file.tree.len() + file.facts.len();
        if self.smallest.as_ref().is_none_or(|(known, _)| size < *known) {
            let text = as_case_file(rules, file, call);
            let text = format!("{}: {call:?}: {what}\n{text}", name());
            self.smallest = Some((size, text));
        }
    }

    /// The numbers that no answer was.
    pub fn missing_numbers(&self) -> Vec<u32> {
        NUMBERS.into_iter().filter(|number| !self.numbers.contains_key(number)).collect()
    }

    /// The ways that no match went.
    pub fn missing_ways(&self) -> Vec<&'static str> {
        let matches = |name| self.ways.get(name).map_or(0, |(_, matches)| *matches);
        WAYS.into_iter().map(|(_, name)| name).filter(|&name| matches(name) == 0).collect()
    }

    /// Prints all that was counted: whether all answers are equal.
    pub fn print(&self) -> bool {
        self.print_answers();
        println!("{:40}{:>12}{:>12}", "", "answers", "matches");
        for (_, name) in WAYS {
            let (all, matches) = self.ways.get(name).copied().unwrap_or_default();
            println!("{name:40}{all:12}{matches:12}");
        }
        let Tally {
            cases, matching, pairs, equal, different, by_crate, by_checker, listed, ..
        } = self;
        println!("{cases} cases, {matching} with a match, {pairs} pairs of a node and a rule");
        println!(
            "on a stack of {OF_MATCHING} bytes: {} answers, {equal} equal, {different} different; \
             {by_crate} are the crate's own, {by_checker} the checker's alone, {listed} the checker's by a \
             listed difference",
            equal + different
        );
        if let Some((_, what)) = &self.smallest {
            println!("the smallest: {what}");
        }
        *different == 0
    }

    fn print_answers(&self) {
        for number in NUMBERS {
            if let Some(count) = self.numbers.get(&number) {
                println!("{count:10}  refused {number}");
            }
        }
        println!("{:10}  no match", self.no_match);
        println!("{:10}  a match", self.matches);
        for (bound, count) in self.bound.iter().enumerate() {
            println!("{count:10}    that binds {bound}");
        }
        println!("{:10}    that notes comments, {} bytes", self.noting, self.noted);
    }
}

/// The call as a case file, but for numbers that such a file does not hold.
fn as_case_file(rules: &Rules, file: &File, call: Call) -> String {
    let low = |number: usize| u32::try_from(number).unwrap_or(u32::MAX);
    let question = call.question();
    case_file::write(&Operation::MatchNode {
        rules: rules.clone(),
        file: file.clone(),
        node: low(call.node),
        rule: low(call.rule),
        range: question.range.map(|(start, end)| (low(start), low(end))),
        buffer: call.buffer,
    })
}

//! Building and resolving rules: the library asked for every rule and every element, and held against
//! the judge.

mod tally;

use std::collections::BTreeMap;

use generator::bent_rules::{bend_copy, is_harmless};
use generator::{odd_rules, rule_vectors};
use input::{Answer, Rules, pairs};
use judge::predicates::{Difference, of_rules};
use judge::{Backing, Sides, WholeRules};
use library::rules::{build_rules, resolve};

use crate::for_each_case;
use crate::judged::rules::{built_answer, resolved_answer};
use crate::small_stack::{OF_RESOLVING, OF_TREES, on_stack};
use tally::Tally;
pub use tally::sort;

/// About the most elements of the first tree of a generated side.
const MOST: usize = 40;
/// The most elements of a tree of which all are asked for.
const LARGE: usize = 2_000;
/// Damaged copies of one case.
const COPIES: u64 = 8;

/// Numbers that no rule and no element has: the low halves of the first two are small, and three times
/// the last is 2 in 64 bits.
pub const NO_NUMBER: [usize; 4] = [1 << 32, (1 << 32) + 1, usize::MAX, usize::MAX / 3 + 1];
/// Sides that no rule has.
const NO_SIDE: [u32; 2] = [2, u32::MAX];

#[derive(Clone, Copy, Debug)]
pub enum Operation {
    Building,
    Resolving,
}

pub const OPERATIONS: [Operation; 2] = [Operation::Building, Operation::Resolving];

/// What an operation is asked for; building looks at the rule alone.
#[derive(Clone, Copy, Debug, Default)]
pub struct Question {
    pub rule: usize,
    pub side: u32,
    pub element: usize,
}

impl Operation {
    /// The library's answers, on a small stack.
    fn ask_all(self, rules: &Rules, questions: &[Question]) -> Vec<Result<Answer, String>> {
        let ask = |question: &Question| self.ask(rules, *question);
        on_stack(self.stack(), || questions.iter().map(ask).collect())
    }

    fn stack(self) -> usize {
        match self {
            Operation::Building => OF_TREES,
            Operation::Resolving => OF_RESOLVING,
        }
    }

    /// The library's answer; a struct that is none is the error.
    pub fn ask(self, rules: &Rules, question: Question) -> Result<Answer, String> {
        let Question { rule, side, element } = question;
        match self {
            Operation::Building => {
                built_answer(build_rules(rules, rule)).map_err(|all| format!("{all:?}"))
            }
            Operation::Resolving => {
                let answer = resolved_answer(resolve(rules, rule, side, element));
                answer.map_err(|all| format!("{all:?}"))
            }
        }
    }

    pub fn judged(self, whole: &WholeRules, question: Question) -> Answer {
        let Question { rule, side, element } = question;
        match self {
            Operation::Building => whole.built_answer(rule),
            Operation::Resolving => whole.resolved_answer(rule, side, element),
        }
    }

    pub fn backing(self, whole: &WholeRules) -> &Backing {
        match self {
            Operation::Building => &whole.built.backing,
            Operation::Resolving => &whole.resolved.backing,
        }
    }

    /// How the crate and the checker disagree and should not.
    pub fn disagreement(self, whole: &WholeRules) -> Option<&str> {
        match self.backing(whole) {
            Backing::Other(what) => Some(what),
            _ => None,
        }
    }

    /// The number of the refusal, 0 where nothing refuses.
    pub fn number(self, whole: &WholeRules) -> u32 {
        match self.judged(whole, Question::default()) {
            Answer::Refused(number) => number,
            _ => 0,
        }
    }

    /// Every question that has an answer of its own, and some that ask for what is not there.
    pub fn questions(self, whole: &WholeRules) -> Vec<Question> {
        let rule = |rule| Question { rule, ..Question::default() };
        match (self, &whole.built.answer, &whole.resolved.answer) {
            (Operation::Building, Ok(built), _) => {
                (0..=built.len()).chain(NO_NUMBER).map(rule).collect()
            }
            (Operation::Resolving, _, Ok(rules)) => {
                let each = rules.iter().enumerate().flat_map(|(rule, sides)| of_rule(rule, sides));
                each.chain([rules.len()].into_iter().chain(NO_NUMBER).map(rule)).collect()
            }
            // A refusal is the answer to all of them.
            _ => [0, 1, NO_NUMBER[2]].map(rule).to_vec(),
        }
    }
}

/// Every element of both sides and one past the last, and what no rule has. Of the largest trees not
/// every element.
fn of_rule(rule: usize, sides: &Sides) -> Vec<Question> {
    let mut all = NO_SIDE.map(|side| Question { rule, side, element: 0 }).to_vec();
    for (side, of) in (0..).zip(sides) {
        let elements = of.as_ref().map_or(0, |side| side.elements);
        let inside = (0..elements).step_by(1 + elements / LARGE);
        let element = |element| Question { rule, side, element };
        all.extend(inside.chain([elements]).chain(NO_NUMBER).map(element));
    }
    all
}

/// The rules of every case of a corpus; where a real build had rules left, the library has the same.
pub fn corpus() -> Result<bool, String> {
    let mut tally = Tally::default();
    let (mut equal, mut listed, mut different) = (0, 0, 0);
    for_each_case(|case| {
        let rules = pairs::encode(&case.pairs, &case.fact_text);
        tally.add(|| case.id.clone(), &rules);
        let Some(known) = &case.rules else { return };
        if rules_left(&rules, known.len()) == *known {
            equal += 1;
        } else if of_rules(&case.pairs).contains(&Difference::NinthPlaceholder) {
            listed += 1;
        } else {
            different += 1;
            println!("{}: the rules left are not those of the real build", case.id);
        }
    })?;
    let same = tally.print();
    println!(
        "rules left of a real build: {equal} cases equal, {listed} different by a listed difference, \
         {different} different"
    );
    Ok(same && different == 0)
}

/// Pair and form of the rules that the library leaves, of which it is asked for one more than `count`.
fn rules_left(rules: &Rules, count: usize) -> Vec<(u32, u32)> {
    let found = (0..=count).map(|rule| build_rules(rules, rule)).filter(|built| built.found == 1);
    found.map(|built| (built.pair as u32, built.form as u32)).collect()
}

/// `count` cases of well-formed rules.
pub fn generated(seed: u64, count: u64) -> bool {
    let mut tally = Tally::default();
    for index in 0..count {
        tally.add(|| format!("case {index}"), &odd_rules::random(seed, index, MOST));
    }
    tally.print()
}

/// The vectors, small ones and large ones, each with the numbers that it has to have.
fn vectors() -> bool {
    let mut tally = Tally::default();
    let mut different = 0;
    for (name, rules, wanted) in rule_vectors::all().into_iter().chain(rule_vectors::large()) {
        let found = tally.add(|| name.to_owned(), &rules);
        if found != wanted {
            different += 1;
            println!("{name}: {found:?} for {wanted:?}");
        }
    }
    tally.print() && different == 0
}

/// The vectors, then `count` damaged copies of well-formed rules.
pub fn damaged(seed: u64, count: u64) -> bool {
    println!("vectors:");
    let vectors = vectors();
    let (mut whole, mut copies) = (Tally::default(), Tally::default());
    let (mut rules, mut numbers) = (Rules::default(), [0; 2]);
    let mut idle: BTreeMap<&str, bool> = BTreeMap::new();
    for index in 0..count {
        if index % COPIES == 0 {
            rules = odd_rules::random(seed, index / COPIES, MOST);
            numbers = whole.add(|| format!("case {}", index / COPIES), &rules);
        }
        let mut copy = rules.clone();
        let names = bend_copy(seed, index, &mut copy);
        let found = copies.add(|| format!("copy {index}, {}", names.join(", ")), &copy);
        if let [name] = names[..] {
            *idle.entry(name).or_insert(true) &= found == numbers;
        }
    }
    println!("whole rules:");
    let equal = whole.print();
    println!("their damaged copies:");
    copies.print() & equal & vectors & print_idle(&idle)
}

/// Prints which damages changed no number: whether the harmless ones are among them.
fn print_idle(idle: &BTreeMap<&str, bool>) -> bool {
    let names: Vec<&str> = idle.iter().filter(|(_, idle)| **idle).map(|(name, _)| *name).collect();
    println!("no number was changed by: {}", names.join("; "));
    idle.iter().all(|(name, idle)| *idle || !is_harmless(name))
}

//! What came of the questions about rules.

use std::collections::BTreeMap;

use input::{Answer, Rules, TemplateTree, pairs};
use judge::{Backing, WholeRules, whole_rules};

use super::{OPERATIONS, Operation, Question};
use crate::comparison::same;

/// The numbers of building and resolving, in their order.
const NUMBERS: [u32; 22] =
    [0, 1, 2, 3, 4, 5, 6, 7, 8, 9, 10, 11, 12, 13, 14, 15, 18, 19, 20, 21, 17, 22];

/// What came of the questions of one operation.
#[derive(Default)]
struct Counts {
    equal: u64,
    different: u64,
    by_crate: u64,
    by_checker: u64,
    /// The crate has another answer, by a listed difference.
    listed: u64,
    /// How often a number was the answer, counted once for all questions about the same rules.
    numbers: BTreeMap<u32, u64>,
}

#[derive(Default)]
pub struct Tally {
    counts: [Counts; OPERATIONS.len()],
    answers: BTreeMap<&'static str, u64>,
    cases: u64,
    pairs: u64,
    /// The smallest rules with a difference, and what is said of them.
    smallest: Option<(Rules, String)>,
}

impl Tally {
    /// Asks the library everything about some rules: the numbers of both operations.
    pub fn add(&mut self, name: impl Fn() -> String, rules: &Rules) -> [u32; 2] {
        let whole = whole_rules(rules);
        self.cases += 1;
        self.pairs += (rules.directory.len() / pairs::ROW) as u64;
        for operation in OPERATIONS {
            let numbers = &mut self.counts[operation as usize].numbers;
            *numbers.entry(operation.number(&whole)).or_default() += 1;
            let questions = operation.questions(&whole);
            for (question, found) in questions.iter().zip(operation.ask_all(rules, &questions)) {
                if let Err(what) = self.compare(&whole, operation, *question, found) {
                    self.note(rules, format!("{}: {operation:?}: {question:?}: {what}", name()));
                }
            }
        }
        OPERATIONS.map(|operation| operation.number(&whole))
    }

    fn compare(
        &mut self,
        whole: &WholeRules,
        operation: Operation,
        question: Question,
        found: Result<Answer, String>,
    ) -> Result<(), String> {
        let judged = operation.judged(whole, question);
        *self.answers.entry(sort(&judged)).or_default() += 1;
        let counts = &mut self.counts[operation as usize];
        let result = counts.judge(operation.backing(whole));
        let result = result.and_then(|()| same(found, Ok(judged)));
        *if result.is_ok() { &mut counts.equal } else { &mut counts.different } += 1;
        result
    }

    fn note(&mut self, rules: &Rules, what: String) {
        let size = |rules: &Rules| rules.directory.len() + rules.words.len() + rules.bytes.len();
        if self.smallest.as_ref().is_none_or(|(known, _)| size(rules) < size(known)) {
            self.smallest = Some((rules.clone(), what));
        }
    }

    /// Prints all that was counted: whether all answers are equal.
    pub fn print(&self) -> bool {
        println!("{:>6}{:>12}{:>12}", "number", "building", "resolving");
        for number in NUMBERS {
            let count = |counts: &Counts| counts.numbers.get(&number).copied().unwrap_or(0);
            let [building, resolving] = self.counts.each_ref().map(count);
            println!("{number:6}{building:12}{resolving:12}");
        }
        for (answer, count) in &self.answers {
            println!("{count:10}  {answer}");
        }
        println!("{} cases of {} pairs", self.cases, self.pairs);
        for (operation, counts) in OPERATIONS.iter().zip(&self.counts) {
            counts.print(*operation);
        }
        if let Some((rules, what)) = &self.smallest {
            println!("the smallest: {what}: {rules:x?}");
        }
        self.counts.iter().all(|counts| counts.different == 0)
    }
}

impl Counts {
    /// Counts who judged an answer; an error where crate and checker disagree and should not.
    fn judge(&mut self, backing: &Backing) -> Result<(), String> {
        match backing {
            Backing::Same => self.by_crate += 1,
            Backing::NotAsked | Backing::NotFed(_) => self.by_checker += 1,
            Backing::Listed => self.listed += 1,
            Backing::Other(what) => return Err(format!("not judged: {what}")),
        }
        Ok(())
    }

    fn print(&self, operation: Operation) {
        let Counts { equal, different, by_crate, by_checker, listed, .. } = self;
        println!(
            "{operation:?}, on a stack of {} bytes: {} answers, {equal} equal, {different} different; \
             {by_crate} are the crate's own, {by_checker} the checker's alone, {listed} the checker's by a \
             listed difference",
            operation.stack(),
            equal + different
        );
    }
}

/// What an answer says, without its numbers.
pub fn sort(answer: &Answer) -> &'static str {
    match answer {
        Answer::Built { asked: None, .. } => "built: no such rule",
        Answer::Built { asked: Some(rule), .. } => match rule.template {
            TemplateTree::None => "built: a rule without a template",
            TemplateTree::Own => "built: a rule with its own tree",
            TemplateTree::StandIn => "built: a rule with the statement's tree",
        },
        Answer::Resolved(None) => "resolved: nothing such",
        Answer::Resolved(Some(element)) => match (element.resolution, element.call) {
            (Some(_), _) => "resolved: a path",
            (_, Some((_, Some(_)))) => "resolved: a call with a type",
            (_, Some((_, None))) => "resolved: a call without a type",
            _ if element.contains_self => "resolved: another element, self in the tree",
            _ => "resolved: another element",
        },
        _ => "refused",
    }
}

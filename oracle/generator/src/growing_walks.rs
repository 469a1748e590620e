//! Walks as large as one wants them: for timing, and as large as they may be.

use crate::facts::paths;
use crate::job_limits::{PLAIN, a, angles, number, pair};
use crate::jobs::nodes;
use crate::kinds::*;
use crate::limits::plain_file;
use crate::parts::*;
use input::build::{Syntax, add_parse, fact, node};
use input::pairs::encode;
use input::words::{fact_element, syntax_kind};
use input::{File, Job, Pair, Parses};
use std::collections::BTreeSet;

/// The elements of a call.
const CALL: usize = 11;
/// The most matches.
const MATCHES: usize = 1_024;
/// The room of every list.
const BUFFER: usize = 1 << 16;
/// What a function that no rule has resolves to.
const OTHER: u32 = 99;
const MODULE: u32 = 1;
const TYPE: u32 = 9;
/// A definition that is usable.
const FLAGS: u32 = 3;

/// A file of calls `fa(1)`, and rules `fa($a) ==>> ga($a)`, `fb($a) ==>> gb($a)` and so on.
#[derive(Clone, Copy)]
pub struct Calls {
    /// The elements of the file, up to 16,383.
    pub elements: usize,
    /// Up to 16, each with about as many matches as the others.
    pub rules: usize,
    /// No more than there are calls: these are spread over the file.
    pub matches: usize,
}

impl Calls {
    /// The walk, with all its parses.
    pub fn walk(self) -> Job {
        let mut fact_text = Vec::new();
        let pairs = (0..self.rules).map(|rule| call_rule(rule, &mut fact_text));
        let pairs: Vec<Pair> = pairs.collect();
        let (rules, file, parses) = (encode(&pairs, &fact_text), self.file(), self.parses());
        Job { rules, file, parses, buffer: BUFFER, ..Job::default() }
    }

    /// The same with so many facts in all: at every node, and the rest as steps of the literals.
    pub fn with_facts(self, count: usize) -> Job {
        let mut job = self.walk();
        let mut facts: Vec<[u32; 4]> = job.file.facts.as_chunks().0.to_vec();
        let known: BTreeSet<u32> = facts.iter().map(|fact| fact[0]).collect();
        let modules = nodes(&job.file).into_iter().map(|node| module(node as usize));
        facts.extend(modules.filter(|fact| !known.contains(&fact[0])));
        let missing = count.saturating_sub(facts.len());
        let literals = nodes(&job.file).into_iter().map(|node| node as usize);
        let literals = literals.filter(|node| syntax_kind(job.file.tree[3 * node]) == LITERAL);
        let steps = (1..).flat_map(|step| literals.clone().map(move |node| (node, step)));
        facts.extend(steps.take(missing).map(|(node, step)| fact(3, node, [step, TYPE, 0])));
        facts.truncate(count);
        // As a front end lists them.
        facts.sort_by_key(|fact| fact_element(fact[0]));
        job.file.facts = facts.concat();
        job
    }

    fn file(self) -> File {
        let functions = self.functions();
        let call = |function: &Option<usize>| call_of(&name("f", *function), number(1));
        let mut children: Vec<Syntax> = functions.iter().map(call).collect();
        children.resize(children.len() + (self.elements - 1) % CALL, mark(";"));
        let root = node(SOURCE_FILE, children);
        let mut resolutions = functions.into_iter().map(resolution);
        let mut facts = Vec::new();
        for (i, element) in root.elements().into_iter().enumerate().filter(|(_, e)| e.is_node()) {
            facts.extend(match element.kind() {
                PATH => resolutions.next().map(|number| fact(0, i, [number, 0, 0])),
                CALL_EXPR => Some(module(i)),
                LITERAL => Some(fact(3, i, [0, TYPE, 0])),
                _ => None,
            });
        }
        File { facts: facts.concat(), ..plain_file(&root) }
    }

    /// For each call the rule that matches it.
    fn functions(self) -> Vec<Option<usize>> {
        let calls = (self.elements - 1) / CALL;
        let matched = |call| call * self.matches / calls;
        let is_matched = |call: &usize| matched(call + 1) > matched(*call);
        (0..calls).map(|call| is_matched(&call).then(|| matched(call) % self.rules)).collect()
    }

    /// The parses of `ga(1)` and so on.
    fn parses(self) -> Parses {
        let mut parses = Parses::default();
        for rule in 0..self.rules {
            let text = format!("{}(1)", name("g", Some(rule)));
            let end = text.len() as u32;
            let ranges = [(0, end), (0, end - 3), (end - 3, end), (end - 2, end - 1)];
            add_parse(&mut parses, CALL_EXPR, text.as_bytes(), &ranges);
        }
        parses
    }
}

fn module(node: usize) -> [u32; 4] {
    fact(6, node, [MODULE, 0, 0])
}

/// A letter with the letter of a rule; another name without one.
fn name(first: &str, rule: Option<usize>) -> String {
    let letter = rule.map_or('z', |rule| char::from(b'a' + rule as u8));
    format!("{first}{letter}")
}

fn resolution(rule: Option<usize>) -> u32 {
    rule.map_or(OTHER, |rule| 1 + rule as u32)
}

pub(crate) fn call_of(name: &str, argument: Syntax) -> Syntax {
    let arguments = node(ARG_LIST, [mark("("), argument, mark(")")]);
    node(CALL_EXPR, [path_expr(path_of(ident(name))), arguments])
}

/// `fa($a) ==>> ga($a)`, the template's path with its text in the file's module.
fn call_rule(rule: usize, fact_text: &mut Vec<u8>) -> Pair {
    let template_name = name("g", Some(rule));
    let [pattern, template] =
        [&name("f", Some(rule)), &template_name].map(|name| call_of(name, a()));
    let mut pair = pair(&pattern, &template);
    let path = paths(&pattern)[0].0;
    let resolved = resolution(Some(rule));
    pair.pattern.trees[0].facts = fact(1, path, [resolved, FLAGS, 0]).to_vec();
    let text = [MODULE, fact_text.len() as u32, template_name.len() as u32];
    fact_text.extend(template_name.as_bytes());
    let facts = [fact(1, path, [OTHER + resolved, FLAGS, 0]), fact(7, path, text)];
    pair.template.trees[0].facts = facts.concat();
    pair
}

/// Rules `$a ==>> <$a>` on lines of nodes in a file of so many elements: up to 1,024 matches, each line's in
/// each other. The root is in no module, so that it does not match.
pub fn lines(elements: usize, rules: usize, nodes: usize) -> Job {
    let count = MATCHES / (rules * nodes);
    let line = (0..nodes).fold(ident("x"), |inner, _| node(EXPR_STMT, [inner]));
    let mut children = vec![line; count];
    children.resize(children.len() + elements - 1 - count * (nodes + 1), mark(";"));
    let root = node(SOURCE_FILE, children);
    let below = root.elements().into_iter().enumerate().skip(1);
    let nodes = below.filter(|(_, element)| element.is_node());
    let facts = nodes.flat_map(|(i, _)| module(i)).collect();
    let file = File { facts, ..plain_file(&root) };
    let pairs = vec![pair(&a(), &angles(PLAIN)); rules];
    Job { rules: encode(&pairs, b""), file, buffer: BUFFER, ..Job::default() }
}

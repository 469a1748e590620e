//! Matching one node with one rule, once more in plain Rust from document 01 and docs/src. There is
//! one phase: what the crate's first phase refuses its second refuses too. Numbers are elements, `p`
//! of the pattern and `c` of the code.

mod notes;
mod ways;

use crate::facts::Facts;
use crate::rules::{Resolved, Rule};
use crate::tree::Tree;
use input::Binding;
use std::collections::{BTreeMap, BTreeSet};
use std::rc::Rc;

pub use notes::Notes;
pub use ways::{WAYS, Way, Ways};

const IDENT: u32 = 1;
const WHITESPACE: u32 = 2;
const COMMENT: u32 = 3;
const COMMA: u32 = 4;
const CLOSING: [u32; 3] = [5, 6, 7];

const TOKEN_TREE: u32 = 1;
const PATH: u32 = 2;
const PATH_SEGMENT: u32 = 3;
const ARGUMENTS_OF_PATHS: [u32; 2] = [5, 6];
const ARG_LIST: u32 = 7;
const RECORD_LIST: u32 = 8;
const RECORD_FIELD: u32 = 9;
const CALL_EXPR: u32 = 64;
const METHOD_CALL_EXPR: u32 = 65;
const LITERAL: u32 = 66;

const DEFINITION: u32 = 2;

/// What a match binds, in pattern order, and what it notes.
#[derive(Clone, Debug, Default)]
pub struct Found {
    pub bindings: [Option<Binding>; 8],
    pub notes: Notes,
}

/// What came of a node and a rule: the match if there is one, and the ways that were gone.
#[derive(Clone, Debug)]
pub struct Attempt {
    pub found: Option<Found>,
    pub ways: Ways,
}

/// Matches a node of a file that passed with a rule that was resolved. The range is not backward.
pub fn match_node(
    rule: &Rule,
    file: &(Tree, Facts),
    node: usize,
    range: Option<(usize, usize)>,
) -> Attempt {
    let mut matcher = Matcher::new(rule, file);
    let found = matcher.get_match(node, range);
    match matcher.nest {
        0 | 1 => {}
        2 => matcher.ways.insert(Way::TwoDeep),
        3 => matcher.ways.insert(Way::ThreeDeep),
        _ => matcher.ways.insert(Way::FourDeep),
    }
    Attempt { found, ways: matcher.ways }
}

/// What a record list matched with a record list gives, where they match; and its `nest`.
type Shared = Option<(Rc<Notes>, [Option<Binding>; 8], usize)>;

struct Matcher<'a> {
    rule: &'a Rule,
    pattern: &'a Tree,
    code: &'a Tree,
    facts: &'a Facts,
    ways: Ways,
    /// What is known of record lists: one that starts over meets those below it again.
    lists: BTreeMap<(usize, usize), Shared>,
    /// The most lists that start over in each other, of those that matched.
    nest: usize,
}

/// The children of a pattern's node without trivia, from a place on.
struct Pattern {
    elements: Vec<usize>,
    at: usize,
}

impl Pattern {
    fn peek(&self) -> Option<usize> {
        self.elements.get(self.at).copied()
    }

    fn next(&mut self) -> Option<usize> {
        let next = self.peek();
        self.at += 1;
        next
    }

    /// Nothing is left of it.
    fn end(&self) -> Option<()> {
        self.peek().is_none().then_some(())
    }
}

impl<'a> Matcher<'a> {
    fn new(rule: &'a Rule, (code, facts): &'a (Tree, Facts)) -> Matcher<'a> {
        let (ways, lists) = (Ways::default(), BTreeMap::new());
        Matcher { rule, pattern: &rule.pattern.tree, code, facts, ways, lists, nest: 0 }
    }

    fn get_match(&mut self, node: usize, range: Option<(usize, usize)>) -> Option<Found> {
        let own = &self.code.elements[node];
        if range.is_some_and(|(start, end)| own.start < start || end < own.end) {
            return None;
        }
        let mut found = Found::default();
        self.node(0, node, &mut found)?;
        if let Some(template) = &self.rule.template {
            self.ways.insert(Way::Template);
            self.template_paths(template, node)?;
        }
        Some(found)
    }

    /// The node has a module, and all definitions of the template have a text for it.
    fn template_paths(&mut self, template: &Resolved, node: usize) -> Option<()> {
        let [module, ..] = self.facts.get(6, node)?;
        for &path in template.paths.keys() {
            let [_, flags, _] = template.facts.get(1, path)?;
            if flags & DEFINITION != 0 {
                self.ways.insert(Way::TemplatePath);
                template.facts.get_at(7, path, module)?;
            }
        }
        Some(())
    }

    /// The placeholder that an element of the pattern is.
    fn placeholder(&self, p: usize) -> Option<usize> {
        let ident = only_ident(self.pattern, p)?;
        self.rule.placeholder(self.pattern.text_of(ident))
    }

    fn pattern_of(&self, p: usize) -> Pattern {
        let elements = self.pattern.children(p).filter(|&e| !is_trivia(self.pattern, e));
        Pattern { elements: elements.collect(), at: 0 }
    }

    fn bind(&mut self, slot: usize, start: usize, end: usize, found: &mut Found) {
        if found.bindings[slot].is_some() {
            self.ways.insert(Way::Rebound);
        }
        let (start, end) = (start as u32, end as u32);
        found.bindings[slot] = Some(Binding { start, end, stars: 0, self_kind: 0 });
    }

    /// Notes a comment: whether the element is trivia.
    fn note(&self, c: usize, found: &mut Found) -> bool {
        if self.code.is_token(c, COMMENT) {
            found.notes.add(c, self.code.text_of(c).len());
        }
        is_trivia(self.code, c)
    }

    fn node(&mut self, p: usize, c: usize, found: &mut Found) -> Option<()> {
        if let Some(slot) = self.placeholder(p) {
            return self.captured(slot, c, found);
        }
        let code = self.code.elements[c];
        let claimed = self.rule.pattern.calls.get(&p).copied();
        match claimed {
            Some(call) if code.kind == METHOD_CALL_EXPR => self.method_call(p, call, c, found),
            Some(call) if code.kind == CALL_EXPR => self.call(p, call, c, found),
            _ if self.pattern.elements[p].kind != code.kind => None,
            _ => match code.kind {
                RECORD_LIST => self.shared_record_list(p, c, found),
                TOKEN_TREE => self.token_tree(p, c, found),
                PATH => self.path(p, c, found),
                _ => self.children(p, c, found),
            },
        }
    }

    fn captured(&mut self, slot: usize, c: usize, found: &mut Found) -> Option<()> {
        let element = self.code.elements[c];
        for nots in &self.rule.nots[slot] {
            self.ways.insert(Way::Constraint);
            // An odd number of `not`s wants what is no literal.
            if (element.kind == LITERAL) == (nots % 2 == 1) {
                return None;
            }
        }
        if element.size == 1 {
            self.ways.insert(Way::EmptyNode);
        }
        self.bind(slot, element.start, element.end, found);
        Some(())
    }

    fn children(&mut self, p: usize, c: usize, found: &mut Found) -> Option<()> {
        let mut pattern = self.pattern_of(p);
        let code = self.code;
        for child in code.children(c) {
            if self.code.elements[child].node {
                let next = pattern.next().filter(|&e| self.pattern.elements[e].node)?;
                self.node(next, child, found)?;
            } else {
                self.token(&mut pattern, child, found)?;
            }
        }
        pattern.end()
    }

    /// A token of the code: trivia, a comma that one of the two lacks, or the pattern's next.
    fn token(&mut self, pattern: &mut Pattern, c: usize, found: &mut Found) -> Option<()> {
        if self.note(c, found) {
            return Some(());
        }
        let kind = self.code.elements[c].kind;
        let is_token = |e: &usize| !self.pattern.elements[*e].node;
        if let Some(next) = pattern.peek().filter(is_token) {
            let wanted = self.pattern.elements[next].kind;
            if kind == COMMA && CLOSING.contains(&wanted) {
                self.ways.insert(Way::CodeComma);
                return Some(());
            }
            if wanted == COMMA && CLOSING.contains(&kind) {
                self.ways.insert(Way::PatternComma);
                pattern.next();
            }
        }
        let next = pattern.next()?;
        let same =
            self.pattern.is_token(next, kind) && self.pattern.text_of(next) == self.code.text_of(c);
        same.then_some(())
    }

    fn path(&mut self, p: usize, c: usize, found: &mut Found) -> Option<()> {
        let Some(&resolution) = self.rule.pattern.paths.get(&p) else {
            return self.children(p, c, found);
        };
        self.ways.insert(Way::ResolvedPath);
        let segment = |tree: &Tree, path| tree.first_child(path, PATH_SEGMENT);
        if let (Some(p), Some(c)) = (segment(self.pattern, p), segment(self.code, c)) {
            for kind in ARGUMENTS_OF_PATHS {
                let both = (self.pattern.first_child(p, kind), self.code.first_child(c, kind));
                if let (Some(_), Some(_)) = both {
                    self.ways.insert(Way::PathArguments);
                }
                self.both_or_none(both.0, both.1, found)?;
            }
        }
        let [other, ..] = self.facts.get(0, c)?;
        (other == resolution).then_some(())
    }

    fn both_or_none(
        &mut self,
        p: Option<usize>,
        c: Option<usize>,
        found: &mut Found,
    ) -> Option<()> {
        match (p, c) {
            (Some(p), Some(c)) => self.node(p, c, found),
            (None, None) => Some(()),
            _ => None,
        }
    }

    /// What matching two record lists gives does not hang on what was matched before, so it is
    /// found but once.
    fn shared_record_list(&mut self, p: usize, c: usize, found: &mut Found) -> Option<()> {
        if !self.lists.contains_key(&(p, c)) {
            let mut own = Found::default();
            let before = std::mem::take(&mut self.nest);
            let matched = self.record_list(p, c, &mut own);
            let shared = matched.map(|()| (Rc::new(own.notes), own.bindings, self.nest));
            self.nest = before;
            self.lists.insert((p, c), shared);
        }
        let (notes, bindings, nest) = self.lists[&(p, c)].as_ref()?;
        self.nest = self.nest.max(*nest);
        found.notes.add_all(notes);
        for (place, binding) in found.bindings.iter_mut().zip(bindings) {
            *place = binding.or(*place);
        }
        Some(())
    }

    fn record_list(&mut self, p: usize, c: usize, found: &mut Found) -> Option<()> {
        let mut fields = self.fields_by_name(c);
        let mut by_name = Vec::new();
        let pattern = self.pattern;
        for field in pattern.children(p).filter(|&e| pattern.elements[e].node) {
            let Some(name) = pattern.children(field).next() else { continue };
            if self.placeholder(name).is_some() {
                return self.start_over(p, c, &by_name, found);
            }
            let Some(ident) = only_ident(pattern, name) else {
                self.ways.insert(Way::SkippedField);
                continue;
            };
            let code = fields.remove(pattern.text_of(ident))?;
            self.node(field, code, found)?;
            by_name.push((field, code));
        }
        self.ways.insert(Way::RecordByName);
        fields.is_empty().then_some(())
    }

    /// All children in order, after some fields were matched by name.
    fn start_over(
        &mut self,
        p: usize,
        c: usize,
        by_name: &[(usize, usize)],
        found: &mut Found,
    ) -> Option<()> {
        self.ways.insert(Way::Restart);
        self.ways.insert(match by_name.len() {
            0 => Way::RestartAfterNone,
            1 => Way::RestartAfterOne,
            _ => Way::RestartAfterMore,
        });
        self.children(p, c, found)?;
        self.nest += 1;
        // As they match in order, each node has met the one at its place.
        let nodes = |tree: &'a Tree, list| tree.children(list).filter(|&e| tree.elements[e].node);
        let in_order: BTreeSet<_> = nodes(self.pattern, p).zip(nodes(self.code, c)).collect();
        for pair in by_name {
            let same = in_order.contains(pair);
            self.ways.insert(if same { Way::SamePair } else { Way::OtherPair });
        }
        Some(())
    }

    /// The fields of the code by their names; of two with one name the later.
    fn fields_by_name(&mut self, c: usize) -> BTreeMap<&'a [u8], usize> {
        let mut fields = BTreeMap::new();
        let code = self.code;
        for field in code.children(c).filter(|&e| code.is_node(e, RECORD_FIELD)) {
            let Some([name, ..]) = self.facts.get(5, field) else {
                self.ways.insert(Way::NamelessField);
                continue;
            };
            if fields.insert(code.text_of(name as usize), field).is_some() {
                self.ways.insert(Way::RepeatedField);
            }
        }
        fields
    }

    fn token_tree(&mut self, p: usize, c: usize, found: &mut Found) -> Option<()> {
        self.ways.insert(Way::TokenTree);
        let mut pattern = self.pattern_of(p);
        let code = self.code;
        let mut children = code.children(c);
        while let Some(child) = children.next() {
            let slot = pattern.peek().and_then(|next| self.placeholder(next));
            if let Some(slot) = slot {
                pattern.next();
                let last = self.token_run(&mut pattern, child, &mut children, found)?;
                let (first, last) = (&code.elements[child], &code.elements[last]);
                self.bind(slot, first.start, last.end, found);
            } else if code.elements[child].node {
                let next = pattern.next().filter(|&e| self.pattern.elements[e].node)?;
                self.token_tree(next, child, found)?;
            } else {
                self.token(&mut pattern, child, found)?;
            }
        }
        pattern.end()
    }

    /// The last element of a run: it goes on up to the text that the pattern's next element begins
    /// with, which is used up.
    fn token_run(
        &mut self,
        pattern: &mut Pattern,
        first: usize,
        children: &mut impl Iterator<Item = usize>,
        found: &mut Found,
    ) -> Option<usize> {
        self.ways.insert(Way::TokenRun);
        let stop = pattern.peek().and_then(|next| self.pattern.first_token(next));
        let stop = stop.map(|token| self.pattern.text_of(token));
        let mut last = first;
        for next in children {
            let begin = self.code.first_token(next).map(|token| self.code.text_of(token));
            if stop.is_some() && begin == stop {
                let used = pattern.next();
                if !self.code.elements[next].node {
                    self.ways.insert(Way::StoppedByToken);
                    return Some(last);
                }
                if let Some(tree) = used.filter(|&e| self.pattern.elements[e].node) {
                    self.ways.insert(Way::StoppedByTree);
                    self.token_tree(tree, next, found)?;
                    return Some(last);
                }
                self.ways.insert(Way::StopUsedUp);
            }
            last = next;
        }
        Some(last)
    }

    /// The step at which an expression of the code has a type.
    fn step_of(&self, expression: usize, wanted: u32) -> Option<u32> {
        let kind = |step| self.facts.get_at(3, expression, step).map(|[_, kind, _]| kind);
        (0..).map_while(kind).zip(0..).find(|(kind, _)| *kind == wanted).map(|(_, step)| step)
    }

    fn method_call(
        &mut self,
        p: usize,
        (function, qualifier): (u32, Option<u32>),
        c: usize,
        found: &mut Found,
    ) -> Option<()> {
        self.ways.insert(Way::MethodCall);
        let [other, takes_self, self_kind] = self.facts.get(2, c)?;
        if other != function {
            return None;
        }
        let mut wanted = arguments(self.pattern, p)?.into_iter();
        let receiver = self.code.first_expression(c);
        if takes_self == 0 {
            self.ways.insert(Way::NoSelf);
            self.both_or_none(wanted.next(), receiver, found)?;
        } else if let (Some(kind), Some(receiver)) = (qualifier, receiver) {
            let stars = self.step_of(receiver, kind)?;
            self.receiver(wanted.next(), receiver, stars, self_kind, found)?;
        } else {
            self.ways.insert(Way::ReceiverLeftOut);
        }
        let mut given = arguments(self.code, c)?.into_iter();
        loop {
            match (wanted.next(), given.next()) {
                (None, None) => return Some(()),
                (p, c) => self.both_or_none(p, c, found)?,
            }
        }
    }

    fn receiver(
        &mut self,
        p: Option<usize>,
        c: usize,
        stars: u32,
        self_kind: u32,
        found: &mut Found,
    ) -> Option<()> {
        self.both_or_none(p, Some(c), found)?;
        self.ways.insert(Way::Receiver);
        if stars > 0 {
            self.ways.insert(Way::SeveralSteps);
        }
        if let Some(binding) = self.placeholder(p?).and_then(|slot| found.bindings[slot].as_mut()) {
            (binding.stars, binding.self_kind) = (stars, self_kind);
        }
        Some(())
    }

    fn call(
        &mut self,
        p: usize,
        (_, qualifier): (u32, Option<u32>),
        c: usize,
        found: &mut Found,
    ) -> Option<()> {
        self.ways.insert(Way::Call);
        let first = arguments(self.code, c).and_then(|all| all.first().copied());
        if let (Some(kind), Some(first)) = (qualifier, first) {
            self.step_of(first, kind)?;
        }
        self.children(p, c, found)
    }
}

fn is_trivia(tree: &Tree, e: usize) -> bool {
    tree.is_token(e, WHITESPACE) || tree.is_token(e, COMMENT)
}

/// The identifier that an element is, or that is all there is in it.
fn only_ident(tree: &Tree, e: usize) -> Option<usize> {
    let mut at = e;
    while tree.elements[at].node {
        let mut children = tree.children(at);
        at = children.next()?;
        if children.next().is_some() {
            return None;
        }
    }
    tree.is_token(at, IDENT).then_some(at)
}

/// The arguments of a call; nothing if it has no list of them.
fn arguments(tree: &Tree, call: usize) -> Option<Vec<usize>> {
    let list = tree.first_child(call, ARG_LIST)?;
    Some(tree.children(list).filter(|&e| tree.is_expression(e)).collect())
}

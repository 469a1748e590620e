//! The differences that document 01 lists, each as a predicate on the case. They look at what is
//! handed in, at the matches and at where they are kept, never at rendered texts.

use input::{Binding, Kept, Matched, Pair, RuleTree, TokenList, words};

/// A listed difference.
#[derive(Clone, Copy, Debug, PartialEq, Eq)]
pub enum Difference {
    /// A captured range of a kept match has a prefix and holds a kept match. The crate applies the
    /// nested edits at offsets that ignore the prefix.
    PrefixBeforeNested,
    /// Two captured ranges of a kept match hold a later match. The crate takes either.
    TwoHoldingRanges,
    /// Two paths that may be resolved claim one call node. The crate takes either.
    TwoPathsOneCall,
    /// Two kept matches of one collection have the same start. The crate takes either first.
    EqualStarts,
    /// A list has over eight placeholders, which only document 01 refuses.
    NinthPlaceholder,
}

pub const DIFFERENCES: [Difference; 5] = [
    Difference::PrefixBeforeNested,
    Difference::TwoHoldingRanges,
    Difference::TwoPathsOneCall,
    Difference::EqualStarts,
    Difference::NinthPlaceholder,
];

/// The predicates on the rules as handed in. Nothing is matched by a template's calls.
pub fn of_rules(pairs: &[Pair]) -> Vec<Difference> {
    on_pairs(pairs, |pair| two_paths_one_call(&pair.pattern.trees))
}

/// The same for resolving, which tells of a template's calls too.
pub fn of_resolving(pairs: &[Pair]) -> Vec<Difference> {
    on_pairs(pairs, |pair| {
        two_paths_one_call(&pair.pattern.trees) || two_paths_one_call(&pair.template.trees)
    })
}

fn on_pairs(pairs: &[Pair], two_paths: fn(&Pair) -> bool) -> Vec<Difference> {
    let mut found = Vec::new();
    if pairs.iter().any(two_paths) {
        found.push(Difference::TwoPathsOneCall);
    }
    let lists = pairs.iter().flat_map(|pair| [&pair.pattern.list, &pair.template.list]);
    found.extend(of_lists(lists));
    found
}

/// The predicate on token lists.
pub fn of_lists<'a>(lists: impl IntoIterator<Item = &'a TokenList>) -> Option<Difference> {
    let dollars =
        |list: &TokenList| list.words.iter().filter(|word| words::syntax_kind(**word) == 8).count();
    lists.into_iter().any(|list| dollars(list) > 8).then_some(Difference::NinthPlaceholder)
}

/// The file's tree as far as the predicates need it: start, end and parent of each element.
pub struct Shape {
    elements: Vec<(u32, u32, Option<u32>)>,
}

impl Shape {
    pub fn new(tree: &[u32]) -> Shape {
        let mut elements = Vec::new();
        let mut open: Vec<(u32, u32)> = Vec::new();
        for (i, three) in (0..).zip(tree.chunks_exact(3)) {
            while open.last().is_some_and(|(_, end)| i >= *end) {
                open.pop();
            }
            let parent = open.last().map(|(element, _)| *element);
            elements.push((words::value(three[1]), words::value(three[2]), parent));
            open.push((i, i + words::low16(three[0])));
        }
        Shape { elements }
    }

    fn range(&self, node: u32) -> (u32, u32) {
        self.elements.get(node as usize).map_or((0, 0), |(start, end, _)| (*start, *end))
    }

    fn parent(&self, node: u32) -> Option<u32> {
        self.elements.get(node as usize)?.2
    }

    /// The node and its ancestors.
    fn line(&self, node: u32) -> impl Iterator<Item = u32> {
        std::iter::successors(Some(node), |node| self.parent(*node))
    }
}

/// Two facts of sort 1 with the flags usable and associated function whose paths have one CALL_EXPR
/// as grandparent.
fn two_paths_one_call(trees: &[RuleTree]) -> bool {
    trees.iter().any(|tree| {
        let shape = Shape::new(&tree.words);
        let mut calls: Vec<u32> = Vec::new();
        for fact in tree.facts.chunks_exact(4) {
            let claims = words::fact_sort(fact[0]) == 1 && words::value(fact[2]) & 5 == 5;
            let path = words::fact_element(fact[0]);
            let call = shape.parent(path).and_then(|parent| shape.parent(parent));
            let call = call.filter(|call| words::syntax_kind(tree.words[3 * *call as usize]) == 64);
            calls.extend(call.filter(|_| claims));
        }
        let count = calls.len();
        calls.sort_unstable();
        calls.dedup();
        calls.len() < count
    })
}

/// The predicates on the kept matches.
pub fn of_matches(shape: &Shape, matches: &[Matched], kept: &[Kept]) -> Vec<Difference> {
    let mut found = Vec::new();
    collection(shape, matches, kept, &mut found);
    found.sort_unstable_by_key(|difference| *difference as u32);
    found.dedup();
    found
}

fn collection(shape: &Shape, matches: &[Matched], kept: &[Kept], found: &mut Vec<Difference>) {
    let start = |kept: &Kept| shape.range(kept.matched.node).0;
    if kept.windows(2).any(|two| start(&two[0]) == start(&two[1])) {
        found.push(Difference::EqualStarts);
    }
    for kept in kept {
        let matched = &kept.matched;
        if matches.iter().any(|later| held_twice(shape, matched, later)) {
            found.push(Difference::TwoHoldingRanges);
        }
        for (binding, inner) in matched.bindings.iter().zip(&kept.inner) {
            if binding.is_some_and(has_prefix) && !inner.is_empty() {
                found.push(Difference::PrefixBeforeNested);
            }
            collection(shape, matches, inner, found);
        }
    }
}

fn has_prefix(binding: Binding) -> bool {
    binding.stars > 0 || binding.self_kind > 0
}

/// Whether `later`, on the kept match's node or below it, lies in two of its captured ranges.
fn held_twice(shape: &Shape, kept: &Matched, later: &Matched) -> bool {
    let itself = kept.node == later.node && kept.rule == later.rule;
    if itself || !shape.line(later.node).any(|node| node == kept.node) {
        return false;
    }
    let (start, end) = shape.range(later.node);
    let holds = |binding: &&Binding| binding.start <= start && end <= binding.end;
    kept.bindings.iter().flatten().filter(holds).count() > 1
}

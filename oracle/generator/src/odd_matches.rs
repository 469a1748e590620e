//! Rules and a file, well-formed though no parser makes most of them, with which many nodes match.

use crate::jobs::rules_and_file;
use crate::kinds::*;
use crate::odd_code::OddFiller;
use crate::odd_facts::{Care, file_facts, pattern_facts, template_facts};
use crate::odd_patterns::OddPattern;
use crate::odd_rules::{forms, list_kind, occurring, template_forms};
use crate::odd_trees::reshaped;
use crate::pairs::{NAMES, list_of};
use crate::rng::Rng;
use input::build::{Syntax, node, token};
use input::pairs::encode;
use input::{File, Pair, Rules, Side};

/// Sets these cases apart from others of the same seed.
const SALT: u64 = 0x0dd3a7c4;

/// Rules of up to three pairs, whose patterns have up to about `most` elements, and a file.
pub fn random(seed: u64, index: u64, most: usize) -> (Rules, File) {
    let rng = &mut Rng::new(&[SALT, seed, index]);
    if rng.chance(15) {
        return rules_and_file(rng);
    }
    let faults = if rng.chance(75) { 0 } else { rng.between(1, 10) };
    let nested = rng.chance(20);
    // A nest has many fields, which all have to match.
    let renamed = if nested { *rng.pick(&[0, 0, 10]) } else { 3 };
    let care = Care { fed: true, faults, renamed };
    Case { rng, care, most, nested, templates: false, patterns: Vec::new() }.make()
}

/// The same, nearly all with templates and few with faults.
pub(crate) fn with_templates(rng: &mut Rng, most: usize) -> (Rules, File) {
    let faults = if rng.chance(90) { 0 } else { rng.between(1, 10) };
    let care = Care { fed: true, faults, renamed: 3 };
    let nested = rng.chance(5);
    Case { rng, care, most, nested, templates: true, patterns: Vec::new() }.make()
}

/// The trees of the patterns are what the file is made of.
struct Case<'a> {
    rng: &'a mut Rng,
    care: Care,
    most: usize,
    /// The patterns are record lists in each other.
    nested: bool,
    /// Every pair has a template.
    templates: bool,
    patterns: Vec<Syntax>,
}

impl Case<'_> {
    fn make(mut self) -> (Rules, File) {
        self.care.fed = self.rng.chance(88);
        let mut fact_text = b"..".to_vec();
        // Nests are large: mostly there is one, and one tree of it.
        let counts = if self.nested { &[1, 1, 1, 2][..] } else { &[1, 1, 1, 1, 2, 2, 3] };
        let count = *self.rng.pick(counts);
        let pairs: Vec<Pair> = (0..count).map(|_| self.pair(&mut fact_text)).collect();
        let root = self.code();
        let facts = file_facts(self.rng, &root, self.care);
        let file = File { tree: root.words(), text: root.text(), facts };
        (encode(&pairs, &fact_text), file)
    }

    fn pair(&mut self, fact_text: &mut Vec<u8>) -> Pair {
        let names = &NAMES[..*self.rng.pick(&[0, 1, 1, 2, 2, 2, 3, 3, 4, 5, 6, 7, 8])];
        let tree = if self.nested { self.nest(names) } else { self.tree(names) };
        let names = occurring(&tree, names);
        let forms = match self.nested && self.rng.chance(70) {
            true => [true, false, false, false, false],
            false => forms(self.rng),
        };
        let (care, constrained) = (self.care, if self.nested { 4 } else { 20 });
        let (pattern, trees) = self
            .side(&tree, &names, forms, constrained, |rng, root| pattern_facts(rng, root, care));
        self.patterns.extend(trees);
        if !self.templates && self.rng.chance(if self.nested { 75 } else { 45 }) {
            return Pair { pattern, ..Pair::default() };
        }
        let tree = self.tree(&names);
        let declared = occurring(&tree, &names);
        let forms = template_forms(self.rng, forms);
        let (template, _) = self.side(&tree, &declared, forms, 0, |rng, root| {
            template_facts(rng, root, care, fact_text)
        });
        Pair { pattern, has_template: true, template }
    }

    fn tree(&mut self, names: &[&str]) -> Syntax {
        let left = self.rng.between(2, self.most);
        let rng = &mut *self.rng;
        let mut tree = OddPattern { rng, names, left }.root();
        // A list has at most 255 tokens, and a placeholder takes several.
        if tree.tokens().len() > 120 {
            tree = node(LITERAL, [token(NUMBER, "1")]);
        }
        tree
    }

    /// Record lists, two to six in each other.
    fn nest(&mut self, names: &[&str]) -> Syntax {
        let lists = self.rng.between(2, (self.most / 6).clamp(4, 6));
        let marks = self.rng.chance(self.most.min(60));
        for lists in (1..=lists).rev() {
            let rng = &mut *self.rng;
            let tree = OddPattern { rng, names, left: self.most }.nest(lists, marks);
            // As above.
            if tree.tokens().len() <= 120 {
                return tree;
            }
        }
        self.tree(names)
    }

    /// The side, and its trees.
    fn side(
        &mut self,
        tree: &Syntax,
        names: &[&str],
        forms: [bool; 5],
        constrained: usize,
        mut facts: impl FnMut(&mut Rng, &Syntax) -> Vec<u32>,
    ) -> (Side, Vec<Syntax>) {
        let tokens = tree.tokens().into_iter().map(|(kind, text)| (list_kind(kind, text), text));
        let tokens: Vec<(u32, &[u8])> = tokens.collect();
        let list = list_of(self.rng, &tokens, names, constrained);
        let mut side = Side { list, code: tree.text(), ..Side::default() };
        let mut trees = Vec::new();
        for form in (0..5).filter(|&form| forms[form]) {
            let tree = if form == 0 { tree.clone() } else { reshaped(self.rng, tree) };
            side.trees[form].words = tree.words();
            side.trees[form].facts = facts(self.rng, &tree);
            trees.push(tree);
        }
        (side, trees)
    }

    /// A file's tree: filled patterns, with trivia and empty nodes between.
    fn code(&mut self) -> Syntax {
        if self.rng.chance(8) {
            return self.piece();
        }
        let mut children = Vec::new();
        for _ in 0..self.rng.between(1, if self.nested { 2 } else { 3 }) {
            children.push(self.piece());
            match self.rng.below(6) {
                0 => children.push(token(WHITESPACE, "\n")),
                1 => children.push(token(COMMENT, "/*between*/")),
                2 => children.push(node(EXPR_STMT, [])),
                _ => {}
            }
        }
        if !self.care.fed && self.rng.chance(30) {
            children.push(token(STRING, [0xff]));
        }
        node(*self.rng.pick(&[SOURCE_FILE, SOURCE_FILE, BIN_EXPR, TOKEN_TREE]), children)
    }

    fn piece(&mut self) -> Syntax {
        let Case { rng, patterns, .. } = self;
        if self.nested && rng.chance(75) {
            return OddFiller { rng, patterns, budget: 0, nest: 0 }.nest();
        }
        OddFiller { rng, patterns, budget: 60, nest: 3 }.instance()
    }
}

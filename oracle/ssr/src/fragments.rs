//! Takes the place of the crate's `fragments.rs`: nothing is parsed here. While rules are built,
//! the five forms give the trees that were handed in; while a template is rendered, `expr` and
//! `item` give the parse that was handed in for the template's root kind and the text.

use std::cell::RefCell;
use std::collections::HashMap;
use std::panic::resume_unwind;

use syntax::{SyntaxNode, ast};

use crate::{Asked, MissingParse};

/// The trees of the five forms, each present or not.
pub(crate) type Trees = [Option<SyntaxNode>; 5];

/// The trees of a pair. `template` is nothing where no template was given.
#[derive(Clone, Default)]
pub(crate) struct PairTrees {
    pub(crate) pattern: Trees,
    pub(crate) template: Option<Trees>,
}

/// The handed parses by kind and text; nothing for a text that does not parse.
pub(crate) type ParseTable = HashMap<u32, HashMap<String, Option<SyntaxNode>>>;

#[derive(Default)]
enum Mode {
    #[default]
    Idle,
    Building(Building),
    Rendering(RenderingState),
}

struct Building {
    trees: PairTrees,
    /// How often each form was asked for.
    calls: [usize; 5],
    /// The raw code of the pattern, as the forms were asked with it.
    pattern_code: String,
}

struct RenderingState {
    parses: ParseTable,
    missing: MissingParse,
    asked: Vec<Asked>,
}

thread_local! {
    static MODE: RefCell<Mode> = const { RefCell::new(Mode::Idle) };
}

pub(crate) fn start_building(trees: PairTrees) {
    set(Mode::Building(Building { trees, calls: [0; 5], pattern_code: String::new() }));
}

/// The pattern's raw code.
pub(crate) fn finish_building() -> String {
    match set(Mode::Idle) {
        Mode::Building(building) => building.pattern_code,
        Mode::Idle | Mode::Rendering(_) => String::new(),
    }
}

pub(crate) fn start_rendering(parses: ParseTable, missing: MissingParse) {
    set(Mode::Rendering(RenderingState { parses, missing, asked: Vec::new() }));
}

/// The texts that were asked for.
pub(crate) fn finish_rendering() -> Vec<Asked> {
    match set(Mode::Idle) {
        Mode::Rendering(state) => state.asked,
        Mode::Idle | Mode::Building(_) => Vec::new(),
    }
}

fn set(mode: Mode) -> Mode {
    MODE.with(|current| current.replace(mode))
}

pub(crate) fn expr(s: &str) -> Result<SyntaxNode, ()> {
    form(0, s)
}

pub(crate) fn ty(s: &str) -> Result<SyntaxNode, ()> {
    form(1, s)
}

pub(crate) fn item(s: &str) -> Result<SyntaxNode, ()> {
    form(2, s)
}

pub(crate) fn pat(s: &str) -> Result<SyntaxNode, ()> {
    form(3, s)
}

pub(crate) fn stmt(s: &str) -> Result<SyntaxNode, ()> {
    form(4, s)
}

fn form(form: usize, code: &str) -> Result<SyntaxNode, ()> {
    let found = MODE.with(|mode| match &mut *mode.borrow_mut() {
        Mode::Idle => Ok(None),
        Mode::Building(building) => Ok(building.tree(form, code)),
        Mode::Rendering(state) => state.parse(code),
    });
    match found {
        Ok(node) => node.ok_or(()),
        Err(asked) => resume_unwind(Box::new(asked)),
    }
}

impl Building {
    /// `ParsedRule::new` asks each form once for the pattern and, if there is one, once for the
    /// template: expression and statement first for the template, the others first for the pattern.
    fn tree(&mut self, form: usize, code: &str) -> Option<SyntaxNode> {
        let call = self.calls[form];
        self.calls[form] += 1;
        let template_call = if matches!(form, 0 | 4) { 0 } else { 1 };
        match &self.trees.template {
            Some(template) if call == template_call => template[form].clone(),
            _ => {
                code.clone_into(&mut self.pattern_code);
                self.trees.pattern[form].clone()
            }
        }
    }
}

impl RenderingState {
    fn parse(&mut self, code: &str) -> Result<Option<SyntaxNode>, Asked> {
        let kind = ast::kind_asked_for().map_or(0, |kind| kind.number());
        let asked = Asked { kind, text: code.to_owned() };
        if !self.asked.contains(&asked) {
            self.asked.push(asked.clone());
        }
        match self.parses.get(&kind).and_then(|texts| texts.get(code)) {
            Some(parse) => Ok(parse.clone()),
            None if self.missing == MissingParse::Stop => Err(asked),
            None => Ok(None),
        }
    }
}

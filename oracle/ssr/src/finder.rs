//! Building, resolving, matching, nesting and rendering, each asked of the crate.

use hir::{EditionedFileId, FilePosition, FileRange, Semantics};
use ide_db::RootDatabase;
use ide_db::base_db::SourceDatabase;
use input::{Binding, BuiltRule, Job, Kept, Matched, Parses, Task, TemplateTree, TokenList};
use syntax::ast::{AstNode, AstToken, SelfParamKind};
use syntax::tree::Origin;
use syntax::{SyntaxNode, TextRange};

use crate::feed::{FedPair, Workspace, parse_table};
use crate::matching::{self, PlaceholderMatch};
use crate::parsing::{ParsedRule, Var};
use crate::resolving::{ResolutionScope, ResolvedPattern, ResolvedRule};
use crate::run::{Ended, run, run_for};
use crate::{
    Match, MissingParse, NotFed, Rendered, Rendering, ResolvedRuleSides, ResolvedSide, SsrMatches,
    Stopped, fragments, nester, reading, replacing,
};

/// The rules left, or the crate's refusal: of a pair's lists, or 17.
pub fn build(workspace: &Workspace) -> Result<Vec<BuiltRule>, Stopped> {
    let pairs = parse_pairs(workspace)?;
    Ok(pairs.iter().flatten().map(built_rule).collect())
}

fn parse_pairs(workspace: &Workspace) -> Result<Vec<Vec<ParsedRule>>, Stopped> {
    let parse = |pair: &FedPair| {
        let parsed =
            reading::parse(pair.pattern.clone(), pair.template.clone(), pair.trees.clone())?;
        Ok(parsed.0)
    };
    workspace.pairs.iter().map(parse).collect()
}

fn built_rule(rule: &ParsedRule) -> BuiltRule {
    let (pair, form) = origin(&rule.pattern);
    let template = match &rule.template {
        None => TemplateTree::None,
        Some(template) if origin(template).1 == form => TemplateTree::Own,
        Some(_) => TemplateTree::StandIn,
    };
    BuiltRule { pair, form, template }
}

fn origin(node: &SyntaxNode) -> (u32, u32) {
    match node.tree().origin() {
        Origin::Rule { pair, form, .. } => (pair, form),
        Origin::File | Origin::Context | Origin::Parse => (0, 0),
    }
}

/// The crate's resolved rules over a workspace.
pub struct Finder<'db> {
    workspace: &'db Workspace,
    sema: Semantics<'db, RootDatabase>,
    rules: Vec<ResolvedRule<'db>>,
    built: Vec<BuiltRule>,
    /// For each rule the names of its placeholders in pattern order.
    names: Vec<Vec<String>>,
}

/// Accepted candidates, in the order of asking.
pub struct Found(Vec<Match>);

impl Found {
    pub fn count(&self) -> usize {
        self.0.len()
    }
}

/// Kept matches, nested.
pub struct Nested(SsrMatches);

impl<'db> Finder<'db> {
    /// Builds and resolves the rules, or gives the crate's refusal (as [`build`], or 22).
    pub fn new(workspace: &'db Workspace) -> Result<Finder<'db>, Stopped> {
        let mut finder = Finder::without_names(workspace)?;
        let names = workspace.pairs.iter().map(|pair| placeholder_names(&pair.pattern_list));
        let names: Vec<Vec<String>> = names.collect::<Result<_, _>>()?;
        let of_rule = |rule: &BuiltRule| names[rule.pair as usize].clone();
        finder.names = finder.built.iter().map(of_rule).collect();
        Ok(finder)
    }

    /// The same without the names of placeholders, which only matches need. They are the dear part, and
    /// none of the crate's own, so this is for timing.
    pub fn without_names(workspace: &'db Workspace) -> Result<Finder<'db>, Stopped> {
        let sema = Semantics::new(&workspace.db);
        let position = FilePosition { file_id: EditionedFileId, offset: 0.into() };
        let scope = ResolutionScope::new(&sema, position).ok_or(NotFed::Malformed)?;
        let mut finder =
            Finder { workspace, sema, rules: Vec::new(), built: Vec::new(), names: Vec::new() };
        for rule in parse_pairs(workspace)?.into_iter().flatten() {
            finder.built.push(built_rule(&rule));
            let index = finder.rules.len();
            finder.rules.push(run(|| ResolvedRule::new(rule, &scope, index))??);
        }
        Ok(finder)
    }

    /// The rules left.
    pub fn rules(&self) -> &[BuiltRule] {
        &self.built
    }

    /// What the crate resolved, by rule.
    pub fn resolved(&self) -> Vec<ResolvedRuleSides> {
        let sides = |rule: &ResolvedRule<'_>| ResolvedRuleSides {
            pattern: resolved_side(&rule.pattern),
            template: rule.template.as_ref().map(resolved_side),
        };
        self.rules.iter().map(sides).collect()
    }

    /// The crate's answer for one node and rule.
    pub fn get_match(
        &self,
        node: u32,
        rule: u32,
        range: Option<(u32, u32)>,
    ) -> Result<Option<Matched>, Stopped> {
        let found = self.candidate(node, rule, restrict_range(range)?)?;
        Ok(found.map(|found| self.matched_words(&found)))
    }

    /// Whether the crate matches one node with a rule, in no range. Its answer in words needs the names
    /// of placeholders, this does not.
    pub fn is_match(&self, node: u32, rule: u32) -> Result<bool, Stopped> {
        Ok(self.candidate(node, rule, None)?.is_some())
    }

    /// The candidates (node, rule) that the crate accepts.
    pub fn find(
        &self,
        candidates: impl IntoIterator<Item = (u32, u32)>,
        range: Option<(u32, u32)>,
    ) -> Result<Found, Stopped> {
        let range = restrict_range(range)?;
        let mut found = Vec::new();
        for (node, rule) in candidates {
            found.extend(self.candidate(node, rule, range)?);
        }
        Ok(Found(found))
    }

    /// Every node of the file with every rule.
    pub fn walk(&self, range: Option<(u32, u32)>) -> Result<Found, Stopped> {
        let file = self.workspace.file.as_ref().ok_or(NotFed::NoSuchNodeOrRule)?;
        let nodes = file.root().descendants().map(|node| node.element());
        let rules = self.rules.len() as u32;
        self.find(nodes.flat_map(|node| (0..rules).map(move |rule| (node, rule))), range)
    }

    /// The same as one run of any number of steps, so that nothing but the crate's own work is done for a
    /// try. This is for timing.
    pub fn walk_at_once(&self, range: Option<(u32, u32)>) -> Result<Found, Stopped> {
        let file = self.workspace.file.as_ref().ok_or(NotFed::NoSuchNodeOrRule)?;
        let range = restrict_range(range)?;
        let mut found = Vec::new();
        run_for(u64::MAX, || {
            for node in file.root().descendants() {
                let get_match = |rule| matching::get_match(false, rule, &node, &range, &self.sema);
                found.extend(self.rules.iter().filter_map(|rule| get_match(rule).ok()));
            }
        })?;
        Ok(Found(found))
    }

    /// The accepted ones of a job's candidates, or of the walk's.
    pub fn find_all(&self, task: Task, job: &Job) -> Result<Found, Stopped> {
        let listed = job.candidates.chunks_exact(2).map(|pair| (pair[0], pair[1]));
        match task {
            Task::Job => self.find(listed, job.range),
            Task::Walk => self.walk(job.range),
        }
    }

    fn candidate(
        &self,
        node: u32,
        rule: u32,
        range: Option<FileRange>,
    ) -> Result<Option<Match>, Stopped> {
        let file = self.workspace.file.as_ref().ok_or(NotFed::NoSuchNodeOrRule)?;
        let node = file.node(node).ok_or(NotFed::NoSuchNodeOrRule)?;
        let rule = self.rules.get(rule as usize).ok_or(NotFed::NoSuchNodeOrRule)?;
        Ok(run(|| matching::get_match(false, rule, &node, &range, &self.sema).ok())?)
    }

    /// The accepted candidates in document 01's words, in the order of asking.
    pub fn matched(&self, found: &Found) -> Vec<Matched> {
        found.0.iter().map(|found| self.matched_words(found)).collect()
    }

    fn matched_words(&self, found: &Match) -> Matched {
        let rule = found.rule_index;
        let mut bindings = [None; 8];
        for (place, name) in bindings.iter_mut().zip(&self.names[rule]) {
            *place = found.placeholder_values.get(&Var(name.clone())).map(binding);
        }
        let mut paths: Vec<(u32, u32, u32)> = Vec::new();
        for (path, text) in &found.rendered_template_paths {
            let (start, length) = text.place();
            paths.push((path.element(), start, length));
        }
        paths.sort_unstable();
        let comments = found.ignored_comments.iter().map(|comment| comment.syntax().element());
        Matched {
            node: found.matched_node.element(),
            rule: rule as u32,
            bindings,
            comments: comments.collect(),
            paths,
        }
    }

    /// The crate's `nest_and_remove_collisions`.
    pub fn nest(&self, found: Found) -> Result<Nested, Stopped> {
        Ok(Nested(run(|| nester::nest_and_remove_collisions(found.0, &self.sema))?))
    }

    /// The kept matches, each collection in document 01's order.
    pub fn kept(&self, nested: &Nested) -> Vec<Kept> {
        self.collection(&nested.0)
    }

    fn collection(&self, matches: &SsrMatches) -> Vec<Kept> {
        let mut sorted: Vec<&Match> = matches.matches.iter().collect();
        sorted.sort_by_key(|found| {
            let range = found.range.range;
            (range.start(), range.end(), found.matched_node.element())
        });
        sorted.into_iter().map(|found| self.kept_match(found)).collect()
    }

    fn kept_match(&self, found: &Match) -> Kept {
        let mut inner: [Vec<Kept>; 8] = Default::default();
        for (place, name) in inner.iter_mut().zip(&self.names[found.rule_index]) {
            if let Some(value) = found.placeholder_values.get(&Var(name.clone())) {
                *place = self.collection(&value.inner_matches);
            }
        }
        Kept { matched: self.matched_words(found), inner }
    }

    /// The crate's edited text of the file.
    pub fn edited_text(
        &self,
        nested: &Nested,
        parses: &Parses,
        missing: MissingParse,
    ) -> Result<Rendered, Stopped> {
        let file = self.workspace.file.as_ref().ok_or(NotFed::NoSuchNodeOrRule)?;
        let db: &dyn SourceDatabase = &self.workspace.db;
        fragments::start_rendering(parse_table(parses)?, missing);
        let edited = run(|| {
            let edit = replacing::matches_to_edit(db, &nested.0, file.text(), &self.rules);
            let mut text = file.text().to_owned();
            edit.apply(&mut text);
            text
        });
        let asked = fragments::finish_rendering();
        let rendering = match edited {
            Ok(text) => Rendering::Edited(text),
            Err(Ended::Asked(asked)) => Rendering::Asked(asked),
            Err(Ended::Panicked(message)) => Rendering::Panicked(message),
            Err(Ended::TooLong) => return Err(NotFed::TooLong.into()),
        };
        Ok(Rendered { rendering, asked })
    }
}

fn placeholder_names(list: &TokenList) -> Result<Vec<String>, Stopped> {
    let mut names = Vec::new();
    for placeholder in reading::read_tokens(list)? {
        let start = placeholder.name_start as usize;
        let name = list.text.get(start..start + placeholder.name_length as usize);
        let name = name.and_then(|name| std::str::from_utf8(name).ok()).ok_or(NotFed::Text)?;
        names.push(name.to_owned());
    }
    if names.len() > 8 { Err(NotFed::Placeholders.into()) } else { Ok(names) }
}

fn restrict_range(range: Option<(u32, u32)>) -> Result<Option<FileRange>, NotFed> {
    let Some((start, end)) = range else { return Ok(None) };
    if start > end {
        return Err(NotFed::Malformed);
    }
    let range = TextRange::new(start.into(), end.into());
    Ok(Some(FileRange { file_id: EditionedFileId, range }))
}

fn binding(value: &PlaceholderMatch) -> Binding {
    let range = value.range.range;
    Binding {
        start: range.start().into(),
        end: range.end().into(),
        stars: value.autoderef_count as u32,
        self_kind: match value.autoref_kind {
            SelfParamKind::Owned => 0,
            SelfParamKind::Ref => 1,
            SelfParamKind::MutRef => 2,
        },
    }
}

fn resolved_side(side: &ResolvedPattern<'_>) -> ResolvedSide {
    let mut paths: Vec<(u32, u32)> = Vec::new();
    for (path, resolved) in &side.resolved_paths {
        paths.push((path.element(), resolved.resolution.number()));
    }
    let mut calls: Vec<(u32, u32, Option<u32>)> = Vec::new();
    for info in side.ufcs_function_calls.values() {
        let ty = info.qualifier_type.as_ref().map(hir::Type::number);
        calls.push((info.call_expr.syntax().element(), info.function.number(), ty));
    }
    paths.sort_unstable();
    calls.sort_unstable();
    ResolvedSide { paths, calls, contains_self: side.contains_self }
}

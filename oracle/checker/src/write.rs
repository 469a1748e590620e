//! Writing the edit list: a cursor in the used part of the buffer, byte by byte, up to the
//! first event (29, 30 or Asked).

use crate::answer::{padded, refused};
use crate::check::{checked_file, checked_rules};
use crate::job_ways::{JobWay, JobWays};
use crate::parses::{Parse, read_parses};
use crate::rules::Rule;
use crate::tokens::STAND_IN;
use crate::tree::Tree;
use input::words::{EDIT_END, EDIT_LENGTH, EDIT_START, word};
use input::{Answer, Binding, Job, Kept, Outcome, used};
use std::collections::{BTreeMap, BTreeSet};

const IDENT: u32 = 1;
const PATH_SEGMENT: u32 = 3;
const NAME_REF: u32 = 4;
const METHOD_CALL_EXPR: u32 = 65;

/// What ends the writing before the list is whole.
pub enum Event {
    Refused(u32),
    Asked(u32, Vec<u8>),
}

/// Writes the edit list of the outer matches of a checked job. Where the job's own checks
/// refuse after all, that is the outcome. It calls itself once for each level of nesting, of
/// which there may be 1,024: about 3 KB of stack a level without optimisation.
pub fn write(job: &Job, outer: &[Kept]) -> Outcome {
    match written(job, outer) {
        Ok(list) => Outcome { answer: Answer::Edits(list.len()), buffer: padded(list, job.buffer) },
        Err(Event::Refused(number)) => refused(number, job.buffer),
        Err(Event::Asked(kind, text)) => Outcome {
            answer: Answer::Asked { kind, length: text.len() },
            buffer: padded(text, job.buffer),
        },
    }
}

fn written(job: &Job, outer: &[Kept]) -> Result<Vec<u8>, Event> {
    let rules = checked_rules(&job.rules, Some(&job.file)).map_err(Event::Refused)?;
    let (file, _) = checked_file(&job.file).map_err(Event::Refused)?;
    let mut parses = BTreeMap::new();
    for parse in read_parses(&job.parses).map_err(Event::Refused)? {
        parses.insert((parse.kind, parse.text), parse);
    }
    let fact_text = &job.rules.fact_text;
    let source = Source { rules: &rules, file: &file, fact_text, parses };
    write_list(&source, used(job.buffer), outer).0
}

/// What texts are made of.
pub struct Source<'a> {
    pub rules: &'a [Rule],
    pub file: &'a Tree,
    pub fact_text: &'a [u8],
    pub parses: BTreeMap<(u32, &'a [u8]), Parse<'a>>,
}

/// The list of the outer matches in this room, or the event that ends it; and the ways that writing
/// went.
pub fn write_list(
    source: &Source,
    room: usize,
    outer: &[Kept],
) -> (Result<Vec<u8>, Event>, JobWays) {
    let mut writer = Writer { source, out: Vec::new(), room, levels: 0, ways: JobWays::default() };
    let result = outer.iter().try_for_each(|kept| writer.edit(kept));
    (result.map(|()| writer.out), writer.ways)
}

/// Whether the rendering of a template with this root kind is parsed: an expression or an item.
pub fn is_asked(kind: u32) -> bool {
    (64..=2047).contains(&kind)
}

/// The bytes laid so far are `out`; its length is the cursor.
struct Writer<'a> {
    source: &'a Source<'a>,
    out: Vec<u8>,
    room: usize,
    /// How many texts are unfinished.
    levels: usize,
    ways: JobWays,
}

/// One rendering of a match: where it begins, which template tokens get parentheses, and
/// what became of its placeholders.
struct Rendering<'k> {
    kept: &'k Kept,
    begin: usize,
    parentheses: BTreeSet<usize>,
    /// Range in the rendering to template token; the last writer of a range stays.
    ranges: BTreeMap<(usize, usize), usize>,
}

/// The finished texts of the nested matches of a match, by slot and place in the collection.
///
/// A nested text that was finished once met no 29 and no Asked, and its bytes depend only on
/// the match. A second rendering is the first with parentheses added, so no unfinished state
/// reaches further than the finished text. Laying that text again therefore ends in 30 exactly
/// where rendering it again would; rendering it again would cost twice as much at each level.
type Finished = BTreeMap<(usize, usize), Vec<u8>>;

impl<'a> Writer<'a> {
    fn lay(&mut self, bytes: &[u8]) -> Result<(), Event> {
        let fits = bytes.len().min(self.room - self.out.len());
        self.out.extend(&bytes[..fits]);
        if fits < bytes.len() { Err(Event::Refused(30)) } else { Ok(()) }
    }

    /// The same result; 30 in it went this way.
    fn filled<T>(&mut self, result: Result<T, Event>, way: JobWay) -> Result<T, Event> {
        self.ways.insert_if(matches!(result, Err(Event::Refused(30))), way);
        result
    }

    /// Three words, then the text; the words are known when the text is whole.
    fn edit(&mut self, kept: &Kept) -> Result<(), Event> {
        let at = self.out.len();
        let words = self.lay(&[0; 12]);
        self.filled(words, JobWay::FullWords)?;
        self.text(kept)?;
        let node = self.source.file.elements[kept.matched.node as usize];
        self.ways.insert_if(node.start == node.end, JobWay::EmptyNode);
        let length = self.out.len() - at - 12;
        let words = [(EDIT_START, node.start), (EDIT_END, node.end), (EDIT_LENGTH, length)];
        for (place, (kind, value)) in words.into_iter().enumerate() {
            let bytes = word(kind, value as u32).to_le_bytes();
            self.out[at + 4 * place..][..4].copy_from_slice(&bytes);
        }
        Ok(())
    }

    fn text(&mut self, kept: &Kept) -> Result<(), Event> {
        self.levels += 1;
        let result = self.whole_text(kept);
        self.levels -= 1;
        if let Err(event) = &result
            && self.levels > 0
        {
            self.ways.insert(match event {
                Event::Asked(..) => JobWay::AskedNested,
                Event::Refused(29) => JobWay::UnboundNested,
                Event::Refused(_) => JobWay::FullNested,
            });
        }
        result
    }

    fn whole_text(&mut self, kept: &Kept) -> Result<(), Event> {
        let begin = self.out.len();
        let mut finished = Finished::new();
        let parentheses = BTreeSet::new();
        let mut first = Rendering { kept, begin, parentheses, ranges: BTreeMap::new() };
        self.note_captures(kept);
        self.render(&mut first, &mut finished)?;
        let split = self.split_placeholders(first)?;
        let again = !split.is_empty();
        if again {
            self.out.truncate(begin);
            let ranges = BTreeMap::new();
            let mut second = Rendering { kept, begin, parentheses: split, ranges };
            let result = self.render(&mut second, &mut finished);
            self.filled(result, JobWay::FullSecond)?;
        }
        for &comment in &kept.matched.comments {
            self.ways.insert(JobWay::Comments);
            self.ways.insert_if(self.levels > 1, JobWay::CommentsNested);
            self.ways.insert_if(again, JobWay::CommentsSecond);
            let result = self.lay(self.source.file.text_of(comment as usize));
            self.filled(result, JobWay::FullComments)?;
        }
        Ok(())
    }

    /// Which captures the template has twice or not at all.
    fn note_captures(&mut self, kept: &Kept) {
        let (rule, tree) = (self.rule(kept), self.template(kept));
        let mut uses = [0; 8];
        for token in tree.tokens_below(0).filter(|&token| tree.is_token(token, IDENT)) {
            match rule.placeholder(tree.text_of(token)) {
                Some(slot) => uses[slot] += 1,
                None if tree.text_of(token).starts_with(STAND_IN) => {
                    self.ways.insert(JobWay::PlainStandIn);
                }
                None => {}
            }
        }
        for (slot, _) in kept.matched.bindings.iter().enumerate().filter(|(_, b)| b.is_some()) {
            let nested = !kept.inner[slot].is_empty();
            self.ways.insert_if(uses[slot] == 0, JobWay::Unused);
            self.ways.insert_if(uses[slot] == 0 && nested, JobWay::UnusedNested);
            self.ways.insert_if(uses[slot] > 1, JobWay::Twice);
            self.ways.insert_if(uses[slot] > 1 && nested, JobWay::TwiceNested);
        }
    }

    /// The template tokens whose renderings are no node of the parse of the first rendering.
    fn split_placeholders(&mut self, first: Rendering) -> Result<BTreeSet<usize>, Event> {
        let kind = self.template(first.kept).elements[0].kind;
        if !is_asked(kind) {
            self.ways.insert(JobWay::NeverAsked);
            return Ok(BTreeSet::new());
        }
        let text = &self.out[first.begin..];
        let Some(parse) = self.source.parses.get(&(kind, text)) else {
            return Err(Event::Asked(kind, text.to_vec()));
        };
        if parse.ranges.is_empty() {
            self.ways.insert(JobWay::DoesNotParse);
            return Ok(BTreeSet::new());
        }
        let mut left = first.ranges;
        let all = left.len();
        for range in &parse.ranges {
            left.remove(range);
        }
        self.ways.insert_if(left.is_empty() && all > 0, JobWay::NoParentheses);
        self.ways.insert_if(!left.is_empty(), JobWay::Parentheses);
        self.ways.insert_if(!left.is_empty() && left.len() < all, JobWay::SomeParentheses);
        Ok(left.into_values().collect())
    }

    fn rule(&self, kept: &Kept) -> &'a Rule {
        &self.source.rules[kept.matched.rule as usize]
    }

    fn template(&self, kept: &Kept) -> &'a Tree {
        let template = self.rule(kept).template.as_ref();
        &template.expect("27 has passed: every rule has a template").tree
    }

    /// The template's elements in order. A path with a text gives the text and then the
    /// children of its first segment that are no NAME_REF.
    fn render(&mut self, rendering: &mut Rendering, finished: &mut Finished) -> Result<(), Event> {
        let mut waiting = vec![0];
        while let Some(element) = waiting.pop() {
            let tree = self.template(rendering.kept);
            if !tree.elements[element].node {
                self.token(rendering, element, finished)?;
                continue;
            }
            let paths = &rendering.kept.matched.paths;
            let path = paths.binary_search_by_key(&element, |path| path.0 as usize);
            let mut next = match path {
                Ok(_) => beside_name(tree, element),
                Err(_) => tree.children(element).collect(),
            };
            if let Ok(place) = path {
                let (_, start, length) = paths[place];
                self.ways.insert(JobWay::PathText);
                self.ways.insert_if(!next.is_empty(), JobWay::PathRest);
                self.lay(&self.source.fact_text[start as usize..][..length as usize])?;
            }
            next.reverse();
            waiting.extend(next);
        }
        Ok(())
    }

    fn token(
        &mut self,
        rendering: &mut Rendering,
        token: usize,
        finished: &mut Finished,
    ) -> Result<(), Event> {
        let rule = self.rule(rendering.kept);
        let tree = self.template(rendering.kept);
        let text = tree.text_of(token).to_vec();
        let slot = if tree.is_token(token, IDENT) { rule.placeholder(&text) } else { None };
        let Some(slot) = slot else {
            return self.lay(&text);
        };
        let binding = rendering.kept.matched.bindings[slot].ok_or(Event::Refused(29))?;
        let prefix = self.prefix(tree, token, &binding);
        let marked = rendering.parentheses.contains(&token);
        let nested = !rendering.kept.inner[slot].is_empty();
        self.ways.insert_if(marked && nested, JobWay::ParenthesesNested);
        self.ways.insert_if(marked && !prefix.is_empty(), JobWay::PrefixMarked);
        self.ways.insert_if(nested && !prefix.is_empty(), JobWay::PrefixNested);
        if marked {
            self.lay(b"(")?;
        }
        let start = self.out.len() - rendering.begin;
        self.lay(&prefix)?;
        self.captured(rendering.kept, slot, &binding, finished)?;
        let range = (start, self.out.len() - rendering.begin);
        self.ways.insert_if(range.0 == range.1, JobWay::EmptyCapture);
        let shared = rendering.ranges.insert(range, token);
        self.ways.insert_if(shared.is_some(), JobWay::SharedRange);
        if marked {
            self.lay(b")")?;
        }
        Ok(())
    }

    fn prefix(&mut self, tree: &Tree, token: usize, binding: &Binding) -> Vec<u8> {
        let prefix = prefix(binding);
        if is_receiver(tree, token) {
            self.ways.insert_if(!prefix.is_empty(), JobWay::PrefixLeftOut);
            return Vec::new();
        }
        self.ways.insert_if(binding.self_kind == 1, JobWay::Ref);
        self.ways.insert_if(binding.self_kind == 2, JobWay::RefMut);
        self.ways.insert_if(binding.stars > 0, JobWay::Stars);
        prefix
    }

    /// The captured bytes, each nested match replaced by its text.
    fn captured(
        &mut self,
        kept: &Kept,
        slot: usize,
        binding: &Binding,
        finished: &mut Finished,
    ) -> Result<(), Event> {
        let file = self.source.file;
        let mut at = binding.start as usize;
        for (place, nested) in kept.inner[slot].iter().enumerate() {
            let node = file.elements[nested.matched.node as usize];
            self.lay(&file.text[at..node.start])?;
            match finished.get(&(slot, place)) {
                Some(text) => self.lay(text)?,
                None => {
                    let begin = self.out.len();
                    self.text(nested)?;
                    finished.insert((slot, place), self.out[begin..].to_vec());
                }
            }
            at = node.end;
        }
        self.lay(&file.text[at..binding.end as usize])
    }
}

fn beside_name(tree: &Tree, path: usize) -> Vec<usize> {
    let segment = tree.first_child(path, PATH_SEGMENT);
    let children = segment.into_iter().flat_map(|segment| tree.children(segment));
    children.filter(|&child| !tree.is_node(child, NAME_REF)).collect()
}

fn prefix(binding: &Binding) -> Vec<u8> {
    let mut prefix = match binding.self_kind {
        1 => b"&".to_vec(),
        2 => b"&mut ".to_vec(),
        _ => Vec::new(),
    };
    prefix.resize(prefix.len() + binding.stars as usize, b'*');
    prefix
}

/// Whether the nearest method call around a token has a receiver with this token alone.
fn is_receiver(tree: &Tree, token: usize) -> bool {
    let mut around =
        std::iter::successors(tree.elements[token].parent, |&e| tree.elements[e].parent);
    let call = around.find(|&e| tree.elements[e].kind == METHOD_CALL_EXPR);
    let receiver = call.and_then(|call| tree.first_expression(call));
    receiver.is_some_and(|receiver| tree.tokens_below(receiver).eq([token]))
}

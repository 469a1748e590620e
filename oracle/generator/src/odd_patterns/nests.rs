//! Record lists in each other, most of which have a placeholder for a name and so start over.

use super::{FIELDS, OddPattern};
use crate::kinds::*;
use crate::parts::*;
use crate::world;
use input::build::{Syntax, node, token};

/// Names of fields that are paths: they all mean the same, see `odd_facts`.
pub const PATH_NAMES: [&str; 2] = ["ka", "kb"];

impl OddPattern<'_> {
    /// So many record lists in each other, with punctuation or without.
    pub fn nest(&mut self, lists: usize, marks: bool) -> Syntax {
        let mut fields = Vec::new();
        let mut names = FIELDS;
        self.rng.shuffle(&mut names);
        for name in &names[..*self.rng.pick(&[0, 0, 1, 1, 2])] {
            if self.more(100) {
                fields.push(self.leaf_field(name, marks));
            }
        }
        if self.rng.chance(12) && self.more(100) {
            fields.extend(self.path_fields(marks));
        }
        self.add_inner(&mut fields, names[4], lists, marks);
        if !self.names.is_empty() && self.rng.chance(88) {
            self.add_placeholder_field(&mut fields, marks);
        }
        let list = self.list_of(fields, marks);
        if self.rng.chance(60) {
            return list;
        }
        node(RECORD_EXPR, [path_of(any_name(self.rng, &world::TYPES)), list])
    }

    fn list_of(&mut self, fields: Vec<Syntax>, marks: bool) -> Syntax {
        if !marks {
            return node(RECORD_LIST, fields);
        }
        let mut children = vec![mark("{")];
        for (place, field) in fields.into_iter().enumerate() {
            if place > 0 {
                children.push(mark(","));
            }
            children.push(field);
        }
        children.push(mark("}"));
        node(RECORD_LIST, children)
    }

    /// The field that holds the lists inside, if there are to be more: seldom one with a placeholder
    /// for a name.
    fn add_inner(&mut self, fields: &mut Vec<Syntax>, name: &str, lists: usize, marks: bool) {
        if lists < 2 {
            return;
        }
        let inner = self.nest(lists - 1, marks);
        let value = match self.rng.below(12) {
            0 => {
                let arguments = node(ARG_LIST, [mark("("), inner, mark(")")]);
                node(CALL_EXPR, [path_expr(self.path()), arguments])
            }
            1 => {
                let name = node(NAME_REF, [any_name(self.rng, &world::METHODS)]);
                node(METHOD_CALL_EXPR, [inner, mark("."), name, node(ARG_LIST, [])])
            }
            _ => inner,
        };
        let name = match self.is_placeholder(8) {
            true => node(NAME_REF, [self.name()]),
            false => self.field_name(name),
        };
        let place = self.rng.below(fields.len() + 1);
        fields.insert(place, field(name, Some(value), marks));
    }

    fn field_name(&mut self, name: &str) -> Syntax {
        if self.rng.chance(50) { ident(name) } else { node(NAME_REF, [ident(name)]) }
    }

    fn leaf_field(&mut self, name: &str, marks: bool) -> Syntax {
        let name = self.field_name(name);
        let value = (!self.rng.chance(15)).then(|| self.leaf());
        field(name, value, marks)
    }

    /// A value without record lists.
    fn leaf(&mut self) -> Syntax {
        if self.is_placeholder(50) {
            return self.placeholder();
        }
        // It stays small, whatever is left for the nest.
        let left = std::mem::replace(&mut self.left, 4);
        let leaf = match self.rng.below(12) {
            0..=1 => self.macro_call(),
            2..=3 => self.call(),
            4 => self.method_call(),
            5..=6 => path_expr(self.path()),
            _ => node(LITERAL, [token(NUMBER, "1")]),
        };
        self.left = left;
        leaf
    }

    /// Two fields that the code may have with each other's names.
    fn path_fields(&mut self, marks: bool) -> [Syntax; 2] {
        let value = self.is_placeholder(60).then(|| self.placeholder());
        let value = value.unwrap_or(node(LITERAL, [token(NUMBER, "1")]));
        PATH_NAMES.map(|name| field(path_of(ident(name)), Some(value.clone()), marks))
    }

    /// A field with a placeholder for a name: the first, the last or between; behind it there may be a
    /// field once more that stands before it.
    fn add_placeholder_field(&mut self, fields: &mut Vec<Syntax>, marks: bool) {
        let name = self.name();
        let name = if self.rng.chance(8) { name } else { node(NAME_REF, [name]) };
        let value = (!self.rng.chance(20)).then(|| self.leaf());
        let count = fields.len();
        let place = *self.rng.pick(&[0, count / 2, count, count]);
        fields.insert(place, field(name, value, marks));
        let is_small = |field: &&Syntax| field.elements().len() < 24;
        if self.rng.chance(35)
            && self.more(100)
            && let Some(again) = fields[..place].iter().find(is_small)
        {
            let again = again.clone();
            fields.insert(self.rng.between(place + 1, fields.len()), again);
        }
    }
}

fn field(name: Syntax, value: Option<Syntax>, marks: bool) -> Syntax {
    let colon = (marks && value.is_some()).then(|| mark(":"));
    let children: Vec<Syntax> = [Some(name), colon, value].into_iter().flatten().collect();
    node(RECORD_FIELD, children)
}

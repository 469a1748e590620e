//! The noted comments, in turn.

use std::rc::Rc;

/// Comments by element. Record lists that start over note theirs again, at each level twice as many:
/// so what is noted twice stands here once, and the length is known without a list.
#[derive(Clone, Debug, Default)]
pub struct Notes {
    parts: Vec<Part>,
    /// The length of all their texts.
    pub length: u128,
}

#[derive(Clone, Debug)]
enum Part {
    Comment(usize),
    All(Rc<Notes>),
}

impl Notes {
    pub(super) fn add(&mut self, comment: usize, length: usize) {
        self.parts.push(Part::Comment(comment));
        self.length += length as u128;
    }

    pub(super) fn add_all(&mut self, other: &Rc<Notes>) {
        if other.length > 0 {
            self.parts.push(Part::All(other.clone()));
            self.length += other.length;
        }
    }

    /// The first comments, at most so many.
    pub fn first(&self, most: usize) -> Vec<usize> {
        let mut found = Vec::new();
        self.collect(most, &mut found);
        found
    }

    fn collect(&self, most: usize, found: &mut Vec<usize>) {
        for part in &self.parts {
            if found.len() >= most {
                return;
            }
            match part {
                Part::Comment(comment) => found.push(*comment),
                Part::All(notes) => notes.collect(most, found),
            }
        }
    }
}

#[cfg(test)]
mod tests {
    use super::*;

    #[test]
    fn what_is_noted_twice_at_each_level_ends() {
        let mut notes = Notes::default();
        notes.add(7, 3);
        for _ in 0..60 {
            let inner = Rc::new(notes);
            notes = Notes::default();
            notes.add_all(&inner);
            notes.add_all(&inner);
        }
        assert_eq!(notes.length, 3 << 60);
        assert_eq!(notes.first(5), [7; 5]);
    }
}

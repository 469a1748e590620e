//! Edits of a text. As in rust-analyzer they are sorted, and must be disjoint or equal; edits that
//! touch are not joined, which the edited text does not show.

use syntax::TextRange;

#[derive(Clone, Debug, PartialEq, Eq)]
struct Indel {
    delete: TextRange,
    insert: String,
}

#[derive(Clone, Debug, Default)]
pub struct TextEdit {
    indels: Vec<Indel>,
}

#[derive(Clone, Debug, Default)]
pub struct TextEditBuilder {
    indels: Vec<Indel>,
}

impl TextEdit {
    pub fn builder() -> TextEditBuilder {
        TextEditBuilder::default()
    }

    /// Panics where an edit is past the end of the text or cuts a character.
    pub fn apply(&self, text: &mut String) {
        for indel in self.indels.iter().rev() {
            let range = usize::from(indel.delete.start())..usize::from(indel.delete.end());
            text.replace_range(range, &indel.insert);
        }
    }
}

impl TextEditBuilder {
    pub fn replace(&mut self, delete: TextRange, insert: String) {
        self.indels.push(Indel { delete, insert });
    }

    pub fn finish(mut self) -> TextEdit {
        self.indels.sort_by_key(|indel| (indel.delete.start(), indel.delete.end()));
        let disjoint = self
            .indels
            .windows(2)
            .all(|two| two[0].delete.end() <= two[1].delete.start() || two[0] == two[1]);
        assert!(disjoint);
        TextEdit { indels: self.indels }
    }
}

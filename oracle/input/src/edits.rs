//! The edit list, read and made: document 01, "Edit list".

use crate::words::{EDIT_END, EDIT_LENGTH, EDIT_START, value, word_kind};

/// One edit: the bytes that it cuts out, and what it puts in.
#[derive(Clone, Debug, PartialEq, Eq)]
pub struct Edit {
    pub start: usize,
    pub end: usize,
    pub replacement: Vec<u8>,
}

/// The edits of a list.
pub fn read(mut bytes: &[u8]) -> Result<Vec<Edit>, String> {
    let mut edits = Vec::new();
    while !bytes.is_empty() {
        let start = field(&mut bytes, EDIT_START)?;
        let end = field(&mut bytes, EDIT_END)?;
        let length = field(&mut bytes, EDIT_LENGTH)?;
        let (replacement, rest) =
            bytes.split_at_checked(length).ok_or("the edit list ends too early")?;
        edits.push(Edit { start, end, replacement: replacement.to_vec() });
        bytes = rest;
    }
    Ok(edits)
}

fn field(bytes: &mut &[u8], kind: u32) -> Result<usize, String> {
    let (word, rest) = bytes.split_first_chunk().ok_or("the edit list ends too early")?;
    let word = u32::from_le_bytes(*word);
    *bytes = rest;
    if word_kind(word) != kind {
        return Err(format!("the edit list has no word of kind {kind} where one is due"));
    }
    Ok(value(word) as usize)
}

/// The text with all edits made.
pub fn apply(edits: &[Edit], text: &[u8]) -> Result<Vec<u8>, String> {
    let mut edited = Vec::new();
    let mut at = 0;
    for edit in edits {
        let before = text.get(at..edit.start).filter(|_| edit.start <= edit.end);
        edited.extend(before.ok_or("the edits are not in order")?);
        edited.extend(&edit.replacement);
        at = edit.end;
    }
    edited.extend(text.get(at..).ok_or("an edit is outside the text")?);
    Ok(edited)
}

//! Texts and their ranges, in bytes.

use std::borrow::Borrow;
use std::fmt;
use std::hash::{Hash, Hasher};
use std::ops::Add;
use std::rc::Rc;

#[derive(Clone, Copy, Debug, PartialEq, Eq, PartialOrd, Ord, Hash)]
pub struct TextSize(u32);

impl TextSize {
    pub fn of(text: &str) -> TextSize {
        TextSize(u32::try_from(text.len()).expect("a text's length fits a word"))
    }
}

impl From<u32> for TextSize {
    fn from(bytes: u32) -> TextSize {
        TextSize(bytes)
    }
}

impl From<TextSize> for u32 {
    fn from(size: TextSize) -> u32 {
        size.0
    }
}

impl From<TextSize> for usize {
    fn from(size: TextSize) -> usize {
        size.0 as usize
    }
}

impl Add for TextSize {
    type Output = TextSize;

    fn add(self, other: TextSize) -> TextSize {
        TextSize(self.0 + other.0)
    }
}

#[derive(Clone, Copy, Debug, PartialEq, Eq, Hash)]
pub struct TextRange {
    start: TextSize,
    end: TextSize,
}

impl TextRange {
    pub fn new(start: TextSize, end: TextSize) -> TextRange {
        assert!(start <= end);
        TextRange { start, end }
    }

    pub fn start(self) -> TextSize {
        self.start
    }

    pub fn end(self) -> TextSize {
        self.end
    }

    pub fn contains_range(self, other: TextRange) -> bool {
        self.start <= other.start && other.end <= self.end
    }

    pub fn cover(self, other: TextRange) -> TextRange {
        TextRange { start: self.start.min(other.start), end: self.end.max(other.end) }
    }

    pub fn checked_sub(self, offset: TextSize) -> Option<TextRange> {
        Some(TextRange {
            start: TextSize(self.start.0.checked_sub(offset.0)?),
            end: TextSize(self.end.0.checked_sub(offset.0)?),
        })
    }
}

/// An owned text. As in the real one, a text of up to 23 bytes needs no allocation.
#[derive(Clone)]
pub struct SmolStr(Kept);

/// The most bytes of a text that is kept in place.
const IN_PLACE: usize = 23;

#[derive(Clone)]
enum Kept {
    InPlace { length: u8, bytes: [u8; IN_PLACE] },
    Apart(Rc<str>),
}

impl SmolStr {
    #[inline]
    pub fn new(text: impl AsRef<str>) -> SmolStr {
        let text = text.as_ref();
        if text.len() > IN_PLACE {
            return SmolStr(Kept::Apart(Rc::from(text)));
        }
        let mut bytes = [0; IN_PLACE];
        bytes[..text.len()].copy_from_slice(text.as_bytes());
        SmolStr(Kept::InPlace { length: text.len() as u8, bytes })
    }

    #[inline]
    pub fn as_str(&self) -> &str {
        match &self.0 {
            // SAFETY: the first `length` bytes are those of a whole text.
            Kept::InPlace { length, bytes } => unsafe {
                std::str::from_utf8_unchecked(&bytes[..usize::from(*length)])
            },
            Kept::Apart(text) => text,
        }
    }
}

impl From<&str> for SmolStr {
    #[inline]
    fn from(text: &str) -> SmolStr {
        SmolStr::new(text)
    }
}

impl Borrow<str> for SmolStr {
    #[inline]
    fn borrow(&self) -> &str {
        self.as_str()
    }
}

impl PartialEq for SmolStr {
    #[inline]
    fn eq(&self, other: &SmolStr) -> bool {
        self.as_str() == other.as_str()
    }
}

impl Eq for SmolStr {}

impl PartialEq<&str> for SmolStr {
    #[inline]
    fn eq(&self, other: &&str) -> bool {
        self.as_str() == *other
    }
}

/// As a text's own, which maps are asked with.
impl Hash for SmolStr {
    #[inline]
    fn hash<H: Hasher>(&self, state: &mut H) {
        self.as_str().hash(state);
    }
}

impl fmt::Debug for SmolStr {
    fn fmt(&self, f: &mut fmt::Formatter<'_>) -> fmt::Result {
        fmt::Debug::fmt(self.as_str(), f)
    }
}

impl fmt::Display for SmolStr {
    fn fmt(&self, f: &mut fmt::Formatter<'_>) -> fmt::Result {
        f.write_str(self.as_str())
    }
}

#[cfg(test)]
mod tests {
    use super::*;
    use crate::hash::FxHashMap;

    /// Around the limit, with characters of one byte and of two.
    fn texts() -> impl Iterator<Item = String> {
        ["a", "\u{e4}"].into_iter().flat_map(|character| (1..30).map(|n| character.repeat(n)))
    }

    #[test]
    fn a_text_is_kept_whole() {
        for text in texts() {
            let kept = SmolStr::new(&text);
            assert_eq!(kept.as_str(), text);
            assert_eq!(matches!(kept.0, Kept::InPlace { .. }), text.len() <= 23);
        }
    }

    #[test]
    fn a_map_finds_each_text() {
        let map: FxHashMap<SmolStr, String> =
            texts().map(|text| (SmolStr::new(&text), text)).collect();
        assert_eq!(map.len(), texts().count());
        assert!(texts().all(|text| map.get(text.as_str()) == Some(&text)));
    }
}

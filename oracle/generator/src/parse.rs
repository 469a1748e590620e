//! Parses for texts that a job asks for: made up from a hash of kind and text, so that the
//! same question always has the same answer.

use crate::rng::Rng;
use input::build::add_parse;
use input::{Job, Parses};

/// The job with a parse of the asked text added.
pub fn complete(job: &Job, kind: u32, text: &[u8]) -> Job {
    let mut job = job.clone();
    add_made_up(&mut job.parses, kind, text);
    job
}

/// Adds a parse of a text.
pub fn add_made_up(parses: &mut Parses, kind: u32, text: &[u8]) {
    add_parse(parses, kind, text, &ranges(kind, text));
}

/// Node ranges: none (does not parse), the whole alone, nearly all that a placeholder could
/// have, or about half of them.
fn ranges(kind: u32, text: &[u8]) -> Vec<(u32, u32)> {
    let mut rng = Rng::from_bytes(text);
    rng = Rng::new(&[rng.number(), u64::from(kind)]);
    let percent = match rng.below(10) {
        0 => return Vec::new(),
        1 => 0,
        2..=5 => 100,
        _ => 50,
    };
    let mut ranges = vec![(0, text.len() as u32)];
    let places = boundaries(text);
    for (first, &start) in places.iter().enumerate() {
        // Far ends are left out of long texts, which keeps the list short.
        for &end in places[first..].iter().take(24) {
            if rng.chance(percent) && ranges.len() < 2000 {
                ranges.push((start, end));
            }
        }
    }
    ranges
}

/// The places where a token may begin or end.
fn boundaries(text: &[u8]) -> Vec<u32> {
    let is_word = |byte: u8| byte.is_ascii_alphanumeric() || byte == b'_';
    let inside = |i: usize| i > 0 && i < text.len() && is_word(text[i - 1]) && is_word(text[i]);
    (0..=text.len()).filter(|&i| !inside(i)).map(|i| i as u32).collect()
}

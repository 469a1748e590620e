//! Checks that the library and plain Rust both make, timed beside each other.

use std::hint::black_box;
use std::time::Duration;

use super::table;
use super::timing::medians;

/// A check of something: how many words that has, and the refusal or 0.
pub struct Check<T> {
    pub words: fn(&T) -> usize,
    pub library: fn(&T) -> u32,
    pub plain: fn(&T) -> u32,
}

pub fn print_head(title: &str) {
    let title = format!("{title}: million words a second");
    table::head(&title, &["", "words", "the library", "plain Rust", "ratio"]);
}

impl<T> Check<T> {
    /// Prints the times of checking all; whether both give the same numbers.
    pub fn print(&self, name: &str, all: &[&T]) -> bool {
        if !all.iter().all(|one| (self.library)(one) == (self.plain)(one)) {
            println!("{name}: different");
            return false;
        }
        let words: usize = all.iter().map(|one| (self.words)(one)).sum();
        let library = || all.iter().map(|one| (self.library)(black_box(one))).sum();
        let plain = || all.iter().map(|one| (self.plain)(black_box(one))).sum();
        let [library, plain] = medians([&library, &plain]);
        let speed = |time: Duration| format!("{:.0}", words as f64 / time.as_secs_f64() / 1e6);
        let ratio = library.as_secs_f64() / plain.as_secs_f64();
        let ratio = format!("{ratio:.2}");
        table::row(&[name.to_owned(), table::count(words), speed(library), speed(plain), ratio]);
        true
    }
}

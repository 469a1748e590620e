//! The time for parses, 28: the library, and plain Rust, which keeps kinds and texts in order.

use checker::check_parses;
use input::build::{add_parse, node};
use input::{File, Parses, Rules};
use library::job::job;
use library::matching::Range;

use super::checks::{Check, print_head};
use super::table;

const COUNTS: [usize; 4] = [16, 128, 1_024, 8_192];

/// What a job is handed that has nothing to match: an empty file, and parses.
struct Handed {
    file: File,
    parses: Parses,
}

const PARSES: Check<Handed> = Check {
    words: |handed| handed.parses.words.len(),
    library: |handed| {
        let Handed { file, parses } = handed;
        job(&Rules::default(), file, parses, &[], Range::default(), &mut []).refusal
    },
    plain: |handed| check_parses(&handed.parses).err().unwrap_or(0),
};

/// Whether both give the same numbers.
pub fn run() -> bool {
    print_head("Checking parses of one kind and one length");
    let equal = COUNTS.map(|count| {
        let name = format!("{} parses", table::count(count));
        let twice = format!("{name}, the last two alike");
        let different = PARSES.print(&name, &[&handed(count, count)]);
        different & PARSES.print(&twice, &[&handed(count, count - 1)])
    });
    equal.iter().all(|equal| *equal)
}

/// So many parses, so many of them different; the others are like the last of these.
fn handed(count: usize, different: usize) -> Handed {
    let root = node(10, []);
    let file = File { tree: root.words(), text: root.text(), facts: Vec::new() };
    let mut parses = Parses::default();
    for number in 0..count {
        let text = format!("g({:06})", number.min(different - 1));
        add_parse(&mut parses, 64, text.as_bytes(), &[(0, 9)]);
    }
    Handed { file, parses }
}

//! The time for token lists: the library, plain Rust, and the crate's own reading of the same list.

use std::hint::black_box;
use std::time::Duration;

use generator::{Class, case};
use input::{Operation, Pair, TokenList};
use library::lists::{check_pair, read_tokens};

use super::checks::{Check, print_head};
use super::timing::{median, repeated};
use super::{Given, table};
use crate::comparison::with_lists;
use crate::plain;

const CASES: u64 = 2_000;
const ROUNDS: usize = 11;
/// How often a list is read in a round, so that a clock's own time does not count.
const REPEATS: u32 = 20;

/// The times of a list.
#[derive(Clone, Copy, Default)]
struct Times {
    library: Duration,
    /// The crate's reading, with the tokens made by the stand-ins first.
    whole: Duration,
    /// Making the tokens alone.
    tokens: Duration,
}

// The whole answer has to be there, though its number alone is looked at.
const LISTS: Check<TokenList> = Check {
    words: |list| list.words.len(),
    library: |list| black_box(&read_tokens(list)).refusal,
    plain: |list| black_box(&plain::lists::read_tokens(list)).refusal,
};

const PAIRS: Check<Pair> = Check {
    words: |pair| lists_of(pair).map(|list| list.words.len()).sum(),
    library: |pair| check_pair(&pair.pattern.list, template_of(pair)),
    plain: |pair| plain::lists::check_pair(&pair.pattern.list, template_of(pair)),
};

/// Whether all have the same answers.
pub fn run(cases: &[Given]) -> bool {
    let (made, bent) = (generated(Class::Tokens), generated(Class::Lists));
    let pairs: Vec<&Pair> = cases.iter().flat_map(|given| &given.case.pairs).collect();
    let real: Vec<&TokenList> = pairs.iter().flat_map(|pair| lists_of(pair)).collect();
    let mut all = made.iter().chain(&bent).chain(real.iter().copied());
    if !all.all(is_plain_right) || !made.windows(2).all(is_pair_right) {
        println!("plain Rust makes other checks of lists");
        return false;
    }
    let (read, refused): (Vec<_>, Vec<_>) = made
        .iter()
        .filter(|list| read_tokens(list).refusal != 1)
        .partition(|list| read_tokens(list).refusal == 0);
    let named = [("that are read", read), ("that are refused", refused), ("of the corpus", real)];
    print_head("Checking token lists");
    let name = |name, lists: &[&TokenList]| format!("{} lists {name}", table::count(lists.len()));
    let equal = named.each_ref().map(|(what, lists)| LISTS.print(&name(what, lists), lists));
    let name = format!("{} pairs of the corpus", table::count(pairs.len()));
    let pairs = PAIRS.print(&name, &pairs);
    print_crate(&named);
    pairs && equal.iter().all(|equal| *equal)
}

/// The lists of the first cases of a class.
fn generated(class: Class) -> Vec<TokenList> {
    let operations = (0..CASES).filter_map(|index| case(class, 1, index));
    let list = |operation| match operation {
        Operation::ReadTokens { list } => Some(list),
        _ => None,
    };
    operations.flat_map(with_lists).filter_map(list).collect()
}

fn is_plain_right(list: &TokenList) -> bool {
    plain::lists::read_tokens(list) == read_tokens(list)
}

fn is_pair_right(two: &[TokenList]) -> bool {
    [Some(&two[1]), Some(&two[0]), None].into_iter().all(|template| {
        plain::lists::check_pair(&two[0], template) == check_pair(&two[0], template)
    })
}

fn lists_of(pair: &Pair) -> impl Iterator<Item = &TokenList> {
    [&pair.pattern.list].into_iter().chain(template_of(pair))
}

fn template_of(pair: &Pair) -> Option<&TokenList> {
    pair.has_template.then_some(&pair.template.list)
}

/// The times beside the crate's.
fn print_crate(named: &[(&str, Vec<&TokenList>)]) {
    table::head(
        "Reading a token list: nanoseconds",
        &[
            "",
            "tokens each",
            "the library",
            "the crate",
            "of it making tokens",
            "ratio",
            "without making tokens",
        ],
    );
    for (name, lists) in named {
        let fed: Vec<&TokenList> =
            lists.iter().filter(|list| ssr::hand_in(list).is_ok()).copied().collect();
        print_row(&format!("{} lists {name}", table::count(fed.len())), &fed);
    }
}

fn print_row(name: &str, lists: &[&TokenList]) {
    let rounds: Vec<Times> = (0..ROUNDS).map(|_| round(lists)).collect();
    let count = lists.len() as f64 * f64::from(REPEATS);
    let each = |time: fn(&Times) -> Duration| {
        median(rounds.iter().map(time).collect()).as_nanos() as f64 / count
    };
    let [library, whole, tokens] =
        [each(|times| times.library), each(|times| times.whole), each(|times| times.tokens)];
    let words: usize = lists.iter().map(|list| list.words.len()).sum();
    let mut cells = vec![name.to_owned(), format!("{:.1}", words as f64 / lists.len() as f64)];
    cells.extend([library, whole, tokens].map(|time| format!("{time:.0}")));
    cells.extend([library / whole, library / (whole - tokens)].map(|ratio| format!("{ratio:.2}")));
    table::row(&cells);
}

fn round(lists: &[&TokenList]) -> Times {
    let mut times = Times::default();
    for list in lists {
        // All of these lists were handed in before.
        let _ = ssr::hand_in(list);
        times.library += repeated(REPEATS, || read_tokens(black_box(list)));
        times.whole += repeated(REPEATS, ssr::parse_once);
        times.tokens += repeated(REPEATS, ssr::tokens_once);
    }
    times
}

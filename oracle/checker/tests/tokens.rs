//! Reading tokens, checking a pair and writing raw code: refusals 1 to 16.

mod common;

use common::lex;
use input::build::{element_word, token_list};
use input::{Answer, Operation, TokenList};

/// Names with their nots, or the refusal.
fn read(list: &TokenList) -> Result<Vec<(String, Vec<u32>)>, u32> {
    let read = checker::read_tokens(list)?;
    let names = read.names().into_iter().map(|name| String::from_utf8_lossy(name).into_owned());
    Ok(names.zip(read.placeholders.iter().map(|p| p.nots.clone())).collect())
}

#[test]
fn refusals_from_the_left() {
    let cases = [
        ("$", 6),
        ("${", 2),
        ("${a", 3),
        ("${}", 3),
        ("${1}", 6),
        ("${1", 3),
        ("${a }", 4),
        ("${ a}", 4),
        ("$ a", 5),
        ("$1", 5),
        ("$self", 5),
        ("$$a", 5),
        ("${$}", 6),
        ("${a:", 7),
        ("${a:}", 8),
        ("${a::kind(literal)}", 8),
        ("${a: kind(literal)}", 8),
        ("${a:foo", 8),
        ("${a:kind", 9),
        ("${a:kind}", 9),
        ("${a:kind(", 10),
        ("${a:kind()}", 10),
        ("${a:kind( literal)}", 10),
        ("${a:kind(1)}", 10),
        ("${a:kind(literal", 9),
        ("${a:kind(literal}", 9),
        ("${a:kind(literal ", 9),
        ("${a:kind(foo}", 9),
        ("${a:kind(foo)", 11),
        ("${a:kind(foo)}", 11),
        ("${a:kind(literal)", 3),
        ("${a:kind(literal)x}", 4),
        ("${a:not", 9),
        ("${a:not(", 7),
        ("${a:not()}", 8),
        ("${a:not(kind(literal)}", 9),
        ("${1:kind(foo)}", 11),
        ("$a$a", 12),
        ("$a${a:kind(foo)}", 11),
        ("$a$b$c$d$e$f$g$h$a", 12),
        ("$a$b$c$d$e$f$g$h$i", 13),
        ("$a$b$c$d$e$f$g$h$1", 5),
    ];
    for (text, number) in cases {
        assert_eq!(read(&lex(text)), Err(number), "{text}");
    }
}

#[test]
fn lists_that_read() {
    // Each placeholder as its name and the nots of its constraints.
    let cases = [
        ("", ""),
        ("a", ""),
        ("$a", "a[]"),
        ("${a}", "a[]"),
        ("${a:kind(literal)}", "a[0]"),
        ("${a:kind(literal):not(kind(literal))}", "a[0, 1]"),
        ("${a:not(not(kind(literal)))} + $b", "a[2] b[]"),
        ("$a$b$c$d$e$f$g$h", "a[] b[] c[] d[] e[] f[] g[] h[]"),
    ];
    for (text, expected) in cases {
        let found = read(&lex(text)).expect(text);
        let found: Vec<String> = found.iter().map(|(n, nots)| format!("{n}{nots:?}")).collect();
        assert_eq!(found.join(" "), expected, "{text}");
    }
}

#[test]
fn names_have_their_place() {
    let list = lex("f($ab, ${c:kind(literal)})");
    let read = checker::read_tokens(&list).expect("reads");
    let places: Vec<_> = read.placeholders.iter().map(|p| (p.name_start, p.name_length)).collect();
    assert_eq!(places, [(3, 2), (9, 1)]);
}

#[test]
fn malformed_lists() {
    let words = |words: &[u32], text: &str| TokenList { words: words.into(), text: text.into() };
    let one = |word_kind, kind, length| words(&[element_word(word_kind, kind, length)], "x");
    assert_eq!(read(&one(1, 1, 1)), Err(1));
    assert_eq!(read(&one(2, 0, 1)), Err(1));
    assert_eq!(read(&one(2, 1023, 1)), Ok(vec![]));
    assert_eq!(read(&one(2, 1024, 1)), Err(1));
    assert_eq!(read(&one(2, 1, 0)), Err(1));
    assert_eq!(read(&one(2, 1, 2)), Err(1));
    assert_eq!(read(&words(&[], "x")), Err(1));
    assert_eq!(read(&token_list(&vec![(12, "1"); 255])), Ok(vec![]));
    assert_eq!(read(&token_list(&vec![(12, "1"); 256])), Err(1));
    // 1 is looked at over the whole list before anything is read.
    assert_eq!(read(&words(&[0x2008_0001, 0x2000_0001], "$x")), Err(1));
}

#[test]
fn kinds_and_texts_are_not_held_together() {
    let a = ("a".to_string(), vec![]);
    assert_eq!(read(&token_list(&[(8, "x"), (1, "a")])), Ok(vec![a]));
    let list = token_list(&[
        (8, "$"),
        (9, "{"),
        (1, "a"),
        (10, ":"),
        (12, "kind"),
        (12, "("),
        (1, "literal"),
        (12, ")"),
        (6, "}"),
    ]);
    assert_eq!(read(&list), Ok(vec![("a".to_string(), vec![0])]));
}

#[test]
fn pairs() {
    let check = |pattern: &str, template: Option<&str>| {
        let template = template.map(lex);
        checker::check(&Operation::CheckPair { pattern: lex(pattern), template })
    };
    assert_eq!(check("$a", None), Ok(()));
    assert_eq!(check("$a", Some("")), Ok(()));
    assert_eq!(check("${a:kind(literal)}", Some("$a")), Ok(()));
    assert_eq!(check("$a", Some("${a:kind(literal)}")), Err(14));
    assert_eq!(check("$a", Some("$b")), Err(15));
    assert_eq!(check("$a", Some("$b${a:kind(literal)}")), Err(14));
    assert_eq!(check("$a", Some("$a$a")), Err(12));
    assert_eq!(check("$1", Some("${")), Err(2));
    assert_eq!(check("$a", Some("__placeholder_b")), Ok(()));
}

#[test]
fn raw_code_fits_or_not() {
    let raw = |text: &str, buffer| {
        let outcome = checker::answer(&Operation::RawCode { list: lex(text), buffer });
        outcome.map(|o| (o.answer, o.buffer)).expect("no matching here")
    };
    let code = b" f(__placeholder_a) ";
    assert_eq!(raw(" f($a) ", 20), (Answer::RawCode(20), code.to_vec()));
    assert_eq!(raw(" f($a) ", 22), (Answer::RawCode(20), [&code[..], &[0, 0]].concat()));
    assert_eq!(raw(" f($a) ", 19), (Answer::Refused(16), vec![0; 19]));
    assert_eq!(raw("${", 3), (Answer::Refused(2), vec![0; 3]));
    assert_eq!(raw("", 0), (Answer::RawCode(0), vec![]));
    assert_eq!(raw("", 2_000_000).1.len(), 1_048_576);
}

#[test]
fn trimmed_code() {
    let trimmed = |text| {
        let list = lex(text);
        let read = checker::read_tokens(&list).expect("reads");
        String::from_utf8(read.trimmed_code()).expect("UTF-8")
    };
    assert_eq!(trimmed("  1 2  "), "1 2");
    assert_eq!(trimmed("   "), "");
    assert_eq!(trimmed(" /*c*/ "), "/*c*/");
    assert_eq!(trimmed(" $a "), "__placeholder_a");
}

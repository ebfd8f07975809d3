//! The errors of a source.

use cifgwezam::{Error, ErrorKind, Kind, Scanner};
use std::collections::HashSet;

fn errors(source: &str) -> Vec<Error> {
    let mut scanner = Scanner::new(source).unwrap();
    scanner.tokens().for_each(drop);
    scanner.errors().collect()
}

/// A source for each kind, in order.
const SOURCES: [&str; 14] =
    ["0b", "08", "0x", "1__0", "1e", "`", "/*", "'", "'\\k'", "'\\x", "'\\xg", "'\\uD800", "''", "#"];

#[test]
fn each_kind() {
    let mut messages = HashSet::new();
    for (number, (source, kind)) in (1..).zip(SOURCES.iter().zip(ErrorKind::ALL)) {
        let error = errors(source)[0];
        assert_eq!((error.kind, kind.number(), kind as u8), (kind, number, number), "{source}");
        assert_eq!(error.to_string(), format!("{}: {kind}", error.position));
        messages.insert(kind.message());
    }
    assert_eq!(messages.len(), 14);
    assert!(messages.iter().all(|message| message.starts_with(char::is_lowercase) && !message.ends_with('.')));
}

/// The kinds of the tokens, and each error as its number and its offset.
fn scanned(source: &str) -> (Vec<Kind>, Vec<(u8, usize)>) {
    let mut scanner = Scanner::new(source).unwrap();
    let kinds = scanner.tokens().map(|token| token.kind).collect();
    (kinds, scanner.errors().map(|error| (error.kind.number(), error.position.offset)).collect())
}

fn check(source: &str, kinds: &[Kind], errors: &[(u8, usize)]) {
    assert_eq!(scanned(source), (kinds.to_vec(), errors.to_vec()), "{source}");
}

#[test]
fn what_is_unknown_token_has_an_error_after_it() {
    use Kind::{Ellipsis, Ident, Illegal, Period, Semicolon};
    check("#", &[Illegal], &[(14, 1)]);
    check("@\n", &[Illegal], &[(14, 1)]);
    check("é", &[Illegal], &[(14, 1)]);
    check("..", &[Illegal], &[(14, 2)]);
    check("...", &[Ellipsis], &[]);
    check("....", &[Ellipsis, Period], &[]);
    check("x..", &[Ident, Illegal, Semicolon], &[(14, 3)]);
    check("x @", &[Ident, Illegal, Semicolon], &[(14, 3)]);
}

#[test]
fn an_escape_out_of_its_range_has_an_error_after_it() {
    use Kind::{Char, Ident, Illegal, Semicolon, String};
    check(r#""\400""#, &[Illegal, Illegal, Semicolon], &[(12, 5), (8, 6)]);
    check(r"'\400'", &[Illegal, Illegal, Semicolon], &[(12, 5), (8, 6)]);
    check(r#""\400"#, &[Illegal, Semicolon], &[(12, 5)]);
    check(r#""\U00110000""#, &[Illegal, Illegal, Semicolon], &[(12, 11), (8, 12)]);
    check(r"'\uD800'", &[Illegal, Illegal, Semicolon], &[(12, 7), (8, 8)]);
    check(r#""a\400b""#, &[Illegal, Ident, Illegal, Semicolon], &[(12, 6), (8, 8)]);
    check(r#""\x""#, &[Illegal, Illegal, Semicolon], &[(11, 3), (8, 4)]);
    check(r#""\377""#, &[String, Semicolon], &[]);
    check(r"'\U0010FFFF'", &[Char, Semicolon], &[]);
}

#[test]
fn every_illegal_has_an_error() {
    for source in SOURCES {
        let (kinds, errors) = scanned(&format!("# .. {source}"));
        let illegal = kinds.iter().filter(|kind| **kind == Kind::Illegal).count();
        let open = errors.iter().filter(|(number, _)| matches!(number, 6 | 7)).count();
        assert!(errors.len() > 2, "{source}");
        assert_eq!(errors.len(), illegal + open, "{source}");
    }
}

#[test]
fn in_order_with_their_places() {
    let found = errors("08\n\n  '\n");
    assert_eq!(found.iter().map(|error| error.kind).collect::<Vec<_>>(), [ErrorKind::BadOctal, ErrorKind::OpenQuote]);
    assert_eq!(found.iter().map(|error| error.position.to_string()).collect::<Vec<_>>(), ["1:2", "3:4"]);
    assert_eq!(found[1].position.offset, 7);
}

#[test]
fn an_error_is_a_std_error() {
    let error: Box<dyn std::error::Error> = Box::new(errors("x /*")[0]);
    assert_eq!(error.to_string(), "1:5: comment is not closed");
}

#[test]
fn the_iterator() {
    let source = SOURCES.join("\n");
    let mut scanner = Scanner::new(&source).unwrap();
    assert_eq!(scanner.errors().len(), 0);
    scanner.tokens().for_each(drop);
    let mut left = scanner.errors();
    let all: Vec<_> = left.clone().collect();
    assert_eq!((left.len(), scanner.error_count()), (all.len(), all.len()));
    assert_eq!((left.next(), left.next_back()), (Some(all[0]), all.last().copied()));
    assert_eq!(left.len(), all.len() - 2);
    assert!(left.rev().eq(all[1..all.len() - 1].iter().rev().copied()));
}

#[test]
fn a_clean_source_has_none() {
    assert_eq!(errors("package p\n"), []);
}

//! What a token holds, and which of it is borrowed from the source.

use cifgwezam::{Kind, Scanner, Token};
use std::borrow::Cow;

fn first(source: &str) -> Token<'_> {
    Scanner::new(source).unwrap().scan()
}

/// Whether a token's text, and its value, are parts of the source.
fn borrowed(token: &Token) -> (bool, bool) {
    let text = matches!(token.text, Cow::Borrowed(_));
    (text, matches!(token.value, Cow::Borrowed(_)))
}

#[test]
fn plain_texts_are_borrowed() {
    for source in ["name", "12", "\"ab\"", "`ab`", "// c\n", "/* c */", "'a'", "#"] {
        let token = first(source);
        assert_eq!(borrowed(&token), (true, true), "{source}");
        assert_eq!((&*token.text, token.range), (source, 0..source.len()));
    }
    assert_eq!(*first("\"ab\"").value, *b"ab");
}

#[test]
fn changed_texts_are_copied() {
    let token = first("017");
    assert_eq!(borrowed(&token), (false, true));
    assert_eq!((&*token.text, token.range), ("0o17", 0..3));
    let token = first("\"a\\n\"");
    assert_eq!(borrowed(&token), (true, false));
    assert_eq!((&*token.value, token.range), (&b"a\n"[..], 0..5));
    let token = first("`a\r\n`");
    assert_eq!(borrowed(&token), (false, false));
    assert_eq!((&*token.text, &*token.value), ("`a\n`", &b"a\n"[..]));
}

#[test]
fn a_token_outlives_the_scanner_and_later_scans() {
    let source = "017 018".to_string();
    let mut scanner = Scanner::new(&source).unwrap();
    let (one, two) = (scanner.scan(), scanner.scan());
    drop(scanner);
    assert_eq!((&*one.text, &*two.text), ("0o17", "0o1"));
}

#[test]
fn only_characters_have_a_code() {
    assert_eq!(first("'é'").code, Some('é'));
    assert_eq!(first("'\\x00'").code, Some('\0'));
    assert_eq!(first("'ab'").code, None);
    assert_eq!(first("x").code, None);
}

#[test]
fn inserted_semicolons() {
    let mut scanner = Scanner::new("x;y\n").unwrap();
    let tokens: Vec<_> = scanner.tokens().map(|token| (token.kind, token.inserted, token.range)).collect();
    let semicolon = Kind::Semicolon;
    let expected =
        [(Kind::Ident, false, 0..1), (semicolon, false, 1..2), (Kind::Ident, false, 2..3), (semicolon, true, 3..3)];
    assert_eq!(tokens, expected);
}

#[test]
fn positions_are_those_of_the_scanner() {
    let mut scanner = Scanner::new("a := 017 + 'é' // c\r\n\"\\n\" `\r\n` x /*").unwrap();
    loop {
        let token = scanner.scan();
        assert_eq!(scanner.position(token.pos), Ok(token.position));
        if token.kind == Kind::Eof {
            break;
        }
    }
    assert_eq!(scanner.line_count(), 3);
}

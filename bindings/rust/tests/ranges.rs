//! The ranges of tokens: which bytes of the source each was read from.

mod common;

use cifgwezam::{Kind, Scanner, Token};
use common::{scanned, sources};
use std::borrow::Cow;

/// Every byte is in the range of a token or is a blank, and a range starts where the token's position says.
fn check_tokens(source: &str, base: usize, tokens: &[Token]) {
    let mut end = 0;
    for token in tokens {
        let blanks = source.get(end..token.range.start).expect("ranges in order, of whole characters");
        assert!(blanks.bytes().all(|byte| b" \t\r\n".contains(&byte)), "{blanks:?} before {token:?} of {source:?}");
        assert_eq!(token.position.offset, source[..token.range.start].chars().count(), "{token:?} of {source:?}");
        assert_eq!(token.pos, base + token.position.offset);
        check_read(token, &source[token.range.clone()]);
        end = token.range.end;
    }
    assert_eq!(source[end..].trim_matches([' ', '\t', '\r', '\n']), "");
}

/// A token beside what was read.
fn check_read(token: &Token, read: &str) {
    let spelled = token.kind.is_operator() || token.kind.is_keyword();
    if token.inserted || token.kind == Kind::Eof {
        assert_eq!((read, &*token.text), ("", ""));
    } else if spelled {
        assert_eq!((read, &*token.text), (token.kind.name(), ""));
    } else if let Cow::Borrowed(text) = token.text {
        assert_eq!(text, read);
        assert!(!read.is_empty());
    } else {
        assert!(changed(token.kind, read).contains(&token.text.to_string()), "{token:?}");
        assert_ne!(token.text, read);
    }
}

/// What the text of a token may be, given what was read.
fn changed(kind: Kind, read: &str) -> Vec<String> {
    match kind {
        Kind::Comment if read.starts_with("//") => vec![read.trim_end_matches('\n').replace('\r', "") + "\n"],
        Kind::Comment | Kind::String => vec![read.replace('\r', "")],
        // a number: an o after the 0, the prefix or the exponent in lower case
        _ => {
            let prefix = ["X", "B", "O"].map(|letter| read.replacen(letter, &letter.to_lowercase(), 1));
            [read.replacen('0', "0o", 1), read.replace('E', "e")].into_iter().chain(prefix).collect()
        }
    }
}

/// The tokens of a source by each of the three ways; they are the same.
fn check(source: &[u8], base: usize, size: usize) -> bool {
    let Ok(opened) = Scanner::with_size(source, base, size) else { return false };
    let tokens = scanned(&mut opened.clone());
    check_tokens(std::str::from_utf8(source).unwrap(), base, &tokens);

    let mut scanner = opened.clone();
    let mut given: Vec<_> = scanner.tokens().collect();
    given.push(scanner.scan());
    let eof = given.last().map(|token| (token.kind, token.pos));
    assert_eq!(eof, tokens.last().map(|token| (token.kind, token.pos)));
    assert_eq!(given[..given.len() - 1], tokens[..tokens.len() - 1]);

    let mut scanner = opened.clone();
    let mut kept: Vec<Token> = Vec::new();
    while kept.last().map(|token| token.kind) != Some(Kind::Eof) {
        let batch = scanner.batch();
        let before = kept.len();
        kept.extend(batch.clone().map(|lent| lent.keep()));
        for (lent, token) in batch.zip(&kept[before..]) {
            assert_eq!((lent.range(), lent.position()), (token.range.clone(), token.position));
        }
    }
    assert_eq!(kept, tokens);
    true
}

#[test]
fn recorded_sources() {
    let checked = sources::recorded().iter().filter(|(size, source)| check(source, 0, *size)).count();
    assert!(checked > 4_000);
}

#[test]
fn made_sources() {
    for source in sources::made().into_iter().chain([sources::long(), sources::long().replace('\n', "\r\n")]) {
        let chars = source.chars().count();
        assert!(check(source.as_bytes(), 0, chars));
        assert!(check(source.as_bytes(), 9, chars + 5));
    }
}

/// Each token that is changed, after each that may be before it.
#[test]
fn changed_texts() {
    let before = ["", "x", "x\n", "x;", "+", "'é'", "017", "\"\\n\"", "x // c\n", "/*\r*/", "`\r`", "\r\t \n"];
    let changed = ["017", "08", "0X1F", "1E3", "//é", "// c\r\n", "/*\ré*/", "`\ré\n`", "0B", "0_", "\"\\n\"", "/*\r"];
    for first in before {
        for text in changed {
            for blanks in ["", " ", "\r\n\t", "é"] {
                let source = format!("{first}{blanks}{text}{blanks}y");
                assert!(check(source.as_bytes(), 0, source.chars().count()));
            }
        }
    }
}

//! Batches: the same tokens as one scan after the other.

mod common;

use cifgwezam::{Batch, Kind, Scanner, Token};
use common::{assert_same, sources};

/// A source whose tokens fill more than two batches, with lines and without errors.
fn long() -> String {
    "for i := 0; i < len(name); i++ {\n\tleft += 'x'\n}\n".repeat(40)
}

/// The tokens of a batch to keep, each as its parts say.
fn kept<'src>(batch: Batch<'_, 'src>) -> Vec<Token<'src>> {
    let tokens = batch.map(|lent| {
        let token = lent.keep();
        assert_eq!((token.kind, token.inserted, token.code), (lent.kind(), lent.inserted(), lent.code()));
        assert_eq!((&*token.text, &*token.value), (lent.text(), lent.value()));
        assert_eq!((token.pos, token.position, &token.range), (lent.pos(), lent.position(), &lent.range()));
        token
    });
    tokens.collect()
}

/// Reads a source by batches beside scans; gives the lengths of the batches.
fn check(source: &str) -> Vec<usize> {
    let mut one = Scanner::new(source).unwrap();
    let mut many = one.clone();
    let mut lengths = Vec::new();
    let mut last = Kind::None;
    while last != Kind::Eof {
        let batch = many.batch();
        lengths.push(batch.len());
        for token in kept(batch) {
            last = token.kind;
            assert_eq!(token, one.scan());
        }
        assert_eq!((many.line_count(), many.error_count()), (one.line_count(), one.error_count()));
    }
    assert_same(&many, &one);
    lengths
}

#[test]
fn made_sources() {
    for source in sources::made() {
        check(&source);
    }
}

#[test]
fn a_source_of_several_batches() {
    let lengths = check(&long());
    let (last, full) = lengths.split_last().unwrap();
    assert!(full.len() > 2 && full.iter().all(|length| *length == Scanner::MAX_BATCH));
    assert!((1..Scanner::MAX_BATCH).contains(last));
}

#[test]
fn a_batch_ends_after_a_changed_text_or_value() {
    assert_eq!(check(r#"a "b" "\n" c 'd' 017 `e` "#), [3, 3, 3]);
    assert_eq!(check("// c\r\n/* d */ /* \r */ e"), [1, 2, 3]);
}

#[test]
fn a_batch_ends_where_a_buffer_has_to_grow() {
    assert_eq!(check(&("x +".to_string() + &"\n".repeat(1_000) + "y")), [2, 3]);
    assert_eq!(check(&format!("x + `{}`", "a\r\n".repeat(1_000))), [2, 1, 2]);
    let lengths = check(&"x ''\n".repeat(80));
    assert!(lengths.len() > 2 && lengths.iter().sum::<usize>() == 241);
    check(&"\n0'".repeat(600));
}

#[test]
fn errors() {
    check(r#"0b 08 0x 1__0 1e '\k' '\x' '\uD800' '' "\400" /*"#);
    check(&long().replace("len(", "08 len('',"));
}

/// Sources that have as many tokens as their number of characters allows: the first buffer has room for all of them.
#[test]
fn the_most_tokens() {
    for source in ["", "x", ")", "x\ny", ")\n)\n)", "))))"] {
        assert_eq!(check(source).len(), 1, "{source:?}");
    }
}

#[test]
fn eof_stays() {
    let mut scanner = Scanner::new("a").unwrap();
    assert_eq!(scanner.batch().len(), 3);
    for _ in 0..3 {
        let tokens = kept(scanner.batch());
        assert_eq!((tokens.len(), tokens[0].kind, tokens[0].pos), (1, Kind::Eof, 1));
    }
    assert_eq!(scanner.scan().kind, Kind::Eof);
}

#[test]
fn all_ways_in_turn() {
    let source = long() + "017 \"\\n\" x" + &sources::long();
    let mut one = Scanner::new(&source).unwrap();
    let mut mixed = one.clone();
    for _ in 0..12 {
        assert_eq!(mixed.scan(), one.scan());
        for token in kept(mixed.batch()) {
            assert_eq!(token, one.scan());
        }
        for token in mixed.tokens().take(20) {
            assert_eq!(token, one.scan());
        }
    }
    assert_eq!(mixed.scan().kind, Kind::Eof);
}

/// A batch that was not looked at is past, too.
#[test]
fn the_scanner_is_after_the_whole_batch() {
    let mut scanner = Scanner::new("x '' +\n y \"\\n\" z").unwrap();
    let batch = scanner.batch();
    assert_eq!((batch.scanner().line_count(), batch.scanner().error_count()), (2, 1));
    assert_eq!(batch.scanner().position(8).map(|at| (at.line, at.column)), Ok((2, 2)));
    assert_eq!(batch.take(1).count(), 1);
    assert_eq!(scanner.scan().text, "z");
}

#[test]
fn a_kept_token_outlives_the_batch() {
    let source = b"a 017".to_vec();
    let mut scanner = Scanner::new(&source).unwrap();
    let tokens = kept(scanner.batch());
    drop(scanner);
    assert_eq!((&*tokens[0].text, &*tokens[1].text), ("a", "0o17"));
}

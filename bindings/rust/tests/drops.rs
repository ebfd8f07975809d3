//! The iterator over tokens, left after any number of them: what the scanner tells is that of the tokens given.

mod common;

use cifgwezam::{Kind, Pos, Refusal, Scanner};
use common::{assert_same, scanned, sources};

/// The scanner after `count` scans.
fn after(source: &[u8], base: Pos, size: usize, count: usize) -> Scanner<'_> {
    let mut scanner = Scanner::with_size(source, base, size).unwrap();
    for _ in 0..count {
        scanner.scan();
    }
    scanner
}

/// Drops the iterator after each number of tokens, in two ways.
fn check(source: &[u8], base: Pos, size: usize) -> Result<(), Refusal> {
    let opened = Scanner::with_size(source, base, size)?;
    let all = scanned(&mut opened.clone());
    for count in 0..all.len() {
        let expected = after(source, base, size, count);
        let mut scanner = opened.clone();
        let given: Vec<_> = scanner.tokens().take(count).collect();
        assert_eq!(given, all[..count]);
        assert_same(&scanner, &expected);

        let mut scanner = opened.clone();
        for (index, token) in scanner.tokens().enumerate() {
            assert_eq!(token, all[index]);
            if index + 1 == count {
                break;
            }
        }
        // without a break the loop went on to EOF
        assert_same(&scanner, &after(source, base, size, if count == 0 { all.len() } else { count }));
    }
    Ok(())
}

#[test]
fn recorded_sources() {
    let checked = sources::recorded().iter().filter(|(size, source)| check(source, 0, *size).is_ok()).count();
    assert!(checked > 4_000);
}

#[test]
fn made_sources() {
    for source in sources::made() {
        check(source.as_bytes(), 3, source.chars().count() + 1).unwrap();
    }
}

/// Over several batches, the scanner being at each place in turn.
#[test]
fn a_long_source() {
    let source = sources::long();
    let mut one = Scanner::new(&source).unwrap();
    let mut other = one.clone();
    let mut steps = 0;
    for count in [1, 15, 16, 17, 0, 40, 47, 48, 49, 100, 111, 112, 113, 240, 255, 300, 496, 497].into_iter().cycle() {
        let given: Vec<_> = one.tokens().take(count).collect();
        let expected: Vec<_> = (0..given.len()).map(|_| other.scan()).collect();
        assert_eq!(given, expected);
        if given.len() < count {
            break;
        }
        assert_same(&one, &other);
        steps += 1;
    }
    assert!(steps > 5);
    assert_eq!((one.scan().kind, other.scan().kind), (Kind::Eof, Kind::Eof));
    assert_same(&one, &other);
}

/// One iterator for each token.
#[test]
fn again_and_again() {
    for source in [sources::long(), "x '' +\n y \"\\n\" z".repeat(30), "08 ''\n".repeat(100), "\n".repeat(2_000) + "x"]
    {
        let mut one = Scanner::new(&source).unwrap();
        let mut other = one.clone();
        while let Some(token) = one.tokens().next() {
            assert_eq!(token, other.scan());
            assert_eq!((one.line_count(), one.error_count()), (other.line_count(), other.error_count()));
        }
        assert_eq!(other.scan().kind, Kind::Eof);
        assert_same(&one, &other);
    }
}

/// Tokens that were scanned ahead come first in every way of calling, and stay with a clone.
#[test]
fn in_turn_with_scans_and_batches() {
    let source = sources::long();
    let mut one = Scanner::new(&source).unwrap();
    let mut other = one.clone();
    for count in [1, 5, 40, 300] {
        let given: Vec<_> = one.tokens().take(count).collect();
        assert_eq!(given, (0..given.len()).map(|_| other.scan()).collect::<Vec<_>>());
        assert_same(&one.clone(), &other);
        assert_eq!(one.scan(), other.scan());
        for lent in one.batch() {
            assert_eq!(lent.keep(), other.scan());
        }
        assert_same(&one, &other);
    }
}

/// The iterator may be the last expression of a block.
#[test]
fn as_a_tail() {
    fn has_function(source: &str) -> bool {
        let mut scanner = Scanner::new(source).unwrap();
        scanner.tokens().any(|token| token.kind == Kind::Func)
    }
    assert!(has_function("func quota()") && !has_function("quota()"));
    let mut scanner = Scanner::new("a '' b").unwrap();
    let mut errors = Vec::new();
    while let Some(_token) = scanner.tokens().next() {
        errors.push(scanner.error_count());
    }
    assert_eq!(errors, [0, 1, 1, 1]);
}

#[test]
fn the_iterator_ends_at_eof() {
    let mut scanner = Scanner::new("a b").unwrap();
    let mut tokens = scanner.tokens();
    let mut next = || tokens.next().map(|token| token.kind);
    assert_eq!([next(), next(), next()], [Some(Kind::Ident), Some(Kind::Ident), Some(Kind::Semicolon)]);
    assert_eq!([next(), next()], [None, None]);
    assert_eq!((scanner.tokens().count(), scanner.scan().kind), (0, Kind::Eof));
}

#[test]
fn the_iterator_goes_on_where_the_scan_was() {
    let mut scanner = Scanner::new("a b c").unwrap();
    scanner.scan();
    let texts: Vec<_> = scanner.tokens().map(|token| token.text).collect();
    assert_eq!(texts, ["b", "c", ""]);
}

//! What the tests share. Each of them uses a part of it.
#![allow(dead_code)]

pub mod sources;

use cifgwezam::{Kind, Scanner, Token};

/// The tokens that are left, by one scan after the other; EOF is the last.
pub fn scanned<'src>(scanner: &mut Scanner<'src>) -> Vec<Token<'src>> {
    let mut tokens = Vec::new();
    loop {
        tokens.push(scanner.scan());
        if tokens.last().is_some_and(|token| token.kind == Kind::Eof) {
            return tokens;
        }
    }
}

/// Holds two scanners of the same source to each other: what they tell, and all that comes next.
pub fn assert_same(one: &Scanner, other: &Scanner) {
    let counts = |scanner: &Scanner| (scanner.line_count(), scanner.error_count());
    assert_eq!(counts(one), counts(other), "{one:?}");
    assert!(one.errors().eq(other.errors()), "{one:?}");
    // a size may be very large
    let last = one.base() + one.size().min(one.char_count() + 40);
    for pos in one.base()..=last {
        assert_eq!(one.position(pos), other.position(pos), "{one:?}");
    }
    for line in 0..=one.line_count() + 1 {
        assert_eq!(one.line_start(line), other.line_start(line), "{one:?}");
    }
    assert_eq!(scanned(&mut one.clone()), scanned(&mut other.clone()), "{one:?}");
}

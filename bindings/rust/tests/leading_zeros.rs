//! Numbers that start with 0 and a digit or an underscore. What follows the longest run of digits and underscores
//! decides: before `.`, e, E or i the number is decimal, otherwise it is octal.

mod common;

use cifgwezam::{ErrorKind, Kind, Scanner};
use ErrorKind::{BadExponent, BadOctal, MisplacedUnderscore};
use Kind::{Float, Ident, Illegal, Imag, Int};

type Tokens<'a> = &'a [(usize, Kind, &'a str)];

/// Holds the tokens of a text, up to the semicolon that is inserted after it, to offset, kind and text. The error is
/// one of the first token, at its end.
fn check_at(before: &str, text: &str, after: &str, expected: Tokens, error: Option<(usize, ErrorKind)>) {
    let source = [before, text, after].concat();
    let start = before.len();
    let mut scanner = Scanner::new(&source).expect(&source);
    let tokens = common::scanned(&mut scanner);
    let of_text = |offset: usize| (start..start + text.len()).contains(&offset);
    let given: Vec<_> = tokens.iter().filter(|token| of_text(token.position.offset)).collect();
    let shown: Vec<_> = given.iter().map(|token| (token.position.offset - start, token.kind, &*token.text)).collect();
    assert_eq!(shown, expected, "{source:?}");
    let semicolon = tokens.iter().find(|token| token.position.offset == start + text.len());
    assert!(semicolon.is_some_and(|token| token.inserted), "{source:?}");
    let errors: Vec<_> = scanner.errors().map(|error| (error.position.offset - start, error.kind)).collect();
    assert_eq!(errors, Vec::from_iter(error), "{source:?}");
}

/// A text alone, and where many scans in one call take their quick way.
fn check(text: &str, expected: Tokens, error: Option<(usize, ErrorKind)>) {
    check_at("", text, "", expected, error);
    check_at("quota = ", text, "\nlane = 1 // reads of one lane\n", expected, error);
}

#[test]
fn decimal_before_a_point_an_exponent_or_an_i() {
    for text in ["072.40", "08.", "00.", "09_9.9_9", "08e1"] {
        check(text, &[(0, Float, text)], None);
    }
    check("012E+3", &[(0, Float, "012e+3")], None);
    for text in ["0123i", "08i", "00i", "0_1_2e-3_4i"] {
        check(text, &[(0, Imag, text)], None);
    }
    check("01.e", &[(0, Illegal, "01.e")], Some((4, BadExponent)));
}

#[test]
fn octal_before_anything_else() {
    check("00", &[(0, Int, "0o0")], None);
    check("0_600", &[(0, Int, "0o_600")], None);
    check("08", &[(0, Illegal, "0o"), (1, Int, "8")], Some((1, BadOctal)));
    check("089", &[(0, Illegal, "0o"), (1, Int, "89")], Some((1, BadOctal)));
    check("0129", &[(0, Illegal, "0o12"), (3, Int, "9")], Some((3, BadOctal)));
}

#[test]
fn a_misplaced_underscore_ends_either() {
    check("0_", &[(0, Illegal, "0o_")], Some((2, MisplacedUnderscore)));
    check("07_", &[(0, Illegal, "0o7_")], Some((3, MisplacedUnderscore)));
    check("0_8", &[(0, Illegal, "0o_"), (2, Int, "8")], Some((2, MisplacedUnderscore)));
    check("0_9", &[(0, Illegal, "0o_"), (2, Int, "9")], Some((2, MisplacedUnderscore)));
    check("0__7", &[(0, Illegal, "0o_"), (2, Ident, "_7")], Some((2, MisplacedUnderscore)));
    let error = Some((2, MisplacedUnderscore));
    check("0__7.5", &[(0, Illegal, "0_"), (2, Ident, "_7"), (4, Float, ".5")], error);
    check("0_.5", &[(0, Illegal, "0_"), (2, Float, ".5")], error);
    check("0_i", &[(0, Illegal, "0_"), (2, Ident, "i")], error);
    check("0_e1", &[(0, Illegal, "0_"), (2, Ident, "e1")], error);
    check("07_.5", &[(0, Illegal, "07_"), (3, Float, ".5")], Some((3, MisplacedUnderscore)));
}

#[test]
fn no_digit_or_underscore_after_the_0() {
    for text in ["0e5", "0.5"] {
        check(text, &[(0, Float, text)], None);
    }
    check("0i", &[(0, Imag, "0i")], None);
    check("0x_1", &[(0, Int, "0x_1")], None);
}

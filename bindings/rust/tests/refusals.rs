//! What is refused, and how it says so.

use cifgwezam::{Refusal, Scanner};

fn opening(source: &[u8]) -> Option<Refusal> {
    Scanner::new(source).err()
}

#[test]
fn bytes_that_are_not_utf8() {
    assert_eq!(opening(b"\x80"), Some(Refusal::NotUtf8 { place: 0 }));
    assert_eq!(opening(b"a\xff"), Some(Refusal::NotUtf8 { place: 1 }));
    assert_eq!(opening(b"ab\xe2\x82"), Some(Refusal::NotUtf8 { place: 2 }));
    assert_eq!(opening(b"\xed\xa0\x80"), Some(Refusal::NotUtf8 { place: 0 }));
}

#[test]
fn sources_that_are_too_long() {
    let spaces = vec![b' '; Scanner::MAX_SOURCE + 1];
    assert_eq!(opening(&spaces), Some(Refusal::TooLong));
    assert_eq!(opening(&spaces[1..]), None);
    assert_eq!(Scanner::with_size(&spaces, 0, spaces.len()).err(), Some(Refusal::TooLong));
}

#[test]
fn sizes() {
    let refusal = |source: &str, base, size| Scanner::with_size(source, base, size).err();
    assert_eq!(refusal("x", 0, 0), Some(Refusal::Size));
    assert_eq!(refusal("x", 0, 1), None);
    assert_eq!(refusal("é", 0, 1), None);
    assert_eq!(refusal("x", Scanner::MAX_POSITION - 1, 1), None);
    assert_eq!(refusal("x", Scanner::MAX_POSITION, 1), Some(Refusal::Size));
    assert_eq!(refusal("x", usize::MAX, usize::MAX), Some(Refusal::Size));
}

#[test]
fn positions_and_lines() {
    let scanner = Scanner::with_size("x", 5, 1).unwrap();
    assert_eq!(scanner.position(4), Err(Refusal::Position));
    assert_eq!(scanner.position(7), Err(Refusal::Position));
    assert_eq!(scanner.line_start(0), Err(Refusal::Line));
    assert_eq!(scanner.line_start(1), Ok(5));
    assert_eq!(scanner.line_start(2), Err(Refusal::Line));
}

#[test]
fn in_words() {
    let refusals = [Refusal::NotUtf8 { place: 1 }, Refusal::TooLong, Refusal::Size, Refusal::Position, Refusal::Line];
    for (refusal, number) in refusals.into_iter().zip(1..) {
        let message = refusal.to_string();
        assert_eq!(refusal.number(), number);
        assert!(message.starts_with(char::is_lowercase) && !message.ends_with('.'), "{message}");
    }
    let shown = Refusal::NotUtf8 { place: 1 }.to_string();
    assert_eq!(shown, "source is not UTF-8: see byte 1");
    let digits = |refusal: Refusal| refusal.to_string().replace(',', "");
    assert!(digits(Refusal::TooLong).contains(&Scanner::MAX_SOURCE.to_string()));
    assert!(digits(Refusal::Size).contains(&Scanner::MAX_POSITION.to_string()));
    let error: Box<dyn std::error::Error> = Box::new(Refusal::Line);
    assert_eq!(error.to_string(), "no such line was read");
}

//! Buffers that grow: no source is refused for want of room.

use cifgwezam::{ErrorKind, Scanner};

/// Scans to EOF and gives the scanner back.
fn read(source: &[u8]) -> Scanner<'_> {
    let mut scanner = Scanner::new(source).unwrap();
    scanner.tokens().for_each(drop);
    scanner
}

#[test]
fn the_table() {
    let source = "\n".repeat(100_000) + "x";
    let scanner = read(source.as_bytes());
    assert_eq!(scanner.line_count(), 100_001);
    assert_eq!(scanner.line_start(100_001), Ok(100_000));
    assert_eq!(scanner.line_start(777), Ok(776));
}

#[test]
fn the_list() {
    let source = "08 ".repeat(5_000);
    let scanner = read(source.as_bytes());
    assert_eq!((scanner.error_count(), scanner.errors().len()), (5_000, 5_000));
    assert!(scanner.errors().all(|error| error.kind == ErrorKind::BadOctal));
    assert_eq!(scanner.errors().next_back().unwrap().position.offset, 4_999 * 3 + 1);
}

#[test]
fn the_area() {
    let source = format!("`{}`", "a\r\n".repeat(100_000));
    let token = Scanner::new(&source).unwrap().scan();
    let value = "a\n".repeat(100_000);
    assert_eq!(*token.value, *value.as_bytes());
    assert_eq!(token.text, format!("`{value}`"));
}

#[test]
fn the_longest_source() {
    let mut source = b"//".to_vec();
    source.resize(Scanner::MAX_SOURCE, b'c');
    let token = Scanner::new(&source).unwrap().scan();
    assert_eq!((token.text.len(), token.range), (Scanner::MAX_SOURCE + 1, 0..Scanner::MAX_SOURCE));
    assert!(token.text.ends_with('\n'));
    let source = vec![b'\n'; Scanner::MAX_SOURCE];
    assert_eq!(read(&source).line_count(), Scanner::MAX_SOURCE);
}

/// The least sources that need a buffer larger than the first one.
#[test]
fn every_small_length() {
    for length in 0..600 {
        let source = "\n0'".repeat(length);
        let scanner = read(source.as_bytes());
        assert_eq!(scanner.error_count(), length);
        assert_eq!(scanner.line_count(), length.max(1) + usize::from(length > 0));
    }
}

/// A line start after each LF, the last one at the end: all that a table can be asked for.
#[test]
fn a_start_after_each_line_feed() {
    for length in 0..100 {
        let source = "\n".repeat(length);
        let mut scanner = Scanner::with_size(&source, 0, length + 1).unwrap();
        scanner.tokens().for_each(drop);
        assert_eq!(scanner.line_count(), length + 1);
    }
}

/// Lines and columns take no search from the first line: that would take minutes here.
#[test]
fn many_lines_take_little_time() {
    let source = "x\n".repeat(200_000);
    let start = std::time::Instant::now();
    let mut scanner = Scanner::new(&source).unwrap();
    let last = scanner.tokens().last().unwrap();
    assert_eq!((last.position.line, last.position.column), (200_000, 2));
    for pos in (0..scanner.size()).step_by(7) {
        assert_eq!(scanner.position(pos).unwrap().line, pos / 2 + 1);
    }
    assert!(start.elapsed().as_secs() < 20, "{:?}", start.elapsed());
}

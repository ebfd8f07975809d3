//! Bases, sizes, positions and lines.

use cifgwezam::{Kind, Position, Scanner};

#[test]
fn at_a_base() {
    let mut scanner = Scanner::with_size("x\ny'", 1_000, 10).unwrap();
    let positions: Vec<_> = scanner.tokens().map(|token| token.pos).collect();
    assert_eq!(positions, [1_000, 1_001, 1_002, 1_003, 1_004]);
    assert_eq!((scanner.base(), scanner.size(), scanner.char_count()), (1_000, 10, 4));
    assert_eq!(scanner.position(1_003), Ok(Position { offset: 3, line: 2, column: 2 }));
    assert_eq!(scanner.position(1_010).map(|at| at.to_string()).as_deref(), Ok("2:9"));
    assert_eq!(scanner.line_start(2), Ok(1_002));
    assert_eq!(scanner.errors().next().map(|error| error.position.offset), Some(4));
}

#[test]
fn the_size_is_the_number_of_characters() {
    for (source, chars) in [("", 0), ("x", 1), ("/*é*/", 5), ("/*€*/", 5), ("/*😀*/é", 6)] {
        assert_eq!(Scanner::new(source).unwrap().size(), chars);
    }
    let scanner = Scanner::new("/*éé*/").unwrap();
    assert_eq!((scanner.base(), scanner.size(), scanner.char_count()), (0, 6, 6));
    assert_eq!(scanner.source(), "/*éé*/");
}

#[test]
fn sources_of_several_types() {
    let text = String::from("lane");
    let bytes = text.clone().into_bytes();
    let scanners = [
        Scanner::new("lane"),
        Scanner::new(b"lane"),
        Scanner::new(&text),
        Scanner::new(&bytes),
        Scanner::new(&bytes[..]),
    ];
    for scanner in scanners {
        assert_eq!(scanner.unwrap().scan().text, "lane");
    }
}

#[test]
fn eof_stays() {
    let mut scanner = Scanner::new("a").unwrap();
    assert_eq!(scanner.tokens().count(), 2);
    for _ in 0..3 {
        let token = scanner.scan();
        assert_eq!((token.kind, token.pos), (Kind::Eof, 1));
    }
    assert_eq!(scanner.tokens().count(), 0);
}

#[test]
fn a_clone_goes_its_own_way() {
    let mut one = Scanner::new("a b").unwrap();
    let mut two = one.clone();
    assert_eq!(one.scan(), two.scan());
    assert_eq!(one.tokens().count(), 2);
    assert_eq!(two.scan().pos, 2);
}

/// Debugging shows how far a scanner is, and a lent token as the token that it is.
#[test]
fn debugging() {
    let mut scanner = Scanner::new("a\nb").unwrap();
    scanner.tokens().nth(2);
    let shown = format!("{scanner:?}");
    assert_eq!(shown, "Scanner { source: 3 bytes, base: 0, size: 3, place: 3, line_count: 2, error_count: 0, .. }");
    let mut again = scanner.clone();
    let lent = scanner.batch().next().map(|lent| format!("{lent:?}"));
    assert_eq!(lent, Some(format!("{:?}", again.scan())));
}

/// A scanner and its tokens can be sent to another thread, and be shared.
#[test]
fn threads() {
    fn check<T: Send + Sync>(value: T) -> T {
        value
    }
    let mut scanner = check(Scanner::new("a b").unwrap());
    let tokens = std::thread::scope(|scope| scope.spawn(|| check(scanner.tokens()).collect::<Vec<_>>()).join());
    assert_eq!(check(tokens.unwrap()).len(), 3);
}

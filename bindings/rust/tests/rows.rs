//! Listings of small texts, those of the proved table among them.

mod common;

use cifgwezam::{Kind, Scanner, Token};

fn hex(bytes: &[u8]) -> String {
    if bytes.is_empty() {
        return "-".to_string();
    }
    bytes.iter().map(|byte| format!("{byte:02x}")).collect()
}

/// Offset, line, column, kind and text, then the value of a string or a character. The text of a semicolon that is in
/// the source is listed, too.
fn line(token: &Token) -> String {
    let at = token.position;
    let written = token.kind == Kind::Semicolon && !token.inserted;
    let text = hex(if written { b";" } else { token.text.as_bytes() });
    let mut line = format!("{} {} {} {} {text}", at.offset, at.line, at.column, token.kind.number());
    if token.kind == Kind::String {
        line += &format!(" {}", hex(&token.value));
    }
    if let Some(code) = token.code {
        line += &format!(" {:x}", code as u32);
    }
    line
}

/// A line for each token up to EOF, for each error, and for the line count.
fn listing(mut scanner: Scanner) -> String {
    let mut lines: Vec<_> = common::scanned(&mut scanner).iter().map(line).collect();
    for error in scanner.errors() {
        let at = error.position;
        lines.push(format!("E {} {} {} {}", at.offset, at.line, at.column, error.kind.number()));
    }
    lines.push(format!("L {}", scanner.line_count()));
    lines.join(" | ")
}

fn check(text: &str, expected: &str) {
    assert_eq!(listing(Scanner::new(text).expect(text)), expected, "{text:?}");
}

#[test]
fn the_listing_of_the_scope() {
    check("x:=017\n", "0 1 1 4 78 | 1 1 2 45 - | 3 1 4 5 306f3137 | 6 1 7 55 - | 7 1 8 2 - | L 1");
}

#[test]
fn the_ten_rows() {
    check("", "0 1 1 2 - | L 1");
    check("x", "0 1 1 4 78 | 1 1 2 55 - | 1 1 2 2 - | L 1");
    check("08", "0 1 1 1 306f | 1 1 2 5 38 | 2 1 3 55 - | 2 1 3 2 - | E 1 1 2 2 | L 1");
    check("0X1F", "0 1 1 5 30783146 | 4 1 5 55 - | 4 1 5 2 - | L 1");
    check("''", "0 1 1 1 2727 | 2 1 3 55 - | 2 1 3 2 - | E 2 1 3 13 | L 1");
    check("'ab'", "0 1 1 1 27616227 | 4 1 5 55 - | 4 1 5 2 - | E 4 1 5 13 | L 1");
    check(r#""\400""#, "0 1 1 1 225c343030 | 5 1 6 1 22 | 6 1 7 55 - | 6 1 7 2 - | E 5 1 6 12 | E 6 1 7 8 | L 1");
    check("x /* c */ r\n", "0 1 1 4 78 | 2 1 3 3 2f2a2063202a2f | 10 1 11 4 72 | 11 1 12 55 - | 12 1 13 2 - | L 1");
    check("1__0", "0 1 1 1 315f | 2 1 3 4 5f30 | 4 1 5 55 - | 4 1 5 2 - | E 2 1 3 4 | L 1");
    check("`\n", "0 1 1 9 600a 0a | 2 1 3 55 - | 2 1 3 2 - | E 2 1 3 6 | L 1");
}

#[test]
fn the_tenth_row_in_a_larger_size() {
    let scanner = Scanner::with_size("`\n", 0, 3).unwrap();
    let expected = "0 1 1 9 600a 0a | 2 2 1 55 - | 2 2 1 2 - | E 2 2 1 6 | L 2";
    assert_eq!(listing(scanner), expected);
}

#[test]
fn characters_count_and_not_bytes() {
    check("/*é*/x", "0 1 1 3 2f2ac3a92a2f | 5 1 6 4 78 | 6 1 7 55 - | 6 1 7 2 - | L 1");
    check("'é'", "0 1 1 8 27c3a927 e9 | 3 1 4 55 - | 3 1 4 2 - | L 1");
}

#[test]
fn values_and_semicolons() {
    check(r#""\x80""#, "0 1 1 9 225c78383022 80 | 6 1 7 55 - | 6 1 7 2 - | L 1");
    check(r"'\xff'", "0 1 1 8 275c78666627 ff | 6 1 7 55 - | 6 1 7 2 - | L 1");
    check(r"'\000'", "0 1 1 8 275c30303027 0 | 6 1 7 55 - | 6 1 7 2 - | L 1");
    check("x;", "0 1 1 4 78 | 1 1 2 55 3b | 2 1 3 2 - | L 1");
}

//! What the README says that its first example prints.

use cifgwezam::Scanner;

#[test]
fn the_quick_start() {
    let readme = include_str!("../README.md");
    let (_, rest) = readme.split_once("```text\n").unwrap();
    let (printed, _) = rest.split_once("```").unwrap();

    let mut scanner = Scanner::new("quota := 017 // reads\nlane = '").unwrap();
    let tokens = scanner.tokens().map(|token| format!("{}: {} {:?}\n", token.position, token.kind, token.text));
    let mut lines: String = tokens.collect();
    lines.extend(scanner.errors().map(|error| format!("{error}\n")));
    assert_eq!(lines, printed);
}

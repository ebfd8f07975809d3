//! Runs the original scanner, whose files are taken as they are from where oracle/build found them.

#[path = "../target/oracle/original/errors.rs"]
mod errors;
#[path = "../target/oracle/original/position.rs"]
mod position;
#[path = "../target/oracle/original/scanner.rs"]
mod scanner;
#[path = "../target/oracle/original/token.rs"]
mod token;

use crate::listing::{End, Listing, Row};
use errors::{Error, ErrorList};
use position::{File, FileSet, Pos};
use scanner::Scanner;
use std::panic::{self, AssertUnwindSafe};
use token::Token;

// The kinds in the order of Token; a kind's number is its place.
macro_rules! kinds {
    ($($name:ident)*) => {
        #[allow(non_camel_case_types, clippy::upper_case_acronyms)]
        enum Kind { $($name),* }

        fn kind(t: &Token) -> u8 {
            match t {
                $(Token::$name { .. } => Kind::$name as u8),*
            }
        }
    };
}

kinds! {
    NONE ILLEGAL EOF COMMENT IDENT INT FLOAT IMAG CHAR STRING
    ADD SUB MUL QUO REM AND OR XOR SHL SHR AND_NOT
    ADD_ASSIGN SUB_ASSIGN MUL_ASSIGN QUO_ASSIGN REM_ASSIGN
    AND_ASSIGN OR_ASSIGN XOR_ASSIGN SHL_ASSIGN SHR_ASSIGN AND_NOT_ASSIGN
    LAND LOR ARROW INC DEC EQL LSS GTR ASSIGN NOT NEQ LEQ GEQ DEFINE ELLIPSIS
    LPAREN LBRACK LBRACE COMMA PERIOD RPAREN RBRACK RBRACE SEMICOLON COLON
    BREAK CASE CHAN CONST CONTINUE DEFAULT DEFER ELSE FALLTHROUGH FOR
    FUNC GO GOTO IF IMPORT INTERFACE MAP PACKAGE RANGE RETURN
    SELECT STRUCT SWITCH TYPE VAR
}

// The number of an error, by the first of these words that its message has.
const ERRORS: [(&str, usize); 12] = [
    ("binary", 1),
    ("octal", 2),
    ("hexadecimal", 3),
    ("digits", 4),
    ("exponent", 5),
    ("raw", 6),
    ("comment", 7),
    ("literal", 8),
    ("unknown", 9),
    ("character", 11),
    ("Unicode", 12),
    ("escape", 10),
];

fn error_number(e: &Error) -> usize {
    match ERRORS.iter().find(|(word, _)| e.msg.contains(word)) {
        Some((_, number)) => *number,
        None => fail("an error without a number"),
    }
}

// Our own faults are printed and end the program. The original's panics are caught and silent.
fn fail(what: &str) -> ! {
    eprintln!("oracle: {what}");
    std::process::exit(1)
}

/// From now on a panic in the original's files is silent; any other is printed and ends the
/// program.
pub fn catch_panics() {
    panic::set_hook(Box::new(|info| {
        let theirs = info.location().is_some_and(|place| place.file().contains("target/oracle/original/"));
        if !theirs {
            fail(&info.to_string());
        }
    }));
}

// Nothing if the original panicked.
fn caught<T>(call: impl FnOnce() -> T) -> Option<T> {
    panic::catch_unwind(AssertUnwindSafe(call)).ok()
}

// The line and column are asked right after the token's scan. At the end of the run they would be
// the same: a line start that comes later is above the token's offset.
fn put_token(out: &mut Listing, file: &File, t: &Token, pos: Pos) {
    let at = file.position(pos);
    let mut row = Row { offset: at.offset, line: at.line, column: at.column, kind: kind(t), ..Row::default() };
    match t {
        Token::ILLEGAL(d) | Token::COMMENT(d) | Token::IDENT(d) => out.push(row, d.as_str().as_bytes(), b""),
        Token::INT(d) | Token::FLOAT(d) | Token::IMAG(d) => out.push(row, d.as_str().as_bytes(), b""),
        Token::STRING(d) => out.push(row, d.as_str_str().0.as_bytes(), d.as_str_str().1.as_bytes()),
        Token::CHAR(d) => {
            row.code = *d.as_str_char().1 as u32;
            out.push(row, d.as_str_char().0.as_bytes(), b"");
        }
        Token::SEMICOLON(d) if *d.as_bool() => out.push(row, b";", b""),
        Token::SEMICOLON(_) => out.push(Row { inserted: true, ..row }, b"", b""),
        _ => out.push(row, b"", b""),
    }
}

// Lists the tokens to the first EOF. False if none came: n characters give 2n tokens at most before
// it.
fn put_tokens(out: &mut Listing, scanner: &mut Scanner, n: usize) -> bool {
    for _ in 0..2 * n + 2 {
        let (t, pos) = scanner.scan();
        put_token(out, scanner.file(), &t, pos);
        if t == Token::EOF {
            return true;
        }
    }
    false
}

// The line starts less the base. The original panics when it is asked for the last one, but tells
// the last column, and no start is above the size.
fn put_starts(out: &mut Listing, file: &File) {
    let lines = file.line_count();
    out.starts.extend((1..lines).map(|line| file.line_start(line) - file.base()));
    let last = file.position(file.base() + file.size());
    out.starts.push(last.offset + 1 - last.column);
}

/// The original's listing of a text. Offsets are less the base.
pub fn list(source: &str, base: usize, size: usize, out: &mut Listing) {
    out.clear();
    let mut files = FileSet::new();
    let file = files.add_file(String::new(), Some(base), size);
    let errors = ErrorList::new();
    let n = source.chars().count();
    out.end = match caught(|| put_tokens(out, &mut Scanner::new(file, source, &errors), n)) {
        Some(true) => End::Whole,
        Some(false) => End::Endless,
        None => End::Panic,
    };
    let listed = |e: &Error| [e.pos.offset, e.pos.line, e.pos.column, error_number(e)];
    out.errors.extend(errors.borrow().iter().map(listed));
    put_starts(out, file);
}

/// What the original answers for each question about a text that it has scanned; nothing for a
/// panic.
pub struct Answers {
    /// For the lines 0 to the line count and one more.
    pub line_starts: Vec<Option<usize>>,
    /// Offset, line and column for each of the positions.
    pub positions: Vec<Option<[usize; 3]>>,
}

/// Scans a text to its first EOF, then asks for lines and for positions.
pub fn ask(source: &str, base: usize, size: usize, positions: &[usize]) -> Option<Answers> {
    let mut files = FileSet::new();
    let file = files.add_file(String::new(), Some(base), size);
    let errors = ErrorList::new();
    caught(|| {
        let mut scanner = Scanner::new(file, source, &errors);
        while scanner.scan().0 != Token::EOF {}
    })?;
    let place = |p: &usize| caught(|| file.position(*p)).map(|at| [at.offset, at.line, at.column]);
    Some(Answers {
        line_starts: (0..=file.line_count() + 1).map(|line| caught(|| file.line_start(line))).collect(),
        positions: positions.iter().map(place).collect(),
    })
}

//! Runs our scanner: the proved library, through its Rust crate.

use crate::listing::{End, Listing, Row};
use cifgwezam::{Kind, Refusal, Scanner, Token};

/// Our listing of a source. Offsets are less the base.
pub fn list(source: &[u8], base: usize, size: usize, out: &mut Listing) {
    out.clear();
    match run(source, base, size, out) {
        Ok(true) => {}
        Ok(false) => out.end = End::Endless,
        Err(refusal) => out.end = refused(refusal),
    }
}

/// Whether opening a source is refused by a number.
pub fn is_refused(source: &[u8], base: usize, size: usize, number: u8) -> bool {
    Scanner::with_size(source, base, size).is_err_and(|refusal| refusal.number() == number)
}

fn refused(refusal: Refusal) -> End {
    let place = if let Refusal::NotUtf8 { place } = refusal { place } else { 0 };
    End::Refused { number: refusal.number(), place }
}

// False if no EOF came. All three ways to scan are taken: batches for a source of an even number of bytes, the iterator
// where a division by 4 leaves 3, and else token by token.
fn run(source: &[u8], base: usize, size: usize, out: &mut Listing) -> Result<bool, Refusal> {
    let mut scanner = Scanner::with_size(source, base, size)?;
    let most = 2 * scanner.char_count() + 2;
    let whole = match source.len() % 4 {
        0 | 2 => put_batches(&mut scanner, most, out)?,
        3 => put_tokens(&mut scanner, most, out)?,
        _ => put_scans(&mut scanner, most, out)?,
    };
    if !whole {
        return Ok(false);
    }
    for e in scanner.errors() {
        out.errors.push([e.position.offset, e.position.line, e.position.column, usize::from(e.kind.number())]);
    }
    for line in 1..=scanner.line_count() {
        out.starts.push(scanner.line_start(line)?.wrapping_sub(base));
    }
    Ok(true)
}

// Each of the three tells whether EOF came, in so many calls at most.
fn put_batches(scanner: &mut Scanner, most: usize, out: &mut Listing) -> Result<bool, Refusal> {
    for _ in 0..most {
        let batch = scanner.batch();
        let asked = batch.scanner();
        for lent in batch {
            put(asked, &lent.keep(), out)?;
            if lent.kind() == Kind::Eof {
                return Ok(true);
            }
        }
    }
    Ok(false)
}

// The iterator borrows the scanner, which can be asked only after that; so the tokens are kept first.
fn put_tokens(scanner: &mut Scanner, most: usize, out: &mut Listing) -> Result<bool, Refusal> {
    let mut tokens: Vec<_> = scanner.tokens().take(most).collect();
    tokens.push(scanner.scan());
    for token in &tokens {
        put(scanner, token, out)?;
    }
    Ok(tokens.last().is_some_and(|token| token.kind == Kind::Eof))
}

fn put_scans(scanner: &mut Scanner, most: usize, out: &mut Listing) -> Result<bool, Refusal> {
    for _ in 0..most {
        let token = scanner.scan();
        put(scanner, &token, out)?;
        if token.kind == Kind::Eof {
            return Ok(true);
        }
    }
    Ok(false)
}

fn put(scanner: &Scanner, token: &Token, out: &mut Listing) -> Result<(), Refusal> {
    let at = token.position;
    let row = Row {
        // by the token itself; the position's own offset is checked below
        offset: token.pos.wrapping_sub(scanner.base()),
        line: at.line,
        column: at.column,
        kind: token.kind.number(),
        inserted: token.inserted,
        code: token.code.map_or(0, u32::from),
        ..Row::default()
    };
    assert_eq!(row.offset, at.offset, "a position's offset");
    assert_eq!(scanner.position(token.pos)?, at, "a position that is asked for");
    let written = token.kind == Kind::Semicolon && !row.inserted;
    let text = token.text.as_bytes();
    out.push(row, if written && text.is_empty() { b";" } else { text }, &token.value);
    Ok(())
}

/// What ours answers to a question; the number of the refusal if there is none.
pub struct Answers {
    /// For the lines 0 to the line count and one more.
    pub line_starts: Vec<Result<usize, u8>>,
    /// Offset, line and column for each of the positions.
    pub positions: Vec<Result<[usize; 3], u8>>,
}

/// Scans a source to its first EOF, then asks for lines and for positions.
pub fn ask(source: &[u8], base: usize, size: usize, positions: &[usize]) -> Result<Answers, Refusal> {
    let mut scanner = Scanner::with_size(source, base, size)?;
    scanner.tokens().for_each(drop);
    let place = |pos: &usize| match scanner.position(*pos) {
        Ok(at) => Ok([at.offset, at.line, at.column]),
        Err(refusal) => Err(refusal.number()),
    };
    let start = |line| scanner.line_start(line).map_err(Refusal::number);
    Ok(Answers {
        line_starts: (0..=scanner.line_count() + 1).map(start).collect(),
        positions: positions.iter().map(place).collect(),
    })
}

//! Nanoseconds a token, by each of the three ways to scan. The quickest of many passes counts; a pass opens the file anew
//! and scans it to EOF.
//!
//!     cargo run --release --example speed -- FILE..

use cifgwezam::{Kind, Refusal, Scanner};
use std::hint::black_box;
use std::time::Instant;

const PASSES: usize = 300;

/// What a pass saw: its tokens but EOF, and a sum over them, so that nothing is left out as unused.
type Seen = (usize, usize);
type Pass = fn(&[u8]) -> Result<Seen, Refusal>;

fn by_scan(source: &[u8]) -> Result<Seen, Refusal> {
    let mut scanner = Scanner::new(source)?;
    let mut seen = (0, 0);
    loop {
        let token = scanner.scan();
        if token.kind == Kind::Eof {
            return Ok(seen);
        }
        seen = (seen.0 + 1, seen.1 + token.pos + token.text.len());
    }
}

fn by_tokens(source: &[u8]) -> Result<Seen, Refusal> {
    let mut scanner = Scanner::new(source)?;
    let mut seen = (0, 0);
    for token in scanner.tokens() {
        seen = (seen.0 + 1, seen.1 + token.pos + token.text.len());
    }
    Ok(seen)
}

fn by_batch(source: &[u8]) -> Result<Seen, Refusal> {
    let mut scanner = Scanner::new(source)?;
    let mut seen = (0, 0);
    loop {
        for token in scanner.batch() {
            if token.kind() == Kind::Eof {
                return Ok(seen);
            }
            seen = (seen.0 + 1, seen.1 + token.pos() + token.text().len());
        }
    }
}

/// What a pass saw, and the nanoseconds a token that the quickest one took.
fn best(source: &[u8], pass: Pass) -> Result<(Seen, f64), Refusal> {
    let mut least = f64::INFINITY;
    let mut seen = (0, 0);
    for _ in 0..PASSES {
        let start = Instant::now();
        seen = black_box(pass(black_box(source))?);
        least = least.min(start.elapsed().as_nanos() as f64);
    }
    Ok((seen, least / (seen.0 + 1) as f64))
}

fn main() -> Result<(), Box<dyn std::error::Error>> {
    for file in std::env::args().skip(1) {
        let source = std::fs::read(&file)?;
        let (seen, scan) = best(&source, by_scan)?;
        let (second, tokens) = best(&source, by_tokens)?;
        let (third, batch) = best(&source, by_batch)?;
        assert_eq!((seen, seen), (second, third));
        println!("{file}: {} tokens; scan {scan:.1} ns, tokens {tokens:.1} ns, batch {batch:.1} ns a token", seen.0);
    }
    Ok(())
}

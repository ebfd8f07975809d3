//! Passes that the benchmarks time: a source is opened and scanned to EOF by our scanner, in each of the ways that it
//! can be called. A pass gives the number of tokens, EOF among them; 0 if the source was refused.

use cifgwezam::{Kind, Scanner, Token};
use std::hint::black_box;

/// The number of tokens of a source.
pub type Pass = fn(&str) -> usize;

/// A pass in C; the sum is over positions and texts.
type CPass = unsafe extern "C" fn(*const u8, usize, *mut usize) -> usize;

extern "C" {
    /// bench/pass.c.
    fn pass(src: *const u8, len: usize, sum: *mut usize) -> usize;
    fn pass_by_one(src: *const u8, len: usize, sum: *mut usize) -> usize;
    fn pass_by_struct(src: *const u8, len: usize, sum: *mut usize) -> usize;
    fn thread_time() -> f64;
}

/// The time that this thread has run, in nanoseconds.
pub fn now() -> f64 {
    // SAFETY: it reads a clock.
    unsafe { thread_time() }
}

/// The nanoseconds of a pass, and what it gave.
pub fn timed(pass: Pass, source: &str) -> (f64, usize) {
    let start = now();
    let tokens = black_box(pass(black_box(source)));
    (now() - start, tokens)
}

fn call(pass: CPass, source: &str) -> usize {
    let mut sum = 0;
    // SAFETY: pointer and length are those of a slice, and the sum is a number of our own.
    let tokens = unsafe { pass(source.as_ptr(), source.len(), &mut sum) };
    black_box(sum);
    tokens
}

/// In C, up to 256 tokens in one call.
pub fn c_batches(source: &str) -> usize {
    call(pass, source)
}

/// In C, one token in a call.
pub fn c_by_one(source: &str) -> usize {
    call(pass_by_one, source)
}

/// In C, by `struct scanner`.
pub fn c_by_struct(source: &str) -> usize {
    call(pass_by_struct, source)
}

/// In Rust, by `batch`.
pub fn rust_batches(source: &str) -> usize {
    let Ok(mut scanner) = Scanner::new(source) else { return 0 };
    let (mut tokens, mut sum) = (0, 0);
    let mut last = Kind::None;
    while last != Kind::Eof {
        for token in scanner.batch() {
            tokens += 1;
            sum += token.pos() + token.text().len();
            last = token.kind();
        }
    }
    black_box(sum);
    tokens
}

/// What a pass reads of a token that carries its line and column.
fn seen(token: &Token) -> usize {
    token.pos + token.position.line + token.position.column + token.text.len()
}

/// In Rust, by `tokens`.
pub fn rust_tokens(source: &str) -> usize {
    let Ok(mut scanner) = Scanner::new(source) else { return 0 };
    let (mut tokens, mut sum) = (1, 0);
    for token in scanner.tokens() {
        tokens += 1;
        sum += seen(&token);
    }
    black_box(sum);
    tokens
}

/// In Rust, by `scan`.
pub fn rust_scan(source: &str) -> usize {
    let Ok(mut scanner) = Scanner::new(source) else { return 0 };
    let (mut tokens, mut sum) = (0, 0);
    loop {
        let token = scanner.scan();
        tokens += 1;
        sum += seen(&token);
        if token.kind == Kind::Eof {
            black_box(sum);
            return tokens;
        }
    }
}

//! Does the cost grow as the source does? Nanoseconds a byte of opening a source and scanning it to EOF, for sources of
//! 64 KB to 1 MB of several shapes. Status 1: a shape that ought to grow in proportion does not.

mod passes;

use cifgwezam::{Kind, Scanner};
use passes::{c_batches, now, timed, Pass};
use std::hint::black_box;
use std::io::Write;
use std::process::ExitCode;

const SIZES: [usize; 5] = [65_536, 131_072, 262_144, 524_288, 1_048_576];
const ROUNDS: usize = 40;
const TRIES: usize = 3;
/// The time after which a shape is given no further rounds, in nanoseconds.
const ENOUGH: f64 = 3e9;

/// A source is the head, then the unit again and again, then the tail.
struct Shape {
    name: &'static str,
    head: &'static str,
    unit: &'static str,
    tail: &'static str,
    pass: Pass,
}

const fn shape(name: &'static str, head: &'static str, unit: &'static str, tail: &'static str) -> Shape {
    Shape { name, head, unit, tail, pass: c_batches }
}

/// Many short lines, through the Rust crate.
const fn lines(name: &'static str, pass: Pass) -> Shape {
    Shape { pass, ..shape(name, "", "x\n", "") }
}

const SHAPES: [Shape; 18] = [
    shape("one long line: `x + x + ..`", "", "x + ", "x"),
    shape("one word", "", "lane", ""),
    shape("LFs alone", "", "\n", ""),
    shape("a short line again and again: `x` LF", "", "x\n", ""),
    shape("comments in a row, mark set: `x /**/ /**/ ..`", "x", " /**/", ""),
    shape("one comment, mark set: `x /* .. */ y`", "x /*", " * /", "*/ y"),
    shape("a raw string of CRs", "`", "\r", "`"),
    shape("a raw string with CR LF", "`", "quota\r\n", "`"),
    shape("a string of escapes", "\"", "\\n", "\""),
    shape("octal numbers: `0644 0644 ..`", "", "0644 ", ""),
    shape("one octal number: `0777..`", "0", "7", ""),
    shape("one decimal number: `0777...5`", "0", "7", ".5"),
    shape("errors on one line: `08 08 ..`", "", "08 ", ""),
    shape("an error on each line of 16 bytes", "", "quota[x] = 08 +\n", ""),
    shape("an error on each line of 2 bytes: `#` LF", "", "#\n", ""),
    lines("Rust, `x` LF: `tokens`, line and column of each token", line_and_column),
    lines("Rust, `x` LF: `scan`, `position` asked for each token", position_asked),
    lines("Rust, `x` LF: `batch`, `position` asked for each token", position_lent),
];

/// In Rust, by `tokens`: the line and column of every token.
fn line_and_column(source: &str) -> usize {
    let Ok(mut scanner) = Scanner::new(source) else { return 0 };
    let (mut tokens, mut sum) = (1, 0);
    for token in scanner.tokens() {
        tokens += 1;
        sum += token.position.line + token.position.column;
    }
    black_box(sum);
    tokens
}

/// In Rust, by `scan`: the scanner is asked for the line and column of every token.
fn position_asked(source: &str) -> usize {
    let Ok(mut scanner) = Scanner::new(source) else { return 0 };
    let (mut tokens, mut sum) = (0, 0);
    loop {
        let token = scanner.scan();
        tokens += 1;
        sum += scanner.position(token.pos).map_or(0, |at| at.line + at.column);
        if token.kind == Kind::Eof {
            black_box(sum);
            return tokens;
        }
    }
}

/// In Rust, by `batch`: each lent token is asked for its line and column.
fn position_lent(source: &str) -> usize {
    let Ok(mut scanner) = Scanner::new(source) else { return 0 };
    let (mut tokens, mut sum) = (0, 0);
    let mut last = Kind::None;
    while last != Kind::Eof {
        for token in scanner.batch() {
            let at = token.position();
            tokens += 1;
            sum += at.line + at.column;
            last = token.kind();
        }
    }
    black_box(sum);
    tokens
}

impl Shape {
    /// A source of so many bytes; spaces fill what is left.
    fn make(&self, bytes: usize) -> String {
        let units = (bytes - self.head.len() - self.tail.len()) / self.unit.len();
        let mut source = [self.head, &self.unit.repeat(units), self.tail].concat();
        source.extend(std::iter::repeat(' ').take(bytes - source.len()));
        source
    }

    /// The best of many passes for each size, the sizes in turn; a slow shape is given fewer.
    fn measure(&self, best: &mut [f64; SIZES.len()]) {
        let sources = SIZES.map(|bytes| self.make(bytes));
        let start = now();
        for round in 0..ROUNDS {
            if round >= 2 && now() - start > ENOUGH {
                break;
            }
            for (best, source) in best.iter_mut().zip(&sources) {
                let (taken, tokens) = timed(self.pass, source);
                assert!(tokens > 0, "a source of {} bytes was refused", source.len());
                *best = best.min(taken);
            }
        }
    }

    /// Prints its row, measured anew where it does not look right; whether its cost grew in proportion.
    fn print_row(&self) -> bool {
        let mut best = [f64::INFINITY; SIZES.len()];
        let mut linear = false;
        for _ in 0..TRIES {
            self.measure(&mut best);
            linear = is_in_proportion(&best);
            if linear {
                break;
            }
        }
        let bytes: Vec<_> = best.iter().zip(SIZES).map(|(best, bytes)| format!("{:.2}", best / bytes as f64)).collect();
        let doublings: Vec<_> = best.windows(2).map(|two| format!("{:.2}", two[1] / two[0])).collect();
        let verdict = if linear { "yes" } else { "no" };
        println!("| {} | {} | {} | {verdict} |", self.name, bytes.join(" | "), doublings.join(", "));
        let _ = std::io::stdout().flush();
        linear
    }
}

/// Whether no doubling takes 2.6 times as long, and all four together 24 times.
fn is_in_proportion(best: &[f64; SIZES.len()]) -> bool {
    best.windows(2).all(|two| two[1] <= 2.6 * two[0]) && best[SIZES.len() - 1] <= 24.0 * best[0]
}

fn main() -> ExitCode {
    println!("Nanoseconds a byte of opening and scanning to EOF, the best of up to {ROUNDS} passes, through");
    println!("the C functions in batches of up to 256 tokens, or where it says so through the Rust crate:\n");
    println!("| source | 64 KB | 128 KB | 256 KB | 512 KB | 1 MB | time at each doubling | in proportion |");
    println!("|---|---|---|---|---|---|---|---|");
    let failed = SHAPES.iter().filter(|shape| !shape.print_row()).count();
    if failed > 0 {
        println!("\n{failed} shapes do not grow in proportion.");
        return ExitCode::FAILURE;
    }
    ExitCode::SUCCESS
}

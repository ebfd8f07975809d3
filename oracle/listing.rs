//! A listing: what a scan to the first EOF comes to, of the original or of ours.

use std::io::Write;

pub const ILLEGAL: u8 = 1;
pub const EOF: u8 = 2;
pub const COMMENT: u8 = 3;
pub const IDENT: u8 = 4;
pub const INT: u8 = 5;
pub const FLOAT: u8 = 6;
pub const IMAG: u8 = 7;
pub const CHAR: u8 = 8;
pub const STRING: u8 = 9;

/// A token. Its text and value are in the listing's bytes.
#[derive(Clone, Copy, Debug, Default, PartialEq, Eq)]
pub struct Row {
    pub offset: usize,
    pub line: usize,
    pub column: usize,
    pub kind: u8,
    pub inserted: bool,
    /// The code point of a CHAR, else 0.
    pub code: u32,
    /// Where they start and end among the bytes; written by `push`.
    pub text: (usize, usize),
    pub value: (usize, usize),
}

/// How a listing ends.
#[derive(Clone, Copy, Debug, Default, PartialEq, Eq)]
pub enum End {
    #[default]
    Whole,
    /// The original panicked.
    Panic,
    /// No EOF came, though n characters give 2n tokens at most before it.
    Endless,
    /// The bytes cannot be given to the original.
    NotUtf8,
    /// Ours refused, by this number; the place is that of refusal 1.
    Refused { number: u8, place: usize },
}

/// Tokens, errors (offset, line, column, number) and line starts.
#[derive(Clone, Debug, Default, PartialEq, Eq)]
pub struct Listing {
    bytes: Vec<u8>,
    pub rows: Vec<Row>,
    pub errors: Vec<[usize; 4]>,
    pub starts: Vec<usize>,
    pub end: End,
}

impl Listing {
    pub fn clear(&mut self) {
        self.bytes.clear();
        self.rows.clear();
        self.errors.clear();
        self.starts.clear();
        self.end = End::Whole;
    }

    /// Adds a token with its text and value. A semicolon's text is `;` if it is written, else none.
    pub fn push(&mut self, row: Row, text: &[u8], value: &[u8]) {
        let text = self.keep(text);
        let value = self.keep(value);
        self.rows.push(Row { text, value, ..row });
    }

    fn keep(&mut self, bytes: &[u8]) -> (usize, usize) {
        let start = self.bytes.len();
        self.bytes.extend_from_slice(bytes);
        (start, self.bytes.len())
    }

    pub fn text(&self, row: &Row) -> &[u8] {
        &self.bytes[row.text.0..row.text.1]
    }

    pub fn value(&self, row: &Row) -> &[u8] {
        &self.bytes[row.value.0..row.value.1]
    }

    /// The lines of the listing, as oracle/README.md has them.
    pub fn print(&self, out: &mut Vec<u8>) {
        for row in &self.rows {
            self.print_row(row, out);
        }
        if self.end == End::Whole {
            for [offset, line, column, number] in &self.errors {
                put(out, format_args!("E {offset} {line} {column} {number}\n"));
            }
        }
        match self.end {
            End::Whole => put(out, format_args!("L {}\n", self.starts.len())),
            End::Panic => out.extend(b"P\n"),
            End::Endless => out.extend(b"X\n"),
            End::NotUtf8 => out.extend(b"U\n"),
            End::Refused { number, .. } => put(out, format_args!("R {number}\n")),
        }
    }

    fn print_row(&self, row: &Row, out: &mut Vec<u8>) {
        put(out, format_args!("{} {} {} {} ", row.offset, row.line, row.column, row.kind));
        put_hex(out, self.text(row));
        match row.kind {
            CHAR => put(out, format_args!(" {:x}", row.code)),
            STRING => {
                out.push(b' ');
                put_hex(out, self.value(row));
            }
            _ => {}
        }
        out.push(b'\n');
    }
}

fn put(out: &mut Vec<u8>, what: std::fmt::Arguments) {
    out.write_fmt(what).expect("a vector takes what is written");
}

/// Bytes in hexadecimal, `-` for none.
pub fn put_hex(out: &mut Vec<u8>, bytes: &[u8]) {
    const DIGITS: &[u8; 16] = b"0123456789abcdef";
    if bytes.is_empty() {
        out.push(b'-');
    }
    for b in bytes {
        out.push(DIGITS[usize::from(b / 16)]);
        out.push(DIGITS[usize::from(b % 16)]);
    }
}

/// The bytes that hexadecimal digits, or `-`, say.
pub fn bytes_of(hex: &str) -> Option<Vec<u8>> {
    if hex == "-" {
        return Some(Vec::new());
    }
    let two = |at| u8::from_str_radix(hex.get(at..at + 2)?, 16).ok();
    (0..hex.len()).step_by(2).map(two).collect()
}

/// The size and the bytes of a line `I size bytes`; nothing if it is another line.
pub fn recorded_input(line: &str) -> Option<(usize, Vec<u8>)> {
    let (size, hex) = line.strip_prefix("I ")?.split_once(' ')?;
    Some((size.parse().ok()?, bytes_of(hex)?))
}

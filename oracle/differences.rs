//! The entries of docs/DIFFERENCES.md: what ours must answer where the original answers
//! differently.
//!
//! Where the original panics, or reads a text in a way that ours must not, it is asked again about
//! a text with a stand-in at that place. The stand-in has as many characters, and the original
//! reads it as ours must read the text itself. In its answer the stand-ins are then turned back.

use crate::listing::{End, Listing, Row, CHAR, COMMENT, FLOAT, IDENT, ILLEGAL, IMAG, INT, STRING};
use crate::original;
use crate::zeros::Zero;

macro_rules! entries {
    ($($entry:ident $name:literal,)*) => {
        /// An entry of docs/DIFFERENCES.md.
        #[derive(Clone, Copy, Debug, PartialEq, Eq)]
        pub enum Entry { $($entry),* }

        /// The headings of the entries.
        pub const NAMES: &[&str] = &[$($name),*];
    };
}

entries! {
    EmptyLiteral "An empty character literal",
    LongLiteral "A character literal of more than one character",
    OverRange "An escape over its range",
    UnknownToken "A character that starts no token",
    TwoDots "Two dots",
    ZeroDigit "A 0 before a digit, then `.`, e or i",
    ZeroUnderscore "A 0 before `_`",
    HexByte "A byte given by `\\x` in a string",
    OctalByte "A byte given in octal in a string",
    LetterR "The letter r after a comment",
    Cr "A CR after a comment",
    LastLine "The start of the last line",
    Letters "Letters above 127",
    Size "A size below the number of characters",
    Outside "Questions outside the file",
    Length "Limits of length",
    NotUtf8 "Bytes that are not UTF-8",
}

/// A set of entries.
#[derive(Clone, Copy, Debug, Default, PartialEq, Eq)]
pub struct Reasons(u32);

impl Reasons {
    pub fn of(entry: Entry) -> Reasons {
        Reasons(1 << entry as u32)
    }

    fn add(&mut self, entry: Entry) {
        self.0 |= 1 << entry as u32;
    }

    pub fn is_empty(self) -> bool {
        self.0 == 0
    }

    /// The places of its entries among the names.
    pub fn places(self) -> impl Iterator<Item = usize> {
        (0..NAMES.len()).filter(move |place| self.0 >> place & 1 == 1)
    }
}

/// The original, asked about a text with stand-ins.
struct Asked {
    /// The characters of the source, and with the stand-ins.
    source: Vec<char>,
    text: Vec<char>,
    size: usize,
    theirs: Listing,
    reasons: Reasons,
}

// The stand-ins: a character that is ILLEGAL in both, a raw string as long as an empty character
// literal, a blank, and a letter that is not r. A backquote is no escape, so what comes before it
// ends there as before `'`. A run after a comment holds no other letter than r, so that no keyword
// can arise. `Zero` has those for numbers.
const ODD: char = '#';
const QUOTE: char = '`';
const BLANK: char = ' ';
const LETTER: char = 'q';

// Errors that ours records where the original records none.
const MISPLACED_UNDERSCORE: usize = 4;
const NO_CODE_POINT: usize = 12;
const NOT_ONE_CHARACTER: usize = 13;
const UNKNOWN_TOKEN: usize = 14;

impl Asked {
    fn ask(&mut self) {
        let text: String = self.text.iter().collect();
        original::list(&text, 0, self.size, &mut self.theirs);
    }

    // Puts stand-ins for the letters above 127 of identifiers.
    fn replace_letters(&mut self) -> bool {
        let mut replaced = false;
        for row in self.theirs.rows.iter().filter(|row| has_letters(&self.theirs, row)) {
            let word = String::from_utf8_lossy(self.theirs.text(row));
            for (i, _) in word.chars().enumerate().filter(|(_, c)| !c.is_ascii()) {
                self.text[row.offset + i] = ODD;
            }
            self.reasons.add(Entry::Letters);
            replaced = true;
        }
        replaced
    }

    // Puts stand-ins for numbers that start with 0 and a digit or an underscore. It does so once in
    // each line, because the original may read the rest of such a number as further numbers.
    fn replace_zeros(&mut self) -> bool {
        let mut line = 0;
        for row in &self.theirs.rows {
            let Some(zero) = Zero::at(&self.source, row.offset) else { continue };
            let two = &mut self.text[row.offset..row.offset + 2];
            if row.line == line || *two != self.source[row.offset..row.offset + 2] {
                continue;
            }
            zero.put(two);
            self.reasons.add(if matches!(zero, Zero::Decimal) { Entry::ZeroDigit } else { Entry::ZeroUnderscore });
            line = row.line;
        }
        line > 0
    }

    // Puts a stand-in for the empty character literal at which the original panicked: where ours
    // has its next token.
    fn replace_empty(&mut self, ours: &Listing) -> bool {
        let read = self.theirs.rows.iter().filter(|row| !row.inserted).count();
        let Some(next) = ours.rows.iter().filter(|row| !row.inserted).nth(read) else { return false };
        let Some(literal) = self.text.get_mut(next.offset..next.offset + 2) else { return false };
        if literal != ['\'', '\''] {
            return false;
        }
        literal.fill(QUOTE);
        self.reasons.add(Entry::EmptyLiteral);
        true
    }

    // Puts a stand-in for a character, in every run of that character and blanks that reaches from
    // a comment to the end of its line.
    fn replace_after_comments(&mut self, odd: char, stand_in: char, entry: Entry) {
        let mut replaced = false;
        for row in self.theirs.rows.iter().filter(|row| is_general_comment(&self.theirs, row)) {
            let Some(run) = run_behind(&self.source, row.offset, odd) else { continue };
            for c in self.text[run].iter_mut().filter(|c| **c == odd) {
                *c = stand_in;
                replaced = true;
            }
        }
        if !replaced {
            return;
        }
        let before: Vec<_> = self.theirs.rows.iter().map(|row| (row.offset, row.kind)).collect();
        self.ask();
        if !self.theirs.rows.iter().map(|row| (row.offset, row.kind)).eq(before) {
            self.reasons.add(entry);
        }
    }

    // Asks again until there is nothing left to replace.
    fn replace_all(&mut self, ours: &Listing) -> Result<(), String> {
        loop {
            let panicked = self.theirs.end == End::Panic;
            if !self.replace_letters() && !self.replace_zeros() {
                if !panicked {
                    break;
                }
                if !self.replace_empty(ours) {
                    return Err("a panic of the original that no empty character literal of ours explains".into());
                }
            }
            self.ask();
        }
        self.replace_after_comments('r', LETTER, Entry::LetterR);
        self.replace_after_comments('\r', BLANK, Entry::Cr);
        Ok(())
    }

    // The text of the source where the token's text holds stand-ins.
    fn turned_back(&self, row: &Row) -> String {
        let length = String::from_utf8_lossy(self.theirs.text(row)).chars().count();
        self.source[row.offset..row.offset + length].iter().collect()
    }

    fn has_stand_in(&self, row: &Row) -> bool {
        let stands = self.text.get(row.offset) != self.source.get(row.offset);
        stands && matches!(row.kind, ILLEGAL | IDENT | STRING)
    }

    // Adds what ours must give for a number that a stand-in was put for.
    fn put_zero(&self, zero: Zero, row: Row, out: &mut Listing) {
        let text = zero.text(self.theirs.text(&row));
        match zero {
            Zero::Cut => put_illegal(row, &text, 2, MISPLACED_UNDERSCORE, out),
            _ => out.push(row, &text, b""),
        }
    }

    // Adds what ours must give for a token of theirs.
    fn put(&mut self, row: Row, out: &mut Listing) {
        if let Some(zero) = Zero::at(&self.source, row.offset) {
            return self.put_zero(zero, row, out);
        }
        if self.has_stand_in(&row) {
            let text = self.turned_back(&row);
            return match row.kind {
                STRING => put_illegal(row, text.as_bytes(), 2, NOT_ONE_CHARACTER, out),
                ILLEGAL => self.put_with_error(row, &text, out),
                _ => out.push(row, text.as_bytes(), b""),
            };
        }
        let text = self.theirs.text(&row);
        if row.kind == ILLEGAL {
            let text = String::from_utf8_lossy(text).into_owned();
            return self.put_with_error(row, &text, out);
        }
        let quoted = matches!(row.kind, CHAR | STRING) && text[0] != b'`' && text.len() > 3;
        let Some(body) = quoted.then(|| Body::of(text)).flatten() else {
            return out.push(row, text, self.theirs.value(&row));
        };
        if row.kind == CHAR && body.characters > 1 {
            self.reasons.add(Entry::LongLiteral);
            let read = String::from_utf8_lossy(text).chars().count();
            put_illegal(row, text, read, NOT_ONE_CHARACTER, out);
        } else if row.kind == STRING && (body.hex || body.octal) {
            out.push(row, text, &body.value);
            self.reasons.0 |= u32::from(body.hex) << Entry::HexByte as u32;
            self.reasons.0 |= u32::from(body.octal) << Entry::OctalByte as u32;
        } else {
            out.push(row, text, self.theirs.value(&row));
        }
    }

    // Adds an ILLEGAL of theirs, and the error that the original does not record for it.
    fn put_with_error(&mut self, row: Row, text: &str, out: &mut Listing) {
        match unrecorded(text) {
            Some((number, entry)) => {
                self.reasons.add(entry);
                put_illegal(row, text.as_bytes(), text.chars().count(), number, out);
            }
            None => out.push(row, text.as_bytes(), b""),
        }
    }

    // What ours must answer.
    fn expected(&mut self) -> Listing {
        let mut out = Listing::default();
        for i in 0..self.theirs.rows.len() {
            self.put(self.theirs.rows[i], &mut out);
        }
        out.errors.extend(&self.theirs.errors);
        // errors arrive in the order of their offsets
        out.errors.sort_by_key(|error| error[0]);
        out.starts.clone_from(&self.theirs.starts);
        out.end = self.theirs.end;
        out
    }
}

// ILLEGAL of so many characters, with an error after it. It holds no line feed, so the line is that
// of its start.
fn put_illegal(row: Row, text: &[u8], read: usize, number: usize, out: &mut Listing) {
    out.push(Row { kind: ILLEGAL, code: 0, ..row }, text, b"");
    out.errors.push([row.offset + read, row.line, row.column + read, number]);
}

// The error that ours must record for an ILLEGAL of the original, where the original records none.
fn unrecorded(text: &str) -> Option<(usize, Entry)> {
    let quoted = text.starts_with(['"', '\'']);
    if text == ".." {
        Some((UNKNOWN_TOKEN, Entry::TwoDots))
    } else if !quoted && text.chars().count() == 1 {
        Some((UNKNOWN_TOKEN, Entry::UnknownToken))
    } else if quoted && ends_over_range(text) {
        Some((NO_CODE_POINT, Entry::OverRange))
    } else {
        None
    }
}

// Whether a literal ends in an escape whose number is above 255, or above 10FFFF.
fn ends_over_range(literal: &str) -> bool {
    let mut rest = literal;
    while let Some(at) = rest.find('\\') {
        rest = &rest[at + 1..];
        let (letter, digits, base, most) = match rest.as_bytes().first() {
            Some(b'0'..=b'7') => (0, 3, 8, 0xff),
            Some(b'x') => (1, 2, 16, 0xff),
            Some(b'u') => (1, 4, 16, 0x10ffff),
            Some(b'U') => (1, 8, 16, 0x10ffff),
            Some(_) => (1, 0, 10, 0),
            None => return false,
        };
        let Some(number) = rest.get(letter..letter + digits) else { return false };
        let over = u32::from_str_radix(number, base).is_ok_and(|number| number > most);
        rest = &rest[letter + digits..];
        if over && rest.is_empty() {
            return true;
        }
    }
    false
}

fn has_letters(theirs: &Listing, row: &Row) -> bool {
    row.kind == IDENT && !theirs.text(row).is_ascii()
}

fn is_general_comment(theirs: &Listing, row: &Row) -> bool {
    row.kind == COMMENT && theirs.text(row).starts_with(b"/*")
}

// The range from the end of a comment to the end of its line, if only blanks and the odd character
// are in it.
fn run_behind(source: &[char], comment: usize, odd: char) -> Option<std::ops::Range<usize>> {
    let start = (comment + 4..=source.len()).find(|end| source[end - 2..*end] == ['*', '/'])?;
    let length = source[start..].iter().take_while(|c| **c != '\n').count();
    let run = start..start + length;
    source[run.clone()].iter().all(|c| matches!(c, ' ' | '\t') || *c == odd).then_some(run)
}

/// What is between the quotes of a literal, read as the specification says.
#[derive(Default)]
struct Body {
    characters: usize,
    value: Vec<u8>,
    /// Whether a byte above 127 is given by \x, and in octal.
    hex: bool,
    octal: bool,
}

impl Body {
    fn of(literal: &[u8]) -> Option<Body> {
        let mut rest = std::str::from_utf8(literal).ok()?;
        rest = rest.get(1..rest.len() - 1)?;
        let mut body = Body::default();
        while let Some(c) = rest.chars().next() {
            let length = if c == '\\' { body.escape(rest)? } else { body.character(c) };
            body.characters += 1;
            rest = &rest[length..];
        }
        Some(body)
    }

    fn character(&mut self, c: char) -> usize {
        self.value.extend_from_slice(c.encode_utf8(&mut [0; 4]).as_bytes());
        c.len_utf8()
    }

    // The escape that a text begins with; answers its length.
    fn escape(&mut self, text: &str) -> Option<usize> {
        let digits = |from: usize, to: usize, base| u32::from_str_radix(text.get(from..to)?, base).ok();
        let simple = b"abfnrtv\\\"'".iter().position(|c| *c == text.as_bytes()[1]);
        Some(match (text.as_bytes()[1], simple) {
            (_, Some(k)) => {
                self.value.push(b"\x07\x08\x0c\n\r\t\x0b\\\"'"[k]);
                2
            }
            (b'x', _) => {
                let byte = digits(2, 4, 16)? as u8;
                self.value.push(byte);
                self.hex |= byte > 127;
                4
            }
            (b'u', _) => {
                self.character(char::from_u32(digits(2, 6, 16)?)?);
                6
            }
            (b'U', _) => {
                self.character(char::from_u32(digits(2, 10, 16)?)?);
                10
            }
            _ => {
                let byte = digits(1, 4, 8)? as u8;
                self.value.push(byte);
                self.octal |= byte > 127;
                4
            }
        })
    }
}

// Whether an entry may have to do with a token.
fn concerns(theirs: &Listing, row: &Row) -> bool {
    let text = theirs.text(row);
    match row.kind {
        ILLEGAL => true,
        INT | FLOAT | IMAG => text.starts_with(b"0o") || text.starts_with(b"0_"),
        IDENT => !text.is_ascii(),
        COMMENT => text.starts_with(b"/*"),
        CHAR => text.len() > 3,
        STRING => text.contains(&b'\\'),
        _ => false,
    }
}

/// What ours must answer, and the entries by which it differs from the original's answer.
pub struct Expected {
    pub listing: Listing,
    pub reasons: Reasons,
}

/// What ours must answer at base 0, given the original's listing; nothing if it must be that
/// listing itself. Ours is asked only for the place of an empty character literal.
pub fn expected(source: &str, size: usize, theirs: &Listing, ours: &Listing) -> Result<Option<Expected>, String> {
    if theirs.end == End::Whole && !theirs.rows.iter().any(|row| concerns(theirs, row)) {
        return Ok(None);
    }
    let text: Vec<char> = source.chars().collect();
    let mut asked = Asked { source: text.clone(), text, size, theirs: theirs.clone(), reasons: Reasons::default() };
    asked.replace_all(ours)?;
    let listing = asked.expected();
    Ok(Some(Expected { listing, reasons: asked.reasons }))
}

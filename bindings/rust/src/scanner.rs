//! The scanner.

mod reading;

use crate::buffers::Buffers;
use crate::ffi;
use crate::foreign::foreign;
use crate::{Batch, Errors, Pos, Position, Refusal, Token, Tokens};
use std::fmt;
use std::ops::Range;

/// Reads a source token by token.
///
/// There are three ways to read on, and they can be mixed:
///
/// - [`tokens`](Scanner::tokens): an iterator up to EOF. Take this one, unless there is a reason for another.
/// - [`scan`](Scanner::scan): one token at a call, EOF too. It suits a parser that asks for the next token.
/// - [`batch`](Scanner::batch): up to 256 tokens at a call, lent. It is the fastest on most sources.
///
/// The scanner owns the line table, the error list and the text area, and enlarges them as needed. So a source that was
/// opened is scanned to its end, and scanning returns no `Result`.
///
/// # Panics
///
/// What the library answers is tested. The proved library passes each test; if another library was linked in its place,
/// a method of the scanner or of what it gives may panic and say so. They panic for no other reason.
#[derive(Clone)]
pub struct Scanner<'src> {
    source: &'src str,
    chars: usize,
    state: ffi::State,
    buffers: Buffers,
    /// How many tokens of the buffer were given, and how many it has. State, line table and error list are those after the
    /// last of them.
    given: usize,
    count: usize,
    /// The line of the last token that was given with its line. Later tokens are on this line or on one after it.
    line: usize,
    /// The bytes that the last token in the area was read from.
    changed: Range<usize>,
}

// Opening and scanning.
impl<'src> Scanner<'src> {
    /// The longest source in bytes.
    pub const MAX_SOURCE: usize = 1_048_576;

    /// The greatest position: base + size is at most this.
    pub const MAX_POSITION: Pos = 4_294_967_295;

    /// The most tokens of a batch.
    pub const MAX_BATCH: usize = 256;

    /// Opens a source at base 0. The size is its number of characters.
    ///
    /// The source may be text (`&str`, `&String`) or bytes (`&[u8]`, `&Vec<u8>`, `b".."`).
    ///
    /// # Errors
    ///
    /// [`Refusal::TooLong`] or [`Refusal::NotUtf8`].
    ///
    /// ```
    /// # use cifgwezam::{Refusal, Scanner};
    /// assert!(Scanner::new("lane := 3").is_ok());
    /// assert!(Scanner::new(b"lane := 3").is_ok());
    /// assert_eq!(Scanner::new(b"lane := \xff").err(), Some(Refusal::NotUtf8 { place: 8 }));
    /// ```
    pub fn new(source: &'src (impl AsRef<[u8]> + ?Sized)) -> Result<Scanner<'src>, Refusal> {
        let source = source.as_ref();
        let mut scanner = Scanner::unopened(source);
        scanner.open(source, 0, source.len())?;
        if scanner.chars < source.len() {
            scanner.open(source, 0, scanner.chars)?;
        }
        Ok(scanner.holding(source))
    }

    /// Opens a source at a base and in a size: its positions are `base` to `base + size`. The size is at least the number of
    /// characters.
    ///
    /// An LF at the very end of a source starts no line where the size is the number of characters. In a larger size it
    /// does.
    ///
    /// # Errors
    ///
    /// [`Refusal::TooLong`], [`Refusal::NotUtf8`] or [`Refusal::Size`].
    ///
    /// ```
    /// # use cifgwezam::Scanner;
    /// let mut scanner = Scanner::with_size("lane\n", 100, 6)?;
    /// assert_eq!(scanner.tokens().map(|token| token.pos).collect::<Vec<_>>(), [100, 104]);
    /// assert_eq!(scanner.line_count(), 2);
    /// # Ok::<(), cifgwezam::Refusal>(())
    /// ```
    pub fn with_size(
        source: &'src (impl AsRef<[u8]> + ?Sized),
        base: Pos,
        size: usize,
    ) -> Result<Scanner<'src>, Refusal> {
        let source = source.as_ref();
        let mut scanner = Scanner::unopened(source);
        scanner.open(source, base, size)?;
        Ok(scanner.holding(source))
    }

    /// Scans the next token. After the last token comes EOF, again and again.
    ///
    /// ```
    /// # use cifgwezam::{Kind, Scanner};
    /// let mut scanner = Scanner::new("lane")?;
    /// assert_eq!(scanner.scan().kind, Kind::Ident);
    /// assert_eq!(scanner.scan().kind, Kind::Semicolon);
    /// assert_eq!(scanner.scan().kind, Kind::Eof);
    /// assert_eq!(scanner.scan().kind, Kind::Eof);
    /// # Ok::<(), cifgwezam::Refusal>(())
    /// ```
    #[inline]
    pub fn scan(&mut self) -> Token<'src> {
        if self.is_ahead() {
            return self.give();
        }
        self.scan_one()
    }

    /// The tokens that are left, up to EOF, which is not among them.
    ///
    /// The iterator scans ahead, in batches. This does not show: if the loop is left early, the next call goes on after the
    /// last token that was given, and line count and errors are those of the tokens given.
    ///
    /// ```
    /// # use cifgwezam::{Kind, Scanner};
    /// let mut scanner = Scanner::new("lane := 3 // of 8")?;
    /// for token in scanner.tokens() {
    ///     if token.kind == Kind::Define {
    ///         break;
    ///     }
    /// }
    /// assert_eq!(scanner.scan().text, "3");
    /// # Ok::<(), cifgwezam::Refusal>(())
    /// ```
    pub fn tokens(&mut self) -> Tokens<'_, 'src> {
        Tokens::new(self)
    }

    /// Scans up to [`Scanner::MAX_BATCH`] tokens in one call and lends them: an iterator with at least one token. It copies
    /// nothing.
    ///
    /// A batch ends after EOF, after a token whose text or value differs from the source, and where a buffer has to
    /// grow. After EOF each batch is EOF alone.
    ///
    /// The scanner is then after the last token of the batch, however many of them were looked at. So its line count and
    /// its errors are those of the whole batch.
    ///
    /// ```
    /// # use cifgwezam::{Kind, Scanner};
    /// let mut scanner = Scanner::new("quota[x] += 017 // reads")?;
    /// let mut names = Vec::new();
    /// let mut last = Kind::None;
    /// while last != Kind::Eof {
    ///     for token in scanner.batch() {
    ///         last = token.kind();
    ///         if last == Kind::Ident {
    ///             names.push(token.text().to_string());
    ///         }
    ///     }
    /// }
    /// assert_eq!(names, ["quota", "x"]);
    /// # Ok::<(), cifgwezam::Refusal>(())
    /// ```
    pub fn batch(&mut self) -> Batch<'_, 'src> {
        if !self.is_ahead() {
            self.fill();
        }
        let first = std::mem::replace(&mut self.given, self.count);
        Batch::new(self, &self.buffers.tokens[first..self.count])
    }
}

// What is known of the source and of what was scanned.
impl<'src> Scanner<'src> {
    /// The errors of what was scanned, in order.
    ///
    /// ```
    /// # use cifgwezam::Scanner;
    /// let mut scanner = Scanner::new("quota := 08\nlane = '")?;
    /// scanner.tokens().for_each(drop);
    /// let shown: Vec<_> = scanner.errors().map(|error| error.to_string()).collect();
    /// assert_eq!(shown[0], "1:11: bad octal number: no digits, or a digit above 7");
    /// assert_eq!(shown[1], "2:9: string or character literal is not closed");
    /// assert_eq!(scanner.errors().len(), 2);
    /// # Ok::<(), cifgwezam::Refusal>(())
    /// ```
    pub fn errors(&self) -> Errors<'_> {
        let errors = Errors::new(&self.state, &self.buffers.list);
        if self.is_ahead() {
            return errors.up_to(self.reached().1);
        }
        errors
    }

    /// How many errors there are so far.
    pub fn error_count(&self) -> usize {
        self.errors().len()
    }

    /// The offset, line and column of a position. Lines are known as far as the source was scanned.
    ///
    /// It is refused if the position is not one of base to base + size.
    ///
    /// ```
    /// # use cifgwezam::{Refusal, Scanner};
    /// let mut scanner = Scanner::new("lane\nquota")?;
    /// assert_eq!(scanner.position(6)?.to_string(), "1:7");
    /// scanner.tokens().for_each(drop);
    /// assert_eq!(scanner.position(6)?.to_string(), "2:2");
    /// assert_eq!(scanner.position(11), Err(Refusal::Position));
    /// # Ok::<(), cifgwezam::Refusal>(())
    /// ```
    pub fn position(&self, pos: Pos) -> Result<Position, Refusal> {
        let offset = self.offset(pos).ok_or(Refusal::Position)?;
        let lines = self.lines();
        Ok(lines.position(lines.find(offset), offset))
    }

    /// The position at which a line starts. Lines count from 1, and are known as far as the source was scanned.
    ///
    /// It is refused if the line is 0 or above the line count.
    pub fn line_start(&self, line: usize) -> Result<Pos, Refusal> {
        if line == 0 || line > self.line_count() {
            return Err(Refusal::Line);
        }
        let mut answer = 0;
        match ffi::line_start(&self.state, &self.buffers.table, line, &mut answer) {
            0 => Ok(answer),
            _ => foreign("a refusal of a line that was read"),
        }
    }

    /// How many lines were begun so far.
    pub fn line_count(&self) -> usize {
        self.lines().0.len()
    }

    /// The position of the first character.
    pub fn base(&self) -> Pos {
        self.state[ffi::BASE]
    }

    /// How far positions go beyond the base.
    pub fn size(&self) -> usize {
        self.state[ffi::SIZE]
    }

    /// The number of characters of the source.
    pub fn char_count(&self) -> usize {
        self.chars
    }

    /// The source.
    pub fn source(&self) -> &'src str {
        self.source
    }
}

/// How far the scanner is; what is in its buffers is not shown.
impl fmt::Debug for Scanner<'_> {
    fn fmt(&self, f: &mut fmt::Formatter<'_>) -> fmt::Result {
        f.debug_struct("Scanner")
            .field("source", &format_args!("{} bytes", self.source.len()))
            .field("base", &self.base())
            .field("size", &self.size())
            .field("place", &self.reached().0)
            .field("line_count", &self.line_count())
            .field("error_count", &self.error_count())
            .finish_non_exhaustive()
    }
}

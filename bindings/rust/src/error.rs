//! The errors of a source.

use crate::ffi;
use crate::foreign::foreign;
use crate::Position;
use std::fmt;
use std::iter::FusedIterator;
use std::ops::Range;

/// Makes the enum, the list of its cases and that of their messages from one table.
macro_rules! error_kinds {
    ($($(#[$doc:meta])* $kind:ident = $number:literal, $message:literal;)*) => {
        /// What is wrong in a source. It is shown as a message.
        ///
        /// ```
        /// # use cifgwezam::ErrorKind;
        /// assert_eq!(ErrorKind::OpenComment.number(), 7);
        /// assert_eq!(ErrorKind::OpenComment.to_string(), "comment is not closed");
        /// ```
        #[derive(Clone, Copy, Debug, PartialEq, Eq, Hash, PartialOrd, Ord)]
        #[repr(u8)]
        #[non_exhaustive]
        pub enum ErrorKind {
            $($(#[$doc])* $kind = $number,)*
        }

        impl ErrorKind {
            /// All kinds of errors, in the order of their numbers.
            pub const ALL: [ErrorKind; 14] = [$(ErrorKind::$kind,)*];

            const MESSAGES: [&'static str; 14] = [$($message,)*];
        }
    };
}

error_kinds! {
    /// A binary number has no digits, or a digit above 1.
    BadBinary = 1, "bad binary number: no digits, or a digit above 1";
    /// An octal number has no digits, or a digit above 7.
    BadOctal = 2, "bad octal number: no digits, or a digit above 7";
    /// A hexadecimal number has no digits.
    BadHexadecimal = 3, "bad hexadecimal number: no digits";
    /// An `_` in a number is neither between digits nor after the prefix.
    MisplacedUnderscore = 4, "misplaced '_' in a number";
    /// An exponent has no digits.
    BadExponent = 5, "exponent has no digits";
    /// A raw string is not closed.
    OpenRawString = 6, "raw string is not closed";
    /// A comment is not closed.
    OpenComment = 7, "comment is not closed";
    /// A string or a character literal is not closed on its line.
    OpenQuote = 8, "string or character literal is not closed";
    /// A backslash is followed by a character that starts no escape.
    UnknownEscape = 9, "unknown escape";
    /// The source ends inside an escape.
    CutEscape = 10, "source ends inside an escape";
    /// An escape has a character that is not a digit of it.
    BadEscape = 11, "bad character in an escape";
    /// The number of an escape is no byte, as in `\400`, or no Unicode code point.
    NoCodePoint = 12, "escape is out of range: not a byte, or not a Unicode code point";
    /// A character literal has no character, or more than one.
    NotOneCharacter = 13, "character literal must have exactly one character";
    /// A character starts no token, such as `#`, or two points have no third.
    UnknownToken = 14, "unknown token: a character that starts none, or '..'";
}

impl ErrorKind {
    /// Its number, 1 to 14, which is the same in the C interface.
    pub const fn number(self) -> u8 {
        self as u8
    }

    /// What is wrong, in words.
    pub const fn message(self) -> &'static str {
        ErrorKind::MESSAGES[self as usize - 1]
    }

    /// The kind with a number, if there is one.
    fn from_number(number: usize) -> Option<ErrorKind> {
        ErrorKind::ALL.get(number.wrapping_sub(1)).copied()
    }
}

impl fmt::Display for ErrorKind {
    fn fmt(&self, f: &mut fmt::Formatter<'_>) -> fmt::Result {
        f.pad(self.message())
    }
}

impl std::error::Error for ErrorKind {}

/// An error of a source: what is wrong, and where. It is shown as `line:column: message`.
///
/// The scanner notes an error and goes on after it. [`Scanner::errors`](crate::Scanner::errors) lists them.
/// Every token of kind [`Illegal`](crate::Kind::Illegal) has one. The only other tokens with one are
/// a raw string and a comment that is not closed.
///
/// ```
/// # use cifgwezam::{ErrorKind, Scanner};
/// let mut scanner = Scanner::new("lane = 'x\n")?;
/// scanner.tokens().for_each(drop);
/// let error = scanner.errors().next().unwrap();
/// assert_eq!(error.kind, ErrorKind::OpenQuote);
/// assert_eq!(error.to_string(), "1:10: string or character literal is not closed");
/// # Ok::<(), cifgwezam::Refusal>(())
/// ```
#[derive(Clone, Copy, Debug, PartialEq, Eq, Hash)]
pub struct Error {
    /// How far the scanner had read when it met the error.
    pub position: Position,
    /// What is wrong.
    pub kind: ErrorKind,
}

impl fmt::Display for Error {
    fn fmt(&self, f: &mut fmt::Formatter<'_>) -> fmt::Result {
        write!(f, "{}: {}", self.position, self.kind)
    }
}

impl std::error::Error for Error {}

/// The errors of what was scanned, in order; made by [`Scanner::errors`](crate::Scanner::errors).
#[derive(Clone, Debug)]
pub struct Errors<'a> {
    state: &'a ffi::State,
    list: &'a [usize],
    left: Range<usize>,
}

impl<'a> Errors<'a> {
    pub(crate) fn new(state: &'a ffi::State, list: &'a [usize]) -> Errors<'a> {
        Errors { state, list, left: 0..state[ffi::ERRORS] }
    }

    /// Those of them that were met up to an offset.
    pub(crate) fn up_to(mut self, offset: usize) -> Errors<'a> {
        while self.left.end > 0 && self.get(self.left.end - 1).position.offset > offset {
            self.left.end -= 1;
        }
        self
    }

    /// The error with an index that is in the list.
    fn get(&self, index: usize) -> Error {
        let mut answer = [0; 4];
        let refusal = ffi::error(self.state, self.list, index, &mut answer);
        let [offset, line, column, number] = answer;
        match ErrorKind::from_number(number) {
            Some(kind) if refusal == 0 => Error { position: Position { offset, line, column }, kind },
            _ => foreign("no error where the list has one"),
        }
    }
}

impl Iterator for Errors<'_> {
    type Item = Error;

    fn next(&mut self) -> Option<Error> {
        self.left.next().map(|index| self.get(index))
    }

    fn size_hint(&self) -> (usize, Option<usize>) {
        self.left.size_hint()
    }
}

impl DoubleEndedIterator for Errors<'_> {
    fn next_back(&mut self) -> Option<Error> {
        self.left.next_back().map(|index| self.get(index))
    }
}

impl ExactSizeIterator for Errors<'_> {}

impl FusedIterator for Errors<'_> {}

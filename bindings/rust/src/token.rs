//! Tokens.

use crate::{Kind, Pos, Position};
use std::borrow::Cow;
use std::ops::Range;

/// A token. It borrows from the source, not from the scanner.
///
/// ```
/// # use cifgwezam::{Kind, Scanner};
/// let source = "\tquota := 017";
/// let mut scanner = Scanner::new(source)?;
/// let tokens: Vec<_> = scanner.tokens().collect();
///
/// assert_eq!((tokens[0].kind, &*tokens[0].text), (Kind::Ident, "quota"));
/// assert_eq!(tokens[0].position.to_string(), "1:2");
/// assert_eq!((tokens[1].kind, tokens[1].range.clone()), (Kind::Define, 7..9));
/// // a leading 0 means octal, as in Go, and is shown with an o
/// assert_eq!((&*tokens[2].text, &source[tokens[2].range.clone()]), ("0o17", "017"));
/// assert_eq!((tokens[3].kind, tokens[3].inserted), (Kind::Semicolon, true));
/// # Ok::<(), cifgwezam::Refusal>(())
/// ```
#[derive(Clone, Debug, PartialEq, Eq, Hash)]
pub struct Token<'src> {
    /// What it is.
    pub kind: Kind,
    /// Whether it is a semicolon that the scanner inserted at the end of a line.
    pub inserted: bool,
    /// The position of its first character: the scanner's base plus the offset.
    pub pos: Pos,
    /// The offset, line and column of its first character.
    pub position: Position,
    /// The bytes of the source that it was read from. The range is empty for EOF and for an inserted semicolon.
    pub range: Range<usize>,
    /// Its text; empty for operators, keywords and EOF, whose kind says it all.
    ///
    /// It is borrowed from the source, or copied where it differs from what was read: prefix and exponent of a
    /// number are shown in lower case, `017` as `0o17` and `0_600` as `0o_600`, comments and raw strings without CR,
    /// and a `//` comment always with its LF. A leading 0 before `.`, e, E or i is that of a decimal number, such as
    /// `072.40`, which is shown as it is.
    pub text: Cow<'src, str>,
    /// The content of a string after its escapes were read; empty for all other kinds. It need not be UTF-8: `"\xff"`
    /// is one byte.
    pub value: Cow<'src, [u8]>,
    /// The character that a [`Kind::Char`] stands for.
    pub code: Option<char>,
}

//! What the scanner refuses.

use std::fmt;

/// Why a call was refused. A refused call has changed nothing.
///
/// ```
/// # use cifgwezam::{Refusal, Scanner};
/// let refusal = Scanner::new(b"lane \xff").unwrap_err();
/// assert_eq!(refusal, Refusal::NotUtf8 { place: 5 });
/// assert_eq!(refusal.to_string(), "source is not UTF-8: see byte 5");
/// ```
#[derive(Clone, Copy, Debug, PartialEq, Eq, Hash)]
#[non_exhaustive]
pub enum Refusal {
    /// 1: the source is not UTF-8.
    NotUtf8 {
        /// The place of a byte that belongs to no well-formed character, counted from 0.
        place: usize,
    },
    /// 2: the source has more than [`Scanner::MAX_SOURCE`](crate::Scanner::MAX_SOURCE) bytes.
    TooLong,
    /// 3: the size is less than the number of characters, or base + size is more than
    /// [`Scanner::MAX_POSITION`](crate::Scanner::MAX_POSITION).
    Size,
    /// 4: the position is not one of base to base + size.
    Position,
    /// 5: no such line was read: it is 0, or more than the line count.
    Line,
}

impl Refusal {
    /// Its number, which is the same in the C interface.
    pub const fn number(self) -> u8 {
        match self {
            Refusal::NotUtf8 { .. } => 1,
            Refusal::TooLong => 2,
            Refusal::Size => 3,
            Refusal::Position => 4,
            Refusal::Line => 5,
        }
    }
}

impl fmt::Display for Refusal {
    fn fmt(&self, f: &mut fmt::Formatter<'_>) -> fmt::Result {
        f.write_str(match self {
            Refusal::NotUtf8 { place } => return write!(f, "source is not UTF-8: see byte {place}"),
            Refusal::TooLong => "source has more than 1,048,576 bytes",
            Refusal::Size => "size is less than the number of characters, or base + size is more than 4,294,967,295",
            Refusal::Position => "position is outside the source",
            Refusal::Line => "no such line was read",
        })
    }
}

impl std::error::Error for Refusal {}

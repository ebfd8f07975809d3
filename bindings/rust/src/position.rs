//! Places of characters.

use std::fmt;

/// The position of a character: the scanner's base plus the number of characters before it.
///
/// [`Scanner::position`](crate::Scanner::position) tells its line and column.
pub type Pos = usize;

/// Where a character is, by its offset and by its line and column. It is shown as `line:column`.
///
/// ```
/// # use cifgwezam::Position;
/// let at = Position { offset: 9, line: 2, column: 4 };
/// assert_eq!(at.to_string(), "2:4");
/// assert_eq!(format!("{at:<6}|"), "2:4   |");
/// ```
#[derive(Clone, Copy, Debug, PartialEq, Eq, Hash, PartialOrd, Ord)]
pub struct Position {
    /// The number of characters before it.
    pub offset: usize,
    /// Its line, counted from 1.
    pub line: usize,
    /// Its column in characters, counted from 1.
    pub column: usize,
}

impl fmt::Display for Position {
    fn fmt(&self, f: &mut fmt::Formatter<'_>) -> fmt::Result {
        match f.width() {
            Some(_) => f.pad(&format!("{}:{}", self.line, self.column)),
            None => write!(f, "{}:{}", self.line, self.column),
        }
    }
}

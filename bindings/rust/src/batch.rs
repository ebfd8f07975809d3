//! Tokens of one call, lent.

use crate::ffi;
use crate::numbers::Numbers;
use crate::{Kind, Pos, Position, Scanner, Token};
use std::fmt;
use std::iter::FusedIterator;
use std::ops::Range;
use std::slice::Iter;

/// Tokens that were scanned in one call; made by [`Scanner::batch`].
#[derive(Clone, Debug)]
pub struct Batch<'a, 'src> {
    scanner: &'a Scanner<'src>,
    tokens: Iter<'a, ffi::Token>,
}

impl<'a, 'src> Batch<'a, 'src> {
    #[inline]
    pub(crate) fn new(scanner: &'a Scanner<'src>, tokens: &'a [ffi::Token]) -> Batch<'a, 'src> {
        Batch { scanner, tokens: tokens.iter() }
    }

    /// The scanner, for questions. It is after the last token of the batch.
    ///
    /// ```
    /// # use cifgwezam::Scanner;
    /// let mut scanner = Scanner::new("quota =\n x")?;
    /// let batch = scanner.batch();
    /// assert_eq!((batch.len(), batch.scanner().line_count()), (5, 2));
    /// # Ok::<(), cifgwezam::Refusal>(())
    /// ```
    pub fn scanner(&self) -> &'a Scanner<'src> {
        self.scanner
    }
}

impl<'a, 'src> Iterator for Batch<'a, 'src> {
    type Item = Lent<'a, 'src>;

    #[inline]
    fn next(&mut self) -> Option<Self::Item> {
        let numbers = Numbers(self.tokens.next()?);
        Some(Lent { scanner: self.scanner, numbers })
    }

    #[inline]
    fn size_hint(&self) -> (usize, Option<usize>) {
        self.tokens.size_hint()
    }
}

impl ExactSizeIterator for Batch<'_, '_> {}

impl FusedIterator for Batch<'_, '_> {}

/// A token of a [`Batch`]. It lends what it shows; [`Lent::keep`] gives a [`Token`] that outlives the batch.
#[derive(Clone, Copy)]
pub struct Lent<'a, 'src> {
    scanner: &'a Scanner<'src>,
    numbers: Numbers<'a>,
}

impl<'a, 'src> Lent<'a, 'src> {
    /// What it is.
    #[inline]
    pub fn kind(self) -> Kind {
        self.numbers.kind()
    }

    /// Whether it is a semicolon that the scanner inserted at the end of a line.
    #[inline]
    pub fn inserted(self) -> bool {
        self.numbers.inserted()
    }

    /// The position of its first character.
    #[inline]
    pub fn pos(self) -> Pos {
        self.numbers.pos()
    }

    /// The offset, line and column of its first character. The line is searched for by halves.
    #[inline]
    pub fn position(self) -> Position {
        self.scanner.position_on(self.scanner.line_of(self.numbers), self.numbers)
    }

    /// The bytes of the source that it was read from, as [`Token::range`].
    #[inline]
    pub fn range(self) -> Range<usize> {
        self.scanner.range(self.numbers)
    }

    /// Its text, as [`Token::text`].
    #[inline]
    pub fn text(self) -> &'a str {
        self.scanner.text(self.numbers)
    }

    /// Its value, as [`Token::value`].
    #[inline]
    pub fn value(self) -> &'a [u8] {
        self.scanner.value(self.numbers)
    }

    /// Its character, as [`Token::code`].
    #[inline]
    pub fn code(self) -> Option<char> {
        self.numbers.code()
    }

    /// The token as [`Scanner::scan`] gives it, which outlives the batch.
    pub fn keep(self) -> Token<'src> {
        self.scanner.token_on(self.scanner.line_of(self.numbers), self.numbers)
    }
}

/// As the token that it is.
impl fmt::Debug for Lent<'_, '_> {
    fn fmt(&self, f: &mut fmt::Formatter<'_>) -> fmt::Result {
        self.keep().fmt(f)
    }
}

//! The iterator over tokens.

use crate::{Scanner, Token};
use std::iter::FusedIterator;

/// The tokens of a scanner up to EOF; made by [`Scanner::tokens`].
///
/// It scans in batches. Tokens that it has scanned and not given stay with the scanner, and come first in its next call.
#[derive(Debug)]
#[must_use = "an iterator does nothing unless it is used"]
pub struct Tokens<'a, 'src> {
    scanner: &'a mut Scanner<'src>,
}

impl<'a, 'src> Tokens<'a, 'src> {
    pub(crate) fn new(scanner: &'a mut Scanner<'src>) -> Tokens<'a, 'src> {
        Tokens { scanner }
    }
}

impl<'src> Iterator for Tokens<'_, 'src> {
    type Item = Token<'src>;

    // always, so that a loop takes no time for what it does not use of a token
    #[inline(always)]
    fn next(&mut self) -> Option<Token<'src>> {
        if !self.scanner.is_ahead() {
            self.scanner.fill();
        }
        self.scanner.give_unless_eof()
    }
}

impl FusedIterator for Tokens<'_, '_> {}

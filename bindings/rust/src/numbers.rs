//! The numbers of a token, tested before they are believed.

use crate::ffi;
use crate::foreign::foreign;
use crate::{Kind, Pos};
use std::ops::Range;

/// The numbers of a token, as the library wrote them.
#[derive(Clone, Copy)]
pub struct Numbers<'a>(pub &'a ffi::Token);

/// Where a text or a value is: a range of the source or of the area.
#[derive(Clone, Copy)]
pub struct Part {
    pub in_area: bool,
    start: usize,
    end: usize,
}

impl Numbers<'_> {
    #[inline]
    pub fn is_eof(self) -> bool {
        self.0[0] == Kind::Eof as usize
    }

    #[inline]
    pub fn kind(self) -> Kind {
        match Kind::from_number(self.0[0]) {
            Some(kind) => kind,
            None => foreign("a number that is not a kind"),
        }
    }

    #[inline]
    pub fn inserted(self) -> bool {
        self.0[1] != 0
    }

    #[inline]
    pub fn pos(self) -> Pos {
        self.0[2]
    }

    /// The character of a character literal.
    #[inline]
    pub fn code(self) -> Option<char> {
        if self.0[0] != Kind::Char as usize {
            return None;
        }
        let code = u32::try_from(self.0[3]).ok().and_then(char::from_u32);
        if code.is_none() {
            foreign("a number that is not a character")
        }
        code
    }

    #[inline]
    pub fn text(self) -> Part {
        self.part(4)
    }

    #[inline]
    pub fn value(self) -> Part {
        self.part(7)
    }

    #[inline]
    fn part(self, at: usize) -> Part {
        Part { in_area: self.0[at] != 0, start: self.0[at + 1], end: self.0[at + 2] }
    }

    /// The bytes of the source that it was read from, unless its text is in the area.
    ///
    /// A text in the source is these bytes. An operator or a keyword has an empty text at its start, and as many bytes as
    /// its spelling.
    #[inline]
    pub fn range(self) -> Range<usize> {
        let Part { start, end, .. } = self.text();
        // 0 where the token is inserted; a mask, since the processor would often foresee a branch wrongly
        let spelled = Kind::spelled(self.0[0]) & self.0[1].wrapping_sub(1);
        start..end.max(start.wrapping_add(spelled))
    }
}

impl Part {
    #[inline]
    pub fn of(self, buffer: &[u8]) -> &[u8] {
        match buffer.get(self.start..self.end) {
            Some(bytes) => bytes,
            None => foreign("a part outside its buffer"),
        }
    }

    #[inline]
    pub fn of_text(self, text: &str) -> &str {
        match text.get(self.start..self.end) {
            Some(part) => part,
            None => foreign("a part that is not of whole characters"),
        }
    }
}

#[cfg(test)]
mod tests {
    use super::*;
    use std::panic::catch_unwind;

    /// A token with one number changed.
    fn with(at: usize, number: usize) -> ffi::Token {
        let mut numbers = [8, 0, 0, 0x61, 0, 1, 3, 0, 2, 2];
        numbers[at] = number;
        numbers
    }

    /// Whether a question about a token is answered, and not by a panic that names a foreign library.
    fn is_answered<T>(token: ffi::Token, ask: fn(Numbers) -> T) -> bool {
        match catch_unwind(|| drop(ask(Numbers(&token)))) {
            Ok(()) => true,
            Err(panic) => {
                assert!(panic.downcast_ref::<String>().unwrap().contains("not the proved scanner"));
                false
            }
        }
    }

    #[test]
    fn kinds() {
        assert_eq!(Numbers(&with(0, 81)).kind(), Kind::Var);
        assert!(!is_answered(with(0, 82), |numbers| numbers.kind()));
        assert!(!is_answered(with(0, usize::MAX), |numbers| numbers.kind()));
    }

    #[test]
    fn codes() {
        assert_eq!(Numbers(&with(3, 0x10ffff)).code(), Some('\u{10ffff}'));
        assert_eq!(Numbers(&with(0, 4)).code(), None);
        assert!(!is_answered(with(3, 0xd800), |numbers| numbers.code()));
        assert!(!is_answered(with(3, 1 << 32), |numbers| numbers.code()));
    }

    #[test]
    fn parts() {
        assert_eq!(Numbers(&with(0, 4)).text().of(b"abc"), b"bc");
        assert_eq!(Numbers(&with(0, 4)).text().of_text("abc"), "bc");
        assert_eq!(Numbers(&with(9, 2)).value().of(b"abc"), b"");
        assert!(!is_answered(with(0, 4), |numbers| numbers.text().of(b"ab").len()));
        assert!(!is_answered(with(0, 4), |numbers| numbers.text().of_text("é语").len()));
        assert!(!is_answered(with(5, 4), |numbers| numbers.text().of(b"abc").len()));
        assert!(!is_answered(with(5, usize::MAX), |numbers| numbers.text().of(b"abc").len()));
        assert!(!is_answered(with(9, usize::MAX), |numbers| numbers.value().of(b"abc").len()));
    }
}

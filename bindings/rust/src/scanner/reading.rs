//! Reading on: the calls of the library, and tokens made of the numbers that it answers.

use crate::buffers::Buffers;
use crate::ffi;
use crate::foreign::foreign;
use crate::lines::Lines;
use crate::numbers::Numbers;
use crate::{Pos, Position, Refusal, Scanner, Token};
use std::borrow::Cow;
use std::ops::Range;

impl<'src> Scanner<'src> {
    /// A scanner with buffers for a source that is not opened yet.
    pub(super) fn unopened(source: &[u8]) -> Scanner<'src> {
        Scanner {
            source: "",
            chars: 0,
            state: [0; ffi::STATE_LEN],
            buffers: Buffers::new(source.len().min(Self::MAX_SOURCE)),
            given: 0,
            count: 0,
            line: 1,
            changed: 0..0,
        }
    }

    /// Opens a source. [`Scanner::holding`] comes after it.
    pub(super) fn open(&mut self, source: &[u8], base: Pos, size: usize) -> Result<(), Refusal> {
        let mut answer = 0;
        match ffi::open(source, base, size, &mut self.buffers.table, &mut self.state, &mut answer) {
            0 => {}
            1 => return Err(Refusal::NotUtf8 { place: answer }),
            2 => return Err(Refusal::TooLong),
            3 => return Err(Refusal::Size),
            _ => foreign("a refusal to open"),
        }
        self.chars = answer;
        Ok(())
    }

    /// The scanner with its source, which was opened.
    pub(super) fn holding(self, source: &'src [u8]) -> Scanner<'src> {
        match std::str::from_utf8(source) {
            Ok(source) => Scanner { source, ..self },
            Err(_) => foreign("that bytes are UTF-8 which are not"),
        }
    }

    /// Whether tokens were scanned that were not given yet.
    #[inline]
    pub(crate) fn is_ahead(&self) -> bool {
        self.given < self.count
    }

    /// Scans one token.
    #[inline]
    pub(super) fn scan_one(&mut self) -> Token<'src> {
        let before = self.state[ffi::PLACE];
        let mut token = [0; 10];
        loop {
            let Buffers { table, list, area, .. } = &mut self.buffers;
            match ffi::scan(self.source.as_bytes(), &mut self.state, table, list, area, &mut token) {
                0 => break,
                refusal => self.buffers.grow(refusal),
            }
        }
        let numbers = Numbers(&token);
        if numbers.text().in_area {
            self.note_changed(before);
        }
        self.line = self.line_from(numbers);
        self.token_on(self.line, numbers)
    }

    /// Scans tokens into the buffer, as many as there is room for, and at least one. The caller gives the first of them.
    #[cold]
    #[inline(never)]
    pub(crate) fn fill(&mut self) {
        if self.buffers.tokens.is_empty() {
            self.buffers.make_room(Self::MAX_BATCH);
        }
        let before = self.state[ffi::PLACE];
        (self.given, self.count) = (0, 0);
        loop {
            let Buffers { table, list, area, tokens, .. } = &mut self.buffers;
            match ffi::scan_many(self.source.as_bytes(), &mut self.state, table, list, area, tokens, &mut self.count) {
                0 => break,
                refusal => self.buffers.grow(refusal),
            }
        }
        match self.buffers.tokens.get(..self.count) {
            Some([others @ .., last]) => {
                if Numbers(last).text().in_area {
                    let before = others.last().map_or(before, |token| Numbers(token).range().end);
                    self.note_changed(before);
                }
            }
            _ => foreign("an impossible number of tokens"),
        }
    }

    /// Notes the bytes of a token in the area, which is the last of its call. It ends where the call ended, and starts at
    /// the first byte after the token before it that is not a blank.
    #[cold]
    fn note_changed(&mut self, before: usize) {
        let end = self.state[ffi::PLACE];
        match self.source.as_bytes().get(before..end) {
            Some(read) => {
                let blanks = read.iter().take_while(|byte| b" \t\r\n".contains(byte)).count();
                self.changed = before + blanks..end;
            }
            None => foreign("a place outside the source"),
        }
    }

    /// The next token of those that were scanned ahead.
    #[inline(always)]
    pub(crate) fn give(&mut self) -> Token<'src> {
        let numbers = Numbers(&self.buffers.tokens[self.given]);
        self.given += 1;
        self.line = self.line_from(numbers);
        self.token_on(self.line, numbers)
    }

    /// The same, but none for EOF, which counts as given.
    #[inline(always)]
    pub(crate) fn give_unless_eof(&mut self) -> Option<Token<'src>> {
        if Numbers(&self.buffers.tokens[self.given]).is_eof() {
            self.given += 1;
            return None;
        }
        Some(self.give())
    }

    /// The place and the offset at which the last token that was given ends. Only blanks come between it and the next
    /// token, and a blank is one byte.
    pub(super) fn reached(&self) -> (usize, usize) {
        if !self.is_ahead() {
            return (self.state[ffi::PLACE], self.state[ffi::OFFSET]);
        }
        // the first token of the buffer is given when the buffer is filled
        let last = self.range(Numbers(&self.buffers.tokens[self.given - 1]));
        let next = Numbers(&self.buffers.tokens[self.given]);
        (last.end, self.token_offset(next) - (self.range(next).start - last.end))
    }

    /// A token on a line, to keep. Its text and value must be where its scan left them.
    #[inline(always)]
    pub(crate) fn token_on(&self, line: usize, numbers: Numbers) -> Token<'src> {
        Token {
            kind: numbers.kind(),
            inserted: numbers.inserted(),
            pos: numbers.pos(),
            position: self.position_on(line, numbers),
            range: self.range(numbers),
            code: numbers.code(),
            text: self.kept_text(numbers),
            value: self.kept_value(numbers),
        }
    }

    /// A text, borrowed from the source or copied. The copy comes in a box, which two registers hold: so a token is written
    /// to memory once, when all of it is known, and this takes less time.
    #[inline]
    fn kept_text(&self, numbers: Numbers) -> Cow<'src, str> {
        if numbers.text().in_area {
            return Cow::Owned(self.copied_text(numbers).into_string());
        }
        Cow::Borrowed(numbers.text().of_text(self.source))
    }

    /// A value, likewise.
    #[inline]
    fn kept_value(&self, numbers: Numbers) -> Cow<'src, [u8]> {
        if numbers.value().in_area {
            return Cow::Owned(self.copied_value(numbers).into_vec());
        }
        Cow::Borrowed(numbers.value().of(self.source.as_bytes()))
    }

    #[cold]
    #[inline(never)]
    fn copied_text(&self, numbers: Numbers) -> Box<str> {
        self.text(numbers).into()
    }

    #[cold]
    #[inline(never)]
    fn copied_value(&self, numbers: Numbers) -> Box<[u8]> {
        self.value(numbers).into()
    }

    /// The line of a token that is not before the last one that was given.
    #[inline]
    fn line_from(&self, numbers: Numbers) -> usize {
        self.table().find_from(self.line, self.token_offset(numbers))
    }

    /// The line of any token.
    #[inline]
    pub(crate) fn line_of(&self, numbers: Numbers) -> usize {
        self.table().find(self.token_offset(numbers))
    }

    /// The position of a token that is on a line.
    #[inline]
    pub(crate) fn position_on(&self, line: usize, numbers: Numbers) -> Position {
        self.table().position(line, self.token_offset(numbers))
    }

    /// The bytes that a token was read from.
    #[inline]
    pub(crate) fn range(&self, numbers: Numbers) -> Range<usize> {
        if numbers.text().in_area {
            return self.changed.clone();
        }
        numbers.range()
    }

    /// A text where it is.
    #[inline]
    pub(crate) fn text(&self, numbers: Numbers) -> &str {
        if numbers.text().in_area {
            return self.text_in_area(numbers);
        }
        numbers.text().of_text(self.source)
    }

    /// A value where it is.
    #[inline]
    pub(crate) fn value(&self, numbers: Numbers) -> &[u8] {
        let value = numbers.value();
        value.of(if value.in_area { &self.buffers.area } else { self.source.as_bytes() })
    }

    #[cold]
    fn text_in_area(&self, numbers: Numbers) -> &str {
        match std::str::from_utf8(numbers.text().of(&self.buffers.area)) {
            Ok(text) => text,
            Err(_) => foreign("a text that is not UTF-8"),
        }
    }

    /// The line starts of the tokens that were given.
    pub(super) fn lines(&self) -> Lines<'_> {
        let table = self.table();
        if self.is_ahead() {
            return Lines(&table.0[..table.find(self.reached().1)]);
        }
        table
    }

    /// All line starts that are known, those of tokens scanned ahead too.
    #[inline]
    fn table(&self) -> Lines<'_> {
        match self.buffers.table.get(..self.state[ffi::LINES]) {
            Some(starts) => Lines(starts),
            None => foreign("more lines than the table holds"),
        }
    }

    /// The offset of a position, if it is one of the source.
    #[inline]
    pub(super) fn offset(&self, pos: Pos) -> Option<usize> {
        let offset = pos.wrapping_sub(self.base());
        (offset <= self.size()).then_some(offset)
    }

    #[inline]
    fn token_offset(&self, numbers: Numbers) -> usize {
        match self.offset(numbers.pos()) {
            Some(offset) => offset,
            None => foreign("a token outside the source"),
        }
    }

    #[cfg(test)]
    pub(crate) fn state_and_table(&self) -> (&ffi::State, &[usize]) {
        (&self.state, &self.buffers.table)
    }
}

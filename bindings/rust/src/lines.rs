//! The lines of offsets.

use crate::foreign::foreign;
use crate::Position;

/// The line starts that are known: offsets, the first of them 0, each larger than the one before.
#[derive(Clone, Copy)]
pub struct Lines<'a>(pub &'a [usize]);

impl Lines<'_> {
    /// The line of an offset, by halves.
    #[inline]
    pub fn find(self, offset: usize) -> usize {
        self.0.partition_point(|start| *start <= offset)
    }

    /// The line of an offset, going on from a line that is not after it.
    #[inline]
    pub fn find_from(self, mut line: usize, offset: usize) -> usize {
        while self.0.get(line).is_some_and(|start| *start <= offset) {
            line += 1;
        }
        line
    }

    /// The position of an offset that is on a line.
    #[inline]
    pub fn position(self, line: usize, offset: usize) -> Position {
        match self.0.get(line.wrapping_sub(1)) {
            Some(start) => Position { offset, line, column: offset.wrapping_sub(*start) + 1 },
            None => foreign("a line table without a first line"),
        }
    }
}

/// Both ways are held to the proved query, which searches from the first line.
#[cfg(test)]
mod tests {
    use super::*;
    use crate::{ffi, sources, Kind, Pos, Refusal, Scanner};

    /// What the proved query answers.
    fn proved(scanner: &Scanner, pos: Pos) -> Result<Position, u8> {
        let mut answer = [0; 3];
        let (state, table) = scanner.state_and_table();
        match ffi::position(state, table, pos, &mut answer) {
            0 => Ok(Position { offset: answer[0], line: answer[1], column: answer[2] }),
            refusal => Err(refusal),
        }
    }

    /// Compares on every position and those next to them; gives how many there are. A size may be very large: of it the
    /// first and the last positions are taken.
    fn check_positions(scanner: &Scanner) -> usize {
        let (first, last) = (scanner.base(), scanner.base() + scanner.size());
        let near = last.min(first + scanner.char_count() + 40);
        for pos in (first.saturating_sub(2)..=near).chain(last.saturating_sub(2)..=last + 2) {
            let found = scanner.position(pos);
            assert_eq!(found.map_err(Refusal::number), proved(scanner, pos), "{pos} of {scanner:?}");
            assert_eq!(found.is_ok(), (first..=last).contains(&pos));
        }
        near - first + 1
    }

    /// Compares before the first scan and after each, and the position of each token.
    fn check(source: &[u8], base: Pos, size: usize) -> usize {
        let Ok(mut scanner) = Scanner::with_size(source, base, size) else { return 0 };
        let mut compared = check_positions(&scanner);
        loop {
            let token = scanner.scan();
            assert_eq!(Ok(token.position), proved(&scanner, token.pos));
            compared += check_positions(&scanner);
            if token.kind == Kind::Eof {
                return compared;
            }
        }
    }

    #[test]
    fn recorded_sources() {
        let mut compared = 0;
        for (size, source) in sources::recorded() {
            compared += check(&source, 0, size);
            compared += check(&source, 7, size + 3);
        }
        assert!(compared > 100_000);
    }

    #[test]
    fn made_sources() {
        for source in sources::made() {
            let chars = source.chars().count();
            for (base, size) in [(0, chars), (1, chars), (5, chars + 1), (1_000, chars + 40)] {
                assert!(check(source.as_bytes(), base, size) > chars);
            }
        }
    }

    #[test]
    fn a_long_source() {
        let source = sources::long();
        let mut scanner = Scanner::new(&source).unwrap();
        while (0..100).all(|_| scanner.scan().kind != Kind::Eof) {
            check_positions(&scanner);
        }
        assert!(scanner.line_count() > 100);
        check_positions(&scanner);
    }

    #[test]
    fn the_greatest_positions() {
        let most = Scanner::MAX_POSITION;
        let mut scanner = Scanner::with_size("x\n\ny", 5, most - 5).unwrap();
        while scanner.scan().kind != Kind::Eof {}
        for pos in [0, 4, 5, 7, 8, 9, most - 1, most, most + 1, usize::MAX] {
            assert_eq!(scanner.position(pos).map_err(Refusal::number), proved(&scanner, pos));
        }
    }
}

//! Questions about a text that was scanned to its end: where its lines start, and the line and
//! column of positions.

use crate::differences::{Entry, NAMES};
use crate::listing::Listing;
use crate::{original, ours};

/// How many questions had the same answer, and how many were explained by which entry.
#[derive(Default)]
pub struct Counts {
    same: usize,
    last_line: usize,
    outside: usize,
}

impl Counts {
    /// Asks about every line and every position of ours, and those next to them. The base is 5
    /// where the original has no error to misplace, else 0. Where the original panics in a scan
    /// nothing is asked.
    pub fn ask(&mut self, source: &[u8], size: usize, listing: &Listing, misplaces: bool) -> Result<(), String> {
        let base = if !misplaces && size < 1 << 31 { 5 } else { 0 };
        let last = listing.rows.last().map_or(0, |row| row.offset);
        let mut positions: Vec<usize> = (base..=base + last).collect();
        positions.extend([base + size, base + size + 1, base.wrapping_sub(1)]);
        let Ok(text) = std::str::from_utf8(source) else { return Ok(()) };
        let Some(theirs) = original::ask(text, base, size, &positions) else { return Ok(()) };
        let ours = ours::ask(source, base, size, &positions).map_err(|refusal| refusal.to_string())?;
        for (i, pos) in positions.iter().enumerate() {
            let inside = (base..=base + size).contains(pos);
            match (theirs.positions[i], ours.positions[i]) {
                (Some(theirs), Ok(ours)) if inside && theirs == ours => self.same += 1,
                (None, Err(4)) if !inside => self.outside += 1,
                (theirs, ours) => return Err(format!("position {pos}, base {base}: {theirs:?} and {ours:?}")),
            }
        }
        self.ask_lines(base, listing, &theirs.line_starts, &ours.line_starts)
    }

    fn ask_lines(
        &mut self,
        base: usize,
        listing: &Listing,
        theirs: &[Option<usize>],
        ours: &[Result<usize, u8>],
    ) -> Result<(), String> {
        let count = listing.starts.len();
        if theirs.len() != ours.len() || ours.len() != count + 2 {
            return Err("line counts".into());
        }
        for line in 0..count + 2 {
            match (theirs[line], ours[line]) {
                (Some(theirs), Ok(ours)) if line < count && theirs == ours => self.same += 1,
                (None, Ok(start)) if line == count && start == base + listing.starts[count - 1] => self.last_line += 1,
                (None, Err(5)) if line == 0 || line > count => self.outside += 1,
                (theirs, ours) => return Err(format!("line {line}, base {base}: {theirs:?} and {ours:?}")),
            }
        }
        Ok(())
    }

    pub fn print(&self) {
        println!("questions about lines and positions, {} with the same answer:", self.same);
        println!("{:>10} {}", self.last_line, NAMES[Entry::LastLine as usize]);
        println!("{:>10} {}", self.outside, NAMES[Entry::Outside as usize]);
    }
}

//! The buffers that a scanner lends to each call, and how they grow.

use crate::ffi;
use crate::foreign::foreign;

/// The line table, the error list, the text area and the tokens of a batch.
#[derive(Clone)]
pub struct Buffers {
    pub table: Vec<usize>,
    pub list: Vec<usize>,
    pub area: Vec<u8>,
    /// Empty up to the first batch.
    pub tokens: Vec<ffi::Token>,
    /// The bytes of the source.
    source: usize,
}

/// Numbers in the record of an error.
const RECORD: usize = 4;

impl Buffers {
    /// Buffers that are large enough for most sources of so many bytes.
    pub fn new(source: usize) -> Buffers {
        Buffers {
            table: vec![0; source / 16 + 8],
            list: vec![0; 8 * RECORD],
            area: vec![0; 512],
            tokens: Vec::new(),
            source,
        }
    }

    /// Makes room for the tokens of a batch, up to so many; fewer where the source cannot have as many.
    pub fn make_room(&mut self, tokens: usize) {
        // a character gives one token, with a semicolon after it; then comes EOF
        let most = 2 * self.source + 1;
        self.tokens.resize(tokens.min(most), [0; 10]);
    }

    /// Doubles the buffer for which a scan was refused. It is a foreign library that refuses for another reason, or
    /// where the buffer already holds the most that the source can ask for.
    #[cold]
    pub fn grow(&mut self, refusal: u8) {
        let most = self.source + 1;
        let grown = match refusal {
            // a line starts at 0, and after each LF
            ffi::TABLE_FULL => double(&mut self.table, most),
            // a scan records one error at most, and reads a character then
            ffi::LIST_FULL => double(&mut self.list, most * RECORD),
            // a text has one byte more than was read at most, a value none
            ffi::AREA_FULL => double(&mut self.area, most * 2),
            _ => false,
        };
        if !grown {
            foreign("a refusal to scan")
        }
    }
}

/// Doubles a buffer, up to a limit; tells whether it has grown.
fn double<T: Clone + Default>(buffer: &mut Vec<T>, limit: usize) -> bool {
    let before = buffer.len();
    if before >= limit {
        return false;
    }
    buffer.resize((before * 2).clamp(1, limit), T::default());
    true
}

//! Runs our scanner by calling the library's functions directly, in buffers that are too small at
//! first, and compares what a token shows with the bytes that were read.

#[path = "../bindings/rust/src/ffi.rs"]
#[allow(dead_code)]
mod ffi;

use crate::listing::{End, Listing, Row, EOF, STRING};

// The numbers of a state and of a token.
const PLACE: usize = 2;
const OFFSET: usize = 3;
const LINES: usize = 5;
const ERRORS: usize = 6;
const LINE: usize = 7;
const LINE_START: usize = 8;
const POSITION: usize = 2;
const CODE: usize = 3;
const TEXT: usize = 4;
const VALUE: usize = 7;

/// What the unwritten bytes of the text area hold.
const UNWRITTEN: u8 = 0xaa;
/// Numbers in the record of an error.
const RECORD: usize = 4;

struct Run<'a> {
    source: &'a [u8],
    base: usize,
    state: ffi::State,
    token: ffi::Token,
    table: Vec<usize>,
    list: Vec<usize>,
    area: Vec<u8>,
}

/// A text or a value: which buffer has it, and from where to where.
struct Part {
    in_area: bool,
    start: usize,
    end: usize,
}

/// Our listing of a source, offsets less the base; or what is wrong with what the library answered.
pub fn list(source: &[u8], base: usize, size: usize, out: &mut Listing) -> Result<(), String> {
    out.clear();
    let mut run = Run { source, base, state: [0; ffi::STATE_LEN], token: [0; 10], table: vec![0], list: vec![], area: vec![] };
    let mut answer = 0;
    let number = ffi::open(source, base, size, &mut run.table, &mut run.state, &mut answer);
    if number != 0 {
        out.end = End::Refused { number, place: if number == 1 { answer } else { 0 } };
        return Ok(());
    }
    for _ in 0..2 * answer + 2 {
        run.scan(out)?;
        if usize::from(EOF) == run.token[0] {
            return run.finish(out);
        }
    }
    out.end = End::Endless;
    Ok(())
}

impl Run<'_> {
    // A scan is refused until its buffers are large enough. A refused one changes nothing.
    fn call(&mut self) -> Result<(), String> {
        loop {
            let before = (self.state, self.token);
            let number = ffi::scan(
                self.source,
                &mut self.state,
                &mut self.table,
                &mut self.list,
                &mut self.area,
                &mut self.token,
            );
            if number == 0 {
                return Ok(());
            }
            if before != (self.state, self.token) || self.area.iter().any(|b| *b != UNWRITTEN) {
                return Err(format!("refusal {number} has changed something"));
            }
            self.grow(number)?;
        }
    }

    // Makes the buffer larger for which a scan was refused.
    fn grow(&mut self, number: u8) -> Result<(), String> {
        let most = 2 * self.source.len() + 2;
        let room = match number {
            7 => self.table.len(),
            8 if self.list.len() == RECORD * self.state[ERRORS] => self.list.len() / RECORD,
            9 => self.area.len(),
            _ => return Err(format!("refusal {number}")),
        };
        if room > most {
            return Err(format!("refusal {number} with room for {room}"));
        }
        match number {
            7 => self.table.resize(2 * room, 0),
            8 => self.list.resize(RECORD * (room + 1), 0),
            _ => self.area.resize(2 * room + 1, UNWRITTEN),
        }
        Ok(())
    }

    fn scan(&mut self, out: &mut Listing) -> Result<(), String> {
        let before = self.state;
        self.call()?;
        let offset = self.token[POSITION].wrapping_sub(self.base);
        // what is skipped before a token are characters of one byte
        let start = before[PLACE] + offset.wrapping_sub(before[OFFSET]);
        let read = self.source.get(start..self.state[PLACE]).ok_or("a token outside the source")?;
        if read.iter().filter(|b| **b & 0xc0 != 0x80).count() != self.state[OFFSET].wrapping_sub(offset) {
            return Err("a token's characters".into());
        }
        self.check_parts(start, read, self.state[ERRORS] > before[ERRORS])?;
        self.check_line()?;
        self.put(offset, out)
    }

    // The state's line is the one that the table has for its offset.
    fn check_line(&self) -> Result<(), String> {
        let mut at = [0; 3];
        let offset = self.state[OFFSET];
        if ffi::position(&self.state, &self.table, self.base + offset, &mut at) != 0 {
            return Err("an offset that is refused".into());
        }
        if at != [offset, self.state[LINE], offset.wrapping_sub(self.state[LINE_START]) + 1] {
            return Err("another line than the table's".into());
        }
        Ok(())
    }

    fn put(&mut self, offset: usize, out: &mut Listing) -> Result<(), String> {
        let mut at = [0; 3];
        let refused = ffi::position(&self.state, &self.table, self.token[POSITION], &mut at) != 0;
        let row = Row {
            offset: if refused { usize::MAX } else { at[0] },
            line: at[1],
            column: at[2],
            kind: self.token[0] as u8,
            inserted: self.token[1] != 0,
            code: self.token[CODE] as u32,
            ..Row::default()
        };
        if row.offset != offset {
            return Err("a token's position".into());
        }
        let written = row.kind == 55 && !row.inserted;
        let (text, value) = (self.bytes(TEXT)?, self.bytes(VALUE)?);
        out.push(row, if written && text.is_empty() { b";" } else { text }, value);
        self.area.fill(UNWRITTEN);
        Ok(())
    }

    fn part(&self, at: usize) -> Part {
        Part { in_area: self.token[at] != 0, start: self.token[at + 1], end: self.token[at + 2] }
    }

    fn bytes(&self, at: usize) -> Result<&[u8], String> {
        let part = self.part(at);
        let buffer = if part.in_area { &self.area } else { self.source };
        buffer.get(part.start..part.end).ok_or("a part outside its buffer".into())
    }

    // A part is shown from the source where it equals what was read, or what is between the quotes.
    // Otherwise it is in the area: the text from its first byte, the value after it. The bytes
    // after both are unwritten.
    fn check_parts(&self, start: usize, read: &[u8], failed: bool) -> Result<(), String> {
        let mut written = 0;
        if !self.bytes(TEXT)?.is_empty() {
            written = self.check_part(TEXT, start, read, written)?;
        }
        if self.token[0] == usize::from(STRING) {
            // only an unclosed raw string has an error
            let end = read.len() - usize::from(!failed);
            written = self.check_part(VALUE, start + 1, &read[1..end], written)?;
        }
        if self.area[written..].iter().any(|b| *b != UNWRITTEN) {
            return Err("bytes written after the value".into());
        }
        Ok(())
    }

    // Answers how many bytes of the area are written with this part.
    fn check_part(&self, at: usize, start: usize, same: &[u8], written: usize) -> Result<usize, String> {
        let (part, bytes) = (self.part(at), self.bytes(at)?);
        let place = if part.in_area { written } else { start };
        if part.in_area == (bytes == same) || part.start != place {
            return Err("a part that stands elsewhere".into());
        }
        Ok(if part.in_area { part.end } else { written })
    }

    fn finish(&self, out: &mut Listing) -> Result<(), String> {
        for index in 0..self.state[ERRORS] {
            let mut answer = [0; 4];
            if ffi::error(&self.state, &self.list, index, &mut answer) != 0 {
                return Err("an error that is refused".into());
            }
            out.errors.push(answer);
        }
        for line in 1..=self.state[LINES] {
            let mut start = 0;
            if ffi::line_start(&self.state, &self.table, line, &mut start) != 0 {
                return Err("a line start that is refused".into());
            }
            out.starts.push(start.wrapping_sub(self.base));
        }
        Ok(())
    }
}

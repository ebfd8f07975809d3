//! The functions of the library that this crate calls, over slices. All unsafe code of this crate is here.
//!
//! A slice passes as its pointer and its length in elements. Each function answers 0 or the number of its refusal. It
//! reads and writes its slices only within their lengths, keeps no pointer, and ends: this is proved.

#![allow(unsafe_code)]

/// How many numbers a state has.
pub const STATE_LEN: usize = 9;
/// A state in its numbers: base, size, place, offset, mark, lines, errors, line, line start.
pub type State = [usize; STATE_LEN];
/// A token in its numbers: kind, inserted, position, code, then text and value: in the area or not, start, end.
pub type Token = [usize; 10];

// The numbers of a state that the crate reads.
pub const BASE: usize = 0;
pub const SIZE: usize = 1;
pub const PLACE: usize = 2;
pub const OFFSET: usize = 3;
pub const LINES: usize = 5;
pub const ERRORS: usize = 6;

// The refusals that a scan answers for want of room, by their numbers.
pub const TABLE_FULL: u8 = 7;
pub const LIST_FULL: u8 = 8;
pub const AREA_FULL: u8 = 9;

extern "C" {
    fn scanner_open(
        src: *const u8,
        src_len: usize,
        base: usize,
        size: usize,
        table: *mut usize,
        table_len: usize,
        state: *mut usize,
        state_len: usize,
        answer: *mut usize,
        answer_len: usize,
    ) -> u8;

    fn scanner_scan(
        src: *const u8,
        src_len: usize,
        state: *mut usize,
        state_len: usize,
        table: *mut usize,
        table_len: usize,
        list: *mut usize,
        list_len: usize,
        area: *mut u8,
        area_len: usize,
        token: *mut usize,
        token_len: usize,
    ) -> u8;

    fn scanner_scan_many(
        src: *const u8,
        src_len: usize,
        state: *mut usize,
        state_len: usize,
        table: *mut usize,
        table_len: usize,
        list: *mut usize,
        list_len: usize,
        area: *mut u8,
        area_len: usize,
        tokens: *mut usize,
        tokens_len: usize,
        answer: *mut usize,
        answer_len: usize,
    ) -> u8;

    fn scanner_position(
        state: *const usize,
        state_len: usize,
        table: *const usize,
        table_len: usize,
        position: usize,
        answer: *mut usize,
        answer_len: usize,
    ) -> u8;

    fn scanner_line_start(
        state: *const usize,
        state_len: usize,
        table: *const usize,
        table_len: usize,
        line: usize,
        answer: *mut usize,
        answer_len: usize,
    ) -> u8;

    fn scanner_error(
        state: *const usize,
        state_len: usize,
        list: *const usize,
        list_len: usize,
        index: usize,
        answer: *mut usize,
        answer_len: usize,
    ) -> u8;
}

/// Opens a source. The answer is its number of characters; with refusal 1, the place of the bad byte.
pub fn open(src: &[u8], base: usize, size: usize, table: &mut [usize], state: &mut State, answer: &mut usize) -> u8 {
    // SAFETY: each pointer and length are those of a live slice (the answer: of one number). Those that are written
    // are exclusive borrows, so no two overlap.
    unsafe {
        scanner_open(
            src.as_ptr(),
            src.len(),
            base,
            size,
            table.as_mut_ptr(),
            table.len(),
            state.as_mut_ptr(),
            state.len(),
            answer,
            1,
        )
    }
}

/// Scans one token.
#[inline]
pub fn scan(
    src: &[u8],
    state: &mut State,
    table: &mut [usize],
    list: &mut [usize],
    area: &mut [u8],
    token: &mut Token,
) -> u8 {
    // SAFETY: each pointer and length are those of a live slice. Those that are written are exclusive borrows, so no
    // two overlap.
    unsafe {
        scanner_scan(
            src.as_ptr(),
            src.len(),
            state.as_mut_ptr(),
            state.len(),
            table.as_mut_ptr(),
            table.len(),
            list.as_mut_ptr(),
            list.len(),
            area.as_mut_ptr(),
            area.len(),
            token.as_mut_ptr(),
            token.len(),
        )
    }
}

/// Scans as many tokens as there is room for, at least one, and answers how many it gave. A refused call gives none and
/// changes nothing.
#[inline]
pub fn scan_many(
    src: &[u8],
    state: &mut State,
    table: &mut [usize],
    list: &mut [usize],
    area: &mut [u8],
    tokens: &mut [Token],
    answer: &mut usize,
) -> u8 {
    let tokens = tokens.as_flattened_mut();
    // SAFETY: each pointer and length are those of a live slice (the answer: of one number). Those that are written
    // are exclusive borrows, so no two overlap.
    unsafe {
        scanner_scan_many(
            src.as_ptr(),
            src.len(),
            state.as_mut_ptr(),
            state.len(),
            table.as_mut_ptr(),
            table.len(),
            list.as_mut_ptr(),
            list.len(),
            area.as_mut_ptr(),
            area.len(),
            tokens.as_mut_ptr(),
            tokens.len(),
            answer,
            1,
        )
    }
}

/// The offset, line and column of a position. It searches from the first line, so `lines.rs` answers instead; the
/// tests hold that answer to this one.
#[cfg_attr(not(test), allow(dead_code))]
pub fn position(state: &State, table: &[usize], position: usize, answer: &mut [usize; 3]) -> u8 {
    // SAFETY: each pointer and length are those of a live slice; the answer, which is written, is an exclusive borrow.
    unsafe {
        scanner_position(
            state.as_ptr(),
            state.len(),
            table.as_ptr(),
            table.len(),
            position,
            answer.as_mut_ptr(),
            answer.len(),
        )
    }
}

/// The position at which a line starts.
pub fn line_start(state: &State, table: &[usize], line: usize, answer: &mut usize) -> u8 {
    // SAFETY: each pointer and length are those of a live slice (the answer: of one number); the answer, which is
    // written, is an exclusive borrow.
    unsafe { scanner_line_start(state.as_ptr(), state.len(), table.as_ptr(), table.len(), line, answer, 1) }
}

/// The offset, line, column and number of an error; zeros where there is none.
pub fn error(state: &State, list: &[usize], index: usize, answer: &mut [usize; 4]) -> u8 {
    // SAFETY: each pointer and length are those of a live slice; the answer, which is written, is an exclusive borrow.
    unsafe {
        scanner_error(state.as_ptr(), state.len(), list.as_ptr(), list.len(), index, answer.as_mut_ptr(), answer.len())
    }
}

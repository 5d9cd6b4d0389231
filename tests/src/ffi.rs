//! The library's C interface, declared as in `include/soclethyme.h`, with a safe
//! function for each of its calls.

use std::ops::Range;

use crate::book::Tables;
use crate::desk::Desk;
use crate::refusal::Refusal;

/// Proper, found, written, read, valid, annotated, fresh.
pub const POSITIVE: u32 = 0;
/// None, not valid, a rejecting loop.
pub const NEGATIVE: u32 = 256;

extern "C" {
    fn soclethyme_check(sheet: *const u8, sheet_len: usize) -> u32;
    fn soclethyme_find(
        sheet: *const u8,
        sheet_len: usize,
        book: *mut u8,
        book_len: usize,
        annotation: *mut u16,
        annotation_len: usize,
    ) -> u32;
    fn soclethyme_write(
        sheet: *const u8,
        sheet_len: usize,
        tables: *const u8,
        book: *mut u8,
        book_len: usize,
    ) -> u32;
    fn soclethyme_read(
        sheet: *const u8,
        sheet_len: usize,
        book: *const u8,
        book_len: usize,
        tables: *mut u8,
    ) -> u32;
    fn soclethyme_part(
        sheet: *const u8,
        sheet_len: usize,
        book: *const u8,
        book_len: usize,
        process: usize,
    ) -> u32;
    fn soclethyme_judge(
        sheet: *const u8,
        sheet_len: usize,
        book: *const u8,
        book_len: usize,
        annotation: *const u16,
        annotation_len: usize,
    ) -> u32;
    fn soclethyme_annotate(
        sheet: *const u8,
        sheet_len: usize,
        book: *const u8,
        book_len: usize,
        annotation: *mut u16,
        annotation_len: usize,
        path: *mut u8,
        path_len: usize,
        lengths: *mut u32,
    ) -> u32;
    fn soclethyme_fresh(sheet: *const u8, sheet_len: usize, desk: *mut u8) -> u32;
    fn soclethyme_step(
        sheet: *const u8,
        sheet_len: usize,
        book: *const u8,
        book_len: usize,
        desk: *mut u8,
        direction: u8,
    ) -> u32;
    fn soclethyme_join(
        first: *const u8,
        first_len: usize,
        second: *const u8,
        second_len: usize,
        sheet: *mut u8,
        sheet_len: usize,
    ) -> u32;
}

// SAFETY, of every call below: each pointer and length are those of one live
// slice, and tables, the two lengths of a run and desks have the length that the
// calls expect. A call writes only to what it gets as `*mut`, which is lent as
// `&mut` and so overlaps nothing else.

/// Whether the sheet is proper: positive, or the refusal.
pub fn check(sheet: &[u8]) -> u32 {
    unsafe { soclethyme_check(sheet.as_ptr(), sheet.len()) }
}

/// Positive for a book and its annotation written at the fronts of the buffers,
/// negative for none, otherwise the refusal.
pub fn find(sheet: &[u8], book: &mut [u8], annotation: &mut [u16]) -> u32 {
    unsafe {
        soclethyme_find(
            sheet.as_ptr(),
            sheet.len(),
            book.as_mut_ptr(),
            book.len(),
            annotation.as_mut_ptr(),
            annotation.len(),
        )
    }
}

/// Positive for a book written at the front of the buffer, otherwise the refusal.
pub fn write(sheet: &[u8], tables: &Tables, book: &mut [u8]) -> u32 {
    unsafe {
        soclethyme_write(
            sheet.as_ptr(),
            sheet.len(),
            tables.as_ptr(),
            book.as_mut_ptr(),
            book.len(),
        )
    }
}

/// Positive for a book read into the tables, otherwise the refusal.
pub fn read(sheet: &[u8], book: &[u8], tables: &mut Tables) -> u32 {
    unsafe {
        soclethyme_read(
            sheet.as_ptr(),
            sheet.len(),
            book.as_ptr(),
            book.len(),
            tables.as_mut_ptr(),
        )
    }
}

/// Where the process's records are, as `part_number` gives it, or the refusal.
pub fn part(sheet: &[u8], book: &[u8], process: usize) -> u32 {
    unsafe {
        soclethyme_part(
            sheet.as_ptr(),
            sheet.len(),
            book.as_ptr(),
            book.len(),
            process,
        )
    }
}

/// Positive for a valid annotation, negative for one that is not, otherwise the
/// refusal.
pub fn judge(sheet: &[u8], book: &[u8], annotation: &[u16]) -> u32 {
    unsafe {
        soclethyme_judge(
            sheet.as_ptr(),
            sheet.len(),
            book.as_ptr(),
            book.len(),
            annotation.as_ptr(),
            annotation.len(),
        )
    }
}

/// Positive for an annotation written at the front of its buffer; negative for a
/// rejecting loop, with the steps of a stem and a cycle written at the front of
/// the path and their counts to the lengths; otherwise the refusal.
pub fn annotate(
    sheet: &[u8],
    book: &[u8],
    annotation: &mut [u16],
    path: &mut [u8],
    lengths: &mut [u32; 2],
) -> u32 {
    unsafe {
        soclethyme_annotate(
            sheet.as_ptr(),
            sheet.len(),
            book.as_ptr(),
            book.len(),
            annotation.as_mut_ptr(),
            annotation.len(),
            path.as_mut_ptr(),
            path.len(),
            lengths.as_mut_ptr(),
        )
    }
}

/// Positive for a desk at the initial composed state, otherwise the refusal.
pub fn fresh(sheet: &[u8], desk: &mut Desk) -> u32 {
    unsafe { soclethyme_fresh(sheet.as_ptr(), sheet.len(), desk.as_mut_ptr()) }
}

/// The label behind the step, as `label_number` gives it, or the refusal.
pub fn step(sheet: &[u8], book: &[u8], desk: &mut Desk, direction: u8) -> u32 {
    unsafe {
        soclethyme_step(
            sheet.as_ptr(),
            sheet.len(),
            book.as_ptr(),
            book.len(),
            desk.as_mut_ptr(),
            direction,
        )
    }
}

/// The length of the joined sheet, written at the front of the buffer, as
/// `length_number` gives it, or the refusal.
pub fn join(first: &[u8], second: &[u8], sheet: &mut [u8]) -> u32 {
    unsafe {
        soclethyme_join(
            first.as_ptr(),
            first.len(),
            second.as_ptr(),
            second.len(),
            sheet.as_mut_ptr(),
            sheet.len(),
        )
    }
}

/// The number for a call that succeeds or is refused.
pub fn success_number(result: Result<(), Refusal>) -> u32 {
    result.err().unwrap_or(POSITIVE)
}

/// The number for one of two findings, or a refusal.
pub fn finding_number(finding: Result<bool, Refusal>) -> u32 {
    match finding {
        Ok(true) => POSITIVE,
        Ok(false) => NEGATIVE,
        Err(refusal) => refusal,
    }
}

/// The number for a part of a book, which is above those of all refusals.
pub fn part_number(part: &Range<usize>) -> u32 {
    (part.end * 65_536 + part.start) as u32
}

/// The part that a number stands for.
pub fn numbered_part(number: u32) -> Range<usize> {
    let number = number as usize;
    number % 65_536..number / 65_536
}

/// The number for a label, which is above those of all refusals.
pub fn label_number(label: u8) -> u32 {
    65_536 + u32::from(label)
}

/// The number for a length, which is above those of all refusals.
pub fn length_number(length: usize) -> u32 {
    65_536 + length as u32
}

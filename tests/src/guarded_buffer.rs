//! Buffers that are lent to the library between guards, so that a write outside
//! of them is seen.

use crate::text::{hex, run_lengths};

/// What a lent buffer is made of: the bytes of books, sheets, tables, paths and
/// desks, the numbers of annotations, the lengths of runs.
pub trait Cell: Copy + PartialEq {
    const BEFORE: Self;
    const BEHIND: Self;

    fn text(cells: &[Self]) -> String;
}

impl Cell for u8 {
    const BEFORE: u8 = 0xA5;
    const BEHIND: u8 = 0x5A;

    fn text(cells: &[u8]) -> String {
        hex(cells)
    }
}

impl Cell for u16 {
    const BEFORE: u16 = 0xA5A5;
    const BEHIND: u16 = 0x5A5A;

    fn text(cells: &[u16]) -> String {
        run_lengths(cells)
    }
}

impl Cell for u32 {
    const BEFORE: u32 = 0xA5A5_A5A5;
    const BEHIND: u32 = 0x5A5A_5A5A;

    fn text(cells: &[u32]) -> String {
        format!("{cells:?}")
    }
}

/// How many cells stand guard on either side.
const GUARD: usize = 32;

/// A buffer with its guards.
pub struct GuardedBuffer<T> {
    cells: Vec<T>,
}

impl<T: Cell> GuardedBuffer<T> {
    pub fn holding(held: &[T]) -> Self {
        let (before, behind) = ([T::BEFORE; GUARD], [T::BEHIND; GUARD]);
        GuardedBuffer {
            cells: [&before, held, &behind].concat(),
        }
    }

    /// What the library may write to.
    pub fn lent(&mut self) -> &mut [T] {
        let end = self.cells.len() - GUARD;
        &mut self.cells[GUARD..end]
    }

    /// What it holds between its guards.
    pub fn held(&self) -> &[T] {
        &self.cells[GUARD..self.cells.len() - GUARD]
    }

    /// Whether it holds exactly this, with its guards as they were.
    pub fn holds(&self, expected: &[T]) -> bool {
        self.cells == GuardedBuffer::holding(expected).cells
    }

    /// What it holds beside what it should hold.
    pub fn compared(&self, expected: &[T]) -> String {
        let (library, independent) = (T::text(&self.cells), T::text(expected));
        format!("library's buffer with guards: {library}\nindependent: {independent}")
    }
}

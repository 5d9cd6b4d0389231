//! Books: an independent writing, reading and parting of them.

use std::ops::Range;

use crate::refusal::{Refusal, NO_PROCESS, SHORT_BUFFER, WRONG_ENTRY, WRONG_FORM};
use crate::sheet::{read_sheet, Sheet};
use crate::ties::keeps_ties;

pub const TABLES_LENGTH: usize = 272;
pub const LONGEST_BOOK: usize = 338;

/// The entries of a choice at the front, with bytes of no meaning behind them.
pub type Tables = [u8; TABLES_LENGTH];

/// What one byte of a book has to be. A layout has the rules of all its bytes.
#[derive(Clone, Copy, Debug, PartialEq, Eq)]
pub enum ByteRule {
    /// This very byte: of a mark, or a process or state number.
    Due(u8),
    /// An output mask within these outputs.
    Output(u8),
    /// A next state below this bound.
    Next(u8),
}

impl ByteRule {
    pub fn is_entry(self) -> bool {
        !matches!(self, ByteRule::Due(_))
    }

    pub fn admits(self, byte: u8) -> bool {
        match self {
            ByteRule::Due(due) => byte == due,
            ByteRule::Output(outputs) => byte | outputs == outputs,
            ByteRule::Next(bound) => byte < bound,
        }
    }
}

/// The rules of one process's records.
pub fn process_layout(sheet: &Sheet, index: usize) -> Vec<ByteRule> {
    let process = sheet.processes[index];
    let mut rules = Vec::new();
    for state in 0..process.bound {
        for due in [b'T', b'B', index as u8, state] {
            rules.push(ByteRule::Due(due));
        }
        rules.push(ByteRule::Output(process.outputs));
        let next = ByteRule::Next(process.bound);
        rules.extend(vec![next; process.row_places()]);
    }
    rules
}

/// The rules of the whole book, its EN included.
pub fn layout(sheet: &Sheet) -> Vec<ByteRule> {
    let mut rules = Vec::new();
    for index in 0..sheet.processes.len() {
        rules.extend(process_layout(sheet, index));
    }
    rules.extend([ByteRule::Due(b'E'), ByteRule::Due(b'N')]);
    rules
}

/// The bytes that stand at the entries of a book.
pub fn entries(layout: &[ByteRule], book: &[u8]) -> Vec<u8> {
    let rules = layout.iter().zip(book);
    rules
        .filter(|(rule, _)| rule.is_entry())
        .map(|(_, byte)| *byte)
        .collect()
}

/// A book with these entries, in range or not.
pub fn book_of(layout: &[ByteRule], entries: &[u8]) -> Vec<u8> {
    let mut left = entries.iter();
    let mut book = Vec::new();
    for rule in layout {
        book.push(match rule {
            ByteRule::Due(due) => *due,
            _ => *left.next().expect("an entry for each such rule"),
        });
    }
    book
}

/// The refusal of a book, its form settled before its entries: each of them for
/// itself, and those of tied processes.
fn check_book(sheet: &Sheet, layout: &[ByteRule], book: &[u8]) -> Result<(), Refusal> {
    if book.len() != layout.len() {
        return Err(WRONG_FORM);
    }
    let refused = |entry: bool| {
        let mut rules = layout.iter().zip(book);
        rules.any(|(rule, byte)| rule.is_entry() == entry && !rule.admits(*byte))
    };
    if refused(false) {
        Err(WRONG_FORM)
    } else if refused(true) || !keeps_ties(sheet, &entries(layout, book)) {
        Err(WRONG_ENTRY)
    } else {
        Ok(())
    }
}

/// Writes tables as a book at the front of the buffer.
pub fn write(sheet: &[u8], tables: &Tables, buffer: &mut [u8]) -> Result<(), Refusal> {
    let sheet = read_sheet(sheet)?;
    let layout = layout(&sheet);
    let book = book_of(&layout, tables);
    check_book(&sheet, &layout, &book)?;
    let front = buffer.get_mut(..book.len()).ok_or(SHORT_BUFFER)?;
    front.copy_from_slice(&book);
    Ok(())
}

/// Reads a book into tables, with 0 behind the entries.
pub fn read(sheet: &[u8], book: &[u8], tables: &mut Tables) -> Result<(), Refusal> {
    let sheet = read_sheet(sheet)?;
    let layout = layout(&sheet);
    check_book(&sheet, &layout, book)?;
    let entries = entries(&layout, book);
    tables.fill(0);
    tables[..entries.len()].copy_from_slice(&entries);
    Ok(())
}

/// Where the records of one process stand in the book.
pub fn part(sheet: &[u8], book: &[u8], process: usize) -> Result<Range<usize>, Refusal> {
    let sheet = read_sheet(sheet)?;
    if process >= sheet.processes.len() {
        return Err(NO_PROCESS);
    }
    check_book(&sheet, &layout(&sheet), book)?;
    let start = (0..process)
        .map(|before| process_layout(&sheet, before).len())
        .sum();
    Ok(start..start + process_layout(&sheet, process).len())
}

//! Proper sheets, with what follows from them for their books.

use crate::book::{layout, ByteRule};
use crate::refusal::{Refusal, WRONG_ENTRY, WRONG_FORM};
use crate::sheet::{read_sheet, Sheet};

/// A proper sheet, as fields and as bytes, with the layout of its books.
pub struct ProperSheet {
    pub sheet: Sheet,
    pub bytes: Vec<u8>,
    pub layout: Vec<ByteRule>,
}

impl ProperSheet {
    pub fn new(sheet: Sheet) -> Self {
        let bytes = sheet.bytes();
        assert_eq!(read_sheet(&bytes).as_ref(), Ok(&sheet), "a proper sheet");
        ProperSheet {
            layout: layout(&sheet),
            bytes,
            sheet,
        }
    }

    /// The rules of a choice's entries, in order.
    pub fn entry_rules(&self) -> impl Iterator<Item = ByteRule> + '_ {
        self.layout.iter().copied().filter(|rule| rule.is_entry())
    }

    /// Where in the book the entries are, rising.
    pub fn entry_positions(&self) -> Vec<usize> {
        let positions = 0..self.layout.len();
        positions
            .filter(|position| self.layout[*position].is_entry())
            .collect()
    }

    /// What a book is refused with whose only wrong byte is here.
    pub fn refusal_at(&self, position: usize) -> Refusal {
        if self.layout[position].is_entry() {
            WRONG_ENTRY
        } else {
            WRONG_FORM
        }
    }
}

/// A proper sheet with one book for it.
pub struct SheetAndBook {
    pub proper: ProperSheet,
    pub book: Vec<u8>,
}

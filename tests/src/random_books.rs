//! Random books and tables for proper sheets, and bytes that make them wrong.

use crate::book::{book_of, ByteRule, Tables, TABLES_LENGTH};
use crate::choices::entry_values;
use crate::proper_sheet::{ProperSheet, SheetAndBook};
use crate::random_faults;
use crate::random_sheets;
use crate::rng::Rng;
use crate::sheet::{Sheet, MOST_BOUND};
use crate::ties::tied_entries;

/// Which of the admitted values the entries of a choice get.
#[derive(Clone, Copy)]
enum EntryValues {
    Least,
    Greatest,
    Any,
}

impl EntryValues {
    fn draw(self, rng: &mut Rng, rule: ByteRule) -> u8 {
        match (rule, self) {
            (ByteRule::Due(due), _) => due,
            (_, EntryValues::Least) => 0,
            (ByteRule::Output(outputs), EntryValues::Greatest) => outputs,
            (ByteRule::Output(outputs), EntryValues::Any) => rng.byte() & outputs,
            (ByteRule::Next(bound), EntryValues::Greatest) => bound - 1,
            (ByteRule::Next(bound), EntryValues::Any) => rng.below(bound as usize) as u8,
        }
    }
}

/// A choice's entries; the least and the greatest come up often.
pub fn entries(rng: &mut Rng, proper: &ProperSheet) -> Vec<u8> {
    let any = EntryValues::Any;
    let values = *rng.pick(&[EntryValues::Least, EntryValues::Greatest, any, any]);
    entries_with(rng, proper, values)
}

/// A choice's entries, each drawn by itself as far as ties allow.
pub fn lively_entries(rng: &mut Rng, proper: &ProperSheet) -> Vec<u8> {
    entries_with(rng, proper, EntryValues::Any)
}

fn entries_with(rng: &mut Rng, proper: &ProperSheet, values: EntryValues) -> Vec<u8> {
    let rules = proper.entry_rules();
    let mut entries: Vec<u8> = rules.map(|rule| values.draw(rng, rule)).collect();
    if !proper.sheet.ties.is_empty() {
        share_tables(proper, &mut entries);
    }
    entries
}

/// Gives each process the table of the first that it is tied to.
fn share_tables(proper: &ProperSheet, entries: &mut [u8]) {
    let values = entry_values(proper);
    for set in tied_entries(&proper.sheet) {
        let mut ranked = values[set[0]].iter();
        let rank = ranked.position(|value| *value == entries[set[0]]);
        for at in set {
            entries[at] = values[at][rank.expect("a value of the entry")];
        }
    }
}

/// A tied entry with another value that it may have by itself.
pub struct LoosedEntry {
    pub at: usize,
    pub value: u8,
}

/// One for each tied entry of the choice that may have another value: each of
/// them alone breaks a tie.
pub fn loosed_entries(rng: &mut Rng, proper: &ProperSheet, entries: &[u8]) -> Vec<LoosedEntry> {
    let values = entry_values(proper);
    let tied = tied_entries(&proper.sheet).into_iter();
    let tied = tied.filter(|set| set.len() > 1 && values[set[0]].len() > 1);
    let loosed = tied.flatten().map(|at| {
        let mut others = values[at].clone();
        others.retain(|value| *value != entries[at]);
        let value = *rng.pick(&others);
        LoosedEntry { at, value }
    });
    loosed.collect()
}

/// A book of the sheet.
pub fn book(rng: &mut Rng, proper: &ProperSheet) -> Vec<u8> {
    let entries = entries(rng, proper);
    book_of(&proper.layout, &entries)
}

/// The sheet with one of its books.
pub fn with_book(rng: &mut Rng, sheet: Sheet) -> SheetAndBook {
    let proper = ProperSheet::new(sheet);
    SheetAndBook {
        book: book(rng, &proper),
        proper,
    }
}

/// A book for the sheet that may be wrong in several positions at once.
pub fn maybe_wrong_book(rng: &mut Rng, proper: &ProperSheet) -> Vec<u8> {
    let mut book = book(rng, proper);
    for _ in 0..rng.below(3) {
        random_faults::change_byte(rng, &mut book);
    }
    match rng.below(8) {
        0 => {
            let count = rng.below(60);
            rng.bytes(count)
        }
        1 => book_of_another_sheet(rng),
        2 => {
            let entries = rng.bytes(TABLES_LENGTH);
            book_of(&proper.layout, &entries)
        }
        _ => book,
    }
}

fn book_of_another_sheet(rng: &mut Rng) -> Vec<u8> {
    let sheet = random_sheets::proper(rng);
    with_book(rng, sheet).book
}

/// Entries within the rules, and anything behind them.
pub fn tables(rng: &mut Rng, proper: &ProperSheet) -> Tables {
    let entries = entries(rng, proper);
    let mut tables = any_tables(rng);
    tables[..entries.len()].copy_from_slice(&entries);
    tables
}

/// Tables for the sheet of which some entries may be anything.
pub fn maybe_wrong_tables(rng: &mut Rng, proper: &ProperSheet) -> Tables {
    let mut tables = tables(rng, proper);
    for _ in 0..rng.below(3) {
        tables[rng.below(TABLES_LENGTH)] = rng.byte();
    }
    tables
}

/// Tables that were drawn for no sheet.
pub fn any_tables(rng: &mut Rng) -> Tables {
    let mut tables = [0; TABLES_LENGTH];
    match rng.below(4) {
        0 => {}
        1 => tables.fill(255),
        _ => tables.copy_from_slice(&rng.bytes(TABLES_LENGTH)),
    }
    tables
}

/// Bytes that the rule does not admit, near its limit and far from it.
pub fn wrong_bytes(rule: ByteRule) -> Vec<u8> {
    let mut bytes = bytes_around(rule);
    bytes.retain(|byte| !rule.admits(*byte));
    bytes.sort();
    bytes.dedup();
    bytes
}

fn bytes_around(rule: ByteRule) -> Vec<u8> {
    match rule {
        ByteRule::Due(due) => {
            let flipped = (0..8).map(|bit| due ^ 1 << bit);
            let far = [0, 255, due.wrapping_add(1), due.wrapping_sub(1)];
            flipped.chain(far).collect()
        }
        ByteRule::Output(outputs) => {
            let more = (0..8).map(|bit| outputs | 1 << bit);
            more.chain([255, !outputs]).collect()
        }
        ByteRule::Next(bound) => vec![bound, bound + 1, MOST_BOUND as u8, 128, 255],
    }
}

/// A byte that the rule does not admit, if there is one.
pub fn wrong_byte(rng: &mut Rng, rule: ByteRule) -> Option<u8> {
    let wrong = wrong_bytes(rule);
    (!wrong.is_empty()).then(|| *rng.pick(&wrong))
}

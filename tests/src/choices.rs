//! The choices of a sheet in the order of the specification, and the first that
//! keeps it by plain enumeration: each one is made a book, and the independent
//! run graph tests it. Tables that break a tie are passed over one by one.

use crate::book::{book_of, ByteRule};
use crate::proper_sheet::ProperSheet;
use crate::run_graph::RunGraph;
use crate::sheet::{Process, Sheet};
use crate::ties::{keeps_ties, tied_groups};

/// The first choice that keeps a sheet, with what find has to write for it.
#[derive(Clone, Debug, PartialEq, Eq)]
pub struct FoundChoice {
    pub entries: Vec<u8>,
    pub book: Vec<u8>,
    pub annotation: Vec<u16>,
    /// How many choices come before it.
    pub before: u64,
}

impl FoundChoice {
    /// The choice with its annotation, or none if a rejecting loop is
    /// reachable with it.
    pub fn if_kept(proper: &ProperSheet, entries: &[u8], before: u64) -> Option<Self> {
        let book = book_of(&proper.layout, entries);
        let graph = RunGraph::read(&proper.bytes, &book).expect("a book of the sheet");
        graph.annotation().map(|annotation| FoundChoice {
            entries: entries.to_vec(),
            book,
            annotation,
            before,
        })
    }
}

/// The values that each entry of a choice may have, rising.
pub fn entry_values(proper: &ProperSheet) -> Vec<Vec<u8>> {
    let admitted = |rule: ByteRule| (0..=255).filter(|byte| rule.admits(*byte)).collect();
    proper.entry_rules().map(admitted).collect()
}

/// How many choices the sheet has: tied processes have one table between them.
/// All counts past the greatest are that one.
pub fn choice_count(sheet: &Sheet) -> u64 {
    let groups = tied_groups(sheet).into_iter();
    let counts = groups.map(|group| table_count(&sheet.processes[group[0]]));
    counts.fold(1, u64::saturating_mul)
}

/// How many it would have if no process were tied.
pub fn untied_count(sheet: &Sheet) -> u64 {
    let counts = sheet.processes.iter().map(table_count);
    counts.fold(1, u64::saturating_mul)
}

fn table_count(process: &Process) -> u64 {
    let places = process.row_places() as u32;
    let next = u64::from(process.bound).saturating_pow(places);
    let row = next.saturating_mul(1 << process.outputs.count_ones());
    row.saturating_pow(u32::from(process.bound))
}

/// The choices one after the other: all tables that keep the ties.
pub fn choices(proper: &ProperSheet) -> impl Iterator<Item = Vec<u8>> + '_ {
    UntiedChoices::of(proper).filter(|entries| keeps_ties(&proper.sheet, entries))
}

/// All tables one after the other, tied or not: the first entry that differs
/// decides.
struct UntiedChoices {
    values: Vec<Vec<u8>>,
    /// Which of its values each entry of the next tables has.
    ranks: Vec<usize>,
    ended: bool,
}

impl UntiedChoices {
    fn of(proper: &ProperSheet) -> Self {
        let values = entry_values(proper);
        UntiedChoices {
            ranks: vec![0; values.len()],
            values,
            ended: false,
        }
    }

    /// The last entry that can rise does, and those behind it begin again.
    fn advance(&mut self) {
        for (rank, values) in self.ranks.iter_mut().zip(&self.values).rev() {
            *rank += 1;
            if *rank < values.len() {
                return;
            }
            *rank = 0;
        }
        self.ended = true;
    }
}

impl Iterator for UntiedChoices {
    type Item = Vec<u8>;

    fn next(&mut self) -> Option<Vec<u8>> {
        if self.ended {
            return None;
        }
        let ranked = self.ranks.iter().zip(&self.values);
        let entries = ranked.map(|(rank, values)| values[*rank]).collect();
        self.advance();
        Some(entries)
    }
}

/// The first choice that keeps the sheet, none if no choice does.
pub fn first_choice(proper: &ProperSheet) -> Option<FoundChoice> {
    let mut numbered = (0..).zip(choices(proper));
    numbered.find_map(|(before, entries)| FoundChoice::if_kept(proper, &entries, before))
}

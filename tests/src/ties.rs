//! Ties: which processes can share a table, which do, and whether tables are the
//! same.

use std::iter;

use crate::sheet::{packed, Process, Sheet};

/// The numbers of two processes that have to share one table.
pub type Tie = [u8; 2];

/// What can be wrong about a tie.
#[derive(Clone, Copy, Debug, PartialEq, Eq)]
pub enum TieFault {
    LeftMissing,
    RightMissing,
    SameTwice,
    BoundsDiffer,
    InputCountsDiffer,
    OutputCountsDiffer,
    PromptPlacesDiffer,
}

impl TieFault {
    pub const ALL: [TieFault; 7] = [
        TieFault::LeftMissing,
        TieFault::RightMissing,
        TieFault::SameTwice,
        TieFault::BoundsDiffer,
        TieFault::InputCountsDiffer,
        TieFault::OutputCountsDiffer,
        TieFault::PromptPlacesDiffer,
    ];

    fn of(self, processes: &[Process], tie: Tie) -> bool {
        let [left, right] = tie.map(|number| processes.get(number as usize));
        let differ = |counted: fn(&Process) -> u32| match (left, right) {
            (Some(left), Some(right)) => counted(left) != counted(right),
            _ => false,
        };
        match self {
            TieFault::LeftMissing => left.is_none(),
            TieFault::RightMissing => right.is_none(),
            TieFault::SameTwice => tie[0] == tie[1],
            TieFault::BoundsDiffer => differ(|process| process.bound.into()),
            TieFault::InputCountsDiffer => differ(|process| process.inputs.count_ones()),
            TieFault::OutputCountsDiffer => differ(|process| process.outputs.count_ones()),
            TieFault::PromptPlacesDiffer => differ(|process| process.prompt_places().into()),
        }
    }
}

/// All that is wrong about a tie of these processes.
pub fn tie_faults(processes: &[Process], tie: Tie) -> Vec<TieFault> {
    let mut faults = TieFault::ALL.to_vec();
    faults.retain(|fault| fault.of(processes, tie));
    faults
}

/// Whether the processes of each tie have one table. Each tie is looked at by
/// itself, so that nothing is said of how they chain.
pub fn keeps_ties(sheet: &Sheet, entries: &[u8]) -> bool {
    let mut ties = sheet.ties.iter();
    ties.all(|[one, other]| {
        let other = packed_table(sheet, *other, entries);
        packed_table(sheet, *one, entries).eq(other)
    })
}

/// A process's table, states rising: its output masks packed, its next states
/// place by place.
fn packed_table<'a>(
    sheet: &'a Sheet,
    number: u8,
    entries: &'a [u8],
) -> impl Iterator<Item = u8> + 'a {
    let (before, from) = sheet.processes.split_at(usize::from(number));
    let process = &from[0];
    let start: usize = before.iter().map(Process::table_length).sum();
    let rows = entries[start..][..process.table_length()].chunks(1 + process.row_places());
    rows.flat_map(|row| {
        let next = row[1..].iter().copied();
        iter::once(packed(process.outputs, row[0])).chain(next)
    })
}

/// The processes in groups that share a table, since ties chain: each rising,
/// and ordered by the first of each.
pub fn tied_groups(sheet: &Sheet) -> Vec<Vec<usize>> {
    let mut groups: Vec<Vec<usize>> = (0..sheet.processes.len()).map(|p| vec![p]).collect();
    for tie in &sheet.ties {
        let is_named = |group: &Vec<usize>| group.iter().any(|p| tie.contains(&(*p as u8)));
        let (named, mut others): (Vec<_>, Vec<_>) = groups.into_iter().partition(is_named);
        others.push(named.concat());
        groups = others;
    }
    groups.iter_mut().for_each(|group| group.sort());
    groups.sort();
    groups
}

/// The entries that tied processes have at the same place of their tables, by
/// their positions in a choice: ordered by the first of each set.
pub fn tied_entries(sheet: &Sheet) -> Vec<Vec<usize>> {
    let mut starts = Vec::new();
    let mut length = 0;
    for process in &sheet.processes {
        starts.push(length);
        length += process.table_length();
    }
    let mut sets = Vec::new();
    for group in tied_groups(sheet) {
        for place in 0..sheet.processes[group[0]].table_length() {
            let positions = group.iter().map(|process| starts[*process] + place);
            sets.push(positions.collect());
        }
    }
    sets
}

//! Where and why files are refused at their ties, and which ties sheets have,
//! counted.

use crate::refusal::{CUT_OFF, WRONG_MARK, WRONG_TIE};
use crate::sheet::{Reading, RecordKind, Sheet};
use crate::tally::Tally;
use crate::ties::{tie_faults, tied_groups};

/// A fault of an SY that has no other.
pub const ONLY_FAULT: &str = "only fault of an SY";
/// Whether a variable without an owner or T would be refused too, behind it.
pub const BEFORE_COMPOSITION: &str = "15 before 5";
/// The place of an SY that is refused by its mark or its length, or of a PR or PM.
pub const PLACE: &str = "place of a refused SY";
/// The same where the file ends behind the mark.
pub const PLACE_OF_MARK: &str = "place of a refused SY, the mark alone";
/// Whether the only number of an SY that is cut off is that of a process.
pub const CUT_BEHIND_PROCESS: &str = "an SY is cut off behind a process";

const TIES: &str = "ties";
const LARGEST_GROUP: &str = "most processes with one table";

#[derive(Clone, Copy, Debug, PartialEq, Eq)]
pub enum TiePlace {
    BeforeProcesses,
    ProcessBehind,
    Fourth,
    BehindAutomaton,
    CutOff,
}

impl TiePlace {
    pub const ALL: [TiePlace; 5] = [
        TiePlace::BeforeProcesses,
        TiePlace::ProcessBehind,
        TiePlace::Fourth,
        TiePlace::BehindAutomaton,
        TiePlace::CutOff,
    ];

    /// None if the file is not refused at an SY, or at a process behind one.
    fn of(reading: &Reading) -> Option<Self> {
        let is_at = |kind: RecordKind| reading.mark == kind.mark();
        let is_process = RecordKind::PROCESSES.into_iter().any(is_at);
        match (reading.refusal?, reading.last?) {
            (CUT_OFF, _) if is_at(RecordKind::Tie) => Some(TiePlace::CutOff),
            (WRONG_MARK, RecordKind::Tie) if is_process => Some(TiePlace::ProcessBehind),
            (WRONG_MARK, last) if is_at(RecordKind::Tie) => match last {
                RecordKind::Architecture => Some(TiePlace::BeforeProcesses),
                RecordKind::Tie => Some(TiePlace::Fourth),
                _ => Some(TiePlace::BehindAutomaton),
            },
            _ => None,
        }
    }
}

/// Counts where a file was refused at an SY, and why.
pub fn count_refusal(tally: &mut Tally, reading: &Reading) {
    if let Some(place) = TiePlace::of(reading) {
        tally.count(PLACE, place as usize);
        if reading.rest.is_empty() {
            tally.count(PLACE_OF_MARK, place as usize);
        } else if place == TiePlace::CutOff {
            let is_process = usize::from(reading.rest[0]) < reading.sheet.processes.len();
            tally.count(CUT_BEHIND_PROCESS, is_process);
        }
    }
    if reading.refusal == Some(WRONG_TIE) {
        let tie = [reading.rest[0], reading.rest[1]];
        if let [only] = tie_faults(&reading.sheet.processes, tie)[..] {
            tally.count(ONLY_FAULT, only as usize);
        }
        tally.count(BEFORE_COMPOSITION, !reading.sheet.composition_fits());
    }
}

/// Counts the ties of a sheet, and of the processes that share a table as many
/// as there are at most.
pub fn count_ties(tally: &mut Tally, sheet: &Sheet) {
    tally.count(TIES, sheet.ties.len());
    let groups = tied_groups(sheet);
    let largest = groups.iter().map(Vec::len).max().expect("a process");
    tally.count(LARGEST_GROUP, largest);
}

/// A fair share of the sheets have each count of ties, and some of these chain.
pub fn assert_ties(tally: &Tally) {
    let sheets = tally.total(TIES);
    tally.assert_often(TIES, 0..=3, sheets / 20);
    tally.assert_often(LARGEST_GROUP, 1..=2, sheets / 20);
    tally.assert_often(LARGEST_GROUP, 3..=4, sheets / 500);
}

//! Where and why files are refused at a PM, and which prompt inputs sheets have,
//! counted.

use crate::prompts::prompt_faults;
use crate::refusal::{CUT_OFF, WRONG_MARK, WRONG_PROMPT};
use crate::sheet::{Process, Reading, RecordKind, Sheet};
use crate::tally::Tally;

/// A fault of a prompt mask that has no other.
pub const ONLY_FAULT: &str = "only fault of a prompt mask";
/// The place of a PM that is refused by its mark or its length.
pub const PLACE: &str = "place of a refused PM";
/// The same where the file ends behind the mark.
pub const PLACE_OF_MARK: &str = "place of a refused PM, the mark alone";
/// How many fields a PM has that is cut off.
pub const FIELDS_LEFT: &str = "fields of a PM that is cut off";

/// How many processes have prompt inputs, in a sheet in which one has.
pub const PROMPTED: &str = "processes with prompt inputs";
/// How many of them in a row each hear the one before.
pub const CHAIN: &str = "processes in a chain of prompt inputs";

#[derive(Clone, Copy, Debug, PartialEq, Eq)]
pub enum PromptPlace {
    BeforeArchitecture,
    Fifth,
    BehindTie,
    BehindAutomaton,
    CutOff,
}

impl PromptPlace {
    pub const ALL: [PromptPlace; 5] = [
        PromptPlace::BeforeArchitecture,
        PromptPlace::Fifth,
        PromptPlace::BehindTie,
        PromptPlace::BehindAutomaton,
        PromptPlace::CutOff,
    ];

    /// None if the file is not refused at a PM by its mark or its length.
    fn of(reading: &Reading) -> Option<Self> {
        if reading.mark != RecordKind::ProcessWithPrompts.mark() {
            return None;
        }
        match (reading.refusal?, reading.last) {
            (CUT_OFF, _) => Some(PromptPlace::CutOff),
            (WRONG_MARK, None) => Some(PromptPlace::BeforeArchitecture),
            (WRONG_MARK, Some(last)) => match last {
                RecordKind::Process | RecordKind::ProcessWithPrompts => Some(PromptPlace::Fifth),
                RecordKind::Tie => Some(PromptPlace::BehindTie),
                _ => Some(PromptPlace::BehindAutomaton),
            },
            _ => None,
        }
    }
}

/// Counts where a file was refused at a PM, and why.
pub fn count_refusal(tally: &mut Tally, reading: &Reading) {
    if let Some(place) = PromptPlace::of(reading) {
        tally.count(PLACE, place as usize);
        if reading.rest.is_empty() {
            tally.count(PLACE_OF_MARK, place as usize);
        }
        if place == PromptPlace::CutOff {
            tally.count(FIELDS_LEFT, reading.rest.len());
        }
    }
    if reading.refusal == Some(WRONG_PROMPT) {
        let [inputs, outputs, bound, prompts] = [0, 1, 2, 3].map(|field| reading.rest[field]);
        let process = Process::with_prompts(inputs, outputs, bound, prompts);
        if let [only] = prompt_faults(&reading.sheet, &process)[..] {
            tally.count(ONLY_FAULT, only as usize);
        }
    }
}

/// How many processes step one after the other because each hears the one
/// before: the most that do.
fn longest_chain(sheet: &Sheet) -> usize {
    let mut lengths: Vec<usize> = Vec::new();
    for process in &sheet.processes {
        let lower = sheet.processes.iter().zip(&lengths);
        let heard = lower.filter(|(lower, _)| lower.outputs & process.prompts() != 0);
        let before = heard.map(|(_, length)| *length).max();
        lengths.push(1 + before.unwrap_or(0));
    }
    lengths.into_iter().max().unwrap_or(0)
}

/// Counts what a sheet with prompt inputs is like.
pub fn count_prompts(tally: &mut Tally, sheet: &Sheet) {
    if sheet.has_prompts() {
        let processes = sheet.processes.iter();
        let prompted = processes.filter(|process| process.prompts() != 0);
        tally.count(PROMPTED, prompted.count());
        tally.count(CHAIN, longest_chain(sheet));
    }
}

/// So many sheets or more have prompt inputs, and a fair share of these have
/// several processes with them, or in a chain.
pub fn assert_prompts(tally: &Tally, sheets: u64) {
    assert!(tally.total(PROMPTED) >= sheets);
    tally.assert_often(PROMPTED, 1..=2, sheets / 20);
    tally.assert_often(CHAIN, 2..=3, sheets / 20);
}

//! What the processes of the tested sheets read, counted.

use crate::sheet::{variables_of, Sheet};
use crate::tally::Tally;

/// How many inputs a process has.
pub const INPUT_COUNT: &str = "inputs of a process";

/// Whether the highest variable is one of them.
pub const READS_HIGHEST: &str = "a process reads variable 7";

/// Whether a variable that it does not read lies between two that it does.
pub const READS_ACROSS_GAP: &str = "a process reads across a gap";

/// Counts the inputs of each process that has a next state to choose: with one
/// state, its inputs change nothing.
pub fn count_inputs(tally: &mut Tally, sheet: &Sheet) {
    for process in sheet.processes.iter().filter(|process| process.bound > 1) {
        let inputs = variables_of(process.inputs);
        let has_gap = inputs.windows(2).any(|pair| pair[1] - pair[0] > 1);
        tally.count(INPUT_COUNT, inputs.len());
        tally.count(READS_HIGHEST, inputs.contains(&7));
        tally.count(READS_ACROSS_GAP, has_gap);
    }
}

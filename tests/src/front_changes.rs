//! Changes of what stands before AU, most of them of one byte.

use crate::random_prompts::any_of;
use crate::random_ties;
use crate::rng::Rng;
use crate::sheet::{Process, Sheet, MOST_BOUND};

#[derive(Clone, Copy, Debug, PartialEq, Eq)]
pub enum FrontChange {
    Variables,
    Environment,
    Root,
    Inputs,
    Outputs,
    Bound,
    PromptMask,
    ProcessKind,
    ProcessCount,
    TieTurned,
    TieOrder,
    TieCount,
}

impl FrontChange {
    pub const ALL: [FrontChange; 12] = [
        FrontChange::Variables,
        FrontChange::Environment,
        FrontChange::Root,
        FrontChange::Inputs,
        FrontChange::Outputs,
        FrontChange::Bound,
        FrontChange::PromptMask,
        FrontChange::ProcessKind,
        FrontChange::ProcessCount,
        FrontChange::TieTurned,
        FrontChange::TieOrder,
        FrontChange::TieCount,
    ];

    /// Changes the sheet so, unless it lacks what is changed. It may no longer be
    /// proper then.
    pub fn make(self, rng: &mut Rng, sheet: &mut Sheet) {
        match self {
            FrontChange::Variables | FrontChange::Environment | FrontChange::Root => {
                self.make_in_architecture(rng, sheet);
            }
            FrontChange::Outputs => move_output(rng, sheet),
            FrontChange::ProcessCount => sheet.processes.push(Process::new(0, 0, 1)),
            FrontChange::TieTurned | FrontChange::TieOrder | FrontChange::TieCount => {
                self.make_in_ties(rng, sheet);
            }
            _ => {
                let index = rng.below(sheet.processes.len());
                self.make_in_process(rng, &mut sheet.processes[index]);
            }
        }
    }

    /// A variable more, a variable of the environment more, or another root mask.
    fn make_in_architecture(self, rng: &mut Rng, sheet: &mut Sheet) {
        let index = rng.below(sheet.processes.len());
        let owner = &mut sheet.processes[index];
        match self {
            FrontChange::Variables => {
                owner.outputs |= alone(sheet.variables);
                sheet.variables += 1;
            }
            FrontChange::Environment => {
                owner.outputs &= !alone(sheet.environment);
                sheet.environment += 1;
            }
            _ => sheet.root ^= 1 << rng.below(8),
        }
    }

    /// An input more or less, another bound, a prompt input more or less, or a PM
    /// with prompt mask 00 for a PR and the other way round.
    fn make_in_process(self, rng: &mut Rng, process: &mut Process) {
        match (self, process.prompt_mask) {
            (FrontChange::Inputs, _) => process.inputs ^= 1 << rng.below(8),
            (FrontChange::Bound, _) => process.bound = rng.within(1, MOST_BOUND) as u8,
            (FrontChange::PromptMask, Some(prompts)) => {
                process.prompt_mask = Some(prompts ^ 1 << rng.below(8));
            }
            (FrontChange::ProcessKind, Some(0)) => process.prompt_mask = None,
            (FrontChange::ProcessKind, None) => process.prompt_mask = Some(0),
            _ => {}
        }
    }

    /// A tie turned round, two in the other order, or a tie more or less.
    fn make_in_ties(self, rng: &mut Rng, sheet: &mut Sheet) {
        let ties = sheet.ties.len();
        if ties == 0 {
            return;
        }
        let (one, other) = (rng.below(ties), rng.below(ties));
        match self {
            FrontChange::TieTurned => sheet.ties[one].reverse(),
            FrontChange::TieOrder => sheet.ties.swap(one, other),
            _ if rng.one_in(2) => {
                sheet.ties.remove(one);
            }
            _ => random_ties::add_ties(rng, sheet, ties + 1),
        }
    }
}

/// The variable of that number alone, none if there cannot be one.
fn alone(variable: u8) -> u8 {
    1u8.checked_shl(variable.into()).unwrap_or(0)
}

/// An output of some process becomes one of another.
fn move_output(rng: &mut Rng, sheet: &mut Sheet) {
    let processes = sheet.processes.len();
    let (from, to) = (rng.below(processes), rng.below(processes));
    let output = any_of(rng, sheet.processes[from].outputs);
    sheet.processes[from].outputs ^= output;
    sheet.processes[to].outputs ^= output;
}

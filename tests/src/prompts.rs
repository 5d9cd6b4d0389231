//! Prompt inputs: what can be wrong about them.

use crate::sheet::{mask_below, Process, Sheet};

/// What can be wrong about a prompt input of a process. Its owner, if it has one
/// at all, is a lower process, the process itself, or one that follows.
#[derive(Clone, Copy, Debug, PartialEq, Eq)]
pub enum PromptFault {
    LowerButNotRead,
    Environment,
    OwnOutput,
    Following,
    NoVariable,
    NeitherReadNorLower,
}

impl PromptFault {
    pub const ALL: [PromptFault; 6] = [
        PromptFault::LowerButNotRead,
        PromptFault::Environment,
        PromptFault::OwnOutput,
        PromptFault::Following,
        PromptFault::NoVariable,
        PromptFault::NeitherReadNorLower,
    ];

    /// The bits that are wrong in this way in the prompt mask of a process behind
    /// those of the sheet: each bit is wrong in one way at most.
    pub fn bits(self, sheet: &Sheet, process: &Process) -> u8 {
        let all = mask_below(sheet.variables);
        let environment = mask_below(sheet.environment);
        let (lower, own) = (sheet.owned(), process.outputs);
        let (read, not_read) = (process.inputs & all, all & !process.inputs);
        match self {
            PromptFault::LowerButNotRead => lower & not_read,
            PromptFault::Environment => environment & read,
            PromptFault::OwnOutput => own,
            PromptFault::Following => read & !(environment | lower),
            PromptFault::NoVariable => !all,
            PromptFault::NeitherReadNorLower => not_read & !(own | lower),
        }
    }
}

/// All that is wrong about the prompt inputs of a process behind those of the
/// sheet, whose other fields are within the rules.
pub fn prompt_faults(sheet: &Sheet, process: &Process) -> Vec<PromptFault> {
    let mut faults = PromptFault::ALL.to_vec();
    faults.retain(|fault| fault.bits(sheet, process) & process.prompts() != 0);
    faults
}

//! Desks: where the machines of a sheet stand, kept by their user in five bytes. An
//! independent making fresh and stepping of them.

use crate::refusal::{Refusal, WRONG_DESK};
use crate::sheet::{mask_below, read_sheet, Sheet, MOST_PROCESSES};
use crate::transition_system::{ComposedState, TransitionSystem};

/// The place of the environment's mask, behind those of the processes.
pub const MASK_PLACE: usize = MOST_PROCESSES;
pub const DESK_LENGTH: usize = MASK_PLACE + 1;

/// A state for each of four processes, with bytes of no meaning for those that the
/// sheet lacks, and the environment's present values.
pub type Desk = [u8; DESK_LENGTH];

/// What can be wrong about a step: its direction or the desk's mask is none of the
/// environment, or a process has no such state.
#[derive(Clone, Copy, Debug, PartialEq, Eq)]
pub enum DeskFault {
    Direction,
    Mask,
    State,
}

impl DeskFault {
    pub const ALL: [DeskFault; 3] = [DeskFault::Direction, DeskFault::Mask, DeskFault::State];

    fn of(self, sheet: &Sheet, desk: &Desk, direction: u8) -> bool {
        let is_outside = |mask: u8| mask & !mask_below(sheet.environment) != 0;
        match self {
            DeskFault::Direction => is_outside(direction),
            DeskFault::Mask => is_outside(desk[MASK_PLACE]),
            DeskFault::State => {
                let mut states = desk.iter().zip(&sheet.processes);
                states.any(|(state, process)| *state >= process.bound)
            }
        }
    }
}

/// All that is wrong about a step from this desk.
pub fn desk_faults(sheet: &Sheet, desk: &Desk, direction: u8) -> Vec<DeskFault> {
    let mut faults = DeskFault::ALL.to_vec();
    faults.retain(|fault| fault.of(sheet, desk, direction));
    faults
}

/// Puts the machines where they start.
pub fn fresh(sheet: &[u8], desk: &mut Desk) -> Result<(), Refusal> {
    let sheet = read_sheet(sheet)?;
    desk[..sheet.processes.len()].fill(0);
    desk[MASK_PLACE] = sheet.root;
    Ok(())
}

/// Takes one step from wherever the machines stand, reached or not, and gives the
/// label behind it.
pub fn step(system: &TransitionSystem, desk: &mut Desk, direction: u8) -> Result<u8, Refusal> {
    if !desk_faults(&system.sheet, desk, direction).is_empty() {
        return Err(WRONG_DESK);
    }
    let processes = system.sheet.processes.len();
    let mut states = [0; MOST_PROCESSES];
    states[..processes].copy_from_slice(&desk[..processes]);
    let before = ComposedState {
        environment: desk[MASK_PLACE],
        states,
    };
    let after = system.step(before, direction);
    desk[..processes].copy_from_slice(&after.states[..processes]);
    desk[MASK_PLACE] = after.environment;
    Ok(system.label(after))
}

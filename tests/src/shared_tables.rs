//! Systems that have one process's table in common: its number and its inputs are
//! drawn for each of them, and so is all the rest.

use crate::book::book_of;
use crate::proper_sheet::{ProperSheet, SheetAndBook};
use crate::random_books;
use crate::random_prompts::{add_prompts, any_of, outputs_below, unpacked};
use crate::random_sheets::{self, Shape};
use crate::rng::Rng;
use crate::sheet::{
    mask_below, mask_of, packed, variables_of, Process, Sheet, MOST_BOUND, MOST_COMPOSED,
    MOST_ENVIRONMENT, MOST_INPUTS, MOST_PROCESSES, MOST_VARIABLES,
};
use crate::transition_system::{ComposedState, TransitionSystem};

/// The rows of a process, states rising.
pub struct SharedTable {
    /// All outputs that some row has.
    outputs: u8,
    /// Whether the process may have outputs beside them.
    has_more: bool,
    inputs: usize,
    bound: u8,
    entries: Vec<u8>,
}

impl SharedTable {
    /// Two states or more and an input or more, so that what is read can matter.
    pub fn draw(rng: &mut Rng) -> Self {
        let outputs = any_outputs(rng);
        let inputs = *rng.pick(&[1, 1, 2, 2, 3, MOST_INPUTS as usize]);
        let bound = rng.within(2, MOST_BOUND) as u8;
        let mut entries = Vec::new();
        for _ in 0..bound {
            entries.push(rng.byte() & outputs);
            entries.extend((0..1 << inputs).map(|_| rng.below(bound.into()) as u8));
        }
        SharedTable {
            outputs,
            has_more: true,
            inputs,
            bound,
            entries,
        }
    }

    /// Two tables that are the same once their masks are packed: each process has
    /// just the outputs that its rows have, other ones in the second.
    pub fn draw_packed(rng: &mut Rng) -> [Self; 2] {
        loop {
            let mut table = SharedTable::draw(rng);
            table.has_more = false;
            let outputs = any_outputs(rng);
            if outputs != table.outputs && outputs.count_ones() == table.outputs.count_ones() {
                let moved = table.with_outputs(outputs);
                return [table, moved];
            }
        }
    }

    /// The same with other outputs, equally many of them.
    fn with_outputs(&self, outputs: u8) -> Self {
        let mut entries = self.entries.clone();
        for row in entries.chunks_mut(1 + (1 << self.inputs)) {
            row[0] = unpacked(outputs, packed(self.outputs, row[0]));
        }
        SharedTable {
            outputs,
            entries,
            ..*self
        }
    }

    /// A system in which some process has it, with prompt inputs of that process if
    /// they are wanted. None if what was drawn leaves no room for it.
    pub fn system(&self, rng: &mut Rng, prompted: bool) -> Option<System> {
        let lowest = self.outputs.trailing_zeros() as usize;
        let environment = rng.within(1, MOST_ENVIRONMENT.min(lowest));
        let highest = self.outputs.ilog2() as usize;
        let shape = Shape {
            variables: rng.within(highest + 1, MOST_VARIABLES),
            environment,
            processes: rng.within(1, MOST_PROCESSES),
        };
        let index = rng.below(shape.processes);
        let mut processes = self.processes(rng, shape, index, prompted)?;
        let each: Vec<Vec<usize>> = (0..shape.processes).map(|index| vec![index]).collect();
        add_prompts(rng, &mut processes, &each);
        let heard = processes[index].inputs & outputs_below(&processes, index);
        processes[index].prompt_mask = match (prompted, heard) {
            (true, 0) => return None,
            (true, _) => Some(any_of(rng, heard) | rng.byte() & heard),
            (false, _) => *rng.pick(&[None, Some(0)]),
        };
        let mut sheet = random_sheets::with_processes(rng, shape, processes);
        sheet.ties.retain(|tie| !tie.contains(&(index as u8)));
        Some(self.with_book(rng, sheet, index))
    }

    /// Every process, the one of this number with the table's shape. It reads a
    /// lower one, if there is one, where prompt inputs are wanted; else often the
    /// environment.
    fn processes(
        &self,
        rng: &mut Rng,
        shape: Shape,
        index: usize,
        prompted: bool,
    ) -> Option<Vec<Process>> {
        let all = mask_below(shape.variables as u8);
        let mut outputs = vec![0; shape.processes];
        outputs[index] = self.outputs;
        let others: Vec<usize> = (0..shape.processes)
            .filter(|number| self.has_more || *number != index)
            .collect();
        for variable in variables_of(all & !mask_below(shape.environment as u8) & !self.outputs) {
            if others.is_empty() {
                return None;
            }
            outputs[*rng.pick(&others)] |= 1 << variable;
        }
        let heard = match prompted {
            true => any_of(rng, outputs[..index].iter().fold(0, |mask, own| mask | own)),
            false => 0,
        };
        let mut free = variables_of(all & !outputs[index] & !heard);
        rng.shuffle(&mut free);
        if rng.one_in(2) {
            free.sort_by_key(|variable| usize::from(*variable) >= shape.environment);
        }
        let more = self.inputs - heard.count_ones() as usize;
        let own_inputs = heard | mask_of(free.get(..more)?);
        let mut room = MOST_COMPOSED >> shape.environment;
        room /= self.bound as usize;
        let mut processes = Vec::new();
        for (number, outputs) in outputs.into_iter().enumerate() {
            processes.push(if number == index {
                Process::new(own_inputs, outputs, self.bound)
            } else {
                let bound = rng.within(1, MOST_BOUND).min(room);
                room /= bound;
                let inputs = random_sheets::inputs(rng, all & !outputs);
                Process::new(inputs, outputs, bound as u8)
            });
        }
        Some(processes)
    }

    /// The process has the table, and the others have any.
    fn with_book(&self, rng: &mut Rng, sheet: Sheet, index: usize) -> System {
        let proper = ProperSheet::new(sheet);
        let mut entries = random_books::lively_entries(rng, &proper);
        let lower = proper.sheet.processes[..index].iter();
        let start: usize = lower.map(Process::table_length).sum();
        entries[start..start + self.entries.len()].copy_from_slice(&self.entries);
        let book = book_of(&proper.layout, &entries);
        System::new(SheetAndBook { proper, book }, index)
    }
}

/// One output or two, above the two lowest variables.
fn any_outputs(rng: &mut Rng) -> u8 {
    let variables = [(); 2].map(|()| 1 << rng.within(2, MOST_VARIABLES - 1));
    variables[0] | variables[1]
}

/// One process among those of a sheet and a book.
pub struct System {
    pub input: SheetAndBook,
    pub machines: TransitionSystem,
    pub index: usize,
}

impl System {
    pub fn new(input: SheetAndBook, index: usize) -> Self {
        let machines = TransitionSystem::read(&input.proper.bytes, &input.book);
        System {
            machines: machines.expect("a proper sheet and book"),
            input,
            index,
        }
    }

    pub fn process(&self) -> &Process {
        &self.machines.sheet.processes[self.index]
    }

    /// Whether the process would read another place in this step if it had no prompt
    /// inputs.
    pub fn hears_promptly(&self, composed: ComposedState, direction: u8) -> bool {
        let delayed = Process {
            prompt_mask: None,
            ..*self.process()
        };
        let (_, places) = self.machines.step_with_places(composed, direction);
        places[self.index]
            != self
                .machines
                .place(&delayed, direction, &composed.states, &[])
    }
}

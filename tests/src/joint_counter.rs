//! Sheets with a book on which annotations have the greatest numbers.

use crate::book::book_of;
use crate::proper_sheet::{ProperSheet, SheetAndBook};
use crate::sheet::{Edge, Process, Sheet};

/// Processes that count together through all their joint states, one after the
/// other, beside an automaton that goes on after each such round.
#[derive(Clone, Copy, Debug)]
pub struct JointCounter {
    pub environment: u8,
    pub bounds: [u8; 4],
    /// How many of the processes there are.
    pub processes: usize,
    /// As many automaton states, all rejecting, take one round each.
    pub rounds: u8,
    /// Automaton states in all; those beyond the rounds have no edges.
    pub states: u8,
    /// Whether the last round leads into the first again.
    pub closed: bool,
    /// Whether states are passed from high to low: the order that is hardest
    /// for who goes through the vertices from low to high.
    pub falling: bool,
}

/// The counter with the greatest number that there can be: each of the 4,096
/// vertices is entered once.
pub const LONGEST_COUNTER: JointCounter = JointCounter {
    environment: 0,
    bounds: [4; 4],
    processes: 4,
    rounds: 16,
    states: 16,
    closed: false,
    falling: false,
};

impl JointCounter {
    /// The longest one, passing states from high to low or from low to high.
    pub fn longest(falling: bool) -> Self {
        JointCounter {
            falling,
            ..LONGEST_COUNTER
        }
    }

    /// The longest one, whose last round leads into the first again.
    pub fn longest_closed(falling: bool) -> Self {
        JointCounter {
            closed: true,
            ..JointCounter::longest(falling)
        }
    }

    /// The one with most directions.
    pub fn widest(falling: bool, closed: bool) -> Self {
        JointCounter {
            environment: 4,
            processes: 2,
            closed,
            ..JointCounter::longest(falling)
        }
    }

    /// The joint states of the processes, which are the steps of one round.
    fn round_length(&self) -> usize {
        let bounds = self.bounds[..self.processes].iter();
        bounds.map(|bound| *bound as usize).product()
    }

    /// The greatest number of its annotation: the rounds' states all reject, the
    /// initial one too. There is none if the rounds never end.
    pub fn greatest_number(&self) -> Option<u16> {
        let greatest = self.rounds as usize * self.round_length();
        (!self.closed).then_some(greatest as u16)
    }

    /// The initial automaton state.
    fn first_round(&self) -> u8 {
        if self.falling {
            self.rounds - 1
        } else {
            0
        }
    }

    /// The state that follows in a ring of so many.
    fn after(&self, state: u8, ring: u8) -> u8 {
        let by = if self.falling { ring - 1 } else { 1 };
        (state + by) % ring
    }

    /// Each process tells by its output that it is in its last state.
    fn output(&self, process: usize) -> u8 {
        1 << (self.environment as usize + process)
    }

    /// The outputs of the processes below this one.
    fn outputs_below(&self, process: usize) -> u8 {
        (0..process).fold(0, |mask, below| mask | self.output(below))
    }

    fn sheet(&self) -> Sheet {
        let processes = (0..self.processes).map(|process| {
            let inputs = self.outputs_below(process);
            Process::new(inputs, self.output(process), self.bounds[process])
        });
        Sheet {
            variables: self.environment + self.processes as u8,
            environment: self.environment,
            processes: processes.collect(),
            states: self.states,
            initial: self.first_round(),
            rejecting: ((1u32 << self.rounds) - 1) as u16,
            edges: self.edges(),
            ..Sheet::default()
        }
    }

    /// A round lasts unless all processes are in their last states.
    fn edges(&self) -> Vec<Edge> {
        let all = self.outputs_below(self.processes);
        let mut edges = Vec::new();
        for from in 0..self.rounds {
            edges.push(Edge::unless(from, from, all, 0));
            let to = self.after(from, self.rounds);
            if self.closed || to != self.first_round() {
                edges.push(Edge::new(from, to, all, 0));
            }
        }
        edges
    }

    /// A process moves when all below it are in their last states.
    fn entries(&self) -> Vec<u8> {
        let mut entries = Vec::new();
        for process in 0..self.processes {
            let bound = self.bounds[process];
            for state in 0..bound {
                let after = self.after(state, bound);
                entries.push(if after == 0 { self.output(process) } else { 0 });
                let waits = (1 << process) - 1;
                entries.extend(vec![state; waits]);
                entries.push(after);
            }
        }
        entries
    }

    pub fn with_book(&self) -> SheetAndBook {
        let proper = ProperSheet::new(self.sheet());
        SheetAndBook {
            book: book_of(&proper.layout, &self.entries()),
            proper,
        }
    }
}

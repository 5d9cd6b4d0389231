//! The run that breaks a sheet, as annotating reports it: a stem from the initial
//! vertex to a rejecting one, and a cycle from there back to it. It is replayed
//! with the sheet's own edges and the steps of the machines, whichever it is.

use crate::transition_system::{ComposedState, TransitionSystem};

/// How many steps a stem and a cycle have together at most.
pub fn most_steps(vertices: usize) -> usize {
    2 * vertices
}

/// How many bytes a path buffer has at least, whatever the run.
pub fn least_path(vertices: usize) -> usize {
    4 * vertices
}

/// A step of a run.
#[derive(Clone, Copy, Debug, PartialEq, Eq)]
pub struct Taken {
    pub direction: u8,
    /// The number of the edge used, ED and EX counted together in file order.
    pub edge: u8,
}

impl Taken {
    pub fn new(direction: u8, edge: u8) -> Self {
        Taken { direction, edge }
    }
}

/// Steps as they are written, two bytes each.
pub fn step_bytes(steps: &[Taken]) -> Vec<u8> {
    let bytes = |taken: &Taken| [taken.direction, taken.edge];
    steps.iter().flat_map(bytes).collect()
}

/// The steps that are written so.
fn steps_of(bytes: &[u8]) -> Vec<Taken> {
    let steps = bytes.chunks(2);
    steps.map(|step| Taken::new(step[0], step[1])).collect()
}

/// What is wrong with one step.
#[derive(Clone, Copy, Debug, PartialEq, Eq)]
pub enum StepFault {
    NoSuchDirection,
    NoSuchEdge,
    LeavesAnotherState,
    NotMet,
}

/// Why a run does not break the sheet, or is not the report of one.
#[derive(Clone, Debug, PartialEq, Eq)]
pub enum LassoFault {
    /// Its lengths go past the end of the path buffer.
    PastThePath {
        lengths: [u32; 2],
    },
    TooManySteps {
        steps: usize,
    },
    /// Steps are counted from 0, through the stem and on through the cycle.
    WrongStep {
        step: usize,
        taken: Taken,
        fault: StepFault,
    },
    StemEndNotRejecting {
        end: Vertex,
    },
    EmptyCycle,
    NotClosed {
        start: Vertex,
        end: Vertex,
    },
}

/// A vertex of the run graph.
#[derive(Clone, Copy, Debug, PartialEq, Eq)]
pub struct Vertex {
    pub state: u8,
    pub composed: ComposedState,
}

impl Vertex {
    fn initial(system: &TransitionSystem) -> Self {
        Vertex {
            state: system.sheet.initial,
            composed: system.initial(),
        }
    }

    /// Where the step leads, if it can be taken here.
    fn after(self, system: &TransitionSystem, taken: Taken) -> Result<Vertex, StepFault> {
        let sheet = &system.sheet;
        if taken.direction >> sheet.environment != 0 {
            return Err(StepFault::NoSuchDirection);
        }
        let edge = sheet.edges.get(usize::from(taken.edge));
        let edge = edge.ok_or(StepFault::NoSuchEdge)?;
        if edge.from != self.state {
            return Err(StepFault::LeavesAnotherState);
        }
        if !edge.is_met(system.label(self.composed)) {
            return Err(StepFault::NotMet);
        }
        Ok(Vertex {
            state: edge.to,
            composed: system.step(self.composed, taken.direction),
        })
    }
}

#[derive(Clone, Debug, Default, PartialEq, Eq)]
pub struct Lasso {
    pub stem: Vec<Taken>,
    pub cycle: Vec<Taken>,
}

impl Lasso {
    /// What stands at the front of a path buffer with these lengths.
    pub fn read(path: &[u8], lengths: [u32; 2]) -> Result<Self, LassoFault> {
        let [stem, cycle] = lengths.map(|length| length as usize);
        let front = path.get(..2 * (stem + cycle));
        let front = front.ok_or(LassoFault::PastThePath { lengths })?;
        let (stem, cycle) = front.split_at(2 * stem);
        Ok(Lasso {
            stem: steps_of(stem),
            cycle: steps_of(cycle),
        })
    }

    /// Reads what was written, and replays it.
    pub fn replayed(
        system: &TransitionSystem,
        path: &[u8],
        lengths: [u32; 2],
    ) -> Result<Self, LassoFault> {
        let lasso = Lasso::read(path, lengths)?;
        lasso.replay(system)?;
        Ok(lasso)
    }

    /// The steps of both parts as they are written.
    pub fn bytes(&self) -> Vec<u8> {
        [&self.stem, &self.cycle]
            .map(|part| step_bytes(part))
            .concat()
    }

    pub fn lengths(&self) -> [u32; 2] {
        [&self.stem, &self.cycle].map(|part| part.len() as u32)
    }

    /// Takes each step, from the initial vertex on.
    pub fn replay(&self, system: &TransitionSystem) -> Result<(), LassoFault> {
        let steps = self.stem.len() + self.cycle.len();
        if steps > most_steps(system.sheet.vertices()) {
            return Err(LassoFault::TooManySteps { steps });
        }
        let start = follow(system, Vertex::initial(system), 0, &self.stem)?;
        if !system.sheet.is_rejecting(start.state) {
            return Err(LassoFault::StemEndNotRejecting { end: start });
        }
        if self.cycle.is_empty() {
            return Err(LassoFault::EmptyCycle);
        }
        let end = follow(system, start, self.stem.len(), &self.cycle)?;
        if end != start {
            return Err(LassoFault::NotClosed { start, end });
        }
        Ok(())
    }
}

/// Where these steps lead, of which the first has that number.
fn follow(
    system: &TransitionSystem,
    from: Vertex,
    first: usize,
    steps: &[Taken],
) -> Result<Vertex, LassoFault> {
    let mut steps = (first..).zip(steps);
    steps.try_fold(from, |vertex, (step, taken)| {
        let after = vertex.after(system, *taken);
        after.map_err(|fault| LassoFault::WrongStep {
            step,
            taken: *taken,
            fault,
        })
    })
}

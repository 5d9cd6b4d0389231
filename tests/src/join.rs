//! An independent joining of two sheets into one that is kept where both are.

use crate::refusal::{Refusal, FRONTS_DIFFER, SHORT_BUFFER, TOO_LARGE};
use crate::sheet::{read_sheet, Edge, Sheet, MOST_EDGES, MOST_STATES};

/// The automaton state in which a joined sheet starts, and which nothing enters.
const START: u8 = 0;

/// How many automaton states and edges a joined sheet has, or would have if it
/// were not too large.
#[derive(Clone, Copy, Debug, PartialEq, Eq)]
pub struct JoinedSize {
    pub states: usize,
    pub edges: usize,
}

impl JoinedSize {
    pub fn of(first: &Sheet, second: &Sheet) -> Self {
        let both = [first, second];
        let states = both.map(|sheet| usize::from(sheet.states));
        let edges = both.map(|sheet| sheet.edges.len() + start_edges(sheet));
        JoinedSize {
            states: 1 + states.iter().sum::<usize>(),
            edges: edges.iter().sum(),
        }
    }

    pub fn states_fit(self) -> bool {
        self.states <= MOST_STATES
    }

    pub fn edges_fit(self) -> bool {
        self.edges <= MOST_EDGES
    }

    pub fn fits(self) -> bool {
        self.states_fit() && self.edges_fit()
    }
}

/// How many edges leave the initial state.
fn start_edges(sheet: &Sheet) -> usize {
    let edges = sheet.edges.iter();
    edges.filter(|edge| edge.from == sheet.initial).count()
}

/// One of the two sheets within the joined one, with its states moved by so much.
struct Part<'a> {
    sheet: &'a Sheet,
    by: u8,
}

impl Part<'_> {
    fn moved(&self, state: u8) -> u8 {
        state + self.by
    }

    /// Its rejecting states, moved.
    fn rejecting(&self) -> impl Iterator<Item = u8> + '_ {
        let states = (0..self.sheet.states).filter(|state| self.sheet.is_rejecting(*state));
        states.map(|state| self.moved(state))
    }

    /// Its edges between states that are moved.
    fn edges(&self) -> impl Iterator<Item = Edge> + '_ {
        self.sheet.edges.iter().map(|edge| Edge {
            from: self.moved(edge.from),
            to: self.moved(edge.to),
            ..*edge
        })
    }

    /// Those of them that leave its own start, each copied to leave the joined one.
    fn copies(&self) -> impl Iterator<Item = Edge> + '_ {
        let own_start = self.moved(self.sheet.initial);
        let leaving = self.edges().filter(move |edge| edge.from == own_start);
        leaving.map(|edge| Edge {
            from: START,
            ..edge
        })
    }
}

/// The joined sheet of two that have one front and are not too large together.
fn joined(first: &Sheet, second: &Sheet) -> Sheet {
    let behind_start = START + 1;
    let behind_first = behind_start + first.states;
    let parts = [(first, behind_start), (second, behind_first)];
    let parts = parts.map(|(sheet, by)| Part { sheet, by });
    let rejecting = parts.iter().flat_map(Part::rejecting);
    let copies = parts.iter().flat_map(Part::copies);
    let edges = parts.iter().flat_map(Part::edges);
    Sheet {
        states: behind_first + second.states,
        initial: START,
        rejecting: rejecting.fold(0, |mask, state| mask | 1 << state),
        edges: copies.chain(edges).collect(),
        ..first.clone()
    }
}

/// Joins two sheets at the front of the buffer, and gives the length of what is
/// written there.
pub fn join(first: &[u8], second: &[u8], buffer: &mut [u8]) -> Result<usize, Refusal> {
    let (first, second) = (read_sheet(first)?, read_sheet(second)?);
    if first.front() != second.front() {
        return Err(FRONTS_DIFFER);
    }
    if !JoinedSize::of(&first, &second).fits() {
        return Err(TOO_LARGE);
    }
    let bytes = joined(&first, &second).bytes();
    let front = buffer.get_mut(..bytes.len()).ok_or(SHORT_BUFFER)?;
    front.copy_from_slice(&bytes);
    Ok(bytes.len())
}

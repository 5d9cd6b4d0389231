//! Sheets with a book that has a reachable rejecting loop: such that only one run
//! goes on for ever, the one with the most steps, and those with many rejecting
//! vertices on no cycle.

use crate::bench_cases::{case_e, case_h, BOOK_E, REJECTING_1};
use crate::book::book_of;
use crate::joint_counter::JointCounter;
use crate::lasso::{step_bytes, Lasso, Taken};
use crate::proper_sheet::{ProperSheet, SheetAndBook};
use crate::sheet::{Edge, Process, Sheet, MOST_STATES};

/// A book with a single endless run, all others ending well.
pub struct OnlyRun {
    pub input: SheetAndBook,
    /// The stem up to the first rejecting vertex, and one round.
    pub shortest: Lasso,
}

impl OnlyRun {
    fn new(sheet: Sheet, book: &[u8], stem: &[Taken], cycle: &[Taken]) -> Self {
        OnlyRun {
            input: SheetAndBook {
                proper: ProperSheet::new(sheet),
                book: book.to_vec(),
            },
            shortest: Lasso {
                stem: stem.to_vec(),
                cycle: cycle.to_vec(),
            },
        }
    }

    /// So many bytes of it as they are written, however often it goes round.
    pub fn bytes(&self, length: usize) -> Vec<u8> {
        let [stem, round] =
            [&self.shortest.stem, &self.shortest.cycle].map(|part| step_bytes(part));
        let endless = stem.into_iter().chain(round.into_iter().cycle());
        endless.take(length).collect()
    }
}

/// E with an edge from 0 to 1 and one from 1 to itself, 1 rejecting.
pub fn loop_behind() -> OnlyRun {
    let mut sheet = case_h(REJECTING_1);
    sheet.edges.push(Edge::new(1, 1, 0, 0));
    let [there, round] = [0, 1].map(|edge| Taken::new(0, edge));
    OnlyRun::new(sheet, &BOOK_E, &[there], &[round])
}

/// E with so many automaton states in a ring, of which one rejects that is not the
/// first. Every vertex is on the ring, so that going round twice takes too many
/// steps. The edges come in falling order, one that is never met before each.
pub fn ring(states: u8, rejecting: u8) -> OnlyRun {
    let falling = (0..states).rev();
    let edges = falling.flat_map(|from| {
        let to = (from + 1) % states;
        [Edge::unless(from, to, 0, 0), Edge::new(from, to, 0, 0)]
    });
    let sheet = Sheet {
        states,
        rejecting: 1 << rejecting,
        edges: edges.collect(),
        ..case_e()
    };
    let leaves = |state: u8| Taken::new(0, 2 * (states - 1 - state) + 1);
    let stem: Vec<Taken> = (0..rejecting).map(leaves).collect();
    let rest: Vec<Taken> = (rejecting..states).map(leaves).collect();
    let cycle = [&rest[..], &stem].concat();
    OnlyRun::new(sheet, &BOOK_E, &stem, &cycle)
}

/// The environment's two variables have to say 2, and then 1 and 3 by turns;
/// otherwise variable 2 is on for ever, and no edge is met. The automaton goes from
/// 0 to 1 and 2, and from 2 back to 1; of its other edges none is met then. 2
/// rejects.
pub fn guided() -> OnlyRun {
    let lost = 0x04;
    let sheet = Sheet {
        variables: 3,
        environment: 2,
        root: 0x01,
        processes: vec![Process::new(0x03, lost, 4)],
        states: 3,
        rejecting: 0x0004,
        edges: vec![
            Edge::new(0, 2, 0x02, lost),
            Edge::unless(0, 1, lost, 0x00),
            Edge::new(1, 1, 0x01, lost | 0x02),
            Edge::new(1, 2, 0x02, lost),
            Edge::new(2, 2, 0x02, lost),
            Edge::unless(2, 1, lost, 0x00),
            Edge::new(2, 2, 0x00, lost | 0x01),
        ],
        ..Sheet::default()
    };
    let entries = [
        [0, 3, 3, 1, 3],
        [0, 3, 2, 3, 3],
        [0, 3, 3, 3, 1],
        [lost, 3, 3, 3, 3],
    ];
    let book = book_of(&ProperSheet::new(sheet.clone()).layout, &entries.concat());
    OnlyRun::new(
        sheet,
        &book,
        &[Taken::new(2, 1), Taken::new(1, 3)],
        &[Taken::new(3, 5), Taken::new(1, 3)],
    )
}

/// The counter through all 4,096 vertices and round again, only its last round
/// rejecting: a stem has 3,840 steps or more and a cycle has 4,096, since going
/// round twice takes too many.
pub fn longest_run(falling: bool) -> SheetAndBook {
    let SheetAndBook { proper, book } = JointCounter::longest_closed(falling).with_book();
    let last = if falling { 0 } else { MOST_STATES - 1 };
    let sheet = Sheet {
        rejecting: 1 << last,
        ..proper.sheet
    };
    SheetAndBook {
        proper: ProperSheet::new(sheet),
        book,
    }
}

/// Which rejecting states there are beside the one that leads to itself: none, or
/// eight in a row that a run passes once at most, behind that one or ahead of it.
#[derive(Clone, Copy, Debug, PartialEq, Eq)]
pub enum PassedOnce {
    None,
    Behind,
    Ahead,
}

const PASSED: u8 = 8;

/// Two processes of four states that each add two of the environment's variables
/// to their state: any two steps reach every composed state, so that nearly all of
/// 4,096 vertices are reached. Last come automaton states that do not reject, each
/// leading to the next in a ring or, if `dense`, to them all.
pub fn adders(passed: PassedOnce, dense: bool) -> SheetAndBook {
    let looping = match passed {
        PassedOnce::Ahead => PASSED,
        _ => 0,
    };
    let rejecting = match passed {
        PassedOnce::None => 1 << looping,
        _ => (1 << (PASSED + 1)) - 1,
    };
    let mut edges = vec![Edge::new(looping, looping, 0, 0)];
    edges.extend((0..=PASSED).map(|from| Edge::new(from, from + 1, 0, 0)));
    edges.extend(last_edges(dense));
    let sheet = Sheet {
        variables: 4,
        environment: 4,
        processes: [0x03, 0x0C].map(|inputs| Process::new(inputs, 0, 4)).into(),
        states: MOST_STATES as u8,
        rejecting,
        edges,
        ..Sheet::default()
    };
    let proper = ProperSheet::new(sheet);
    let row = |state: u8| [0, state, state + 1, state + 2, state + 3].map(|next| next % 4);
    let entries = [0, 1, 2, 3, 0, 1, 2, 3].map(row).concat();
    SheetAndBook {
        book: book_of(&proper.layout, &entries),
        proper,
    }
}

/// Between the states behind those that are passed.
fn last_edges(dense: bool) -> Vec<Edge> {
    let states = PASSED + 1..MOST_STATES as u8;
    let mut edges = Vec::new();
    for from in states.clone() {
        let next = if from + 1 == states.end {
            states.start
        } else {
            from + 1
        };
        let to = states.clone().filter(|to| dense || *to == next);
        edges.extend(to.map(|to| Edge::new(from, to, 0, 0)));
    }
    edges
}

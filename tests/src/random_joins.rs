//! Random pairs of sheets to be joined: such with one front, many of them around the
//! limits of a joined sheet; such whose fronts differ by little; and damaged ones.

use crate::few_choices;
use crate::front_changes::FrontChange;
use crate::join::JoinedSize;
use crate::random_faults;
use crate::random_prompts;
use crate::random_sheets::{self, set_states};
use crate::random_ties;
use crate::rejecting_loops;
use crate::rng::Rng;
use crate::sheet::{read_sheet, Sheet, MOST_EDGES, MOST_STATES};
use crate::single_faults;

/// The first sheet and the second.
pub type Pair = [Sheet; 2];

/// What the joined sheet of the pair has, or would have.
pub fn joined_size([first, second]: &Pair) -> JoinedSize {
    JoinedSize::of(first, second)
}

/// A proper sheet; those with ties and with prompt inputs come up often.
fn any_sheet(rng: &mut Rng) -> Sheet {
    match rng.below(8) {
        0 => random_sheets::with_ties(rng, 2),
        1 => random_sheets::with_chained_ties(rng),
        2 => random_sheets::with_prompts(rng, 2),
        _ => random_sheets::proper(rng),
    }
}

/// The same front with so many automaton states, and no edges.
fn with_states(rng: &mut Rng, sheet: &Sheet, states: usize) -> Sheet {
    let mut sheet = sheet.clone();
    sheet.edges.clear();
    set_states(rng, &mut sheet, states);
    sheet
}

/// A joined sheet has its start, and a state of each sheet.
const FEWEST_STATES: usize = 3;

/// Two sheets with one front whose joined sheet has so many automaton states and so
/// many edges; with the fewest states perhaps one edge less.
pub fn of_size(rng: &mut Rng, size: JoinedSize) -> Pair {
    let sheet = any_sheet(rng);
    let both = size.states - 1;
    let states = rng.within(1, both - 1);
    let mut pair = [states, both - states].map(|states| with_states(rng, &sheet, states));
    add_edges(rng, &mut pair, size.edges);
    pair
}

/// Adds edges to either sheet until the joined one has so many. Those that leave an
/// initial state count twice there; they are many or few, or all of them.
fn add_edges(rng: &mut Rng, pair: &mut Pair, count: usize) {
    let many_leave = rng.one_in(2);
    let all_leave = pair.iter().all(|sheet| sheet.states == 1);
    loop {
        let left = count - joined_size(pair).edges;
        if left == 0 || (left == 1 && all_leave) {
            return;
        }
        let leaves = left > 1 && many_leave != rng.one_in(4);
        let sheet = &mut pair[rng.below(2)];
        let edge = random_sheets::edge(rng, sheet);
        if sheet.edges.len() < MOST_EDGES && (edge.from == sheet.initial) == leaves {
            sheet.edges.push(edge);
        }
    }
}

/// Two sheets with one front whose joined sheet is not too large.
pub fn fitting(rng: &mut Rng) -> Pair {
    let states = rng.within(FEWEST_STATES, MOST_STATES);
    let edges = match rng.below(4) {
        0 => rng.within(0, MOST_EDGES),
        _ => rng.within(0, 20),
    };
    of_size(rng, JoinedSize { states, edges })
}

/// Two with one front whose joined sheet is as large as it can be, or nearly, or a
/// little too large.
pub fn around_limits(rng: &mut Rng) -> Pair {
    let around_states = rng.within(MOST_STATES - 1, MOST_STATES + 1);
    let around_edges = rng.within(MOST_EDGES - 1, MOST_EDGES + 2);
    let (states, edges) = match rng.below(3) {
        0 => (around_states, rng.within(0, MOST_EDGES)),
        1 => (rng.within(FEWEST_STATES, MOST_STATES), around_edges),
        _ => (around_states, around_edges),
    };
    of_size(rng, JoinedSize { states, edges })
}

/// Two with one front whose joined sheet would have up to 33 states, and from 128 to
/// 256 edges.
pub fn far_past_limits(rng: &mut Rng) -> Pair {
    let sheet = any_sheet(rng);
    [(); 2].map(|()| {
        let states = *rng.pick(&[1, 2, MOST_STATES - 1, MOST_STATES]);
        let mut sheet = with_states(rng, &sheet, states);
        random_sheets::add_edges(rng, &mut sheet, MOST_EDGES);
        sheet
    })
}

/// Two proper sheets, of which the front of one is that of the other changed so. Most
/// would fit otherwise.
pub fn with_changed_front(rng: &mut Rng, change: FrontChange) -> Pair {
    loop {
        let mut pair = match rng.below(4) {
            0 => around_limits(rng),
            _ => fitting(rng),
        };
        let sheet = &mut pair[rng.below(2)];
        change.make(rng, sheet);
        let is_proper = read_sheet(&sheet.bytes()).is_ok();
        if is_proper && pair[0].front() != pair[1].front() {
            return pair;
        }
    }
}

/// Two proper sheets, to be joined or refused.
pub fn any_pair(rng: &mut Rng) -> Pair {
    match rng.below(4) {
        0 => around_limits(rng),
        1 => {
            let change = *rng.pick(&FrontChange::ALL);
            with_changed_front(rng, change)
        }
        _ => fitting(rng),
    }
}

/// An improper file, mostly made from this sheet.
pub fn damaged(rng: &mut Rng, sheet: &Sheet) -> Vec<u8> {
    loop {
        let bytes = maybe_damaged(rng, sheet);
        if read_sheet(&bytes).is_err() {
            return bytes;
        }
    }
}

fn maybe_damaged(rng: &mut Rng, sheet: &Sheet) -> Vec<u8> {
    match rng.below(9) {
        0 => random_faults::random_bytes(rng),
        1 => {
            let bytes = sheet.bytes();
            bytes[..rng.below(bytes.len())].to_vec()
        }
        2 => with_change(rng, sheet, random_ties::spoil),
        3 => with_change(rng, sheet, random_prompts::spoil),
        4..=6 => with_wrong_field(rng, sheet),
        _ => random_faults::changed_sheet(rng, sheet),
    }
}

/// With a change that may be a fault.
fn with_change(rng: &mut Rng, sheet: &Sheet, change: fn(&mut Rng, &mut Sheet)) -> Vec<u8> {
    let mut sheet = sheet.clone();
    change(rng, &mut sheet);
    sheet.bytes()
}

/// With one fault of one field, unless it has no field for the fault that was drawn.
fn with_wrong_field(rng: &mut Rng, sheet: &Sheet) -> Vec<u8> {
    let process = rng.below(sheet.processes.len());
    let faulty = match rng.below(7) {
        0 => single_faults::architecture_faults(sheet),
        1 => single_faults::process_faults(sheet, process),
        2 => single_faults::automaton_faults(sheet),
        3 | 4 if !sheet.edges.is_empty() => {
            let edge = rng.below(sheet.edges.len());
            single_faults::edge_faults(sheet, edge)
        }
        _ => single_faults::owner_faults(sheet),
    };
    if faulty.is_empty() {
        sheet.bytes()
    } else {
        rng.pick(&faulty).bytes.clone()
    }
}

/// The most composed states where run graphs of many books are made.
const FEW_COMPOSED: usize = 16;
/// The most states and edges that either sheet has there: both together fit.
const FEW_STATES: usize = 5;
const FEW_EDGES: usize = MOST_EDGES / 4;

/// Two sheets with one front and small run graphs. Each of them has a reachable
/// rejecting loop with a fair share of the books, and none with a fair share.
pub fn with_loops(rng: &mut Rng) -> Pair {
    let mut sheet = any_sheet(rng);
    while sheet.composed() > FEW_COMPOSED {
        sheet = any_sheet(rng);
    }
    [(); 2].map(|()| {
        let states = rng.within(1, FEW_STATES);
        let mut sheet = with_states(rng, &sheet, states);
        let edges = rng.within(4, FEW_EDGES);
        random_sheets::add_edges(rng, &mut sheet, edges);
        rejecting_loops::vary_loops(rng, &mut sheet);
        sheet
    })
}

/// Two sheets with one front and at most that many choices, ties aside. Each has
/// requirements of its own.
pub fn with_few_choices(rng: &mut Rng, most: u64) -> Pair {
    loop {
        let sheet = match rng.below(4) {
            0 => few_choices::with_ties(rng, most),
            1 => few_choices::with_prompts(rng, most),
            _ => few_choices::sheet(rng, most),
        };
        let mut other = sheet.clone();
        few_choices::set_requirements(rng, &mut other);
        let mut pair = [sheet, other];
        rng.shuffle(&mut pair);
        if joined_size(&pair).fits() {
            return pair;
        }
    }
}

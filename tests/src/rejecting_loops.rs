//! Random sheets of whose books a fair share have a reachable rejecting loop and
//! a fair share have none, up to those with the largest run graphs.

use crate::random_sheets::{self, any_shape, Shape};
use crate::rng::Rng;
use crate::sheet::{Sheet, MOST_COMPOSED, MOST_EDGES, MOST_STATES};

/// A proper sheet of any shape, changed so that many of its edges are met and
/// that a fair share of its books have no rejecting loop.
pub fn sheet(rng: &mut Rng) -> Sheet {
    let shape = any_shape(rng, |_| true);
    sheet_of_shape(rng, shape)
}

pub fn sheet_of_shape(rng: &mut Rng, shape: Shape) -> Sheet {
    let mut sheet = random_sheets::proper_of_shape(rng, shape);
    if rng.one_in(2) {
        let count = rng.within(sheet.edges.len(), MOST_EDGES);
        random_sheets::add_edges(rng, &mut sheet, count);
    }
    vary_loops(rng, &mut sheet);
    sheet
}

/// Has many of the sheet's edges met, and excludes rejecting loops now and then.
pub fn vary_loops(rng: &mut Rng, sheet: &mut Sheet) {
    if !rng.one_in(3) {
        clear_mask_bits(rng, sheet);
    }
    match rng.below(4) {
        0 => sheet.rejecting &= 1 << rng.below(sheet.states as usize),
        1 => exclude_rejecting_loops(rng, sheet),
        _ => {}
    }
}

/// Takes bits out of the masks, so that more labels match them.
fn clear_mask_bits(rng: &mut Rng, sheet: &mut Sheet) {
    for edge in &mut sheet.edges {
        edge.on &= rng.byte() & rng.byte();
        edge.off &= rng.byte() & rng.byte();
    }
}

/// Has every edge lead to a higher automaton state, or stay in one that is not
/// rejecting: no book has a rejecting loop then.
pub fn exclude_rejecting_loops(rng: &mut Rng, sheet: &mut Sheet) {
    for edge in &mut sheet.edges {
        (edge.from, edge.to) = (edge.from.min(edge.to), edge.from.max(edge.to));
    }
    let rejecting = sheet.rejecting;
    sheet
        .edges
        .retain(|edge| edge.from != edge.to || rejecting >> edge.from & 1 == 0);
    if !rng.one_in(4) {
        sheet.initial = 0;
    }
}

/// A sheet with T = 256, 16 automaton states and 64 edges.
pub fn largest(rng: &mut Rng) -> Sheet {
    let shape = any_shape(rng, |shape| shape.environment + 2 * shape.processes >= 8);
    let mut sheet = random_sheets::proper_of_shape(rng, shape);
    let mut room = MOST_COMPOSED >> sheet.environment;
    for process in &mut sheet.processes {
        process.bound = room.min(4) as u8;
        room /= process.bound as usize;
    }
    assert_eq!(sheet.composed(), MOST_COMPOSED);
    let bounded = sheet.without_ties();
    sheet.ties.retain(|tie| bounded.tie_fits(*tie));
    sheet.states = MOST_STATES as u8;
    sheet.edges.clear();
    random_sheets::add_edges(rng, &mut sheet, MOST_EDGES);
    clear_mask_bits(rng, &mut sheet);
    sheet
}

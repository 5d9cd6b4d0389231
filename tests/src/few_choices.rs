//! Random sheets with so few choices that all of them can be tried.

use crate::choices::untied_count;
use crate::prompt_relays;
use crate::random_sheets::{self, any_shape, shapes, Shape};
use crate::rejecting_loops;
use crate::rng::Rng;
use crate::sheet::{mask_below, variables_of, Edge, Sheet, MOST_ENVIRONMENT, MOST_STATES};
use crate::ties::{tied_groups, Tie};

/// A proper sheet with at most that many choices, ties aside.
pub fn sheet(rng: &mut Rng, most: u64) -> Sheet {
    let shape = shape(rng);
    sheet_of_shape(rng, shape, most)
}

/// One with all variables, and the fewest of them outputs, so that the highest
/// is read by processes that have a next state to choose.
pub fn with_high_variables(rng: &mut Rng, most: u64) -> Sheet {
    let fits = |shape: &Shape| shape.can_read_highest() && shape.environment == MOST_ENVIRONMENT;
    let shape = any_shape(rng, fits);
    sheet_of_shape(rng, shape, most)
}

/// One with ties. They often chain, and tied processes mostly have outputs.
pub fn with_ties(rng: &mut Rng, most: u64) -> Sheet {
    loop {
        let sheet = if rng.one_in(8) {
            chained(rng, most)
        } else {
            let shape = any_shape(rng, |shape| shape.processes > 1);
            sheet_of_shape(rng, shape, most)
        };
        let outputs = |tie: &Tie| sheet.processes[usize::from(tie[0])].outputs;
        let mut ties = sheet.ties.iter();
        if ties.any(|tie| outputs(tie) != 0 || rng.one_in(20)) {
            return sheet;
        }
    }
}

/// One with prompt inputs of processes that have a next state to choose. In two of
/// three the tables may depend on when these are read, and ties count.
pub fn with_prompts(rng: &mut Rng, most: u64) -> Sheet {
    let of_any_shape = rng.one_in(3);
    loop {
        let sheet = if of_any_shape {
            let shape = any_shape(rng, |shape| shape.processes > 1);
            sheet_of_shape(rng, shape, most)
        } else {
            prompt_relays::sheet(rng, most)
        };
        let mut processes = sheet.processes.iter();
        if processes.any(|process| process.prompts() != 0 && process.bound > 1) {
            return sheet;
        }
    }
}

fn chained(rng: &mut Rng, most: u64) -> Sheet {
    let mut sheet = random_sheets::with_chained_ties(rng);
    set_requirements(rng, &mut sheet);
    shrink_to(rng, &mut sheet, most);
    sheet
}

fn sheet_of_shape(rng: &mut Rng, shape: Shape, most: u64) -> Sheet {
    let mut sheet = if rng.one_in(5) {
        rejecting_loops::sheet_of_shape(rng, shape)
    } else {
        let mut sheet = random_sheets::proper_of_shape(rng, shape);
        set_requirements(rng, &mut sheet);
        sheet
    };
    shrink_to(rng, &mut sheet, most);
    sheet
}

fn shrink_to(rng: &mut Rng, sheet: &mut Sheet, most: u64) {
    while untied_count(sheet) > most {
        shrink(rng, sheet);
    }
}

/// The fewer of two drawn, since many outputs leave few states for each.
fn shape(rng: &mut Rng) -> Shape {
    let shapes = shapes();
    let drawn = [*rng.pick(&shapes), *rng.pick(&shapes)];
    let [one, other] = drawn;
    if one.variables + one.processes < other.variables + other.processes {
        one
    } else {
        other
    }
}

/// One state or one input less in some process, and in those tied to it the one
/// at the same place; high inputs stay longer.
pub(crate) fn shrink(rng: &mut Rng, sheet: &mut Sheet) {
    let groups = tied_groups(sheet);
    let group = rng.pick(&groups);
    let inputs = sheet.processes[group[0]].inputs.count_ones() as usize;
    let fewer_states = inputs == 0 || rng.one_in(3);
    let place = rng.below(inputs.max(1)).min(rng.below(inputs.max(1)));
    for index in group {
        let process = &mut sheet.processes[*index];
        if fewer_states {
            process.bound = (process.bound - 1).max(1);
        } else {
            process.inputs ^= 1 << variables_of(process.inputs)[place];
            process.keep_prompts(process.inputs);
        }
    }
}

/// The automaton state that waits for causes, and the one that is never left
/// again.
pub(crate) const WAITING: u8 = 0;
pub(crate) const VIOLATED: u8 = 1;

/// Gives the sheet an automaton with a few requirements, so that not every
/// choice keeps it and yet some choice often does.
pub(crate) fn set_requirements(rng: &mut Rng, sheet: &mut Sheet) {
    open_requirements(sheet);
    for _ in 0..rng.within(1, 4) {
        match rng.below(7) {
            0..=2 => require_response(rng, sheet),
            3..=4 => forbid_in(rng, sheet, WAITING),
            5 => forbid_after_cause(rng, sheet),
            _ => forbid_initially(rng, sheet),
        }
    }
    if rng.one_in(3) {
        require_difference(rng, sheet);
    }
    if rng.one_in(4) {
        let edge = random_sheets::edge(rng, sheet);
        sheet.edges.push(edge);
    }
    if rng.one_in(8) {
        sheet.states = rng.within(sheet.states as usize, MOST_STATES) as u8;
    }
    close_requirements(rng, sheet);
}

/// The automaton with no requirement yet.
pub(crate) fn open_requirements(sheet: &mut Sheet) {
    sheet.states = 2;
    sheet.initial = WAITING;
    sheet.rejecting = 1 << VIOLATED;
    sheet.edges.clear();
    add_edge(sheet, WAITING, WAITING, ANY_LABEL);
    add_edge(sheet, VIOLATED, VIOLATED, ANY_LABEL);
}

/// The same automaton, written in some other way.
pub(crate) fn close_requirements(rng: &mut Rng, sheet: &mut Sheet) {
    say_unless(rng, sheet);
    renumber(rng, sheet);
}

/// Turns the edges with one variable into such that are met unless it has the
/// other value, one in two: they mean the same.
fn say_unless(rng: &mut Rng, sheet: &mut Sheet) {
    for edge in &mut sheet.edges {
        if (edge.on | edge.off).is_power_of_two() && rng.one_in(2) {
            (edge.on, edge.off) = (edge.off, edge.on);
            edge.unless = !edge.unless;
        }
    }
}

/// Whenever there is a cause, some output comes to be on, or off.
fn require_response(rng: &mut Rng, sheet: &mut Sheet) {
    let pending = add_state(sheet);
    sheet.rejecting |= 1 << pending;
    let causes = rng.below(3);
    let cause = edge_masks(rng, sheet, causes, 0);
    add_edge(sheet, WAITING, pending, cause);
    let lack = edge_masks(rng, sheet, 0, 1);
    add_edge(sheet, pending, pending, lack);
}

/// If processes with outputs are tied, one output comes to be on while its like
/// is off.
fn require_difference(rng: &mut Rng, sheet: &mut Sheet) {
    let outputs = |number: u8| variables_of(sheet.processes[usize::from(number)].outputs);
    let mut pairs = Vec::new();
    for [one, other] in &sheet.ties {
        pairs.extend(outputs(*one).into_iter().zip(outputs(*other)));
    }
    if !pairs.is_empty() {
        let (on, off) = *rng.pick(&pairs);
        let pending = add_state(sheet);
        sheet.rejecting |= 1 << pending;
        add_edge(sheet, WAITING, pending, ANY_LABEL);
        let same = Edge::unless(pending, pending, 1 << on, 1 << off);
        sheet.edges.push(same);
    }
}

/// In this state some values are forbidden, those of outputs among them; or all
/// others are.
pub(crate) fn forbid_in(rng: &mut Rng, sheet: &mut Sheet, state: u8) {
    if rng.one_in(4) {
        let (on, off) = edge_masks(rng, sheet, 0, 2);
        sheet.edges.push(Edge::unless(state, VIOLATED, on, off));
        return;
    }
    let (others, outputs) = (rng.below(2), rng.within(1, 2));
    let forbidden = edge_masks(rng, sheet, others, outputs);
    add_edge(sheet, state, VIOLATED, forbidden);
}

/// One step after a cause some values are forbidden.
fn forbid_after_cause(rng: &mut Rng, sheet: &mut Sheet) {
    let after = add_state(sheet);
    let causes = rng.within(1, 2);
    let cause = edge_masks(rng, sheet, causes, 0);
    add_edge(sheet, WAITING, after, cause);
    forbid_in(rng, sheet, after);
}

/// At the very start some values are forbidden.
fn forbid_initially(rng: &mut Rng, sheet: &mut Sheet) {
    if sheet.initial == WAITING {
        sheet.initial = add_state(sheet);
        add_edge(sheet, sheet.initial, WAITING, ANY_LABEL);
    }
    forbid_in(rng, sheet, sheet.initial);
}

pub(crate) fn add_state(sheet: &mut Sheet) -> u8 {
    sheet.states += 1;
    sheet.states - 1
}

/// The on and the off mask of an edge.
pub(crate) type EdgeMasks = (u8, u8);

/// Met by all labels.
pub(crate) const ANY_LABEL: EdgeMasks = (0, 0);

/// Masks in which so many variables of any kind, and so many outputs, have
/// values drawn for them: more often off, so that tables of zeros often fail.
fn edge_masks(rng: &mut Rng, sheet: &Sheet, any: usize, outputs: usize) -> EdgeMasks {
    let (mut on, mut off) = ANY_LABEL;
    for (count, among) in [(any, mask_below(sheet.variables)), (outputs, sheet.owned())] {
        let mut free = variables_of(among & !(on | off));
        rng.shuffle(&mut free);
        free.truncate(count);
        for variable in free {
            let mask = if rng.one_in(3) { &mut on } else { &mut off };
            *mask |= 1 << variable;
        }
    }
    (on, off)
}

pub(crate) fn add_edge(sheet: &mut Sheet, from: u8, to: u8, (on, off): EdgeMasks) {
    sheet.edges.push(Edge::new(from, to, on, off));
}

/// Gives the automaton states other numbers, and shuffles the edges.
fn renumber(rng: &mut Rng, sheet: &mut Sheet) {
    let mut numbers: Vec<u8> = (0..sheet.states).collect();
    rng.shuffle(&mut numbers);
    let number = |state: u8| numbers[state as usize];
    for edge in &mut sheet.edges {
        (edge.from, edge.to) = (number(edge.from), number(edge.to));
    }
    rng.shuffle(&mut sheet.edges);
    sheet.initial = number(sheet.initial);
    let rejecting = (0..sheet.states).filter(|state| sheet.is_rejecting(*state));
    sheet.rejecting = rejecting.fold(0, |mask, state| mask | 1 << number(state));
}

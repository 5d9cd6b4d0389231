//! Random proper sheets of every shape.

use crate::random_prompts::add_prompts;
use crate::random_ties;
use crate::rng::Rng;
use crate::sheet::{
    highest_of, lowest_of, mask_below, mask_of, variables_of, Edge, Process, Sheet, MOST_BOUND,
    MOST_COMPOSED, MOST_EDGES, MOST_ENVIRONMENT, MOST_INPUTS, MOST_PROCESSES, MOST_STATES,
    MOST_TIES, MOST_VARIABLES,
};

/// The counts that a sheet's architecture begins with.
#[derive(Clone, Copy, Debug, PartialEq, Eq, PartialOrd, Ord)]
pub struct Shape {
    pub variables: usize,
    pub environment: usize,
    pub processes: usize,
}

impl Shape {
    pub fn of(sheet: &Sheet) -> Self {
        Shape {
            variables: sheet.variables as usize,
            environment: sheet.environment as usize,
            processes: sheet.processes.len(),
        }
    }

    /// Whether a process can read the highest variable, which another one sets.
    pub fn can_read_highest(&self) -> bool {
        self.variables == MOST_VARIABLES && self.processes > 1
    }

    /// Its counts as the digits of a number.
    pub fn digits(&self) -> usize {
        self.variables * 100 + self.environment * 10 + self.processes
    }
}

/// Every shape that a proper sheet can have.
pub fn shapes() -> Vec<Shape> {
    let mut shapes = Vec::new();
    for variables in 0..=MOST_VARIABLES {
        for environment in 0..=variables.min(MOST_ENVIRONMENT) {
            shapes.extend((1..=MOST_PROCESSES).map(|processes| Shape {
                variables,
                environment,
                processes,
            }));
        }
    }
    shapes
}

/// One of the shapes that fit.
pub fn any_shape(rng: &mut Rng, fits: impl Fn(&Shape) -> bool) -> Shape {
    let mut shapes = shapes();
    shapes.retain(fits);
    *rng.pick(&shapes)
}

/// A proper sheet of any shape.
pub fn proper(rng: &mut Rng) -> Sheet {
    let shape = any_shape(rng, |_| true);
    proper_of_shape(rng, shape)
}

/// A proper sheet with few edges, for work that is done at each of its bytes.
pub fn with_few_edges(rng: &mut Rng, shape: Shape) -> Sheet {
    let mut sheet = proper_of_shape(rng, shape);
    sheet.edges.truncate(3);
    sheet
}

/// A proper sheet with ties, of so many processes at least.
pub fn with_ties(rng: &mut Rng, processes: usize) -> Sheet {
    loop {
        let shape = any_shape(rng, |shape| shape.processes >= processes);
        let sheet = proper_of_shape(rng, shape);
        if !sheet.ties.is_empty() {
            return sheet;
        }
    }
}

/// A proper sheet of three or four processes that are all alike, with as many
/// ties as there can be, so that often all of them share a table.
pub fn with_chained_ties(rng: &mut Rng) -> Sheet {
    loop {
        let shape = any_shape(rng, |shape| shape.processes >= 3);
        if let Some(alike) = random_ties::one_group(rng, shape) {
            let mut sheet = with_processes(rng, shape, alike);
            random_ties::add_ties(rng, &mut sheet, MOST_TIES);
            return sheet;
        }
    }
}

/// A proper sheet with prompt inputs, of so many processes at least.
pub fn with_prompts(rng: &mut Rng, processes: usize) -> Sheet {
    loop {
        let shape = any_shape(rng, |shape| shape.processes >= processes);
        let sheet = proper_of_shape(rng, shape);
        if sheet.has_prompts() {
            return sheet;
        }
    }
}

/// A proper sheet with all records that a sheet can have, each process a PM: 433
/// bytes.
pub fn with_all_records(rng: &mut Rng) -> Sheet {
    let mut sheet = with_ties(rng, MOST_PROCESSES);
    for process in &mut sheet.processes {
        process.prompt_mask.get_or_insert(0);
    }
    random_ties::add_ties(rng, &mut sheet, MOST_TIES);
    sheet.edges.clear();
    add_edges(rng, &mut sheet, MOST_EDGES);
    sheet
}

/// A proper sheet whose book is the longest: four inputs and four states in
/// each of four processes, so that any of them can be tied.
pub fn with_longest_book(rng: &mut Rng) -> Sheet {
    let mut sheet = Sheet {
        variables: MOST_VARIABLES as u8,
        ..Sheet::default()
    };
    let mut variables = variables_of(mask_below(sheet.variables));
    rng.shuffle(&mut variables);
    for pair in variables.chunks(2) {
        let outputs = 1 << pair[0] | 1 << pair[1];
        let mut others = variables_of(!outputs);
        rng.shuffle(&mut others);
        let inputs = mask_of(&others[..MOST_INPUTS as usize]);
        let bound = MOST_BOUND as u8;
        sheet.processes.push(Process::new(inputs, outputs, bound));
    }
    if rng.one_in(2) {
        add_prompts(rng, &mut sheet.processes, &[vec![0], vec![1, 2, 3]]);
    }
    let ties = rng.within(0, MOST_TIES);
    random_ties::add_ties(rng, &mut sheet, ties);
    add_automaton(rng, &mut sheet);
    sheet
}

pub fn proper_of_shape(rng: &mut Rng, shape: Shape) -> Sheet {
    let processes = processes(rng, shape);
    with_processes(rng, shape, processes)
}

/// A proper sheet with these processes.
pub fn with_processes(rng: &mut Rng, shape: Shape, processes: Vec<Process>) -> Sheet {
    let variables = shape.variables as u8;
    let environment = shape.environment as u8;
    let mut sheet = Sheet {
        variables,
        environment,
        root: submask(rng, mask_below(environment)),
        processes,
        ..Sheet::default()
    };
    let ties = rng.within(0, MOST_TIES);
    random_ties::add_ties(rng, &mut sheet, ties);
    add_automaton(rng, &mut sheet);
    let count = edge_count(rng);
    add_edges(rng, &mut sheet, count);
    sheet
}

/// Part of a mask; none and all of it come up often.
fn submask(rng: &mut Rng, mask: u8) -> u8 {
    match rng.below(6) {
        0 => 0,
        1 => mask,
        _ => rng.byte() & mask,
    }
}

/// Some of them alike, or all drawn one by one.
fn processes(rng: &mut Rng, shape: Shape) -> Vec<Process> {
    if rng.one_in(2) {
        if let Some(alike) = random_ties::alike_processes(rng, shape) {
            return alike;
        }
    }
    let outputs = outputs(rng, shape);
    let bounds = bounds(rng, shape);
    let all = mask_below(shape.variables as u8);
    let mut processes = Vec::new();
    for (outputs, bound) in outputs.into_iter().zip(bounds) {
        let inputs = inputs(rng, all & !outputs);
        processes.push(Process::new(inputs, outputs, bound));
    }
    if rng.one_in(2) {
        let each: Vec<Vec<usize>> = (0..shape.processes).map(|index| vec![index]).collect();
        add_prompts(rng, &mut processes, &each);
    }
    processes
}

/// Deals the variables beyond the environment out to the processes.
fn outputs(rng: &mut Rng, shape: Shape) -> Vec<u8> {
    let mut outputs = vec![0; shape.processes];
    let only = rng.below(shape.processes);
    let to_one = rng.one_in(6);
    for variable in shape.environment..shape.variables {
        let owner = if to_one {
            only
        } else {
            rng.below(shape.processes)
        };
        outputs[owner] |= 1 << variable;
    }
    outputs
}

/// At most four inputs among those allowed. None and four come up often, and so
/// do high variables and masks with gaps.
pub fn inputs(rng: &mut Rng, allowed: u8) -> u8 {
    let mut free = variables_of(allowed);
    let most = free.len().min(MOST_INPUTS as usize);
    let count = match rng.below(8) {
        0 => 0,
        1 => return highest_of(allowed),
        2 => return lowest_of(allowed) | highest_of(allowed),
        3 => return every_second(rng, free),
        4 | 5 => most,
        _ => rng.within(0, most),
    };
    rng.shuffle(&mut free);
    mask_of(&free[..count])
}

/// Every second of these variables, counted from either end.
fn every_second(rng: &mut Rng, mut variables: Vec<u8>) -> u8 {
    if rng.one_in(2) {
        variables.reverse();
    }
    let spread: Vec<u8> = variables.into_iter().step_by(2).collect();
    mask_of(&spread)
}

/// Bounds that keep T within its limit, and often meet it.
fn bounds(rng: &mut Rng, shape: Shape) -> Vec<u8> {
    let mut room = MOST_COMPOSED >> shape.environment;
    let mut order: Vec<usize> = (0..shape.processes).collect();
    rng.shuffle(&mut order);
    let style = rng.below(5);
    let mut bounds = vec![1; shape.processes];
    for index in order {
        let wanted = match style {
            0 => 1,
            1 => MOST_BOUND,
            _ => rng.within(1, MOST_BOUND),
        };
        let bound = wanted.min(room);
        room /= bound;
        bounds[index] = bound as u8;
    }
    bounds
}

fn add_automaton(rng: &mut Rng, sheet: &mut Sheet) {
    let states = match rng.below(6) {
        0 => 1,
        1 => MOST_STATES,
        _ => rng.within(1, MOST_STATES),
    };
    set_states(rng, sheet, states);
}

/// Gives the automaton so many states, any of them initial and any of them
/// rejecting.
pub fn set_states(rng: &mut Rng, sheet: &mut Sheet, states: usize) {
    let initial = match rng.below(4) {
        0 => 0,
        1 => states - 1,
        _ => rng.below(states),
    };
    let all = ((1u32 << states) - 1) as u16;
    sheet.states = states as u8;
    sheet.initial = initial as u8;
    sheet.rejecting = match rng.below(5) {
        0 => 0,
        1 => all,
        _ => rng.draw() as u16 & all,
    };
}

fn edge_count(rng: &mut Rng) -> usize {
    match rng.below(20) {
        0 => 0,
        1 => MOST_EDGES,
        2 | 3 => rng.within(0, MOST_EDGES),
        _ => rng.within(0, 8),
    }
}

/// Adds edges until there are so many.
pub fn add_edges(rng: &mut Rng, sheet: &mut Sheet, count: usize) {
    while sheet.edges.len() < count {
        let edge = edge(rng, sheet);
        sheet.edges.push(edge);
    }
}

/// An edge that the sheet's variables and automaton states permit.
pub fn edge(rng: &mut Rng, sheet: &Sheet) -> Edge {
    let all = mask_below(sheet.variables);
    let on = submask(rng, all);
    let off = submask(rng, all & !on);
    let (on, off) = if rng.one_in(2) { (on, off) } else { (off, on) };
    Edge {
        from: state(rng, sheet.states),
        to: state(rng, sheet.states),
        on,
        off,
        unless: rng.one_in(3),
    }
}

/// An automaton state; the first and the last come up often.
fn state(rng: &mut Rng, states: u8) -> u8 {
    match rng.below(6) {
        0 => 0,
        1 => states - 1,
        _ => rng.below(states as usize) as u8,
    }
}

//! Random processes that can share a table, ties between them, and ties that are
//! wrong or stand in a wrong place.

use crate::random_prompts::{add_prompts, any_of, outputs_below};
use crate::random_sheets::{self, Shape};
use crate::rng::Rng;
use crate::sheet::{
    mask_below, mask_of, record, variables_of, Process, RecordKind, Sheet, MOST_BOUND,
    MOST_COMPOSED, MOST_INPUTS, MOST_TIES,
};
use crate::ties::{Tie, TieFault};

/// Processes in groups of such as are alike: of one bound, with equally many
/// inputs and equally many outputs. None if the outputs cannot be dealt out so.
pub fn alike_processes(rng: &mut Rng, shape: Shape) -> Option<Vec<Process>> {
    let groups = groups(rng, shape.processes);
    processes_in(rng, shape, groups)
}

/// All of them alike.
pub fn one_group(rng: &mut Rng, shape: Shape) -> Option<Vec<Process>> {
    let all = (0..shape.processes).collect();
    processes_in(rng, shape, vec![all])
}

fn processes_in(rng: &mut Rng, shape: Shape, groups: Vec<Vec<usize>>) -> Option<Vec<Process>> {
    let outputs = outputs(rng, shape, &groups)?;
    let all = mask_below(shape.variables as u8);
    let mut room = MOST_COMPOSED >> shape.environment;
    let mut processes = vec![Process::default(); shape.processes];
    for group in &groups {
        let bound = bound(rng, group.len(), &mut room);
        let inputs = random_sheets::inputs(rng, all & !outputs[group[0]]);
        for index in group {
            let others = all & !outputs[*index];
            let inputs = as_many_inputs(rng, inputs, others);
            processes[*index] = Process::new(inputs, outputs[*index], bound);
        }
    }
    if rng.one_in(2) {
        add_prompts(rng, &mut processes, &groups);
    }
    Some(processes)
}

/// Any grouping of the processes; all in one come up often.
fn groups(rng: &mut Rng, processes: usize) -> Vec<Vec<usize>> {
    let mut groups = vec![Vec::new(); rng.within(1, processes)];
    for process in 0..processes {
        let index = rng.below(groups.len());
        groups[index].push(process);
    }
    groups.retain(|group| !group.is_empty());
    groups
}

/// Deals the variables beyond the environment out, at a time one to each process
/// of some group. None if too few are left for every group.
fn outputs(rng: &mut Rng, shape: Shape, groups: &[Vec<usize>]) -> Option<Vec<u8>> {
    let mut left: Vec<u8> = (shape.environment as u8..shape.variables as u8).collect();
    rng.shuffle(&mut left);
    let mut outputs = vec![0; shape.processes];
    while !left.is_empty() {
        let fits = |group: &&Vec<usize>| group.len() <= left.len();
        let fitting: Vec<&Vec<usize>> = groups.iter().filter(fits).collect();
        if fitting.is_empty() {
            return None;
        }
        let group = *rng.pick(&fitting);
        let dealt = left.split_off(left.len() - group.len());
        for (process, variable) in group.iter().zip(dealt) {
            outputs[*process] |= 1 << variable;
        }
    }
    Some(outputs)
}

/// A bound for so many processes, and the room that they leave for others.
fn bound(rng: &mut Rng, processes: usize, room: &mut usize) -> u8 {
    let states = |bound: usize| bound.pow(processes as u32);
    let mut bound = rng.within(1, MOST_BOUND);
    while states(bound) > *room {
        bound -= 1;
    }
    *room /= states(bound);
    bound as u8
}

/// The same inputs if they are allowed, and other ones as often.
fn as_many_inputs(rng: &mut Rng, inputs: u8, allowed: u8) -> u8 {
    if inputs & !allowed == 0 && rng.one_in(2) {
        return inputs;
    }
    let mut free = variables_of(allowed);
    rng.shuffle(&mut free);
    mask_of(&free[..inputs.count_ones() as usize])
}

/// All ties that the processes permit, each in both orders.
pub fn fitting_ties(sheet: &Sheet) -> Vec<Tie> {
    let numbers = 0..sheet.processes.len() as u8;
    let ties = numbers
        .clone()
        .flat_map(|one| numbers.clone().map(move |other| [one, other]));
    ties.filter(|tie| sheet.tie_fits(*tie)).collect()
}

/// Adds ties until there are so many, if any fits: repeated, reversed and
/// circular ones too.
pub fn add_ties(rng: &mut Rng, sheet: &mut Sheet, count: usize) {
    let fitting = fitting_ties(sheet);
    while sheet.ties.len() < count && !fitting.is_empty() {
        sheet.ties.push(*rng.pick(&fitting));
    }
}

/// Makes some tie wrong in some way. Without ties any two numbers get one.
pub fn spoil(rng: &mut Rng, sheet: &mut Sheet) {
    if sheet.ties.is_empty() {
        let numbers = sheet.processes.len() + 1;
        sheet.ties.push([(); 2].map(|()| rng.below(numbers) as u8));
    } else {
        let fault = *rng.pick(&TieFault::ALL);
        let index = rng.below(sheet.ties.len());
        spoil_by(rng, sheet, index, fault);
    }
}

/// Makes that tie wrong in this way alone, unless there is no variable for it.
pub fn spoil_by(rng: &mut Rng, sheet: &mut Sheet, index: usize, fault: TieFault) {
    let all = mask_below(sheet.variables);
    let missing = missing_process(rng, sheet);
    let side = rng.below(2);
    let tie = &mut sheet.ties[index];
    let number = usize::from(tie[side]);
    let lower = outputs_below(&sheet.processes, number);
    let process = &mut sheet.processes[number];
    match fault {
        TieFault::LeftMissing => tie[0] = missing,
        TieFault::RightMissing => tie[1] = missing,
        TieFault::SameTwice => tie[side] = tie[1 - side],
        TieFault::BoundsDiffer => {
            let more = rng.within(1, MOST_BOUND - 1);
            process.bound = ((process.bound as usize - 1 + more) % MOST_BOUND) as u8 + 1;
        }
        TieFault::InputCountsDiffer => {
            let full = process.inputs.count_ones() == MOST_INPUTS;
            let others = all & !process.outputs;
            process.inputs ^= any_of(rng, if full { process.inputs } else { others });
            process.keep_prompts(process.inputs);
        }
        TieFault::OutputCountsDiffer => process.outputs ^= any_of(rng, process.outputs),
        TieFault::PromptPlacesDiffer => {
            let other = any_of(rng, process.inputs & lower);
            process.prompt_mask = Some(process.prompts() ^ other);
        }
    }
}

/// The number of no process, just past them or far.
fn missing_process(rng: &mut Rng, sheet: &Sheet) -> u8 {
    let count = sheet.processes.len() as u8;
    *rng.pick(&[count, count + 1, count + 3, 16, 128, 129, 254, 255])
}

/// A tied sheet with an SY before any PR, or with a PR or one SY too many behind
/// its ties, or with an SY behind AU, or cut off within an SY. What follows the
/// record is often left out, or the record is cut off too.
pub fn misplaced(rng: &mut Rng, sheet: &Sheet) -> Vec<u8> {
    let mut sheet = sheet.clone();
    let processes = sheet.processes.len();
    let tie: &Tie = rng.pick(&sheet.ties);
    let tie = record(RecordKind::Tie, tie);
    let process = record(RecordKind::Process, &[0, 0, 1]);
    let (at, extra) = match rng.below(5) {
        0 => (1, tie),
        1 => (1 + processes + rng.within(1, sheet.ties.len()), process),
        2 => {
            add_ties(rng, &mut sheet, MOST_TIES);
            (1 + processes + MOST_TIES, tie)
        }
        3 => {
            let edges = rng.within(0, sheet.edges.len());
            (2 + processes + sheet.ties.len() + edges, tie)
        }
        _ => return cut_within_tie(rng, &sheet),
    };
    let mut records = sheet.records();
    let mark_end = records[..at].concat().len() + 2;
    records.insert(at, extra);
    let mut bytes = records.concat();
    if rng.one_in(2) {
        bytes.truncate(mark_end + rng.below(4));
    }
    bytes
}

/// Ends with a mark SY and no number or one, which may be that of no process.
fn cut_within_tie(rng: &mut Rng, sheet: &Sheet) -> Vec<u8> {
    let ties = rng.below(sheet.ties.len());
    let before = &sheet.records()[..1 + sheet.processes.len() + ties];
    let mut bytes = before.concat();
    bytes.extend(RecordKind::Tie.mark());
    match rng.below(3) {
        0 => {}
        1 => bytes.push(rng.below(sheet.processes.len()) as u8),
        _ => bytes.push(missing_process(rng, sheet)),
    }
    bytes
}

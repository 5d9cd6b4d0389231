//! Random prompt inputs, and processes with such as are wrong or that stand in a
//! wrong place.

use crate::prompt_places::PromptPlace;
use crate::prompts::PromptFault;
use crate::rng::Rng;
use crate::sheet::{packed, variables_of, Process, Sheet, MOST_PROCESSES};

/// The outputs of the processes below this one.
pub fn outputs_below(processes: &[Process], index: usize) -> u8 {
    let below = processes[..index].iter();
    below.fold(0, |mask, process| mask | process.outputs)
}

/// Makes some of the processes PM, those of a group with prompt inputs at equal
/// places, unless each is drawn by itself: then ties may no longer fit.
pub fn add_prompts(rng: &mut Rng, processes: &mut [Process], groups: &[Vec<usize>]) {
    let by_itself = rng.one_in(10);
    for group in groups {
        let places = group.iter().fold(0xFF, |places, index| {
            let lower = outputs_below(processes, *index);
            places & packed(processes[*index].inputs, lower)
        });
        let places = some_of(rng, places);
        for index in group {
            let inputs = processes[*index].inputs;
            let lower = outputs_below(processes, *index);
            let prompts = if by_itself {
                some_of(rng, inputs & lower)
            } else {
                unpacked(inputs, places)
            };
            let is_pm = prompts != 0 || rng.one_in(3);
            processes[*index].prompt_mask = is_pm.then_some(prompts);
        }
    }
}

/// Part of a mask; all of it comes up often, and none seldom.
fn some_of(rng: &mut Rng, mask: u8) -> u8 {
    match rng.below(4) {
        0 => rng.byte() & mask,
        1 => any_of(rng, mask),
        _ => mask,
    }
}

/// The variables of the mask at these places.
pub fn unpacked(mask: u8, places: u8) -> u8 {
    let variables = (0..8).zip(variables_of(mask));
    let placed = variables.filter(|(place, _)| places >> place & 1 == 1);
    placed.fold(0, |mask, (_, variable)| mask | 1 << variable)
}

/// One variable of a mask alone, none if it has none.
pub fn any_of(rng: &mut Rng, mask: u8) -> u8 {
    match variables_of(mask) {
        variables if variables.is_empty() => 0,
        variables => 1 << rng.pick(&variables),
    }
}

/// Makes some process a PM with a wrong prompt input, one or several, if one of
/// them can be wrong in the way that was drawn.
pub fn spoil(rng: &mut Rng, sheet: &mut Sheet) {
    let fault = *rng.pick(&PromptFault::ALL);
    let able = (0..sheet.processes.len()).filter(|index| wrong_prompts(sheet, *index, fault) != 0);
    let able: Vec<usize> = able.collect();
    if able.is_empty() {
        return;
    }
    let index = *rng.pick(&able);
    let wrong = wrong_prompts(sheet, index, fault);
    let own = sheet.processes[index].prompts();
    let own = if rng.one_in(2) { own } else { 0 };
    let wrong = any_of(rng, wrong) | (rng.byte() & rng.byte() & wrong);
    sheet.processes[index].prompt_mask = Some(own | wrong);
}

/// The bits that would be wrong in this way in the process of that index.
fn wrong_prompts(sheet: &Sheet, index: usize, fault: PromptFault) -> u8 {
    fault.bits(&sheet.up_to(index), &sheet.processes[index])
}

/// A sheet with a fifth process, or with a PM before AR, behind an SY or AU, or cut
/// off within a PM. What follows the record is often left out, or the record is
/// cut off too.
pub fn misplaced(rng: &mut Rng, sheet: &Sheet) -> Vec<u8> {
    let mut places = vec![
        PromptPlace::BeforeArchitecture,
        PromptPlace::BehindAutomaton,
        PromptPlace::CutOff,
    ];
    if sheet.processes.len() == MOST_PROCESSES {
        places.extend([PromptPlace::Fifth; 2]);
    }
    if !sheet.ties.is_empty() {
        places.extend([PromptPlace::BehindTie; 4]);
    }
    let first_tie = 1 + sheet.processes.len();
    let automaton = first_tie + sheet.ties.len();
    let at = match rng.pick(&places) {
        PromptPlace::BeforeArchitecture => 0,
        PromptPlace::Fifth => first_tie,
        PromptPlace::BehindTie => first_tie + rng.within(1, sheet.ties.len()),
        PromptPlace::BehindAutomaton => automaton + 1 + rng.within(0, sheet.edges.len()),
        PromptPlace::CutOff => return cut_within_process(rng, sheet),
    };
    let process = Process {
        prompt_mask: *rng.pick(&[None, Some(0), Some(1), Some(255)]),
        ..Process::new(0, 0, 1)
    };
    let mut records = sheet.records();
    let mark_end = records[..at].concat().len() + 2;
    records.insert(at, process.record());
    let mut bytes = records.concat();
    if rng.one_in(2) {
        bytes.truncate(mark_end + rng.below(5));
    }
    bytes
}

/// Ends with a mark PM and up to three of its fields, which may be wrong.
fn cut_within_process(rng: &mut Rng, sheet: &Sheet) -> Vec<u8> {
    let before = rng.below(sheet.processes.len());
    let mut bytes = sheet.records()[..=before].concat();
    let mut process = sheet.processes[before];
    process.prompt_mask = Some(0);
    if rng.one_in(2) {
        process = Process::with_prompts(rng.byte(), rng.byte(), rng.byte(), 0);
    }
    let cut = rng.below(4);
    bytes.extend(&process.record()[..2 + cut]);
    bytes
}

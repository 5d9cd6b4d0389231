//! Random sheets of two or three processes that pass on what the environment says,
//! some of them promptly.

use crate::choices::choice_count;
use crate::few_choices::{
    add_edge, add_state, close_requirements, forbid_in, open_requirements, shrink, ANY_LABEL,
    VIOLATED, WAITING,
};
use crate::rng::Rng;
use crate::sheet::{Process, Sheet};

/// The first process hears variable 0, of the environment, and the second the
/// first. A third one hears the second and is tied to it, or stands anywhere
/// and has one state.
pub fn sheet(rng: &mut Rng, most: u64) -> Sheet {
    let environment = rng.within(1, 2) as u8;
    let mut variables: Vec<u8> = (environment..environment + 3).collect();
    variables.truncate(rng.within(2, 3));
    let count = variables.len() as u8;
    rng.shuffle(&mut variables);
    let masks: Vec<u8> = variables.iter().map(|variable| 1 << variable).collect();
    let mut sheet = Sheet {
        variables: environment + count,
        environment,
        processes: vec![
            Process::new(0x01, masks[0], 2),
            hearing(rng, masks[0], masks[1]),
        ],
        ..Sheet::default()
    };
    if count == 3 {
        add_third(rng, &mut sheet, masks[1], masks[2]);
    }
    set_relations(rng, &mut sheet, &masks);
    while choice_count(&sheet) > most {
        shrink(rng, &mut sheet);
    }
    sheet
}

/// A process with one input, mostly a prompt one.
fn hearing(rng: &mut Rng, input: u8, output: u8) -> Process {
    Process {
        prompt_mask: *rng.pick(&[None, Some(0), Some(input), Some(input), Some(input)]),
        ..Process::new(input, output, 2)
    }
}

fn add_third(rng: &mut Rng, sheet: &mut Sheet, heard: u8, output: u8) {
    if rng.one_in(2) {
        let mut third = hearing(rng, heard, output);
        let as_prompt = |prompts| if prompts == 0 { 0 } else { heard };
        if !rng.one_in(4) {
            third.prompt_mask = sheet.processes[1].prompt_mask.map(as_prompt);
        }
        sheet.processes.push(third);
        if sheet.tie_fits([1, 2]) {
            sheet.ties.push([2, 1]);
        }
    } else {
        let inputs = *rng.pick(&[0, 1, heard]);
        let third = Process::new(inputs, output, 1);
        sheet.processes.insert(rng.below(3), third);
    }
}

/// What the processes set depends on what the environment says, or on what
/// another one sets, now or one step later.
fn set_relations(rng: &mut Rng, sheet: &mut Sheet, masks: &[u8]) {
    open_requirements(sheet);
    let last = masks[masks.len() - 1];
    let related = [
        (0x01, masks[0]),
        (masks[0], masks[1]),
        (masks[1], last),
        (0x01, masks[1]),
        (0x01, last),
    ];
    for (heard, set) in related {
        if heard != set && rng.one_in(2) {
            relate(rng, sheet, heard, set);
        }
    }
    if rng.one_in(4) {
        forbid_in(rng, sheet, WAITING);
    }
    close_requirements(rng, sheet);
}

/// From the second label on the one variable is as the other is, or is not, or
/// as it was one step before; or only where the other is on, or off.
fn relate(rng: &mut Rng, sheet: &mut Sheet, heard: u8, set: u8) {
    let differing = [(heard, set), (set, heard)];
    let equal = [(heard | set, 0), (0, heard | set)];
    let later = rng.one_in(3);
    let both = rng.one_in(2);
    let wrong = *rng.pick(&[differing, differing, equal]);
    for (on, off) in wrong.into_iter().take(if both { 2 } else { 1 }) {
        let after = add_state(sheet);
        if later {
            add_edge(sheet, WAITING, after, (on & heard, off & heard));
            add_edge(sheet, after, VIOLATED, (on & set, off & set));
        } else {
            add_edge(sheet, WAITING, after, ANY_LABEL);
            add_edge(sheet, after, VIOLATED, (on, off));
        }
    }
}

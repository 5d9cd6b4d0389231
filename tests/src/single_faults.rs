//! Sheets with one fault each, or with a change that is none. Their answers follow
//! from how they are made.

use crate::random_prompts::outputs_below;
use crate::refusal::{
    Refusal, CUT_OFF, WRONG_ARCHITECTURE, WRONG_AUTOMATON, WRONG_COMPOSITION, WRONG_EDGE,
    WRONG_MARK, WRONG_PROCESS, WRONG_PROMPT, WRONG_TIE,
};
use crate::sheet::{
    mask_below, packed, record, variables_of, Process, RecordKind, Sheet, MOST_BOUND,
    MOST_COMPOSED, MOST_EDGES, MOST_ENVIRONMENT, MOST_INPUTS, MOST_PROCESSES, MOST_TIES,
};
use crate::ties::Tie;

/// A changed copy of a proper sheet, and the answer that it must get.
pub struct ChangedSheet {
    pub bytes: Vec<u8>,
    pub answer: Refusal,
}

/// Collects changed copies of one proper sheet.
struct ChangedCopies<'a> {
    sheet: &'a Sheet,
    changed: Vec<ChangedSheet>,
}

impl<'a> ChangedCopies<'a> {
    fn new(sheet: &'a Sheet) -> Self {
        ChangedCopies {
            sheet,
            changed: Vec::new(),
        }
    }

    fn add(&mut self, answer: Refusal, change: impl FnOnce(&mut Sheet)) {
        let mut changed = self.sheet.clone();
        change(&mut changed);
        self.changed.push(ChangedSheet {
            bytes: changed.bytes(),
            answer,
        });
    }
}

/// The values that are just past a count, and far past it.
fn values_past(count: u8) -> [u8; 4] {
    [count, count + 1, count | 0x80, 255]
}

/// Each AR field outside its rules.
pub fn architecture_faults(sheet: &Sheet) -> Vec<ChangedSheet> {
    let mut copies = ChangedCopies::new(sheet);
    let wrong = WRONG_ARCHITECTURE;
    for variables in [9, 10, 12, 16, 128, 128 + sheet.variables, 255] {
        copies.add(wrong, |s| s.variables = variables);
    }
    for variables in 0..sheet.environment {
        copies.add(wrong, |s| s.variables = variables);
    }
    let first_wrong = sheet.variables.min(MOST_ENVIRONMENT as u8) + 1;
    for environment in (first_wrong..=9).chain([16, 128 + sheet.environment, 255]) {
        copies.add(wrong, |s| s.environment = environment);
    }
    for bit in sheet.environment..8 {
        copies.add(wrong, |s| s.root |= 1 << bit);
        copies.add(wrong, |s| s.root = 1 << bit);
    }
    copies.add(wrong, |s| s.root = 255);
    copies.changed
}

/// Each field outside its rules, prompt inputs aside, in the process of that index.
pub fn process_faults(sheet: &Sheet, index: usize) -> Vec<ChangedSheet> {
    let mut copies = ChangedCopies::new(sheet);
    let wrong = WRONG_PROCESS;
    let own_bound = sheet.processes[index].bound;
    for bound in [0, 5, 6, 8, 16, 128, 128 + own_bound, 255] {
        copies.add(wrong, |s| s.processes[index].bound = bound);
    }
    for bit in sheet.variables..8 {
        copies.add(wrong, |s| s.processes[index].inputs = 1 << bit);
        copies.add(wrong, |s| s.processes[index].inputs |= 1 << bit);
        copies.add(wrong, |s| s.processes[index].outputs |= 1 << bit);
    }
    // Outputs of the environment, and outputs that another process has: the
    // later of the two in the file is at fault.
    for bit in variables_of(not_own_outputs(sheet, index)) {
        copies.add(wrong, |s| {
            s.processes[index].outputs |= 1 << bit;
            s.processes[index].inputs &= !(1 << bit);
        });
    }
    add_input_faults(&mut copies, index);
    copies.changed
}

/// Inputs that are the process's own outputs, and more inputs than four.
fn add_input_faults(copies: &mut ChangedCopies, index: usize) {
    let (sheet, wrong) = (copies.sheet, WRONG_PROCESS);
    for bit in variables_of(sheet.processes[index].outputs) {
        copies.add(wrong, |s| s.processes[index].inputs = 1 << bit);
        copies.add(wrong, |s| s.processes[index].inputs |= 1 << bit);
    }
    for inputs in input_masks(sheet, index, |count| count > MOST_INPUTS) {
        copies.add(wrong, |s| s.processes[index].inputs = inputs);
    }
}

/// All sets of up to four inputs that are not the process's own: proper, unless a
/// prompt input is not among them, or it is tied and the count or the places of
/// its prompt inputs are others.
pub fn input_sets(sheet: &Sheet, index: usize) -> Vec<ChangedSheet> {
    let mut copies = ChangedCopies::new(sheet);
    let process = sheet.processes[index];
    let own_count = process.inputs.count_ones();
    for inputs in input_masks(sheet, index, |count| count <= MOST_INPUTS) {
        let other_places = packed(inputs, process.prompts()) != process.prompt_places();
        let answer = if process.prompts() & !inputs != 0 {
            WRONG_PROMPT
        } else if is_tied(sheet, index) && (inputs.count_ones() != own_count || other_places) {
            WRONG_TIE
        } else {
            0
        };
        copies.add(answer, |s| s.processes[index].inputs = inputs);
    }
    copies.changed
}

/// All prompt masks: proper where they are outputs of lower processes that it
/// reads, unless it is tied and their places are others.
pub fn prompt_masks(sheet: &Sheet, index: usize) -> Vec<ChangedSheet> {
    let mut copies = ChangedCopies::new(sheet);
    let process = sheet.processes[index];
    let lower = outputs_below(&sheet.processes, index);
    for prompts in 0..=255 {
        let answer = if prompts & !(process.inputs & lower) != 0 {
            WRONG_PROMPT
        } else if is_tied(sheet, index) && prompts != process.prompts() {
            WRONG_TIE
        } else {
            0
        };
        copies.add(answer, |s| s.processes[index].prompt_mask = Some(prompts));
    }
    copies.changed
}

/// Whether one of these variables is a prompt input.
fn is_prompt(sheet: &Sheet, variables: u8) -> bool {
    let mut processes = sheet.processes.iter();
    processes.any(|process| process.prompts() & variables != 0)
}

fn is_tied(sheet: &Sheet, index: usize) -> bool {
    sheet.ties.iter().any(|tie| tie.contains(&(index as u8)))
}

fn not_own_outputs(sheet: &Sheet, index: usize) -> u8 {
    mask_below(sheet.variables) & !sheet.processes[index].outputs
}

/// The masks of inputs that are not the process's own and whose count fits.
fn input_masks(sheet: &Sheet, index: usize, fits: impl Fn(u32) -> bool) -> Vec<u8> {
    let not_own = not_own_outputs(sheet, index);
    let masks = (0..=255).filter(|mask| mask & !not_own == 0);
    masks.filter(|mask: &u8| fits(mask.count_ones())).collect()
}

/// A variable without an owner, alone and with a wrong automaton behind it. If
/// it is a prompt input, no lower process sets it any more: that comes first. If
/// its owner was tied, it now has one output less than another: that is next.
pub fn owner_faults(sheet: &Sheet) -> Vec<ChangedSheet> {
    let mut copies = ChangedCopies::new(sheet);
    for variable in sheet.environment..sheet.variables {
        let owns = |index: &usize| sheet.processes[*index].outputs >> variable & 1 == 1;
        let mut owners = (0..sheet.processes.len()).filter(owns);
        let tied = owners.any(|owner| is_tied(sheet, owner));
        let wrong = match (is_prompt(sheet, 1 << variable), tied) {
            (true, _) => WRONG_PROMPT,
            (_, true) => WRONG_TIE,
            _ => WRONG_COMPOSITION,
        };
        let disown = |s: &mut Sheet| {
            for process in &mut s.processes {
                process.outputs &= !(1 << variable);
            }
        };
        copies.add(wrong, disown);
        copies.add(wrong, |s| {
            disown(s);
            s.states = 0;
        });
        copies.add(wrong, |s| {
            disown(s);
            s.initial = s.states;
        });
    }
    copies.changed
}

/// Each way in which the tie of that index can be wrong.
pub fn tie_faults(sheet: &Sheet, index: usize) -> Vec<ChangedSheet> {
    let mut copies = ChangedCopies::new(sheet);
    let wrong = WRONG_TIE;
    for side in 0..2 {
        for missing in values_past(sheet.processes.len() as u8) {
            copies.add(wrong, |s| s.ties[index][side] = missing);
            copies.add(wrong, |s| s.ties[index] = [missing; 2]);
        }
        copies.add(wrong, |s| s.ties[index][side] = s.ties[index][1 - side]);
        let tied = usize::from(sheet.ties[index][side]);
        let own_bound = usize::from(sheet.processes[tied].bound);
        for bound in (1..=MOST_BOUND).filter(|bound| *bound != own_bound) {
            copies.add(wrong, |s| s.processes[tied].bound = bound as u8);
        }
        let own_count = sheet.processes[tied].inputs.count_ones();
        let other_count = |count| count <= MOST_INPUTS && count != own_count;
        for inputs in input_masks(sheet, tied, other_count) {
            let lost = sheet.processes[tied].prompts() & !inputs != 0;
            let answer = if lost { WRONG_PROMPT } else { wrong };
            copies.add(answer, |s| s.processes[tied].inputs = inputs);
        }
    }
    copies.changed
}

/// Every choice of bounds: proper up to T = 256, and 5 above it; before both 15
/// where those of tied processes differ.
pub fn all_bounds(sheet: &Sheet) -> Vec<ChangedSheet> {
    let mut copies = ChangedCopies::new(sheet);
    let count = sheet.processes.len();
    for choice in 0..MOST_BOUND.pow(count as u32) {
        let bounds: Vec<usize> = (0..count as u32)
            .map(|index| choice / MOST_BOUND.pow(index) % MOST_BOUND + 1)
            .collect();
        let composed = bounds.iter().product::<usize>() << sheet.environment;
        let mut ties = sheet.ties.iter().map(|tie| tie.map(usize::from));
        let answer = if ties.any(|[one, other]| bounds[one] != bounds[other]) {
            WRONG_TIE
        } else if composed <= MOST_COMPOSED {
            0
        } else {
            WRONG_COMPOSITION
        };
        copies.add(answer, |s| {
            for (process, bound) in s.processes.iter_mut().zip(bounds) {
                process.bound = bound as u8;
            }
        });
    }
    copies.changed
}

/// Each AU field outside its rules.
pub fn automaton_faults(sheet: &Sheet) -> Vec<ChangedSheet> {
    let mut copies = ChangedCopies::new(sheet);
    let wrong = WRONG_AUTOMATON;
    for states in [0, 17, 18, 32, 64, 128, 128 + sheet.states, 255] {
        copies.add(wrong, |s| s.states = states);
    }
    // A count that the initial state or a rejecting bit reaches.
    let used = 16 - sheet.rejecting.leading_zeros() as u8;
    for states in 1..used.max(sheet.initial + 1) {
        copies.add(wrong, |s| s.states = states);
    }
    for initial in values_past(sheet.states) {
        copies.add(wrong, |s| s.initial = initial);
    }
    for bit in sheet.states..16 {
        copies.add(wrong, |s| s.rejecting |= 1 << bit);
        copies.add(wrong, |s| s.rejecting = 1 << bit);
    }
    copies.changed
}

/// Each field outside its rules, in the edge of that index.
pub fn edge_faults(sheet: &Sheet, index: usize) -> Vec<ChangedSheet> {
    let mut copies = ChangedCopies::new(sheet);
    let wrong = WRONG_EDGE;
    for state in values_past(sheet.states) {
        copies.add(wrong, |s| s.edges[index].from = state);
        copies.add(wrong, |s| s.edges[index].to = state);
    }
    for bit in sheet.variables..8 {
        copies.add(wrong, |s| s.edges[index].on |= 1 << bit);
        copies.add(wrong, |s| s.edges[index].off |= 1 << bit);
    }
    for bit in variables_of(mask_below(sheet.variables)) {
        copies.add(wrong, |s| {
            s.edges[index].on |= 1 << bit;
            s.edges[index].off |= 1 << bit;
        });
    }
    copies.changed
}

/// All faults of one field, in every record.
pub fn field_faults(sheet: &Sheet) -> Vec<ChangedSheet> {
    let mut sheets = architecture_faults(sheet);
    for index in 0..sheet.processes.len() {
        sheets.extend(process_faults(sheet, index));
    }
    sheets.extend(owner_faults(sheet));
    for index in 0..sheet.ties.len() {
        sheets.extend(tie_faults(sheet, index));
    }
    sheets.extend(automaton_faults(sheet));
    for index in 0..sheet.edges.len() {
        sheets.extend(edge_faults(sheet, index));
    }
    sheets
}

/// One more record, of every kind and before each record or behind the last.
pub fn inserted_records(sheet: &Sheet) -> Vec<ChangedSheet> {
    let records = sheet.records();
    let mut sheets = Vec::new();
    for index in 0..=records.len() {
        for (extra, answer) in extra_records(sheet, index) {
            let mut changed = records.clone();
            changed.insert(index, extra);
            sheets.push(ChangedSheet {
                bytes: changed.concat(),
                answer,
            });
        }
    }
    sheets
}

/// Records that would be proper somewhere, and the answer if they stand here.
fn extra_records(sheet: &Sheet, index: usize) -> Vec<(Vec<u8>, Refusal)> {
    let first_tie = 1 + sheet.processes.len();
    let automaton = first_tie + sheet.ties.len();
    let end = automaton + 1 + sheet.edges.len();
    // A process without outputs and with one state leaves owners and T alone.
    let process_fits = sheet.processes.len() < MOST_PROCESSES && (1..=first_tie).contains(&index);
    let edge_fits = sheet.edges.len() < MOST_EDGES && (automaton + 1..=end).contains(&index);
    let answer_if = |fits| if fits { 0 } else { WRONG_MARK };

    let records = sheet.records();
    let mut extra = vec![
        (records[0].clone(), WRONG_MARK),
        (records[automaton].clone(), early_automaton(sheet, index)),
        (record(RecordKind::End, &[]), WRONG_MARK),
        (b"TB\0\0\0\0".to_vec(), WRONG_MARK),
    ];
    // Before others it would give them other numbers, and ties with them.
    if sheet.ties.is_empty() || index == first_tie || !process_fits {
        let processes = [Process::new(0, 0, 1), Process::with_prompts(0, 0, 1, 0)];
        extra.extend(processes.map(|process| (process.record(), answer_if(process_fits))));
    }
    let ties = sheet.ties.iter().copied().chain([[0, 0]]);
    extra.extend(ties.map(|tie| (record(RecordKind::Tie, &tie), extra_tie(sheet, index, tie))));
    extra.extend(RecordKind::EDGES.map(|kind| (record(kind, &[0; 4]), answer_if(edge_fits))));
    extra
}

/// The answer to one more SY: one of the sheet's own, or one of process 0 with
/// itself. Behind a PR it may stand, but it asks for its processes; if they are
/// there already, a PR behind it is wrong.
fn extra_tie(sheet: &Sheet, index: usize, tie: Tie) -> Refusal {
    let processes = sheet.processes.len();
    let automaton = 1 + processes + sheet.ties.len();
    let read = processes.min(index.saturating_sub(1));
    let is_fourth = index > processes + MOST_TIES;
    if index < 2 || index > automaton || is_fourth {
        WRONG_MARK
    } else if tie[0] == tie[1] || tie.iter().any(|number| usize::from(*number) >= read) {
        WRONG_TIE
    } else if read < processes || sheet.ties.len() == MOST_TIES {
        WRONG_MARK
    } else {
        0
    }
}

/// The answer to one more AU. It may stand behind the first PR, but it asks for
/// all owners; if they are there already, the mark behind it is wrong.
fn early_automaton(sheet: &Sheet, index: usize) -> Refusal {
    let mut later = sheet.processes.iter().skip(index.saturating_sub(1));
    let lacks_owner = index >= 2 && later.any(|process| process.outputs != 0);
    if lacks_owner {
        WRONG_COMPOSITION
    } else {
        WRONG_MARK
    }
}

/// One record less, each of them in turn; but processes only if none is tied,
/// since those behind get other numbers.
pub fn removed_records(sheet: &Sheet) -> Vec<ChangedSheet> {
    let records = sheet.records();
    let without = |index| {
        let mut changed = records.clone();
        changed.remove(index);
        ChangedSheet {
            bytes: changed.concat(),
            answer: answer_without(sheet, index),
        }
    };
    let is_process = |index: usize| (1..=sheet.processes.len()).contains(&index);
    (0..records.len())
        .filter(|index| sheet.ties.is_empty() || !is_process(*index))
        .map(without)
        .collect()
}

fn answer_without(sheet: &Sheet, index: usize) -> Refusal {
    let processes = sheet.processes.len();
    let automaton = 1 + processes + sheet.ties.len();
    if index == 0 || index == automaton {
        WRONG_MARK
    } else if index <= processes {
        match (processes, sheet.processes[index - 1].outputs) {
            (1, _) => WRONG_MARK,
            (_, 0) => 0,
            (_, outputs) if is_prompt(sheet, outputs) => WRONG_PROMPT,
            _ => WRONG_COMPOSITION,
        }
    } else if index <= automaton + sheet.edges.len() {
        0
    } else {
        CUT_OFF
    }
}

/// A record too many whose mark alone decides, cut at each of its lengths.
fn cut_surplus(before: &[Vec<u8>], surplus: &[u8]) -> Vec<ChangedSheet> {
    (0..=surplus.len())
        .map(|length| ChangedSheet {
            bytes: [&before.concat(), &surplus[..length]].concat(),
            answer: if length < 2 { CUT_OFF } else { WRONG_MARK },
        })
        .collect()
}

/// A PR and a PM that would be proper, and such with wrong fields.
const SURPLUS_PROCESSES: [Process; 4] = [
    Process::new(0, 0, 1),
    Process::with_prompts(0, 0, 1, 0),
    Process::new(255, 255, 0),
    Process::with_prompts(255, 255, 0, 255),
];

/// The fifth process, whole and cut, in a sheet that has four.
pub fn fifth_process(sheet: &Sheet) -> Vec<ChangedSheet> {
    assert_eq!(sheet.processes.len(), MOST_PROCESSES);
    let before = &sheet.records()[..=MOST_PROCESSES];
    let surplus = SURPLUS_PROCESSES.iter();
    surplus
        .flat_map(|process| cut_surplus(before, &process.record()))
        .collect()
}

/// A permitted PM cut off, whatever its fields.
pub fn cut_prompts(sheet: &Sheet) -> Vec<ChangedSheet> {
    let records = sheet.records();
    let mut sheets = Vec::new();
    for before in 0..sheet.processes.len() {
        let proper = Process {
            prompt_mask: Some(0),
            ..sheet.processes[before]
        };
        for process in [proper].iter().chain(&SURPLUS_PROCESSES) {
            let mut record = process.record();
            record[..2].copy_from_slice(RecordKind::ProcessWithPrompts.mark());
            record.truncate(5);
            sheets.extend((1..=record.len()).map(|length| ChangedSheet {
                bytes: [&records[..=before].concat(), &record[..length]].concat(),
                answer: CUT_OFF,
            }));
        }
    }
    sheets
}

/// An SY before any PR, a PR behind an SY and a fourth SY, each whole and cut, in
/// a sheet that has three.
pub fn misplaced_ties(sheet: &Sheet) -> Vec<ChangedSheet> {
    assert_eq!(sheet.ties.len(), MOST_TIES);
    let records = sheet.records();
    let first_tie = 1 + sheet.processes.len();
    let mut sheets = Vec::new();
    for tie in [sheet.ties[0], [255; 2]] {
        let tie = record(RecordKind::Tie, &tie);
        sheets.extend(cut_surplus(&records[..1], &tie));
        sheets.extend(cut_surplus(&records[..first_tie + MOST_TIES], &tie));
    }
    for process in SURPLUS_PROCESSES {
        for ties in 1..=MOST_TIES {
            sheets.extend(cut_surplus(&records[..first_tie + ties], &process.record()));
        }
    }
    sheets
}

/// A permitted SY cut off, whatever its first number.
pub fn cut_ties(sheet: &Sheet) -> Vec<ChangedSheet> {
    let records = sheet.records();
    let mut sheets = Vec::new();
    for ties in 0..sheet.ties.len() {
        let before = records[..1 + sheet.processes.len() + ties].concat();
        let firsts = (0..=255).map(|first| vec![b'S', b'Y', first]);
        let cuts = firsts.chain([vec![b'S'], vec![b'S', b'Y']]);
        sheets.extend(cuts.map(|cut| ChangedSheet {
            bytes: [before.clone(), cut].concat(),
            answer: CUT_OFF,
        }));
    }
    sheets
}

/// The 65th edge, of either kind, whole and cut, in a sheet that has 64.
pub fn surplus_edge(sheet: &Sheet) -> Vec<ChangedSheet> {
    assert_eq!(sheet.edges.len(), MOST_EDGES);
    let records = sheet.records();
    let before = &records[..records.len() - 1];
    let mut sheets = Vec::new();
    for kind in RecordKind::EDGES {
        sheets.extend(cut_surplus(before, &record(kind, &[0; 4])));
        sheets.extend(cut_surplus(before, &record(kind, &[255; 4])));
    }
    sheets
}

//! An independent reading of the sheet file.

use crate::prompts::prompt_faults;
use crate::refusal::{
    Refusal, CUT_OFF, WRONG_ARCHITECTURE, WRONG_AUTOMATON, WRONG_COMPOSITION, WRONG_EDGE,
    WRONG_MARK, WRONG_PROCESS, WRONG_PROMPT, WRONG_TIE,
};
use crate::ties::{tie_faults, Tie};

pub const MOST_VARIABLES: usize = 8;
pub const MOST_ENVIRONMENT: usize = 4;
pub const MOST_PROCESSES: usize = 4;
pub const MOST_TIES: usize = 3;
pub const MOST_INPUTS: u32 = 4;
pub const MOST_BOUND: usize = 4;
pub const MOST_COMPOSED: usize = 256;
pub const MOST_STATES: usize = 16;
pub const MOST_VERTICES: usize = MOST_COMPOSED * MOST_STATES;
pub const MOST_EDGES: usize = 64;
pub const LONGEST_SHEET: usize = 433;

/// The kinds of records in a sheet.
#[derive(Clone, Copy, Debug, PartialEq, Eq)]
pub enum RecordKind {
    Architecture,
    Process,
    ProcessWithPrompts,
    Tie,
    Automaton,
    Edge,
    EdgeUnless,
    End,
}

impl RecordKind {
    pub const IN_ORDER: [RecordKind; 8] = [
        RecordKind::Architecture,
        RecordKind::Process,
        RecordKind::ProcessWithPrompts,
        RecordKind::Tie,
        RecordKind::Automaton,
        RecordKind::Edge,
        RecordKind::EdgeUnless,
        RecordKind::End,
    ];

    /// All but the last.
    pub const WITH_FIELDS: [RecordKind; 7] = [
        RecordKind::Architecture,
        RecordKind::Process,
        RecordKind::ProcessWithPrompts,
        RecordKind::Tie,
        RecordKind::Automaton,
        RecordKind::Edge,
        RecordKind::EdgeUnless,
    ];

    /// The two kinds of processes.
    pub const PROCESSES: [RecordKind; 2] = [RecordKind::Process, RecordKind::ProcessWithPrompts];

    /// The two kinds of edges.
    pub const EDGES: [RecordKind; 2] = [RecordKind::Edge, RecordKind::EdgeUnless];

    pub fn mark(self) -> &'static [u8; 2] {
        match self {
            RecordKind::Architecture => b"AR",
            RecordKind::Process => b"PR",
            RecordKind::ProcessWithPrompts => b"PM",
            RecordKind::Tie => b"SY",
            RecordKind::Automaton => b"AU",
            RecordKind::Edge => b"ED",
            RecordKind::EdgeUnless => b"EX",
            RecordKind::End => b"EN",
        }
    }

    /// How many bytes follow the mark.
    pub fn field_count(self) -> usize {
        match self {
            RecordKind::Architecture | RecordKind::Process => 3,
            RecordKind::Tie => 2,
            RecordKind::ProcessWithPrompts
            | RecordKind::Automaton
            | RecordKind::Edge
            | RecordKind::EdgeUnless => 4,
            RecordKind::End => 0,
        }
    }
}

/// A PM has a mask of prompt inputs, and a PR has none.
#[derive(Clone, Copy, Debug, Default, PartialEq, Eq)]
pub struct Process {
    pub inputs: u8,
    pub outputs: u8,
    pub bound: u8,
    pub prompt_mask: Option<u8>,
}

impl Process {
    pub const fn new(inputs: u8, outputs: u8, bound: u8) -> Self {
        Process {
            inputs,
            outputs,
            bound,
            prompt_mask: None,
        }
    }

    pub const fn with_prompts(inputs: u8, outputs: u8, bound: u8, prompts: u8) -> Self {
        Process {
            inputs,
            outputs,
            bound,
            prompt_mask: Some(prompts),
        }
    }

    /// The inputs that it reads after the step of their owners.
    pub fn prompts(&self) -> u8 {
        self.prompt_mask.unwrap_or(0)
    }

    /// Drops the prompt inputs that are none of these.
    pub fn keep_prompts(&mut self, kept: u8) {
        self.prompt_mask = self.prompt_mask.map(|prompts| prompts & kept);
    }

    /// The places of its prompt inputs in its rows, as a mask of inputs in rising
    /// order.
    pub fn prompt_places(&self) -> u8 {
        packed(self.inputs, self.prompts())
    }

    pub fn kind(&self) -> RecordKind {
        RecordKind::PROCESSES[usize::from(self.prompt_mask.is_some())]
    }

    pub fn record(&self) -> Vec<u8> {
        let mut fields = vec![self.inputs, self.outputs, self.bound];
        fields.extend(self.prompt_mask);
        record(self.kind(), &fields)
    }

    /// How many next states each of its rows has.
    pub fn row_places(&self) -> usize {
        1 << self.inputs.count_ones()
    }

    /// How many entries its table has.
    pub fn table_length(&self) -> usize {
        self.bound as usize * (1 + self.row_places())
    }
}

#[derive(Clone, Copy, Debug, Default, PartialEq, Eq)]
pub struct Edge {
    pub from: u8,
    pub to: u8,
    pub on: u8,
    pub off: u8,
    pub unless: bool,
}

impl Edge {
    /// An edge that is met where the masks match.
    pub fn new(from: u8, to: u8, on: u8, off: u8) -> Self {
        Edge {
            from,
            to,
            on,
            off,
            unless: false,
        }
    }

    /// An edge that is met unless the masks match.
    pub fn unless(from: u8, to: u8, on: u8, off: u8) -> Self {
        Edge {
            unless: true,
            ..Edge::new(from, to, on, off)
        }
    }

    pub fn kind(&self) -> RecordKind {
        RecordKind::EDGES[usize::from(self.unless)]
    }

    pub fn record(&self) -> Vec<u8> {
        record(self.kind(), &[self.from, self.to, self.on, self.off])
    }

    /// Whether some variable of the masks has the other value is what an edge
    /// that says unless asks for, and what any other rules out.
    pub fn is_met(&self, label: u8) -> bool {
        let differing = self.on & !label | self.off & label;
        (differing != 0) == self.unless
    }

    /// The edges without unless that are together met where this one is.
    pub fn without_unless(&self) -> Vec<Edge> {
        if !self.unless {
            return vec![*self];
        }
        let variables = |mask| variables_of(mask).into_iter().map(|bit| 1 << bit);
        let missing = variables(self.on).map(|off| Edge::new(self.from, self.to, 0, off));
        let surplus = variables(self.off).map(|on| Edge::new(self.from, self.to, on, 0));
        missing.chain(surplus).collect()
    }
}

/// The fields of a sheet. Faulty sheets are built from it too, so nothing here
/// keeps the fields within the rules; only `read_sheet` does.
#[derive(Clone, Debug, Default, PartialEq, Eq)]
pub struct Sheet {
    pub variables: u8,
    pub environment: u8,
    pub root: u8,
    pub processes: Vec<Process>,
    pub ties: Vec<Tie>,
    pub states: u8,
    pub initial: u8,
    pub rejecting: u16,
    pub edges: Vec<Edge>,
}

/// The mask of all variables numbered below `count`.
pub fn mask_below(count: u8) -> u8 {
    (0..8)
        .filter(|bit| *bit < count)
        .fold(0, |mask, bit| mask | 1 << bit)
}

/// The variables of a mask, rising.
pub fn variables_of(mask: u8) -> Vec<u8> {
    (0..8).filter(|bit| mask >> bit & 1 == 1).collect()
}

/// The mask of these variables.
pub fn mask_of(variables: &[u8]) -> u8 {
    variables.iter().fold(0, |mask, bit| mask | 1 << bit)
}

/// The values of a mask's variables side by side, the lowest variable lowest.
pub fn packed(mask: u8, values: u8) -> u8 {
    let mut packed = 0;
    let mut width = 0;
    for variable in 0..8 {
        if mask >> variable & 1 == 1 {
            packed |= (values >> variable & 1) << width;
            width += 1;
        }
    }
    packed
}

/// The lowest variable of a mask alone, none if it has none.
pub fn lowest_of(mask: u8) -> u8 {
    mask & mask.wrapping_neg()
}

/// The highest variable of a mask alone, none if it has none.
pub fn highest_of(mask: u8) -> u8 {
    lowest_of(mask.reverse_bits()).reverse_bits()
}

impl Sheet {
    /// T, the number of composed states.
    pub fn composed(&self) -> usize {
        let directions = 1 << self.environment;
        let bounds = self.processes.iter().map(|p| p.bound as usize);
        directions * bounds.product::<usize>()
    }

    /// How many vertices a run graph has, which is the length of an annotation.
    pub fn vertices(&self) -> usize {
        self.composed() * self.states as usize
    }

    /// No number of a returned annotation is higher.
    pub fn number_bound(&self) -> usize {
        self.composed() * self.rejecting.count_ones() as usize
    }

    pub fn is_rejecting(&self, state: u8) -> bool {
        self.rejecting >> state & 1 == 1
    }

    /// The variables that some process has as output.
    pub fn owned(&self) -> u8 {
        self.processes.iter().fold(0, |mask, p| mask | p.outputs)
    }

    /// The process that sets a variable, which is not the environment's.
    pub fn owner(&self, variable: u8) -> usize {
        let mut processes = self.processes.iter();
        let owner = processes.position(|process| process.outputs >> variable & 1 == 1);
        owner.expect("a process sets it")
    }

    /// Whether each variable has an owner, and T is within its limit.
    pub fn composition_fits(&self) -> bool {
        let known = mask_below(self.environment) | self.owned();
        known == mask_below(self.variables) && self.composed() <= MOST_COMPOSED
    }

    /// Whether the two can share a table.
    pub fn tie_fits(&self, tie: Tie) -> bool {
        tie_faults(&self.processes, tie).is_empty()
    }

    /// The records before AU in file order, each with its mark.
    fn front_records(&self) -> Vec<Vec<u8>> {
        let architecture = [self.variables, self.environment, self.root];
        let mut records = vec![record(RecordKind::Architecture, &architecture)];
        records.extend(self.processes.iter().map(Process::record));
        records.extend(self.ties.iter().map(|tie| record(RecordKind::Tie, tie)));
        records
    }

    /// All of the sheet's records in the same way.
    pub fn records(&self) -> Vec<Vec<u8>> {
        let [low, high] = self.rejecting.to_le_bytes();
        let automaton = [self.states, self.initial, low, high];

        let mut records = self.front_records();
        records.push(record(RecordKind::Automaton, &automaton));
        records.extend(self.edges.iter().map(Edge::record));
        records.push(record(RecordKind::End, &[]));
        records
    }

    pub fn bytes(&self) -> Vec<u8> {
        self.records().concat()
    }

    /// The bytes before AU.
    pub fn front(&self) -> Vec<u8> {
        self.front_records().concat()
    }

    /// The same sheet, each process with a table of its own.
    pub fn without_ties(&self) -> Sheet {
        Sheet {
            ties: Vec::new(),
            ..self.clone()
        }
    }

    /// The same sheet, each process a PR.
    pub fn without_prompts(&self) -> Sheet {
        let mut sheet = self.clone();
        for process in &mut sheet.processes {
            process.prompt_mask = None;
        }
        sheet
    }

    /// Whether some process has a prompt input.
    pub fn has_prompts(&self) -> bool {
        self.processes.iter().any(|process| process.prompts() != 0)
    }

    /// The same sheet with so many processes only, and no ties.
    pub fn up_to(&self, processes: usize) -> Sheet {
        let mut sheet = self.without_ties();
        sheet.processes.truncate(processes);
        sheet
    }

    /// Whether it has edges of both kinds.
    pub fn has_both_kinds(&self) -> bool {
        let unless = self.edges.iter().filter(|edge| edge.unless).count();
        0 < unless && unless < self.edges.len()
    }

    /// The same sheet without edges that say unless, if 64 edges suffice.
    pub fn without_unless(&self) -> Option<Sheet> {
        let edges: Vec<Edge> = self.edges.iter().flat_map(Edge::without_unless).collect();
        (edges.len() <= MOST_EDGES).then(|| Sheet {
            edges,
            ..self.clone()
        })
    }
}

/// A record: its mark and then its fields.
pub fn record(kind: RecordKind, fields: &[u8]) -> Vec<u8> {
    [kind.mark(), fields].concat()
}

/// The sheet in the file, or the refusal of its first fault.
pub fn read_sheet(bytes: &[u8]) -> Result<Sheet, Refusal> {
    let reading = Reading::of(bytes);
    match reading.refusal {
        None => Ok(reading.sheet),
        Some(refusal) => Err(refusal),
    }
}

/// How far a file was read: to its end, or to its first fault.
#[derive(Default)]
pub struct Reading<'a> {
    /// What the records before that gave, and the last of them.
    pub sheet: Sheet,
    pub last: Option<RecordKind>,
    /// The mark behind them, empty if there is no whole one, and the bytes
    /// behind it.
    pub mark: &'a [u8],
    pub rest: &'a [u8],
    pub refusal: Option<Refusal>,
}

impl<'a> Reading<'a> {
    pub fn of(bytes: &'a [u8]) -> Self {
        let mut reading = Reading {
            rest: bytes,
            ..Reading::default()
        };
        reading.refusal = reading.read_records().err();
        reading
    }

    fn read_records(&mut self) -> Result<(), Refusal> {
        while self.last != Some(RecordKind::End) {
            self.mark = &[];
            self.mark = take(&mut self.rest, 2)?;
            let kind = permitted(self.last, &self.sheet)
                .iter()
                .find(|kind| kind.mark() == self.mark)
                .ok_or(WRONG_MARK)?;
            let mut behind = self.rest;
            let fields = take(&mut behind, kind.field_count())?;
            add_record(&mut self.sheet, *kind, fields)?;
            self.rest = behind;
            self.last = Some(*kind);
        }
        require(self.rest.is_empty(), WRONG_MARK)
    }
}

/// The next `count` bytes of the file.
fn take<'a>(rest: &mut &'a [u8], count: usize) -> Result<&'a [u8], Refusal> {
    if rest.len() < count {
        return Err(CUT_OFF);
    }
    let (taken, left) = rest.split_at(count);
    *rest = left;
    Ok(taken)
}

/// The records that may follow the last one.
fn permitted(last: Option<RecordKind>, sheet: &Sheet) -> &'static [RecordKind] {
    use RecordKind::{
        Architecture, Automaton, Edge, EdgeUnless, End, Process, ProcessWithPrompts, Tie,
    };
    match last {
        None => &[Architecture],
        Some(Architecture) => &RecordKind::PROCESSES,
        Some(Process | ProcessWithPrompts) if sheet.processes.len() == MOST_PROCESSES => {
            &[Tie, Automaton]
        }
        Some(Process | ProcessWithPrompts) => &[Process, ProcessWithPrompts, Tie, Automaton],
        Some(Tie) if sheet.ties.len() == MOST_TIES => &[Automaton],
        Some(Tie) => &[Tie, Automaton],
        Some(Automaton | Edge | EdgeUnless) if sheet.edges.len() == MOST_EDGES => &[End],
        Some(Automaton | Edge | EdgeUnless) => &[Edge, EdgeUnless, End],
        Some(End) => &[],
    }
}

fn add_record(sheet: &mut Sheet, kind: RecordKind, fields: &[u8]) -> Result<(), Refusal> {
    match kind {
        RecordKind::Architecture => add_architecture(sheet, fields),
        RecordKind::Process | RecordKind::ProcessWithPrompts => add_process(sheet, fields),
        RecordKind::Tie => add_tie(sheet, fields),
        RecordKind::Automaton => add_automaton(sheet, fields),
        RecordKind::Edge => add_edge(sheet, fields, false),
        RecordKind::EdgeUnless => add_edge(sheet, fields, true),
        RecordKind::End => Ok(()),
    }
}

/// The refusal, unless the rule is kept.
fn require(rule_is_kept: bool, refusal: Refusal) -> Result<(), Refusal> {
    if rule_is_kept {
        Ok(())
    } else {
        Err(refusal)
    }
}

fn within(mask: u8, allowed: u8) -> bool {
    mask & !allowed == 0
}

fn add_architecture(sheet: &mut Sheet, fields: &[u8]) -> Result<(), Refusal> {
    let (variables, environment, root) = (fields[0], fields[1], fields[2]);
    require(variables as usize <= MOST_VARIABLES, WRONG_ARCHITECTURE)?;
    require(environment as usize <= MOST_ENVIRONMENT, WRONG_ARCHITECTURE)?;
    require(environment <= variables, WRONG_ARCHITECTURE)?;
    require(within(root, mask_below(environment)), WRONG_ARCHITECTURE)?;
    sheet.variables = variables;
    sheet.environment = environment;
    sheet.root = root;
    Ok(())
}

fn add_process(sheet: &mut Sheet, fields: &[u8]) -> Result<(), Refusal> {
    let (inputs, outputs, bound) = (fields[0], fields[1], fields[2]);
    let all = mask_below(sheet.variables);
    require(within(inputs, all) && within(outputs, all), WRONG_PROCESS)?;
    require(outputs & mask_below(sheet.environment) == 0, WRONG_PROCESS)?;
    require(outputs & sheet.owned() == 0, WRONG_PROCESS)?;
    require(inputs & outputs == 0, WRONG_PROCESS)?;
    require(inputs.count_ones() <= MOST_INPUTS, WRONG_PROCESS)?;
    require((1..=MOST_BOUND).contains(&(bound as usize)), WRONG_PROCESS)?;
    let process = Process {
        prompt_mask: fields.get(3).copied(),
        ..Process::new(inputs, outputs, bound)
    };
    require(prompt_faults(sheet, &process).is_empty(), WRONG_PROMPT)?;
    sheet.processes.push(process);
    Ok(())
}

fn add_tie(sheet: &mut Sheet, fields: &[u8]) -> Result<(), Refusal> {
    let tie = [fields[0], fields[1]];
    require(sheet.tie_fits(tie), WRONG_TIE)?;
    sheet.ties.push(tie);
    Ok(())
}

fn add_automaton(sheet: &mut Sheet, fields: &[u8]) -> Result<(), Refusal> {
    require(sheet.composition_fits(), WRONG_COMPOSITION)?;

    let (states, initial) = (fields[0], fields[1]);
    let rejecting = u16::from_le_bytes([fields[2], fields[3]]);
    require(
        (1..=MOST_STATES).contains(&(states as usize)),
        WRONG_AUTOMATON,
    )?;
    require(initial < states, WRONG_AUTOMATON)?;
    // Wider than the mask, so that 16 states can be shifted out of it whole.
    require(u32::from(rejecting) >> states == 0, WRONG_AUTOMATON)?;
    sheet.states = states;
    sheet.initial = initial;
    sheet.rejecting = rejecting;
    Ok(())
}

fn add_edge(sheet: &mut Sheet, fields: &[u8], unless: bool) -> Result<(), Refusal> {
    let (from, to, on, off) = (fields[0], fields[1], fields[2], fields[3]);
    let all = mask_below(sheet.variables);
    require(from < sheet.states && to < sheet.states, WRONG_EDGE)?;
    require(within(on, all) && within(off, all), WRONG_EDGE)?;
    require(on & off == 0, WRONG_EDGE)?;
    sheet.edges.push(Edge {
        unless,
        ..Edge::new(from, to, on, off)
    });
    Ok(())
}

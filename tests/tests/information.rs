//! A process acts on its own table and on what it reads: the library's desks show
//! the same of it in two systems that have nothing else in common.

use std::collections::BTreeSet;

use soclethyme_tests::bench_cases::{BOOK_P, SHEET_P};
use soclethyme_tests::desk::{Desk, DESK_LENGTH};
use soclethyme_tests::ffi;
use soclethyme_tests::proper_sheet::SheetAndBook;
use soclethyme_tests::random_books::with_book;
use soclethyme_tests::random_sheets;
use soclethyme_tests::refusal::WRONG_DESK;
use soclethyme_tests::rng::Rng;
use soclethyme_tests::shared_tables::{SharedTable, System};
use soclethyme_tests::sheet::{packed, Sheet};
use soclethyme_tests::tally::Tally;
use soclethyme_tests::text::hex;
use soclethyme_tests::ties::tied_groups;
use soclethyme_tests::transition_system::ComposedState;

const SEED: u64 = 0x5EED_000B;

/// How many pairs of systems are drawn.
const PAIRS: u64 = 80_000;
/// A pair counts from so many steps on.
const FEW_STEPS: u64 = 8;
const MOST_STEPS: u64 = 12;

/// What is seen of a process: its state and its outputs.
type Face = (u8, u8);

/// A desk of the library, with the composed state that it should hold.
struct SteppedDesk<'a> {
    system: &'a System,
    desk: Desk,
    composed: ComposedState,
    label: u8,
    /// Whether a place was read that would be another one without prompt inputs.
    heard: bool,
}

impl<'a> SteppedDesk<'a> {
    fn fresh(rng: &mut Rng, system: &'a System) -> Self {
        let mut desk = [(); DESK_LENGTH].map(|()| rng.byte());
        assert_eq!(ffi::fresh(&system.input.proper.bytes, &mut desk), 0);
        assert_eq!(desk[system.index], 0);
        SteppedDesk {
            system,
            desk,
            composed: system.machines.initial(),
            label: 0,
            heard: false,
        }
    }

    fn step(&mut self, direction: u8) -> u32 {
        let SheetAndBook { proper, book } = &self.system.input;
        ffi::step(&proper.bytes, book, &mut self.desk, direction)
    }

    /// Takes a direction that is possible.
    fn take(&mut self, direction: u8) {
        let number = self.step(direction);
        let label = number.checked_sub(65_536).expect("a possible direction");
        self.heard |= self.system.hears_promptly(self.composed, direction);
        self.composed = self.system.machines.step(self.composed, direction);
        self.label = label as u8;
    }

    /// What is seen of the process.
    fn face(&self) -> Face {
        let outputs = self.system.process().outputs;
        (self.desk[self.system.index], self.label & outputs)
    }

    /// The same of any process, its outputs in rising order.
    fn packed_face(&self, index: usize) -> Face {
        let outputs = self.system.machines.sheet.processes[index].outputs;
        (self.desk[index], packed(outputs, self.label))
    }

    fn own_packed_face(&self) -> Face {
        self.packed_face(self.system.index)
    }

    /// Once in a while a direction that is not possible: nothing comes of it.
    fn sometimes_refuse(&mut self, rng: &mut Rng) {
        if !rng.one_in(5) {
            return;
        }
        let environment = self.system.machines.sheet.environment;
        let direction = rng.byte() | 1 << rng.within(environment.into(), 7);
        let held = self.desk;
        assert_eq!(self.step(direction), WRONG_DESK);
        assert_eq!(self.desk, held);
    }

    /// The label without the process's own outputs.
    fn others(&self) -> u8 {
        self.label & !self.system.process().outputs
    }

    /// The possible directions, each with the place that the process would read.
    fn places(&self) -> Vec<(u8, usize)> {
        let machines = &self.system.machines;
        let directions = 0..1 << machines.sheet.environment;
        let read = directions.map(|direction| {
            let (_, places) = machines.step_with_places(self.composed, direction);
            (direction, places[self.system.index])
        });
        read.collect()
    }

    fn describe(&self) -> String {
        let SheetAndBook { proper, book } = &self.system.input;
        let index = self.system.index;
        let desk = hex(&self.desk);
        format!(
            "process {index}, sheet {}\nbook {}\ndesk {desk}",
            hex(&proper.bytes),
            hex(book)
        )
    }
}

/// One of the directions by which this place is read, or any other.
fn reading(rng: &mut Rng, places: &[(u8, usize)], fits: impl Fn(usize) -> bool) -> Option<u8> {
    let fitting = places.iter().filter(|(_, place)| fits(*place));
    let directions: Vec<u8> = fitting.map(|(direction, _)| *direction).collect();
    (!directions.is_empty()).then(|| *rng.pick(&directions))
}

/// What a pair of runs was like.
#[derive(Default)]
struct Run {
    steps: u64,
    others_differ: bool,
    /// The places that the process read, each once.
    places: BTreeSet<usize>,
}

/// How a process is seen.
type Seen = fn(&SteppedDesk) -> Face;

/// The first takes any directions, and the second those by which the process reads
/// what it read in the first, while there are such.
fn run_together(
    rng: &mut Rng,
    seen: Seen,
    first: &mut SteppedDesk,
    second: &mut SteppedDesk,
) -> Run {
    let mut run = Run::default();
    while run.steps < MOST_STEPS {
        first.sometimes_refuse(rng);
        second.sometimes_refuse(rng);
        let (direction, place) = *rng.pick(&first.places());
        let Some(same) = reading(rng, &second.places(), |read| read == place) else {
            break;
        };
        first.take(direction);
        second.take(same);
        let faces = [seen(first), seen(second)];
        assert!(
            faces[0] == faces[1],
            "after place {place}: {faces:?}\n{}\n{}",
            first.describe(),
            second.describe()
        );
        run.steps += 1;
        run.places.insert(place);
        run.others_differ |= first.others() != second.others();
    }
    run
}

/// One step more, by which the process reads something else in the second. None if
/// no direction does that.
fn differs_after_other_place(
    rng: &mut Rng,
    seen: Seen,
    first: &mut SteppedDesk,
    second: &mut SteppedDesk,
) -> Option<bool> {
    let (direction, place) = *rng.pick(&first.places());
    let other = reading(rng, &second.places(), |read| read != place)?;
    first.take(direction);
    second.take(other);
    Some(seen(first) != seen(second))
}

/// Two systems with these tables for one process, at another number and with other
/// inputs in the second. None if what was drawn leaves no room for it.
fn draw_pair(rng: &mut Rng, tables: [&SharedTable; 2]) -> Option<[System; 2]> {
    let [first, second] = tables.map(|table| {
        let prompted = rng.one_in(2);
        table.system(rng, prompted)
    });
    let (first, second) = (first?, second?);
    let differ = first.index != second.index && first.process().inputs != second.process().inputs;
    differ.then_some([first, second])
}

/// The same rows in both.
fn pair_with_rows(rng: &mut Rng) -> [System; 2] {
    loop {
        let table = SharedTable::draw(rng);
        if let Some(pair) = draw_pair(rng, [&table; 2]) {
            return pair;
        }
    }
}

/// Other outputs in the second, and the same rows once their masks are packed.
fn pair_with_packed_rows(rng: &mut Rng) -> [System; 2] {
    loop {
        let [table, moved] = SharedTable::draw_packed(rng);
        if let Some(pair) = draw_pair(rng, [&table, &moved]) {
            return pair;
        }
    }
}

/// Whether the process has prompt inputs in one of the systems.
const PROMPT: &str = "prompt inputs";
const STEPS: &str = "steps of a pair";
/// Whether the labels differed outside the process at some step of a long pair.
const OTHERS_DIFFER: &str = "labels differ elsewhere";
/// Whether the process then shows something else, once it has read something else.
const DIFFERS: &str = "differs after another place";
/// Whether it would have read another place if it heard nothing promptly.
const HEARD: &str = "prompt inputs matter";
/// How many places the process read that differ.
const PLACES: &str = "different places read";
const BOUND: &str = "bound";
const INPUTS: &str = "inputs";
const NUMBERS: &str = "numbers of the process";
/// Whether the PR or PM of the process names the same outputs in both.
const SAME_OUTPUTS: &str = "same output mask";
const ENVIRONMENTS: &str = "environment variables";

fn count_pair(tally: &mut Tally, first: &System, second: &System) {
    let [one, two] = [first, second].map(System::process);
    tally.count(PROMPT, one.prompts() | two.prompts() != 0);
    tally.count(BOUND, one.bound);
    tally.count(INPUTS, one.inputs.count_ones());
    tally.count(NUMBERS, first.index * 10 + second.index);
    tally.count(SAME_OUTPUTS, one.outputs == two.outputs);
    let [one, two] = [first, second].map(|system| system.machines.sheet.environment);
    tally.count(ENVIRONMENTS, one * 10 + two);
}

/// Steps pairs of systems side by side, and counts those with steps enough whose
/// labels differ elsewhere and whose process read two places or more.
fn step_pairs(pairs: u64, draw: fn(&mut Rng) -> [System; 2], seen: Seen) -> Tally {
    let mut tally = Tally::default();
    let mut rng = Rng::new(SEED);
    for _ in 0..pairs {
        let [first, second] = draw(&mut rng);
        let mut desks = [&first, &second].map(|system| SteppedDesk::fresh(&mut rng, system));
        let [one, two] = &mut desks;
        let run = run_together(&mut rng, seen, one, two);
        tally.count(STEPS, run.steps);
        if run.steps < FEW_STEPS {
            continue;
        }
        tally.count(PLACES, run.places.len());
        tally.count(OTHERS_DIFFER, run.others_differ);
        if run.others_differ && run.places.len() > 1 {
            count_pair(&mut tally, &first, &second);
            tally.count(HEARD, one.heard || two.heard);
            if let Some(differs) = differs_after_other_place(&mut rng, seen, one, two) {
                tally.count(DIFFERS, differs);
            }
        }
    }
    tally
}

/// So many pairs count, with prompt inputs, numbers, bounds and inputs of all kinds;
/// and what is read matters.
fn assert_pairs(tally: &Tally, least: u64) {
    let counted = tally.total(PROMPT);
    assert!(counted >= least, "{counted} pairs");
    assert!(3 * tally.seen(PROMPT, true) >= counted);
    assert!(5 * tally.seen(HEARD, true) >= counted);
    tally.assert_often(BOUND, 2..=4, counted / 10);
    tally.assert_often(INPUTS, 1..=3, counted / 50);
    let numbers = [1, 2, 3, 10, 12, 13, 20, 21, 23, 30, 31, 32];
    tally.assert_often(NUMBERS, numbers, counted / 100);
    assert!(2 * tally.seen(DIFFERS, true) >= tally.total(DIFFERS));
    assert!(4 * tally.total(DIFFERS) >= counted);
}

#[test]
fn a_process_acts_on_what_it_reads() {
    let tally = step_pairs(PAIRS, pair_with_rows, |desk| desk.face());
    tally.print("one process in two systems");
    assert_pairs(&tally, 20_000);
    tally.assert_often(SAME_OUTPUTS, [false, true], 1_000);
}

/// With other outputs it shows the same in rising order.
#[test]
fn a_process_with_other_outputs_acts_alike() {
    let tally = step_pairs(PAIRS / 4, pair_with_packed_rows, |desk| {
        desk.own_packed_face()
    });
    tally.print("one process in two systems, with other outputs");
    assert_pairs(&tally, 4_000);
    tally.assert_only(SAME_OUTPUTS, [false]);
}

/// Whether two tied processes differ, once they have read something else.
const TIED_DIFFER: &str = "tied processes differ after other places";
/// After how many steps two tied processes have read the same at each.
const TIED_STEPS: &str = "steps of tied processes that read the same";

/// Tied processes that have read the same at each step stand in the same state, and
/// their outputs are the same in rising order.
#[test]
fn tied_processes_act_alike() {
    let mut tally = Tally::default();
    let mut rng = Rng::new(SEED);
    for _ in 0..20_000 {
        let sheet = match rng.below(2) {
            0 => random_sheets::with_ties(&mut rng, 2),
            _ => random_sheets::with_chained_ties(&mut rng),
        };
        let system = System::new(with_book(&mut rng, sheet), 0);
        let mut alike = tied_pairs(&system.machines.sheet);
        let mut stepped = SteppedDesk::fresh(&mut rng, &system);
        for step in 1..=MOST_STEPS {
            let directions = 1 << system.machines.sheet.environment;
            let direction = rng.below(directions) as u8;
            let (_, places) = system
                .machines
                .step_with_places(stepped.composed, direction);
            stepped.take(direction);
            for [left, right] in &alike {
                let faces = [*left, *right].map(|index| stepped.packed_face(index));
                if places[*left] == places[*right] {
                    assert!(
                        faces[0] == faces[1],
                        "{left}, {right}: {faces:?}\n{}",
                        stepped.describe()
                    );
                    tally.count(TIED_STEPS, step);
                } else {
                    tally.count(TIED_DIFFER, faces[0] != faces[1]);
                }
            }
            alike.retain(|[left, right]| places[*left] == places[*right]);
        }
    }
    tally.print("tied processes");
    tally.assert_often(TIED_STEPS, 1..=MOST_STEPS, 5_000);
    tally.assert_often(TIED_DIFFER, [false, true], 2_000);
}

/// Each two processes that ties join and that have other inputs.
fn tied_pairs(sheet: &Sheet) -> Vec<[usize; 2]> {
    let mut pairs = Vec::new();
    for group in tied_groups(sheet) {
        for (at, left) in group.iter().enumerate() {
            pairs.extend(group[at + 1..].iter().map(|right| [*left, *right]));
        }
    }
    let inputs = |index: usize| sheet.processes[index].inputs;
    pairs.retain(|[left, right]| inputs(*left) != inputs(*right));
    pairs
}

/// The two systems of the specification: the second process of P, which reads the
/// first promptly, and a process that stands alone and reads the environment.
#[test]
fn the_two_systems_of_the_specification() {
    let second = [
        0x41, 0x52, 0x03, 0x02, 0x00, 0x50, 0x52, 0x02, 0x04, 0x02, 0x41, 0x55, 0x01, 0x00, 0x00,
        0x00, 0x45, 0x4E,
    ];
    let book = [
        0x54, 0x42, 0x00, 0x00, 0x00, 0x00, 0x01, 0x54, 0x42, 0x00, 0x01, 0x04, 0x00, 0x01, 0x45,
        0x4E,
    ];
    let mut desks = [[9; DESK_LENGTH]; 2];
    assert_eq!(ffi::fresh(&SHEET_P, &mut desks[0]), 0);
    assert_eq!(ffi::fresh(&second, &mut desks[1]), 0);
    assert_eq!(desks, [[0, 0, 9, 9, 0], [0, 9, 9, 9, 0]]);
    let first = [
        (1, 0x1_0007, [1, 1, 9, 9, 1]),
        (0, 0x1_0000, [0, 0, 9, 9, 0]),
        (2, WRONG_DESK, [0, 0, 9, 9, 0]),
        (1, 0x1_0007, [1, 1, 9, 9, 1]),
    ];
    for (direction, answer, desk) in first {
        assert_eq!(
            ffi::step(&SHEET_P, &BOOK_P, &mut desks[0], direction),
            answer
        );
        assert_eq!(desks[0], desk);
    }
    let other = [
        (2, 0x1_0006, [1, 9, 9, 9, 2]),
        (4, WRONG_DESK, [1, 9, 9, 9, 2]),
        (1, 0x1_0001, [0, 9, 9, 9, 1]),
        (3, 0x1_0007, [1, 9, 9, 9, 3]),
    ];
    for (direction, answer, desk) in other {
        assert_eq!(ffi::step(&second, &book, &mut desks[1], direction), answer);
        assert_eq!(desks[1], desk);
    }
}

//! Times annotating on the largest run graphs, by the library and by the
//! independent run graph with its plain search for a run that breaks the sheet;
//! then finding, by the library and by plain enumeration made for speed; then a
//! step on a desk, by the library and by the independent transition system. Asserts
//! that they agree and that such runs replay, and nothing about time.

use std::hint::black_box;
use std::time::{Duration, Instant};

use soclethyme_tests::bench_cases::{case_a, case_c, case_d, proper_cases, BOOK_A, BOOK_D};
use soclethyme_tests::book::LONGEST_BOOK;
use soclethyme_tests::choices::{choice_count, FoundChoice};
use soclethyme_tests::desk::{self, Desk, DESK_LENGTH};
use soclethyme_tests::fast_enumeration;
use soclethyme_tests::ffi::{self, finding_number, label_number, NEGATIVE, POSITIVE};
use soclethyme_tests::joint_counter::JointCounter;
use soclethyme_tests::lasso::{least_path, Lasso};
use soclethyme_tests::looping_books::{adders, longest_run, PassedOnce};
use soclethyme_tests::many_choices::{opening, prompt_relay, relay, three_clients, tied_openings};
use soclethyme_tests::proper_sheet::{ProperSheet, SheetAndBook};
use soclethyme_tests::random_books;
use soclethyme_tests::random_sheets;
use soclethyme_tests::rejecting_loops;
use soclethyme_tests::rng::Rng;
use soclethyme_tests::run_graph::{self, RunGraph};
use soclethyme_tests::sheet::{Process, Sheet, MOST_EDGES, MOST_VERTICES};
use soclethyme_tests::transition_system::TransitionSystem;

const SEED: u64 = 0x5EED_0004;

/// Each measurement goes on for this long, and for three calls at least.
const SPAN: Duration = Duration::from_millis(300);

/// What is annotated, with a name.
struct NamedBook {
    name: String,
    input: SheetAndBook,
}

/// A random sheet with 64 edges, and a book for it.
fn random_book(rng: &mut Rng) -> SheetAndBook {
    let mut sheet = rejecting_loops::largest(rng);
    if rng.one_in(2) {
        sheet.rejecting &= 0xFF00;
        rejecting_loops::exclude_rejecting_loops(rng, &mut sheet);
        sheet.initial = 0;
    }
    repeat_edges(rng, &mut sheet);
    random_books::with_book(rng, sheet)
}

/// Edges that a sheet lost are made up for by repeated ones, which change no
/// vertex.
fn repeat_edges(rng: &mut Rng, sheet: &mut Sheet) {
    while sheet.edges.len() < MOST_EDGES {
        let repeated = *rng.pick(&sheet.edges);
        sheet.edges.push(repeated);
    }
}

/// Whether a rejecting loop is reachable; none if there is no loop and few
/// vertices are reached.
fn loops(input: &SheetAndBook) -> Option<bool> {
    let graph = RunGraph::of(&system_of(input));
    let loops = graph.annotation().is_none();
    (loops || graph.reached() >= MOST_VERTICES / 2).then_some(loops)
}

fn system_of(input: &SheetAndBook) -> TransitionSystem {
    let system = TransitionSystem::read(&input.proper.bytes, &input.book);
    system.expect("a proper sheet and book")
}

/// Three that loop and three that do not.
fn random_books() -> Vec<NamedBook> {
    let mut rng = Rng::new(SEED);
    let mut found = [0; 2];
    let mut all = Vec::new();
    while found != [3; 2] {
        let input = random_book(&mut rng);
        let Some(loops) = loops(&input).filter(|loops| found[*loops as usize] < 3) else {
            continue;
        };
        found[loops as usize] += 1;
        let kind = if loops { "loops" } else { "no loop" };
        let name = format!("random {}, {kind}", found[loops as usize]);
        all.push(NamedBook { name, input });
    }
    all
}

/// Sheets on which numbers rise as high as they can.
fn counter_books() -> Vec<NamedBook> {
    let mut all = Vec::new();
    for (order, falling) in [("rising", false), ("falling", true)] {
        let named = [
            ("16 rounds", JointCounter::longest(falling)),
            ("16 rounds, closed", JointCounter::longest_closed(falling)),
            (
                "16 rounds, 16 directions",
                JointCounter::widest(falling, false),
            ),
        ];
        all.extend(named.map(|(name, counter)| NamedBook {
            name: format!("{order} counter, {name}"),
            input: counter.with_book(),
        }));
    }
    all
}

/// Where a rejecting loop is close to the start: with no other rejecting vertices,
/// and with 2,048 that are on no cycle, reached behind it or ahead of it, from each
/// of which 1,792 vertices or more are reached. Then the run with the most steps.
fn looping_books() -> Vec<NamedBook> {
    let mut all = Vec::new();
    for (steps, dense) in [("few steps", false), ("many steps", true)] {
        let named = [
            ("loop, no other rejecting", PassedOnce::None),
            ("loop, rejecting behind", PassedOnce::Behind),
            ("loop, rejecting ahead", PassedOnce::Ahead),
        ];
        all.extend(named.map(|(name, passed)| NamedBook {
            name: format!("{name}, {steps}"),
            input: adders(passed, dense),
        }));
    }
    all.extend([false, true].map(|falling| NamedBook {
        name: format!(
            "longest run, {}",
            if falling { "falling" } else { "rising" }
        ),
        input: longest_run(falling),
    }));
    all
}

/// The inputs of two processes, which set 4 and 5, and 6 and 7.
const INPUTS: [[u8; 2]; 4] = [[0x00, 0x00], [0x80, 0x01], [0x81, 0x22], [0xC5, 0x3A]];

/// One automaton without a rejecting loop beside two processes of four states
/// each that read none, one, two and four variables. There are 16 directions,
/// so that a step is made 4,096 times, and the inputs of both are packed then.
fn reading_books() -> Vec<NamedBook> {
    let mut rng = Rng::new(SEED);
    let mut sheet = Sheet {
        variables: 8,
        environment: 4,
        processes: vec![Process::new(0, 0x30, 4), Process::new(0, 0xC0, 4)],
        states: 16,
        rejecting: 0xFF00,
        ..Sheet::default()
    };
    random_sheets::add_edges(&mut rng, &mut sheet, MOST_EDGES);
    rejecting_loops::exclude_rejecting_loops(&mut rng, &mut sheet);
    repeat_edges(&mut rng, &mut sheet);
    sheet.initial = 0;
    let named = INPUTS.map(|inputs| {
        for (process, mask) in sheet.processes.iter_mut().zip(inputs) {
            process.inputs = mask;
        }
        NamedBook {
            name: format!("two processes, inputs of each: {}", inputs[0].count_ones()),
            input: random_books::with_book(&mut rng, sheet.clone()),
        }
    });
    named.into()
}

/// What annotating is lent.
struct Buffers {
    annotation: Vec<u16>,
    path: Vec<u8>,
    lengths: [u32; 2],
}

impl Buffers {
    fn new() -> Self {
        Buffers {
            annotation: vec![0; MOST_VERTICES],
            path: vec![0; least_path(MOST_VERTICES)],
            lengths: [0; 2],
        }
    }
}

/// Microseconds per call, the buffers kept as the call before left them.
fn time(lent: &mut Buffers, call: impl Fn(&mut Buffers) -> u32) -> f64 {
    black_box(call(lent));
    let start = Instant::now();
    let mut calls = 0;
    while calls < 3 || start.elapsed() < SPAN {
        black_box(call(black_box(&mut *lent)));
        calls += 1;
    }
    start.elapsed().as_secs_f64() * 1e6 / f64::from(calls)
}

fn print_times(name: &str, size: u64, answer: u32, library: f64, other: f64) {
    let ratio = library / other;
    println!("{name:<42} {size:>8} {answer:>6} {library:>14.1} {other:>14.1} {ratio:>8.5}");
}

fn annotate_by_library(input: &SheetAndBook, lent: &mut Buffers) -> u32 {
    ffi::annotate(
        &input.proper.bytes,
        &input.book,
        &mut lent.annotation,
        &mut lent.path,
        &mut lent.lengths,
    )
}

fn annotate_by_graph(input: &SheetAndBook, lent: &mut Buffers) -> u32 {
    finding_number(run_graph::annotate(
        &input.proper.bytes,
        &input.book,
        &mut lent.annotation,
        &mut lent.path,
        &mut lent.lengths,
    ))
}

/// The annotation is judged valid, or the run breaks the sheet.
fn assert_passes(input: &SheetAndBook, answer: u32, lent: &Buffers) {
    if answer == POSITIVE {
        let judged = ffi::judge(&input.proper.bytes, &input.book, &lent.annotation);
        assert_eq!(judged, POSITIVE);
    } else {
        let run = Lasso::replayed(&system_of(input), &lent.path, lent.lengths);
        assert!(run.is_ok(), "{run:?}");
    }
}

fn measure_annotate(named: &NamedBook) {
    let input = &named.input;
    let (mut by_library, mut by_graph) = (Buffers::new(), Buffers::new());
    let answer = annotate_by_library(input, &mut by_library);
    assert_eq!(answer, annotate_by_graph(input, &mut by_graph));
    assert_eq!(by_library.annotation, by_graph.annotation);
    for lent in [&by_library, &by_graph] {
        assert_passes(input, answer, lent);
    }

    let library = time(&mut by_library, |lent| annotate_by_library(input, lent));
    let graph = time(&mut by_graph, |lent| annotate_by_graph(input, lent));
    print_times(&named.name, MOST_VERTICES as u64, answer, library, graph);
}

/// The specification's cases, and sheets with ten million choices and more: one
/// found after a quarter of them, two with none, one found close to the end, one
/// with a tie and none, and one with a prompt input and none.
fn sheets_to_search() -> Vec<(&'static str, Sheet)> {
    let mut all = proper_cases();
    all.push(("case C, bounds 3 and 3", case_c(3, 3)));
    all.push(("three clients, bounds 3 and 2", three_clients(3, 2)));
    all.push(("relay, bounds 3 and 3", relay(3, 3)));
    all.push(("opening, bound 3", opening(3)));
    all.push(("tied openings, bounds 3", tied_openings(3)));
    all.push(("prompt relay, bounds 3 and 3", prompt_relay(3, 3)));
    all
}

/// What a call gives, and microseconds per call. A long one is made only once.
fn repeat<T>(mut call: impl FnMut() -> T) -> (T, f64) {
    let start = Instant::now();
    let mut calls = 0;
    loop {
        let given = black_box(call());
        calls += 1;
        let elapsed = start.elapsed();
        if elapsed >= SPAN {
            return (given, elapsed.as_secs_f64() * 1e6 / f64::from(calls));
        }
    }
}

fn assert_found(found: &FoundChoice, book: &[u8], annotation: &[u16]) {
    assert!(book.starts_with(&found.book));
    assert!(annotation.starts_with(&found.annotation));
}

fn measure_find(name: &str, sheet: Sheet) {
    let proper = ProperSheet::new(sheet);
    let mut book = [0; LONGEST_BOOK];
    let mut annotation = [0; MOST_VERTICES];
    let find = || ffi::find(&proper.bytes, &mut book, &mut annotation);
    let (answer, library) = repeat(find);
    let (found, enumeration) = repeat(|| fast_enumeration::first_choice(&proper));
    let expected = if found.is_some() { POSITIVE } else { NEGATIVE };
    assert_eq!(answer, expected, "{name}");
    if let Some(found) = found {
        assert_found(&found, &book, &annotation);
    }
    let choices = choice_count(&proper.sheet);
    print_times(name, choices, answer, library, enumeration);
}

/// The tables of two small cases, and the largest ones.
fn books_to_step() -> Vec<NamedBook> {
    let case = |name: &str, sheet, book: &[u8]| NamedBook {
        name: name.into(),
        input: SheetAndBook {
            proper: ProperSheet::new(sheet),
            book: book.into(),
        },
    };
    let mut all = vec![
        case("case A", case_a(), &BOOK_A),
        case("case D", case_d(), &BOOK_D),
    ];
    all.extend(random_books().into_iter().take(2));
    all.extend(counter_books().into_iter().take(1));
    all
}

/// A step by direction 0. Sheet and book are read in each call, here as there.
fn step_by_system(input: &SheetAndBook, desk: &mut Desk) -> u32 {
    let label = desk::step(&system_of(input), desk, 0);
    label.map_or_else(|refusal| refusal, label_number)
}

fn measure_step(named: &NamedBook) {
    let input = &named.input;
    let (sheet, book) = (&input.proper.bytes, &input.book);
    let (mut by_library, mut by_system) = ([0; DESK_LENGTH], [0; DESK_LENGTH]);
    assert_eq!(ffi::fresh(sheet, &mut by_library), POSITIVE);
    assert_eq!(desk::fresh(sheet, &mut by_system), Ok(()));
    for _ in 0..100 {
        let label = ffi::step(sheet, book, &mut by_library, 0);
        assert_eq!(label, step_by_system(input, &mut by_system));
        assert_eq!(by_library, by_system);
    }

    let (label, library) = repeat(|| ffi::step(sheet, book, &mut by_library, 0));
    let (_, system) = repeat(|| step_by_system(input, &mut by_system));
    print_times(&named.name, book.len() as u64, label, library, system);
}

fn print_heading(call: &str, size: &str, other: &str) {
    let (answer, library, ratio) = ("answer", "library us", "ratio");
    println!("{call:<42} {size:>8} {answer:>6} {library:>14} {other:>14} {ratio:>8}");
}

fn main() {
    print_heading("annotate", "vertices", "independent us");
    let books = [
        random_books(),
        counter_books(),
        reading_books(),
        looping_books(),
    ];
    books.iter().flatten().for_each(measure_annotate);
    println!();
    print_heading("find", "choices", "enumeration us");
    for (name, sheet) in sheets_to_search() {
        measure_find(name, sheet);
    }
    println!();
    print_heading("step", "book", "independent us");
    books_to_step().iter().for_each(measure_step);
}

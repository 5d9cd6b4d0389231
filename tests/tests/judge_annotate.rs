//! The library's verdicts on books against the independent run graph. Each
//! input goes to both calls, and every lent number and byte is compared after
//! them. The run that is reported for a rejecting loop may be any: it is replayed.

use soclethyme_tests::bench_cases::{
    book_s, case_d, case_e, case_f, case_g, case_h, case_p, case_q, ANNOTATION_A, BOOK_A, BOOK_D,
    BOOK_E, BOOK_P, BOOK_Q, REJECTING_0, REJECTING_1, SHEET_A, SHEET_P, SHEET_S,
};
use soclethyme_tests::book::{book_of, entries};
use soclethyme_tests::edge_kinds::{assert_both_kinds, count_kinds};
use soclethyme_tests::few_choices;
use soclethyme_tests::ffi::{self, finding_number, NEGATIVE, POSITIVE};
use soclethyme_tests::guarded_buffer::GuardedBuffer;
use soclethyme_tests::inputs_read::{count_inputs, INPUT_COUNT, READS_ACROSS_GAP, READS_HIGHEST};
use soclethyme_tests::joint_counter::{JointCounter, LONGEST_COUNTER};
use soclethyme_tests::lasso::{least_path, Lasso};
use soclethyme_tests::looping_books::{
    adders, guided, longest_run, loop_behind, ring, OnlyRun, PassedOnce,
};
use soclethyme_tests::prompt_places::{assert_prompts, count_prompts};
use soclethyme_tests::proper_sheet::{ProperSheet, SheetAndBook};
use soclethyme_tests::random_annotations;
use soclethyme_tests::random_books::{
    book, loosed_entries, maybe_wrong_book, with_book, wrong_byte,
};
use soclethyme_tests::random_faults;
use soclethyme_tests::random_sheets::{self, any_shape, shapes, Shape};
use soclethyme_tests::refusal::{
    Refusal, CUT_OFF, SHEET_REFUSALS, SHORT_ANNOTATION, SHORT_PATH, WRONG_ENTRY, WRONG_FORM,
};
use soclethyme_tests::rejecting_loops;
use soclethyme_tests::rng::Rng;
use soclethyme_tests::run_graph::{greatest_number, RunGraph, BLANK};
use soclethyme_tests::sheet::{read_sheet, Edge, Sheet, MOST_INPUTS, MOST_STATES, MOST_VERTICES};
use soclethyme_tests::single_faults;
use soclethyme_tests::tally::Tally;
use soclethyme_tests::text::{hex, run_lengths};
use soclethyme_tests::tie_places::{assert_ties, count_ties};
use soclethyme_tests::transition_system::TransitionSystem;

const SEED: u64 = 0x5EED_0003;

/// A sheet and a book with the machines and the run graph that the independent
/// reading makes of them.
struct BookGraph {
    sheet: Vec<u8>,
    book: Vec<u8>,
    system: Result<TransitionSystem, Refusal>,
    graph: Result<RunGraph, Refusal>,
    annotation: Option<Vec<u16>>,
}

impl BookGraph {
    fn new(sheet: &[u8], book: &[u8]) -> Self {
        let system = TransitionSystem::read(sheet, book);
        let graph = system.as_ref().map(RunGraph::of);
        let graph = graph.map_err(|refusal| *refusal);
        BookGraph {
            sheet: sheet.to_vec(),
            book: book.to_vec(),
            annotation: graph.as_ref().ok().and_then(RunGraph::annotation),
            graph,
            system,
        }
    }

    fn of(input: &SheetAndBook) -> Self {
        BookGraph::new(&input.proper.bytes, &input.book)
    }

    fn graph(&self) -> &RunGraph {
        self.graph.as_ref().expect("a proper sheet and book")
    }

    /// How many vertices there are, 0 if there is no graph.
    fn vertices(&self) -> usize {
        self.graph.as_ref().map_or(0, RunGraph::len)
    }

    /// The least length of a path buffer, 0 if there is no graph.
    fn least_path(&self) -> usize {
        least_path(self.vertices())
    }

    fn loops(&self) -> bool {
        self.graph.is_ok() && self.annotation.is_none()
    }

    fn judge(&self, annotation: &[u16]) -> u32 {
        let graph = self.graph.as_ref().map_err(|refusal| *refusal);
        finding_number(graph.and_then(|graph| graph.judge(annotation)))
    }

    /// The answer with a path buffer of this length. Leaves in the other buffer what
    /// the specification has there after the call.
    fn annotate(&self, buffer: &mut [u16], path: usize) -> u32 {
        let graph = self.graph.as_ref().map_err(|refusal| *refusal);
        let enough = graph.and_then(|graph| graph.check_buffers(buffer.len(), path));
        if let Err(refusal) = enough {
            return refusal;
        }
        let Some(annotation) = &self.annotation else {
            return NEGATIVE;
        };
        buffer[..annotation.len()].copy_from_slice(annotation);
        POSITIVE
    }

    /// The run that was reported, which has to break the sheet.
    fn replayed(&self, path: &[u8], lengths: [u32; 2]) -> Lasso {
        let system = self.system.as_ref().expect("a proper sheet and book");
        Lasso::replayed(system, path, lengths).unwrap_or_else(|fault| {
            let front = hex(&path[..path.len().min(200)]);
            panic!("{fault:?}\n{lengths:?} {front}\n{}", self.describe())
        })
    }

    fn describe(&self) -> String {
        let (sheet, book) = (hex(&self.sheet), hex(&self.book));
        format!("{} vertices\nsheet {sheet}\nbook {book}", self.vertices())
    }
}

const STARTS_REJECTING: &str = "annotated, the start rejecting";
const BOUND_REACHED: &str = "bound reached, the start rejecting";

/// Counts what the graph is like, once for all inputs with it.
fn count_properties(tally: &mut Tally, graph: &BookGraph) {
    tally.count("rejecting loop", graph.annotation.is_none());
    tally.count("vertices", graph.vertices());
    let sheet = read_sheet(&graph.sheet).expect("a proper sheet");
    count_kinds(tally, &sheet);
    count_ties(tally, &sheet);
    if let Some(annotation) = &graph.annotation {
        let greatest = usize::from(greatest_number(annotation));
        tally.count("greatest number", greatest);
        count_start(tally, graph.graph(), greatest == sheet.number_bound());
        count_inputs(tally, &sheet);
    }
}

/// Counts whether the start is an entry, and then whether a number is as high as
/// any can be.
fn count_start(tally: &mut Tally, graph: &RunGraph, reached: bool) {
    tally.count(STARTS_REJECTING, graph.starts_rejecting());
    if graph.starts_rejecting() {
        tally.count(BOUND_REACHED, reached);
    }
}

fn compare_judge(tally: &mut Tally, graph: &BookGraph, annotation: &[u16]) -> u32 {
    let own = graph.judge(annotation);
    let mut lent = GuardedBuffer::holding(annotation);
    let library = ffi::judge(&graph.sheet, &graph.book, lent.lent());
    assert!(
        library == own && lent.holds(annotation),
        "judge: library {library}, independent {own}\n{}\n{}",
        graph.describe(),
        lent.compared(annotation)
    );
    tally.count("judge", own);
    own
}

/// What annotating is lent, between guards.
struct Lent {
    annotation: GuardedBuffer<u16>,
    path: GuardedBuffer<u8>,
    lengths: GuardedBuffer<u32>,
}

/// So many bytes of which none is a direction or the number of an edge.
fn no_steps(length: usize) -> Vec<u8> {
    (0..length).map(|at| 0x80 | at as u8).collect()
}

/// More steps than any run has.
const NO_LENGTHS: [u32; 2] = [0xEEEE_0001, 0xEEEE_0002];

impl Lent {
    fn new(annotation: &[u16], path: usize) -> Self {
        Lent {
            annotation: GuardedBuffer::holding(annotation),
            path: GuardedBuffer::holding(&no_steps(path)),
            lengths: GuardedBuffer::holding(&NO_LENGTHS),
        }
    }

    fn lengths(&self) -> [u32; 2] {
        let [stem, cycle] = self.lengths.held() else {
            panic!("two lengths");
        };
        [*stem, *cycle]
    }

    fn annotate(&mut self, graph: &BookGraph) -> u32 {
        let lengths = self.lengths.lent().try_into().expect("two lengths");
        ffi::annotate(
            &graph.sheet,
            &graph.book,
            self.annotation.lent(),
            self.path.lent(),
            lengths,
        )
    }

    /// The run that was reported, which has to break the sheet.
    fn run(&self, graph: &BookGraph) -> Lasso {
        graph.replayed(self.path.held(), self.lengths())
    }

    /// Whether these steps were written with these lengths, and nothing else.
    fn holds_steps(&self, steps: &[u8], lengths: [u32; 2]) -> bool {
        let mut path = no_steps(self.path.held().len());
        path[..steps.len()].copy_from_slice(steps);
        self.path.holds(&path) && self.lengths.holds(&lengths)
    }

    /// Whether neither steps nor lengths were written.
    fn holds_no_steps(&self) -> bool {
        self.holds_steps(&[], NO_LENGTHS)
    }
}

const STEM: &str = "steps of a stem";
const CYCLE: &str = "steps of a cycle";
const RUN_VERTICES: &str = "vertices where a run is replayed";
const SHORT_PATH_LOOP: &str = "path too short, with a rejecting loop or not";
const SHORT_PATH_ALONE: &str = "path too short, and the annotation's buffer not";
const PATH_ROOM: &str = "bytes behind the least path, 2 for more";

/// Replays what was written, behind which nothing is changed.
fn compare_run(tally: &mut Tally, graph: &BookGraph, lent: &Lent) {
    let run = lent.run(graph);
    let lengths = run.lengths();
    assert!(
        lent.holds_steps(&run.bytes(), lengths),
        "more is written than {lengths:?} steps\n{}",
        graph.describe()
    );
    tally.count(STEM, run.stem.len());
    tally.count(CYCLE, run.cycle.len());
    tally.count(RUN_VERTICES, graph.vertices());
}

/// Counts what the buffers were like that made a path too short, or did not.
fn count_buffers(tally: &mut Tally, graph: &BookGraph, held: usize, path: usize, answer: u32) {
    if answer == SHORT_PATH {
        tally.count(SHORT_PATH_LOOP, graph.loops());
        tally.count(SHORT_PATH_ALONE, held >= graph.vertices());
    } else if [POSITIVE, NEGATIVE].contains(&answer) {
        tally.count(PATH_ROOM, (path - graph.least_path()).min(2));
    }
}

/// Annotates in a buffer that holds these numbers, with a path buffer of this
/// length.
fn compare_annotate(tally: &mut Tally, graph: &BookGraph, held: &[u16], path: usize) -> u32 {
    let mut expected = held.to_vec();
    let own = graph.annotate(&mut expected, path);
    assert!(
        own == POSITIVE || expected == held,
        "nothing else is written"
    );
    let mut lent = Lent::new(held, path);
    let library = lent.annotate(graph);
    assert!(
        library == own && lent.annotation.holds(&expected),
        "annotate: library {library}, independent {own}, buffers of {} and {path}\n{}\n{}",
        held.len(),
        graph.describe(),
        lent.annotation.compared(&expected)
    );
    if own == NEGATIVE {
        compare_run(tally, graph, &lent);
    } else {
        assert!(
            lent.holds_no_steps(),
            "answer {own}, but steps\n{}",
            graph.describe()
        );
    }
    count_buffers(tally, graph, held.len(), path, own);
    tally.count("annotate", own);
    own
}

/// Both calls on one input.
fn compare(tally: &mut Tally, graph: &BookGraph, held: &[u16], path: usize) -> (u32, u32) {
    let judged = compare_judge(tally, graph, held);
    let annotated = compare_annotate(tally, graph, held, path);
    assert!(
        judged != POSITIVE || [POSITIVE, SHORT_PATH].contains(&annotated),
        "a book with a valid annotation loops"
    );
    (judged, annotated)
}

/// What is annotated is valid.
fn assert_judged_as_annotated(tally: &mut Tally, graph: &BookGraph) {
    let mut lent = Lent::new(&vec![0xEEEE; graph.vertices()], graph.least_path());
    let annotated = lent.annotate(graph);
    let buffer = lent.annotation.lent();
    let judged = compare_judge(tally, graph, buffer);
    assert!(
        annotated != POSITIVE || judged == POSITIVE,
        "{}",
        run_lengths(buffer)
    );
}

/// Numbers in which a rejecting start does not count are valid too.
fn assert_judged_without_start(tally: &mut Tally, graph: &BookGraph) {
    if let Some(annotation) = &graph.annotation {
        if graph.graph().starts_rejecting() {
            let older = random_annotations::without_start(annotation);
            assert_eq!(compare_judge(tally, graph, &older), POSITIVE);
        }
    }
}

/// Path buffers that are too short for the graph.
fn short_paths(rng: &mut Rng, graph: &BookGraph) -> [usize; 3] {
    let least = graph.least_path();
    [0, rng.below(least), least - 1]
}

/// Path buffers that are long enough.
fn long_paths(rng: &mut Rng, graph: &BookGraph) -> [usize; 3] {
    let least = graph.least_path();
    [least, least + 1, least + rng.within(2, 40)]
}

fn long_path(rng: &mut Rng, graph: &BookGraph) -> usize {
    let paths = long_paths(rng, graph);
    *rng.pick(&paths)
}

/// Path buffers around the least length, with this annotation whole and cut short:
/// a path that is too short decides before that.
fn compare_paths(tally: &mut Tally, rng: &mut Rng, graph: &BookGraph, annotation: &[u16]) {
    let short = &annotation[..rng.below(annotation.len())];
    for held in [annotation, short] {
        for path in short_paths(rng, graph) {
            assert_eq!(compare_annotate(tally, graph, held, path), SHORT_PATH);
        }
    }
    for path in long_paths(rng, graph) {
        let answer = compare_annotate(tally, graph, short, path);
        assert_eq!(answer, SHORT_ANNOTATION);
    }
}

/// Annotations of all kinds, and buffers of other lengths.
fn compare_annotations(tally: &mut Tally, rng: &mut Rng, graph: &BookGraph) {
    count_properties(tally, graph);
    let kinds = random_annotations::of_all_kinds(rng, graph.graph());
    for annotation in &kinds {
        compare(tally, graph, annotation, long_path(rng, graph));
    }
    let annotation = match &graph.annotation {
        Some(annotation) => annotation,
        None => rng.pick(&kinds),
    };
    for other in random_annotations::in_other_lengths(rng, annotation) {
        let path = long_path(rng, graph);
        let (judged, annotated) = compare(tally, graph, &other, path);
        let short = other.len() < graph.vertices();
        assert_eq!(judged == SHORT_ANNOTATION, short);
        assert_eq!(annotated == SHORT_ANNOTATION, short);
    }
    compare_paths(tally, rng, graph, annotation);
    assert_judged_as_annotated(tally, graph);
    assert_judged_without_start(tally, graph);
}

const SHEETS_OF_SHAPE: usize = 40;

/// Sheets of every shape, with a book each.
fn compare_shapes(tally: &mut Tally, rng: &mut Rng) {
    for shape in shapes() {
        for _ in 0..SHEETS_OF_SHAPE {
            let sheet = rejecting_loops::sheet_of_shape(rng, shape);
            let input = with_book(rng, sheet);
            compare_annotations(tally, rng, &BookGraph::of(&input));
        }
    }
}

/// Sheets of which three or four processes can share a table.
fn compare_chained_ties(tally: &mut Tally, rng: &mut Rng) {
    for _ in 0..300 {
        let mut sheet = random_sheets::with_chained_ties(rng);
        if rng.one_in(2) {
            rejecting_loops::exclude_rejecting_loops(rng, &mut sheet);
        }
        let input = with_book(rng, sheet);
        compare_annotations(tally, rng, &BookGraph::of(&input));
    }
}

/// Sheets in which the highest variable can be read.
fn compare_high_variables(tally: &mut Tally, rng: &mut Rng) {
    for _ in 0..1_000 {
        let shape = any_shape(rng, Shape::can_read_highest);
        let sheet = rejecting_loops::sheet_of_shape(rng, shape);
        let input = with_book(rng, sheet);
        compare_annotations(tally, rng, &BookGraph::of(&input));
    }
}

const LARGEST_GRAPHS: usize = 24;

/// The largest graphs there are, every second one without a rejecting loop.
fn compare_largest(tally: &mut Tally, rng: &mut Rng) {
    for round in 0..LARGEST_GRAPHS {
        let mut sheet = rejecting_loops::largest(rng);
        if round % 2 == 0 {
            rejecting_loops::exclude_rejecting_loops(rng, &mut sheet);
        }
        let graph = BookGraph::of(&with_book(rng, sheet));
        assert_eq!(graph.vertices(), MOST_VERTICES);
        compare_annotations(tally, rng, &graph);
    }
}

fn any_counter(rng: &mut Rng) -> JointCounter {
    let processes = rng.within(1, 3);
    let states = rng.within(1, 12);
    JointCounter {
        environment: rng.within(0, 2) as u8,
        bounds: [0; 4].map(|_| rng.within(1, 4) as u8),
        processes,
        rounds: rng.within(1, states) as u8,
        states: states as u8,
        closed: rng.one_in(3),
        falling: rng.one_in(2),
    }
}

/// Counters that stop after their rounds, and others that start again.
fn counters(rng: &mut Rng) -> Vec<JointCounter> {
    let mut counters = Vec::new();
    for falling in [false, true] {
        counters.push(JointCounter::longest(falling));
        counters.push(JointCounter::longest_closed(falling));
        counters.extend([false, true].map(|closed| JointCounter::widest(falling, closed)));
    }
    counters.extend((0..120).map(|_| any_counter(rng)));
    counters
}

/// Where the numbers go past the count of rejecting states.
fn compare_counters(tally: &mut Tally, rng: &mut Rng) {
    for counter in counters(rng) {
        let graph = BookGraph::of(&counter.with_book());
        let greatest = graph.annotation.as_deref().map(greatest_number);
        assert_eq!(greatest, counter.greatest_number(), "{counter:?}");
        compare_annotations(tally, rng, &graph);
    }
}

/// Buffers for whatever sheet and book: empty, too short for nearly all, too
/// long for all, and the right length if there is one.
fn buffers(rng: &mut Rng, graph: &BookGraph) -> Vec<Vec<u16>> {
    let right = graph.vertices();
    let lengths = [0, rng.within(1, 20), right, MOST_VERTICES + 3];
    let value = *rng.pick(&[0, 1, BLANK, 0xEEEE]);
    lengths.iter().map(|length| vec![value; *length]).collect()
}

/// The length of a path buffer in the same way.
fn any_path(rng: &mut Rng, graph: &BookGraph) -> usize {
    let longer = least_path(MOST_VERTICES) + 3;
    let lengths = [0, rng.within(1, 80), graph.least_path(), longer];
    *rng.pick(&lengths)
}

fn compare_buffers(tally: &mut Tally, rng: &mut Rng, sheet: &[u8], book: &[u8]) {
    let graph = BookGraph::new(sheet, book);
    let buffers = buffers(rng, &graph);
    for _ in 0..2 {
        let held = rng.pick(&buffers);
        let path = any_path(rng, &graph);
        compare(tally, &graph, held, path);
    }
}

/// A book that is wrong in form or in an entry, with buffers of which some are
/// too short: the book decides.
fn compare_wrong_byte(tally: &mut Tally, rng: &mut Rng, input: &SheetAndBook) {
    let position = rng.below(input.book.len());
    let Some(wrong) = wrong_byte(rng, input.proper.layout[position]) else {
        return;
    };
    let mut book = input.book.clone();
    book[position] = wrong;
    let answer = input.proper.refusal_at(position);
    let graph = BookGraph::new(&input.proper.bytes, &book);
    for held in buffers(rng, &graph) {
        let path = any_path(rng, &graph);
        assert_eq!(compare(tally, &graph, &held, path), (answer, answer));
    }
}

const BROKEN_BOOKS: &str = "books that break a tie, with a rejecting loop or not";

/// A book that breaks a tie by one entry, with buffers of which some are too
/// short: the book decides, unless its form is wrong too.
fn compare_broken_tie(tally: &mut Tally, rng: &mut Rng, input: &SheetAndBook) {
    let choice = entries(&input.proper.layout, &input.book);
    let loosed = loosed_entries(rng, &input.proper, &choice);
    if loosed.is_empty() {
        return;
    }
    let loosed = rng.pick(&loosed);
    let mut broken = choice.clone();
    broken[loosed.at] = loosed.value;
    let mut book = book_of(&input.proper.layout, &broken);
    let untied = BookGraph::new(&input.proper.sheet.without_ties().bytes(), &book);
    tally.count(BROKEN_BOOKS, untied.annotation.is_none());
    for answer in [WRONG_ENTRY, WRONG_FORM] {
        let graph = BookGraph::new(&input.proper.bytes, &book);
        for held in buffers(rng, &graph) {
            let path = any_path(rng, &graph);
            assert_eq!(compare(tally, &graph, &held, path), (answer, answer));
        }
        if let Some(annotation) = &untied.annotation {
            let path = untied.least_path();
            assert_eq!(compare(tally, &graph, annotation, path), (answer, answer));
        }
        let position = book.len() - 1;
        book[position] ^= 1;
    }
}

fn compare_broken_ties(tally: &mut Tally, rng: &mut Rng) {
    for round in 0..3_000 {
        let sheet = match round % 3 {
            0 => random_sheets::with_chained_ties(rng),
            1 => random_sheets::with_ties(rng, 2),
            _ => few_choices::with_ties(rng, 20_000),
        };
        let input = with_book(rng, sheet);
        compare_broken_tie(tally, rng, &input);
    }
}

fn compare_wrong_books(tally: &mut Tally, rng: &mut Rng) {
    for _ in 0..6_000 {
        let sheet = rejecting_loops::sheet(rng);
        let input = with_book(rng, sheet);
        compare_wrong_byte(tally, rng, &input);
    }
    for _ in 0..4_000 {
        let proper = ProperSheet::new(rejecting_loops::sheet(rng));
        let book = maybe_wrong_book(rng, &proper);
        compare_buffers(tally, rng, &proper.bytes, &book);
    }
}

/// Improper sheets, with books that would suit the proper ones or not.
fn compare_improper_sheets(tally: &mut Tally, rng: &mut Rng) {
    for _ in 0..10_000 {
        let proper = ProperSheet::new(random_sheets::proper(rng));
        let bytes = random_faults::changed_sheet(rng, &proper.sheet);
        let book = maybe_wrong_book(rng, &proper);
        compare_buffers(tally, rng, &bytes, &book);
    }
    for shape in shapes() {
        let sheet = random_sheets::with_few_edges(rng, shape);
        let input = with_book(rng, sheet);
        let faulty = single_faults::field_faults(&input.proper.sheet);
        for _ in 0..20 {
            let changed = rng.pick(&faulty);
            compare_buffers(tally, rng, &changed.bytes, &input.book);
        }
    }
}

/// Each answer often, and no other.
fn assert_answers(tally: &Tally, call: &'static str, own_refusals: &[Refusal]) {
    let findings = [POSITIVE, NEGATIVE];
    let refusals = [
        &SHEET_REFUSALS[..],
        &[SHORT_ANNOTATION, WRONG_FORM, WRONG_ENTRY],
        own_refusals,
    ]
    .concat();
    tally.assert_often(call, findings, 1_000);
    tally.assert_often(call, refusals.clone(), 200);
    tally.assert_only(call, [&findings[..], &refusals].concat());
}

/// Runs often of each kind, and too short paths.
fn assert_runs(tally: &Tally) {
    let runs = tally.total(STEM);
    assert_eq!(runs, tally.seen("annotate", NEGATIVE));
    tally.assert_often(STEM, 0..=3, 100);
    tally.assert_often(CYCLE, 1..=3, 100);
    tally.assert_often(RUN_VERTICES, [MOST_VERTICES], 100);
    tally.assert_often(SHORT_PATH_LOOP, [false, true], 5_000);
    tally.assert_often(SHORT_PATH_ALONE, [false, true], 5_000);
    tally.assert_often(PATH_ROOM, 0..=2, 10_000);
}

#[test]
fn verdicts_agree_on_generated_books() {
    let mut tally = Tally::default();
    let mut rng = Rng::new(SEED);
    compare_shapes(&mut tally, &mut rng);
    compare_chained_ties(&mut tally, &mut rng);
    compare_high_variables(&mut tally, &mut rng);
    compare_largest(&mut tally, &mut rng);
    compare_counters(&mut tally, &mut rng);
    compare_wrong_books(&mut tally, &mut rng);
    compare_broken_ties(&mut tally, &mut rng);
    compare_improper_sheets(&mut tally, &mut rng);
    tally.print("books judged and annotated");

    assert!(tally.total("annotate") >= 100_000);
    tally.assert_often("rejecting loop", [false, true], 1_000);
    assert_eq!(tally.greatest("vertices"), Some(MOST_VERTICES as u64));
    assert_eq!(
        tally.greatest("greatest number"),
        Some(MOST_VERTICES as u64)
    );
    assert_both_kinds(&tally);
    let starts = tally.total(STARTS_REJECTING);
    tally.assert_often(STARTS_REJECTING, [false, true], starts / 5);
    tally.assert_often(BOUND_REACHED, [true], 40);
    tally.assert_often(INPUT_COUNT, 0..=MOST_INPUTS, 500);
    tally.assert_only(INPUT_COUNT, 0..=MOST_INPUTS);
    tally.assert_often(READS_HIGHEST, [true], 500);
    tally.assert_often(READS_ACROSS_GAP, [true], 500);
    tally.assert_often(BROKEN_BOOKS, [false, true], 200);
    assert_ties(&tally);
    assert_answers(&tally, "judge", &[]);
    assert_answers(&tally, "annotate", &[SHORT_PATH]);
    assert_runs(&tally);
}

const BOOKS: usize = 100_000;
const BOOKS_OF_SHEET: usize = 8;

/// Of any shape, or with few choices, or with the largest run graph.
fn sheet_of_any_kind(rng: &mut Rng) -> Sheet {
    match rng.below(100) {
        0 => rejecting_loops::largest(rng),
        1..=20 => few_choices::sheet(rng, 20_000),
        _ => rejecting_loops::sheet(rng),
    }
}

/// Annotates the book, with a path that is long enough and with one that is not.
fn compare_book(tally: &mut Tally, rng: &mut Rng, graph: &BookGraph) {
    tally.count("vertices", graph.vertices());
    let held = vec![7; graph.vertices() + rng.below(3)];
    let answer = compare_annotate(tally, graph, &held, long_path(rng, graph));
    assert_eq!(answer == NEGATIVE, graph.loops());
    let paths = short_paths(rng, graph);
    let lengths = [held.len(), rng.below(graph.vertices())];
    let (path, held) = (*rng.pick(&paths), &held[..*rng.pick(&lengths)]);
    assert_eq!(compare_annotate(tally, graph, held, path), SHORT_PATH);
}

/// Books in whose graphs a run is long, or a rejecting vertex seldom on a cycle.
fn looping_books() -> Vec<SheetAndBook> {
    let mut all = Vec::new();
    for variant in [false, true] {
        all.push(longest_run(variant));
        all.push(JointCounter::longest_closed(variant).with_book());
        let passed = [PassedOnce::None, PassedOnce::Behind, PassedOnce::Ahead];
        all.extend(passed.map(|passed| adders(passed, variant)));
    }
    all
}

/// Each reported run is replayed, and nothing else is written.
#[test]
fn reported_runs_break_the_sheet() {
    let mut tally = Tally::default();
    let mut rng = Rng::new(SEED);
    for _ in 0..BOOKS / BOOKS_OF_SHEET {
        let proper = ProperSheet::new(sheet_of_any_kind(&mut rng));
        for _ in 0..BOOKS_OF_SHEET {
            let graph = BookGraph::new(&proper.bytes, &book(&mut rng, &proper));
            compare_book(&mut tally, &mut rng, &graph);
        }
    }
    for input in looping_books() {
        compare_book(&mut tally, &mut rng, &BookGraph::of(&input));
    }
    tally.print("runs that break the sheet replayed");

    let books = tally.total("vertices");
    assert!(books >= BOOKS as u64);
    tally.assert_often("annotate", [POSITIVE, NEGATIVE], books / 5);
    tally.assert_often("vertices", [MOST_VERTICES], 1_000);
    assert_runs(&tally);
    assert!(tally.greatest(STEM) >= Some(3_840));
    tally.assert_often(CYCLE, [MOST_VERTICES], 2);
}

const SHEETS_WITH_PROMPTS: usize = BOOKS / BOOKS_OF_SHEET;

/// With prompt inputs, of any shape or with few choices.
fn sheet_with_prompts(rng: &mut Rng) -> Sheet {
    if rng.one_in(4) {
        return few_choices::with_prompts(rng, 20_000);
    }
    loop {
        let sheet = rejecting_loops::sheet(rng);
        if sheet.has_prompts() {
            return sheet;
        }
    }
}

/// What it is if the prompt inputs are read one step later: another annotation,
/// or a loop for none or none for a loop.
fn count_delayed(tally: &mut Tally, sheet: &Sheet, graph: &BookGraph) {
    let delayed = BookGraph::new(&sheet.without_prompts().bytes(), &graph.book);
    let other = delayed.annotation != graph.annotation;
    let other_answer = delayed.annotation.is_some() != graph.annotation.is_some();
    tally.count("another annotation by delay", other && !other_answer);
    tally.count("another answer by delay", other_answer);
}

/// Books of sheets with prompt inputs: each annotated, and judged with what was
/// annotated and with any other annotation.
#[test]
fn verdicts_agree_on_prompts() {
    let mut tally = Tally::default();
    let mut rng = Rng::new(SEED);
    for _ in 0..SHEETS_WITH_PROMPTS {
        let sheet = sheet_with_prompts(&mut rng);
        count_prompts(&mut tally, &sheet);
        let proper = ProperSheet::new(sheet);
        for _ in 0..BOOKS_OF_SHEET {
            let graph = BookGraph::new(&proper.bytes, &book(&mut rng, &proper));
            let held = vec![0; graph.vertices() + rng.below(3)];
            let path = long_path(&mut rng, &graph);
            compare(&mut tally, &graph, &held, path);
            assert_judged_as_annotated(&mut tally, &graph);
            count_delayed(&mut tally, &proper.sheet, &graph);
        }
    }
    tally.print("books of sheets with prompt inputs judged and annotated");

    let books = (SHEETS_WITH_PROMPTS * BOOKS_OF_SHEET) as u64;
    assert_eq!(tally.total("annotate"), books);
    assert_eq!(tally.total("judge"), 2 * books);
    assert_prompts(&tally, SHEETS_WITH_PROMPTS as u64);
    tally.assert_often("annotate", [NEGATIVE], books / 5);
    for call in ["annotate", "judge"] {
        tally.assert_often(call, [POSITIVE, NEGATIVE], books / 10);
        tally.assert_only(call, [POSITIVE, NEGATIVE]);
    }
    tally.assert_often("another annotation by delay", [true], books / 50);
    tally.assert_often("another answer by delay", [true], 50);
}

/// Annotated as stated, by the library and here, and judged so too.
fn assert_annotated(sheet: &[u8], book: &[u8], annotation: &[u16]) {
    let mut tally = Tally::default();
    let graph = BookGraph::new(sheet, book);
    let held = [annotation, &[7, 8, 9]].concat();
    let least = graph.least_path();
    let answers = compare(&mut tally, &graph, &held, least);
    assert_eq!(answers, (POSITIVE, POSITIVE));
    let mut lent = Lent::new(&vec![0xEEEE; held.len()], least);
    assert_eq!(lent.annotate(&graph), POSITIVE);
    let written = [annotation, &[0xEEEE; 3]].concat();
    assert!(lent.annotation.holds(&written) && lent.holds_no_steps());
    let answers = compare(&mut tally, &graph, &annotation[1..], least);
    assert_eq!(answers, (SHORT_ANNOTATION, SHORT_ANNOTATION));
}

/// Judged so, with the only book of a sheet made from case E.
fn assert_judged(sheet: &Sheet, annotation: &[u16], answer: u32) {
    let graph = BookGraph::new(&sheet.bytes(), &BOOK_E);
    let given = compare_judge(&mut Tally::default(), &graph, annotation);
    assert_eq!(given, answer, "{annotation:?}");
}

#[test]
fn bench_case_a_annotation() {
    assert_annotated(&SHEET_A, &BOOK_A, &ANNOTATION_A);
}

#[test]
fn bench_case_d_has_no_loop() {
    let graph = BookGraph::new(&case_d().bytes(), &BOOK_D);
    assert_eq!(graph.vertices(), 64);
    let answers = compare(&mut Tally::default(), &graph, &[0; 64], 256);
    assert_eq!(answers, (NEGATIVE, POSITIVE));
}

#[test]
fn bench_cases_e_f_and_g() {
    for (sheet, number) in [(case_e(), 0), (case_g(), 1)] {
        assert_annotated(&sheet.bytes(), &BOOK_E, &[number]);
        assert_judged(&sheet, &[0], POSITIVE);
        assert_judged(&sheet, &[65_534], POSITIVE);
        assert_judged(&sheet, &[BLANK], NEGATIVE);
    }
    let graph = BookGraph::new(&case_f(1).bytes(), &BOOK_E);
    for number in [0, 1, 65_534, BLANK] {
        let answers = compare(&mut Tally::default(), &graph, &[number], 4);
        assert_eq!(answers, (NEGATIVE, NEGATIVE));
    }
}

/// The run of a book that loops, with so much room behind the least path. Nothing
/// else is written.
fn reported(graph: &BookGraph, room: usize) -> Lasso {
    let held = vec![7; graph.vertices()];
    let mut lent = Lent::new(&held, graph.least_path() + room);
    assert_eq!(lent.annotate(graph), NEGATIVE);
    let run = lent.run(graph);
    assert!(lent.annotation.holds(&held));
    assert!(lent.holds_steps(&run.bytes(), run.lengths()));
    run
}

/// That run has these lengths and steps, whatever the room.
fn assert_reported(input: &SheetAndBook, lengths: [u32; 2], steps: &[u8]) {
    let graph = BookGraph::of(input);
    for room in [0, 1, 9] {
        let run = reported(&graph, room);
        assert_eq!((run.lengths(), &run.bytes()[..]), (lengths, steps));
    }
}

/// F stays where it is by its only edge. Two such steps would be enough to pass,
/// but they are more than are needed.
#[test]
fn bench_case_f_run() {
    let input = SheetAndBook {
        proper: ProperSheet::new(case_f(1)),
        book: BOOK_E.to_vec(),
    };
    assert_reported(&input, [0, 1], &[0x00, 0x00]);
}

/// Rings, in which no other run is short enough: up to one step less than there
/// may be.
#[test]
fn only_runs_are_reported() {
    let OnlyRun { input, .. } = ring(5, 3);
    let (stem, cycle) = ([0, 9, 0, 7, 0, 5], [0, 3, 0, 1, 0, 9, 0, 7, 0, 5]);
    assert_reported(&input, [3, 5], &[&stem[..], &cycle].concat());
    for states in 2..=MOST_STATES as u8 {
        for rejecting in 1..states {
            let OnlyRun { input, shortest } = ring(states, rejecting);
            assert_reported(&input, shortest.lengths(), &shortest.bytes());
        }
    }
}

/// There is one way to go on for ever, which a run may go round more than once.
#[test]
fn endless_runs_are_reported() {
    for endless in [guided(), loop_behind()] {
        let run = reported(&BookGraph::of(&endless.input), 0);
        let steps = run.bytes();
        assert_eq!(steps, endless.bytes(steps.len()));
    }
}

/// The counter's run has nearly as many steps as there may be.
#[test]
fn longest_run_is_reported() {
    for falling in [false, true] {
        let run = reported(&BookGraph::of(&longest_run(falling)), 0);
        assert!((3_840..4_096).contains(&run.stem.len()));
        assert_eq!(run.cycle.len(), 4_096);
    }
}

#[test]
fn bench_case_h_judgements() {
    assert_judged(&case_h(REJECTING_0), &[0, 0], POSITIVE);
    assert_judged(&case_h(REJECTING_0), &[1, 1], POSITIVE);
    assert_judged(&case_h(REJECTING_1), &[0, 0], NEGATIVE);
    assert_judged(&case_h(REJECTING_1), &[0, 1], POSITIVE);
    assert_annotated(&case_h(REJECTING_0).bytes(), &BOOK_E, &[1, 1]);
    assert_annotated(&case_h(REJECTING_1).bytes(), &BOOK_E, &[0, 1]);
}

/// S with both masks 05 and 0A has no loop, and with 01 and 02 has one. With 01
/// and 08 its tie is broken, though there would be no loop: that comes before the
/// buffer, and the form of the book before it.
#[test]
fn bench_case_s_verdicts() {
    let tally = &mut Tally::default();
    assert_annotated(&SHEET_S, &book_s(0x05, 0x0A), &[0, BLANK]);
    let looped = BookGraph::new(&SHEET_S, &book_s(0x01, 0x02));
    let answers = compare(tally, &looped, &[0, BLANK], 8);
    assert_eq!(answers, (NEGATIVE, NEGATIVE));

    let mut broken = book_s(0x01, 0x08);
    for (last, answer) in [(0x4E, WRONG_ENTRY), (0x4F, WRONG_FORM)] {
        broken[13] = last;
        let graph = BookGraph::new(&SHEET_S, &broken);
        for held in [&[][..], &[0], &[0, BLANK], &[0, BLANK, 7]] {
            for path in [0, 7, 8] {
                assert_eq!(compare(tally, &graph, held, path), (answer, answer));
            }
        }
    }
}

/// The books of P and Q loop with other prompt inputs.
#[test]
fn bench_cases_p_and_q_verdicts() {
    let mut annotation = [BLANK; 16];
    (annotation[0], annotation[7]) = (0, 0);
    assert_annotated(&SHEET_P, &BOOK_P, &annotation);
    let sheets = [
        (case_p(Some(0x02)), &BOOK_P[..], POSITIVE),
        (case_p(Some(0x00)), &BOOK_P, NEGATIVE),
        (case_p(None), &BOOK_P, NEGATIVE),
        (case_q(0x02), &BOOK_Q, POSITIVE),
        (case_q(0x00), &BOOK_Q, NEGATIVE),
        (case_q(0x04), &BOOK_Q, NEGATIVE),
        (case_q(0x06), &BOOK_Q, NEGATIVE),
    ];
    for (sheet, book, answer) in sheets {
        let graph = BookGraph::new(&sheet.bytes(), book);
        let held = vec![7; graph.vertices()];
        let path = graph.least_path();
        let given = compare_annotate(&mut Tally::default(), &graph, &held, path);
        assert_eq!(given, answer);
    }
}

/// No number lies above 65,534, and blank is none.
#[test]
fn numbers_end_at_the_greatest() {
    assert_judged(&case_h(REJECTING_1), &[65_533, 65_534], POSITIVE);
    assert_judged(&case_h(REJECTING_1), &[65_534, BLANK], NEGATIVE);
    assert_judged(&case_h(REJECTING_1), &[65_534, 0], NEGATIVE);
    assert_judged(&case_h(REJECTING_0), &[65_534, 65_534], POSITIVE);
    assert_judged(&case_h(0), &[65_534, BLANK], NEGATIVE);
}

/// A rejecting state on the way to a loop is no fault, nor is a rejecting loop
/// that cannot be reached; but its vertex cannot be numbered.
#[test]
fn harmless_loops() {
    let loop_behind = Sheet {
        states: 3,
        edges: vec![
            Edge::new(0, 1, 0, 0),
            Edge::new(1, 2, 0, 0),
            Edge::new(2, 2, 0, 0),
        ],
        ..case_h(REJECTING_1)
    };
    assert_annotated(&loop_behind.bytes(), &BOOK_E, &[0, 1, 1]);
    let not_reached = Sheet {
        edges: vec![Edge::new(1, 1, 0, 0), Edge::new(1, 0, 0, 0)],
        ..case_h(REJECTING_1)
    };
    assert_annotated(&not_reached.bytes(), &BOOK_E, &[0, BLANK]);
    assert_judged(&not_reached, &[0, 0], NEGATIVE);
    assert_judged(&not_reached, &[65_534, 65_534], NEGATIVE);
}

/// The counter enters its vertices in the order of their positions; the first of
/// them counts, so that the last has T times the rejecting states.
#[test]
fn longest_counter_numbers_every_vertex() {
    let input = LONGEST_COUNTER.with_book();
    let mut annotation = vec![BLANK; MOST_VERTICES];
    for (position, number) in annotation.iter_mut().enumerate() {
        *number = position as u16 + 1;
    }
    assert_annotated(&input.proper.bytes, &input.book, &annotation);
}

/// The order of two faults at once: the sheet's, then the book's form and its
/// entries, whatever the buffers.
#[test]
fn first_refusal_decides() {
    let mut tally = Tally::default();
    let mut wrong_entry = BOOK_A;
    wrong_entry[4] = 0x10;
    let mut wrong_form = wrong_entry;
    wrong_form[19] = 0;
    let cases: [(&[u8], &[u8], Refusal); 3] = [
        (&SHEET_A[..59], &wrong_form, CUT_OFF),
        (&SHEET_A, &wrong_form, WRONG_FORM),
        (&SHEET_A, &wrong_entry, WRONG_ENTRY),
    ];
    for (sheet, book, answer) in cases {
        let graph = BookGraph::new(sheet, book);
        for path in [0, 127, 128] {
            for held in [&[][..], &ANNOTATION_A] {
                assert_eq!(compare(&mut tally, &graph, held, path), (answer, answer));
            }
        }
    }
}

/// Then the path and after it the annotation's buffer, also where the book loops.
/// Judging has no path.
#[test]
fn path_is_refused_before_the_annotation() {
    let mut tally = Tally::default();
    let case_a = BookGraph::new(&SHEET_A, &BOOK_A);
    let case_f = BookGraph::new(&case_f(1).bytes(), &BOOK_E);
    let case_s = BookGraph::new(&SHEET_S, &book_s(0x01, 0x02));
    let cases = [
        (case_a, &ANNOTATION_A[..], POSITIVE),
        (case_f, &[7], NEGATIVE),
        (case_s, &[7, 7], NEGATIVE),
    ];
    for (graph, held, found) in cases {
        let least = 4 * held.len();
        let short = &held[1..];
        for path in [0, 1, least / 2, least - 1] {
            let given = compare(&mut tally, &graph, held, path);
            assert_eq!(given, (found, SHORT_PATH));
            let given = compare(&mut tally, &graph, short, path);
            assert_eq!(given, (SHORT_ANNOTATION, SHORT_PATH));
        }
        for path in [least, least + 1, 4 * least] {
            let given = compare(&mut tally, &graph, held, path);
            assert_eq!(given, (found, found));
            let given = compare(&mut tally, &graph, short, path);
            assert_eq!(given, (SHORT_ANNOTATION, SHORT_ANNOTATION));
        }
    }
}

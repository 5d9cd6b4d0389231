//! The library's joining of two sheets against the independent one. After each
//! call every lent byte is compared, also behind a refusal. What is joined is then
//! held against the two sheets that it was made from.

use soclethyme_tests::bench_cases::{
    case_a, case_e, case_f, case_p, case_s, case_u, BOOK_A, SHEET_A,
};
use soclethyme_tests::book::LONGEST_BOOK;
use soclethyme_tests::choices::{choices, FoundChoice};
use soclethyme_tests::components::Components;
use soclethyme_tests::fast_enumeration;
use soclethyme_tests::ffi::{self, length_number, success_number, NEGATIVE, POSITIVE};
use soclethyme_tests::front_changes::FrontChange;
use soclethyme_tests::guarded_buffer::GuardedBuffer;
use soclethyme_tests::join;
use soclethyme_tests::lasso::least_path;
use soclethyme_tests::proper_sheet::ProperSheet;
use soclethyme_tests::random_books;
use soclethyme_tests::random_joins::{
    any_pair, around_limits, damaged, far_past_limits, fitting, joined_size, with_changed_front,
    with_few_choices, with_loops, Pair,
};
use soclethyme_tests::refusal::{
    Refusal, CUT_OFF, FRONTS_DIFFER, SHEET_REFUSALS, SHORT_BUFFER, TOO_LARGE, WRONG_AUTOMATON,
    WRONG_MARK,
};
use soclethyme_tests::rng::Rng;
use soclethyme_tests::run_graph::RunGraph;
use soclethyme_tests::sheet::{read_sheet, Edge, Sheet, LONGEST_SHEET, MOST_EDGES, MOST_STATES};
use soclethyme_tests::tally::Tally;
use soclethyme_tests::text::hex;

const SEED: u64 = 0x5EED_000C;

/// The files of the first sheet and of the second.
type Files<'a> = [&'a [u8]; 2];

/// How long the joined sheet is, or the refusal.
type Answer = Result<usize, Refusal>;

fn describe([first, second]: Files) -> String {
    format!("first {}\nsecond {}", hex(first), hex(second))
}

/// Joins into a buffer that holds these bytes.
fn compare_join(tally: &mut Tally, files: Files, held: &[u8]) -> Answer {
    let [first, second] = files;
    let mut expected = held.to_vec();
    let own = join::join(first, second, &mut expected);
    assert!(
        own.is_ok() || expected == held,
        "a refusal changes no buffer"
    );
    let number = own.map_or_else(|refusal| refusal, length_number);
    let mut lent = GuardedBuffer::holding(held);
    let library = ffi::join(first, second, lent.lent());
    assert!(
        library == number && lent.holds(&expected),
        "join: library {library}, independent {number}, buffer of {}\n{}\n{}",
        held.len(),
        describe(files),
        lent.compared(&expected)
    );
    tally.count("join", success_number(own.map(|_| ())));
    own
}

/// How a buffer's length differs from that of what is joined.
const MISSING: &str = "bytes that a buffer lacks, 2 for more";
const ROOM: &str = "bytes behind a joined sheet, 2 for more";

/// Lengths of buffers that are too short, right, and too long.
fn lengths_around(rng: &mut Rng, right: usize) -> [usize; 5] {
    let longer = right + rng.pick(&[1, 2, 6, 80]);
    let any = rng.below(2 * LONGEST_SHEET);
    [0, right - 1, right, longer, any]
}

/// Joins into buffers of all lengths, and gives the answer with enough room.
fn compare_lengths(tally: &mut Tally, rng: &mut Rng, files: Files) -> Answer {
    let answer = compare_join(tally, files, &rng.bytes(LONGEST_SHEET));
    let right = answer.unwrap_or(files[0].len().max(1));
    for length in lengths_around(rng, right) {
        let given = compare_join(tally, files, &rng.bytes(length));
        let short = answer.is_ok() && length < right;
        let due = if short { Err(SHORT_BUFFER) } else { answer };
        assert_eq!(given, due, "buffer of {length}\n{}", describe(files));
        if short {
            tally.count(MISSING, (right - length).min(2));
        } else if answer.is_ok() {
            tally.count(ROOM, (length - right).min(2));
        }
    }
    answer
}

/// What is answered where there is enough room: 0, or the refusal.
const PAIR: &str = "pair, with enough room";
const FIRST_REFUSED: &str = "refused for the first sheet";
const SECOND_REFUSED: &str = "refused for the second sheet";
/// Whether the second sheet has a refusal of its own that is another one.
const OTHER_REFUSAL: &str = "refused for the first sheet, the second wrong in another way";
const TOO_LARGE_TOO: &str = "fronts differ, too large as well";
const DIFFERING_BYTES: &str = "bytes in which fronts of one length differ";
const STATES: &str = "states near the most, with edges that fit";
const EDGES: &str = "edges near the most, with states that fit";
const JOINED_STATES: &str = "states of a joined sheet";

/// The same, and counts what the pair is like.
fn compare_pair(tally: &mut Tally, rng: &mut Rng, files: Files) -> Answer {
    let answer = compare_lengths(tally, rng, files);
    tally.count(PAIR, success_number(answer.map(|_| ())));
    match files.map(read_sheet) {
        [Err(first), second] => {
            let other = second.is_err_and(|second| second != first);
            tally.count(FIRST_REFUSED, first);
            tally.count(OTHER_REFUSAL, other);
        }
        [Ok(_), Err(second)] => tally.count(SECOND_REFUSED, second),
        [Ok(first), Ok(second)] => count_proper(tally, &[first, second]),
    }
    answer
}

/// Counts what two proper sheets are like.
fn count_proper(tally: &mut Tally, pair: &Pair) {
    let size = joined_size(pair);
    let [first, second] = pair.each_ref().map(Sheet::front);
    if first != second {
        tally.count(TOO_LARGE_TOO, !size.fits());
        count_differing(tally, &first, &second);
        return;
    }
    if size.edges_fit() && size.states.abs_diff(MOST_STATES) <= 1 {
        tally.count(STATES, size.states);
    }
    if size.states_fit() && size.edges.abs_diff(MOST_EDGES) <= 2 {
        tally.count(EDGES, size.edges);
    }
    if size.fits() {
        tally.count(JOINED_STATES, size.states);
        count_starts(tally, pair);
    }
}

/// Counts by how much two fronts differ.
fn count_differing(tally: &mut Tally, first: &[u8], second: &[u8]) {
    if first.len() == second.len() {
        let bytes = first.iter().zip(second);
        let differing = bytes.filter(|(one, other)| one != other);
        tally.count(DIFFERING_BYTES, differing.count());
    }
}

/// Which of two sheets that fit have such a start, as `which` numbers them.
const START_REJECTS: &str = "the start rejects";
const START_IS_ENTERED: &str = "the start is entered";
const START_IS_LEFT: &str = "the start is left by ED";
const START_IS_LEFT_UNLESS: &str = "the start is left by EX";
const START_IS_NOT_ZERO: &str = "the start is not 0";
const STARTS: [&str; 5] = [
    START_REJECTS,
    START_IS_ENTERED,
    START_IS_LEFT,
    START_IS_LEFT_UNLESS,
    START_IS_NOT_ZERO,
];

/// 0 for neither, 1 for the first alone, 2 for the second alone, 3 for both.
fn which([first, second]: [bool; 2]) -> u8 {
    u8::from(first) + 2 * u8::from(second)
}

/// Counts what the initial states of two sheets that fit are like.
fn count_starts(tally: &mut Tally, pair: &Pair) {
    let mut count = |property, holds: fn(&Sheet) -> bool| {
        tally.count(property, which(pair.each_ref().map(holds)));
    };
    count(START_REJECTS, |sheet| sheet.is_rejecting(sheet.initial));
    count(START_IS_ENTERED, |sheet| {
        sheet.edges.iter().any(|edge| edge.to == sheet.initial)
    });
    count(START_IS_LEFT, |sheet| is_left(sheet, false));
    count(START_IS_LEFT_UNLESS, |sheet| is_left(sheet, true));
    count(START_IS_NOT_ZERO, |sheet| sheet.initial != 0);
}

/// Whether an edge of this kind leaves the initial state.
fn is_left(sheet: &Sheet, unless: bool) -> bool {
    let mut edges = sheet.edges.iter();
    edges.any(|edge| edge.from == sheet.initial && edge.unless == unless)
}

/// How many pairs are drawn in each way; damaged ones are joined in three.
const FITTING: u64 = 16_000;
const AROUND_LIMITS: u64 = 9_000;
const FAR_PAST_LIMITS: u64 = 1_000;
const OF_EACH_CHANGE: u64 = 500;
const DAMAGED: u64 = 8_500;

/// A pair of proper sheets.
fn compare_sheets(tally: &mut Tally, rng: &mut Rng, pair: &Pair) -> Answer {
    let [first, second] = pair.each_ref().map(Sheet::bytes);
    compare_pair(tally, rng, [&first, &second])
}

/// Pairs that fit. Of every fourth also a sheet with itself, or what was joined with
/// one of the two: these may be too large.
fn compare_fitting(tally: &mut Tally, rng: &mut Rng) {
    for round in 0..FITTING {
        let pair = fitting(rng);
        compare_sheets(tally, rng, &pair).expect("a pair that fits");
        if round % 4 == 0 {
            let [first, second] = pair.each_ref().map(Sheet::bytes);
            let joined = joined_by_library([&first, &second]);
            let again = [[&first, &first], [&joined, &second], [&first, &joined]];
            let files = rng.pick(&again).map(Vec::as_slice);
            let answer = compare_pair(tally, rng, files);
            assert!([TOO_LARGE, POSITIVE].contains(&success_number(answer.map(|_| ()))));
        }
    }
}

/// Pairs around the limits of a joined sheet, and far past them.
fn compare_limits(tally: &mut Tally, rng: &mut Rng) {
    for _ in 0..AROUND_LIMITS {
        let pair = around_limits(rng);
        let answer = compare_sheets(tally, rng, &pair);
        assert_eq!(answer.is_ok(), joined_size(&pair).fits());
    }
    for _ in 0..FAR_PAST_LIMITS {
        let pair = far_past_limits(rng);
        assert_eq!(compare_sheets(tally, rng, &pair), Err(TOO_LARGE));
    }
}

/// Pairs whose fronts differ by each change.
fn compare_changed_fronts(tally: &mut Tally, rng: &mut Rng) {
    for change in FrontChange::ALL {
        for _ in 0..OF_EACH_CHANGE {
            let pair = with_changed_front(rng, change);
            let answer = compare_sheets(tally, rng, &pair);
            assert_eq!(answer, Err(FRONTS_DIFFER), "{change:?}");
        }
    }
}

/// The first sheet damaged, the second, and both: what check answers to the damaged
/// one, or to the first of two, decides.
fn compare_damaged(tally: &mut Tally, rng: &mut Rng) {
    for _ in 0..DAMAGED {
        let pair = any_pair(rng);
        let proper = pair.each_ref().map(Sheet::bytes);
        let wrong = pair.each_ref().map(|sheet| damaged(rng, sheet));
        let refusals = wrong.each_ref().map(|file| Err(ffi::check(file)));
        let cases = [
            ([&wrong[0], &proper[1]], refusals[0]),
            ([&proper[0], &wrong[1]], refusals[1]),
            ([&wrong[0], &wrong[1]], refusals[0]),
        ];
        for (files, refusal) in cases {
            let files = files.map(Vec::as_slice);
            let answer = compare_pair(tally, rng, files);
            assert_eq!(answer, refusal, "{}", describe(files));
        }
    }
}

#[test]
fn joins_agree_on_generated_pairs() {
    let mut tally = Tally::default();
    let mut rng = Rng::new(SEED);
    compare_fitting(&mut tally, &mut rng);
    compare_limits(&mut tally, &mut rng);
    compare_changed_fronts(&mut tally, &mut rng);
    compare_damaged(&mut tally, &mut rng);
    tally.print("pairs of sheets joined");

    assert!(tally.total(PAIR) >= 50_000);
    assert_answers(&tally);
    let often = 500;
    tally.assert_often(MISSING, 1..=2, often);
    tally.assert_often(ROOM, 0..=2, often);
    tally.assert_often(STATES, MOST_STATES - 1..=MOST_STATES + 1, often);
    tally.assert_often(EDGES, MOST_EDGES - 1..=MOST_EDGES + 2, often);
    tally.assert_often(JOINED_STATES, 3..=MOST_STATES, often);
    tally.assert_often(OTHER_REFUSAL, [false, true], often);
    tally.assert_often(TOO_LARGE_TOO, [false, true], often);
    tally.assert_often(DIFFERING_BYTES, 1..=2, often);
    for property in STARTS {
        tally.assert_often(property, 0..=3, often);
    }
}

/// Each answer often, and no other.
fn assert_answers(tally: &Tally) {
    let of_pairs = [&SHEET_REFUSALS[..], &[FRONTS_DIFFER, TOO_LARGE]].concat();
    let of_calls = [&of_pairs[..], &[SHORT_BUFFER]].concat();
    for (property, refusals) in [(PAIR, of_pairs), ("join", of_calls)] {
        tally.assert_often(property, [POSITIVE], 10_000);
        tally.assert_often(property, refusals.clone(), 500);
        tally.assert_only(property, [&[POSITIVE], &refusals[..]].concat());
    }
    for property in [FIRST_REFUSED, SECOND_REFUSED] {
        tally.assert_often(property, SHEET_REFUSALS, 500);
        tally.assert_only(property, SHEET_REFUSALS);
    }
}

/// What the library makes of two sheets that fit.
fn joined_by_library([first, second]: Files) -> Vec<u8> {
    let mut buffer = vec![0xEE; LONGEST_SHEET];
    let number = ffi::join(first, second, &mut buffer);
    let length = number.checked_sub(65_536).expect("two sheets that fit");
    buffer.truncate(length as usize);
    buffer
}

/// Two sheets that fit, and what the library makes of them.
struct JoinedPair {
    pair: [ProperSheet; 2],
    joined: ProperSheet,
}

impl JoinedPair {
    /// What is joined has to be proper, for the library and for the independent
    /// reading.
    fn new(pair: Pair) -> Self {
        let pair = pair.map(ProperSheet::new);
        let bytes = joined_by_library(pair.each_ref().map(|proper| &proper.bytes[..]));
        assert_eq!(ffi::check(&bytes), POSITIVE, "{}", hex(&bytes));
        let joined = read_sheet(&bytes).expect("a proper sheet");
        assert_eq!(joined.bytes(), bytes);
        JoinedPair {
            joined: ProperSheet::new(joined),
            pair,
        }
    }

    fn describe(&self) -> String {
        let pair = describe(self.pair.each_ref().map(|proper| &proper.bytes[..]));
        format!("{pair}\njoined {}", hex(&self.joined.bytes))
    }
}

/// How many joined sheets are read.
const READ: u64 = 10_000;

#[test]
fn joined_sheets_are_proper() {
    let mut rng = Rng::new(SEED);
    for _ in 0..READ {
        let joined = JoinedPair::new(fitting(&mut rng));
        assert!(has_two_parts(&joined), "{}", joined.describe());
    }
}

/// Whether it has the first's front, and behind a start that nothing enters the states
/// of both, without an edge from those of one to those of the other.
fn has_two_parts(joined: &JoinedPair) -> bool {
    let [first, second] = joined.pair.each_ref().map(|proper| &proper.sheet);
    let joined = &joined.joined.sheet;
    let is_first = |state: u8| state <= first.states;
    let stays = |edge: &Edge| edge.from == 0 || is_first(edge.from) == is_first(edge.to);
    joined.front() == first.front()
        && joined.states == 1 + first.states + second.states
        && joined.initial == 0
        && !joined.is_rejecting(0)
        && joined.edges.iter().all(|edge| edge.to != 0 && stays(edge))
}

/// How many pairs are joined for their run graphs, and with how many books each.
const PAIRS_WITH_BOOKS: u64 = 5_000;
const BOOKS: u64 = 20;

/// Which of the two sheets has a reachable rejecting loop, as `which` numbers them; the
/// same where the start of the first or the second rejects, or is reached again.
const LOOPS: &str = "rejecting loops";
const LOOPS_REJECTING: [&str; 2] = [
    "rejecting loops, the first start rejects",
    "rejecting loops, the second start rejects",
];
const LOOPS_REACHED: [&str; 2] = [
    "rejecting loops, the first start is reached again",
    "rejecting loops, the second start is reached again",
];

/// The independent run graph.
fn graph(proper: &ProperSheet, book: &[u8]) -> RunGraph {
    RunGraph::read(&proper.bytes, book).expect("a book of the sheet")
}

/// Whether steps lead from the initial vertex back to it.
fn start_is_reached_again(graph: &RunGraph) -> bool {
    let after: Vec<usize> = graph.successors(graph.initial).collect();
    let reached = Components::reached(graph, &after);
    let mut components = reached.of_vertices();
    components.nth(graph.initial).flatten().is_some()
}

/// What the library annotates the book with, none for a rejecting loop.
fn annotated(proper: &ProperSheet, book: &[u8]) -> Option<Vec<u16>> {
    let vertices = proper.sheet.vertices();
    let mut annotation = vec![0xEEEE; vertices];
    let mut path = vec![0xEE; least_path(vertices)];
    let mut lengths = [0; 2];
    let sheet = &proper.bytes;
    let answer = ffi::annotate(sheet, book, &mut annotation, &mut path, &mut lengths);
    assert!([POSITIVE, NEGATIVE].contains(&answer));
    (answer == POSITIVE).then_some(annotation)
}

/// With the joined sheet a rejecting loop is reachable exactly if one is with the
/// first or with the second.
fn compare_loops(tally: &mut Tally, joined: &JoinedPair, book: &[u8]) {
    let graphs = joined.pair.each_ref().map(|proper| graph(proper, book));
    let loops = graphs.each_ref().map(|graph| graph.annotation().is_none());
    let annotation = graph(&joined.joined, book).annotation();
    let library = annotated(&joined.joined, book);
    assert!(
        annotation.is_none() == loops.contains(&true) && library == annotation,
        "rejecting loops of the two {loops:?}, joined {}, by the library {}\nbook {}\n{}",
        annotation.is_none(),
        library.is_none(),
        hex(book),
        joined.describe()
    );
    tally.count(LOOPS, which(loops));
    for (index, graph) in graphs.iter().enumerate() {
        if graph.starts_rejecting() {
            tally.count(LOOPS_REJECTING[index], which(loops));
        }
        if start_is_reached_again(graph) {
            tally.count(LOOPS_REACHED[index], which(loops));
        }
    }
}

#[test]
fn joined_sheets_loop_where_one_of_the_two_does() {
    let mut tally = Tally::default();
    let mut rng = Rng::new(SEED);
    for _ in 0..PAIRS_WITH_BOOKS {
        let joined = JoinedPair::new(with_loops(&mut rng));
        for _ in 0..BOOKS {
            let book = random_books::book(&mut rng, &joined.joined);
            compare_loops(&mut tally, &joined, &book);
        }
    }
    tally.print("books of joined sheets");

    let books = PAIRS_WITH_BOOKS * BOOKS;
    assert_eq!(tally.total(LOOPS), books);
    tally.assert_often(LOOPS, 0..=3, books / 20);
    for property in [LOOPS_REJECTING, LOOPS_REACHED].concat() {
        tally.assert_often(property, 0..=3, books / 50);
    }
}

/// How many joined sheets are searched, and how many choices they have at most, ties
/// aside.
const SEARCHED: u64 = 1_500;
const FEW_CHOICES: u64 = 300;

const NONE: &str = "none";
/// No choice keeps both, though each is kept by one.
const NONE_TOGETHER: &str = "none, though not for each alone";
/// The choice found is not the first that keeps the one, and not the first that
/// keeps the other.
const LATER_THAN_EACH: &str = "found later than for each alone";

/// Whether the choice keeps the sheet.
fn keeps(proper: &ProperSheet, entries: &[u8]) -> bool {
    FoundChoice::if_kept(proper, entries, 0).is_some()
}

/// The first choice that keeps both sheets, each by its own run graph.
fn first_choice(pair: &[ProperSheet; 2]) -> Option<Vec<u8>> {
    choices(&pair[0]).find(|entries| pair.iter().all(|proper| keeps(proper, entries)))
}

/// Searches with the joined sheet: the book of this choice, or none.
fn compare_find(joined: &JoinedPair, choice: Option<&Vec<u8>>) {
    let proper = &joined.joined;
    let mut book = vec![0xEE; LONGEST_BOOK];
    let mut annotation = vec![0xEEEE; proper.sheet.vertices() + 3];
    let mut lent_book = GuardedBuffer::holding(&book);
    let mut lent_annotation = GuardedBuffer::holding(&annotation);
    let library = ffi::find(&proper.bytes, lent_book.lent(), lent_annotation.lent());
    let answer = if choice.is_some() { POSITIVE } else { NEGATIVE };
    if let Some(entries) = choice {
        let found = FoundChoice::if_kept(proper, entries, 0).expect("both are kept");
        book[..found.book.len()].copy_from_slice(&found.book);
        annotation[..found.annotation.len()].copy_from_slice(&found.annotation);
    }
    assert!(
        library == answer && lent_book.holds(&book) && lent_annotation.holds(&annotation),
        "find: library {library}, independent {answer}\n{}\nbook: {}\nannotation: {}",
        joined.describe(),
        lent_book.compared(&book),
        lent_annotation.compared(&annotation)
    );
}

/// Counts what is found for both beside what is found for each alone.
fn count_found(tally: &mut Tally, pair: &[ProperSheet; 2], choice: Option<&Vec<u8>>) {
    let alone = pair.each_ref().map(fast_enumeration::first_choice);
    let alone = alone.map(|found| found.map(|found| found.entries));
    let each_kept = alone.iter().all(Option::is_some);
    let differs_from_each = alone.iter().all(|entries| entries.as_ref() != choice);
    tally.count(NONE, choice.is_none());
    tally.count(NONE_TOGETHER, choice.is_none() && each_kept);
    tally.count(LATER_THAN_EACH, choice.is_some() && differs_from_each);
}

#[test]
fn finds_keep_both_sheets() {
    let mut tally = Tally::default();
    let mut rng = Rng::new(SEED);
    for _ in 0..SEARCHED {
        let joined = JoinedPair::new(with_few_choices(&mut rng, FEW_CHOICES));
        let choice = first_choice(&joined.pair);
        compare_find(&joined, choice.as_ref());
        count_found(&mut tally, &joined.pair, choice.as_ref());
    }
    tally.print("joined sheets searched");

    assert_eq!(tally.total(NONE), SEARCHED);
    tally.assert_often(NONE, [false, true], SEARCHED / 5);
    tally.assert_often(NONE_TOGETHER, [true], SEARCHED / 20);
    tally.assert_often(LATER_THAN_EACH, [true], SEARCHED / 20);
}

/// What is made of two sheets that fit, by the library and here, in buffers of all
/// lengths.
fn joined(first: &[u8], second: &[u8]) -> Vec<u8> {
    let mut tally = Tally::default();
    let answer = compare_lengths(&mut tally, &mut Rng::new(SEED), [first, second]);
    let bytes = joined_by_library([first, second]);
    assert_eq!(answer, Ok(bytes.len()));
    bytes
}

/// Refused so, with buffers of all lengths.
fn assert_refused(first: &[u8], second: &[u8], refusal: Refusal) {
    let mut tally = Tally::default();
    let files = [first, second];
    let answer = compare_lengths(&mut tally, &mut Rng::new(SEED), files);
    assert_eq!(answer, Err(refusal), "{}", describe(files));
}

/// The book that find writes, none if there are no tables.
fn found_book(sheet: &[u8]) -> Option<Vec<u8>> {
    let proper = ProperSheet::new(read_sheet(sheet).expect("a proper sheet"));
    let mut book = vec![0xEE; proper.layout.len()];
    let mut annotation = vec![0xEEEE; proper.sheet.vertices()];
    let answer = ffi::find(sheet, &mut book, &mut annotation);
    assert!([POSITIVE, NEGATIVE].contains(&answer));
    (answer == POSITIVE).then_some(book)
}

/// How many automaton states and edges the sheet has.
fn size(sheet: &[u8]) -> (u8, usize) {
    let sheet = read_sheet(sheet).expect("a proper sheet");
    (sheet.states, sheet.edges.len())
}

/// A with A: its AU, and the fields of its edges.
const AUTOMATON_A_WITH_A: [u8; 6] = [0x41, 0x55, 0x09, 0x00, 0xDC, 0x01];
const EDGES_A_WITH_A: [[u8; 4]; 22] = [
    [0, 1, 0x00, 0x00],
    [0, 4, 0x0C, 0x00],
    [0, 2, 0x01, 0x00],
    [0, 3, 0x02, 0x00],
    [0, 5, 0x00, 0x00],
    [0, 8, 0x0C, 0x00],
    [0, 6, 0x01, 0x00],
    [0, 7, 0x02, 0x00],
    [1, 1, 0x00, 0x00],
    [1, 4, 0x0C, 0x00],
    [1, 2, 0x01, 0x00],
    [1, 3, 0x02, 0x00],
    [2, 2, 0x00, 0x04],
    [3, 3, 0x00, 0x08],
    [4, 4, 0x00, 0x00],
    [5, 5, 0x00, 0x00],
    [5, 8, 0x0C, 0x00],
    [5, 6, 0x01, 0x00],
    [5, 7, 0x02, 0x00],
    [6, 6, 0x00, 0x04],
    [7, 7, 0x00, 0x08],
    [8, 8, 0x00, 0x00],
];

#[test]
fn bench_case_a_with_a() {
    let twice = joined(&SHEET_A, &SHEET_A);
    let edges = EDGES_A_WITH_A.map(|fields| [b"ED", &fields[..]].concat());
    let listed = [&SHEET_A[..10], &AUTOMATON_A_WITH_A, &edges.concat(), b"EN"];
    assert_eq!(twice.len(), 150);
    assert_eq!(twice, listed.concat(), "{}", hex(&twice));
    assert_eq!(found_book(&twice).as_deref(), Some(&BOOK_A[..]));
}

/// Three of A fit, in either order, and four do not.
#[test]
fn bench_case_a_more_often() {
    let twice = joined(&SHEET_A, &SHEET_A);
    for (first, second) in [(&twice[..], &SHEET_A[..]), (&SHEET_A, &twice)] {
        let three_times = joined(first, second);
        assert_eq!(size(&three_times), (14, 41));
        assert_eq!(found_book(&three_times).as_deref(), Some(&BOOK_A[..]));
    }
    assert_refused(&twice, &twice, TOO_LARGE);
}

/// The smallest joined sheet, one that no tables keep, and other fronts.
#[test]
fn bench_cases_e_and_f() {
    let (e, f) = (case_e().bytes(), case_f(1).bytes());
    let twice = joined(&e, &e);
    assert_eq!(twice, b"AR\x00\x00\x00PR\x00\x00\x01AU\x03\x00\x00\x00EN");
    let mut short = [0xEE; 17];
    assert_eq!(ffi::join(&e, &e, &mut short), 8);
    assert_eq!(short, [0xEE; 17]);
    let mut exact = [0xEE; 18];
    assert_eq!(ffi::join(&e, &e, &mut exact), 65_536 + 18);
    assert_eq!(exact, *twice);

    for (first, second) in [(&e, &f), (&f, &e), (&f, &f)] {
        assert_eq!(found_book(&joined(first, second)), None);
    }
    assert_refused(&e, &SHEET_A, FRONTS_DIFFER);
    assert_refused(&SHEET_A, &e, FRONTS_DIFFER);
}

/// Two starts other than 0, of which the first rejects and is entered again, and edges
/// of both kinds.
#[test]
fn starts_are_copied() {
    let first = Sheet {
        states: 2,
        initial: 1,
        rejecting: 0b10,
        edges: vec![
            Edge::new(0, 1, 0x01, 0x00),
            Edge::unless(1, 1, 0x02, 0x04),
            Edge::new(1, 0, 0x00, 0x08),
        ],
        ..case_a()
    };
    let second = Sheet {
        states: 3,
        initial: 2,
        rejecting: 0b001,
        edges: vec![
            Edge::unless(2, 0, 0x00, 0x01),
            Edge::new(0, 2, 0x00, 0x00),
            Edge::new(2, 1, 0x04, 0x08),
        ],
        ..case_a()
    };
    let both = Sheet {
        states: 6,
        initial: 0,
        rejecting: 0b00_1100,
        edges: vec![
            Edge::unless(0, 2, 0x02, 0x04),
            Edge::new(0, 1, 0x00, 0x08),
            Edge::unless(0, 3, 0x00, 0x01),
            Edge::new(0, 4, 0x04, 0x08),
            Edge::new(1, 2, 0x01, 0x00),
            Edge::unless(2, 2, 0x02, 0x04),
            Edge::new(2, 1, 0x00, 0x08),
            Edge::unless(5, 3, 0x00, 0x01),
            Edge::new(3, 5, 0x00, 0x00),
            Edge::new(5, 4, 0x04, 0x08),
        ],
        ..case_a()
    };
    let bytes = joined(&first.bytes(), &second.bytes());
    assert_eq!(bytes, both.bytes(), "{}", hex(&bytes));
}

/// Fronts that mean the same, but are not the same bytes.
#[test]
fn fronts_are_compared_by_bytes() {
    let turned = Sheet {
        ties: vec![[0, 1]],
        ..case_s()
    };
    let repeated = Sheet {
        ties: vec![[1, 0]; 2],
        ..case_s()
    };
    let swapped = Sheet {
        ties: vec![[0, 1], [2, 3]],
        ..case_u()
    };
    let pairs = [
        [case_p(None), case_p(Some(0x00))],
        [case_s(), turned],
        [case_s(), repeated],
        [case_u(), swapped],
    ];
    for pair in pairs {
        let [first, second] = pair.map(|sheet| sheet.bytes());
        assert_refused(&first, &second, FRONTS_DIFFER);
        assert_refused(&second, &first, FRONTS_DIFFER);
        joined(&first, &first);
        joined(&second, &second);
    }
}

/// E with so many edges from 0 to 0.
fn case_e_with_loops(count: usize) -> Vec<u8> {
    let sheet = Sheet {
        edges: vec![Edge::new(0, 0, 0, 0); count],
        ..case_e()
    };
    sheet.bytes()
}

/// Of three sheets, those that are joined first decide whether all fit.
#[test]
fn copies_of_copies_count() {
    let (many, one) = (case_e_with_loops(20), case_e_with_loops(1));
    let many_first = joined(&many, &one);
    assert_eq!(size(&many_first), (3, 42));
    assert_refused(&many_first, &one, TOO_LARGE);
    let ones_first = joined(&one, &one);
    assert_eq!(size(&ones_first), (3, 4));
    assert_eq!(size(&joined(&many, &ones_first)), (5, 46));
}

/// Every front of A as the first sheet and as the second, with the rest behind it in
/// memory.
#[test]
fn cut_sheets_are_refused() {
    for length in 0..SHEET_A.len() {
        let cut = &SHEET_A[..length];
        assert_refused(cut, &SHEET_A, CUT_OFF);
        assert_refused(&SHEET_A, cut, CUT_OFF);
        assert_refused(cut, cut, CUT_OFF);
    }
}

/// The first sheet comes before the second, both before their fronts, these before
/// the size of the joined sheet, and that before the buffer.
#[test]
fn first_refusal_decides() {
    let most_states = Sheet {
        states: MOST_STATES as u8,
        ..case_a()
    };
    let other_root = Sheet {
        root: 1,
        ..most_states.clone()
    };
    let no_initial = Sheet {
        initial: MOST_STATES as u8,
        ..other_root.clone()
    };
    let [most_states, other_root, no_initial] =
        [most_states, other_root, no_initial].map(|sheet| sheet.bytes());
    let cut = &SHEET_A[..59];
    let longer = [&SHEET_A[..], &[0]].concat();
    let cases: [(&[u8], &[u8], Refusal); 12] = [
        (cut, &longer, CUT_OFF),
        (&longer, cut, WRONG_MARK),
        (&no_initial, &longer, WRONG_AUTOMATON),
        (&longer, &no_initial, WRONG_MARK),
        (&no_initial, &most_states, WRONG_AUTOMATON),
        (&most_states, &no_initial, WRONG_AUTOMATON),
        (&most_states, cut, CUT_OFF),
        (cut, &most_states, CUT_OFF),
        (&most_states, &other_root, FRONTS_DIFFER),
        (&other_root, &SHEET_A, FRONTS_DIFFER),
        (&most_states, &SHEET_A, TOO_LARGE),
        (&SHEET_A, &SHEET_A, SHORT_BUFFER),
    ];
    let mut tally = Tally::default();
    for (first, second, refusal) in cases {
        let files = [first, second];
        let answer = compare_join(&mut tally, files, &[]);
        assert_eq!(answer, Err(refusal), "{}", describe(files));
    }
}

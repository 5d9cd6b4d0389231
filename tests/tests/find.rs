//! The library's find against enumeration of all choices. Every call has its
//! buffers between guards, and every lent byte is compared after it.

use soclethyme_tests::bench_cases::{
    case_a, case_a_unless, case_b, case_c, case_chain, case_chain_delayed, case_d, case_e, case_f,
    case_f_unless, case_g, case_h, case_j, case_p, case_q, case_s, case_s_with_edge, case_u,
    case_u_circular, case_u_with_tie, refused_cases, ANNOTATION_A, BOOK_A, BOOK_E, REJECTING_0,
    REJECTING_1, SHEET_A, SHEET_P, SHEET_Q, SHEET_S, SHEET_U, TEXT_A, TEXT_CHAIN, TEXT_D, TEXT_P,
    TEXT_Q, TEXT_Q_04, TEXT_S, TEXT_S_UNTIED, TEXT_U,
};
use soclethyme_tests::book::{layout, LONGEST_BOOK};
use soclethyme_tests::choices::{self, choice_count, untied_count, FoundChoice};
use soclethyme_tests::detectors::{detector, input_masks};
use soclethyme_tests::edge_kinds::{assert_both_kinds, count_kinds};
use soclethyme_tests::fast_enumeration;
use soclethyme_tests::few_choices;
use soclethyme_tests::ffi::{self, NEGATIVE, POSITIVE};
use soclethyme_tests::guarded_buffer::GuardedBuffer;
use soclethyme_tests::inputs_read::{count_inputs, INPUT_COUNT, READS_ACROSS_GAP, READS_HIGHEST};
use soclethyme_tests::lasso::least_path;
use soclethyme_tests::many_choices::{opening, prompt_relay, relay, three_clients, tied_openings};
use soclethyme_tests::prompt_places::{assert_prompts, count_prompts};
use soclethyme_tests::proper_sheet::ProperSheet;
use soclethyme_tests::random_faults;
use soclethyme_tests::random_sheets::{self, shapes};
use soclethyme_tests::refusal::{Refusal, CUT_OFF, SHEET_REFUSALS, SHORT_ANNOTATION, SHORT_BUFFER};
use soclethyme_tests::rejecting_loops;
use soclethyme_tests::rng::Rng;
use soclethyme_tests::run_graph::{greatest_number, BLANK};
use soclethyme_tests::sheet::{read_sheet, Sheet, MOST_EDGES, MOST_PROCESSES, MOST_VERTICES};
use soclethyme_tests::single_faults;
use soclethyme_tests::tally::Tally;
use soclethyme_tests::text::hex;
use soclethyme_tests::ties::tied_groups;

const SEED: u64 = 0x5EED_0006;

/// What the two lent buffers hold.
#[derive(Clone)]
struct FindBuffers {
    book: Vec<u8>,
    annotation: Vec<u16>,
}

impl FindBuffers {
    /// Buffers of these lengths that hold anything.
    fn new(rng: &mut Rng, book: usize, annotation: usize) -> Self {
        FindBuffers {
            book: rng.bytes(book),
            annotation: (0..annotation).map(|_| rng.draw() as u16).collect(),
        }
    }

    /// What they have to hold once tables are found.
    fn with(&self, found: &FoundChoice) -> Self {
        let mut after = self.clone();
        after.book[..found.book.len()].copy_from_slice(&found.book);
        after.annotation[..found.annotation.len()].copy_from_slice(&found.annotation);
        after
    }

    fn lengths(&self) -> (usize, usize) {
        (self.book.len(), self.annotation.len())
    }
}

/// How long a proper sheet's books and annotations are.
fn lengths(sheet: &Sheet) -> (usize, usize) {
    (layout(sheet).len(), sheet.vertices())
}

/// The refusal that these buffers get, whatever the search would find.
fn refusal(sheet: &[u8], held: &FindBuffers) -> Option<Refusal> {
    let (book, annotation) = match read_sheet(sheet) {
        Ok(sheet) => lengths(&sheet),
        Err(refusal) => return Some(refusal),
    };
    if held.book.len() < book {
        Some(SHORT_BUFFER)
    } else if held.annotation.len() < annotation {
        Some(SHORT_ANNOTATION)
    } else {
        None
    }
}

/// A proper sheet with what the enumeration makes of it.
struct SearchedSheet {
    proper: ProperSheet,
    found: Option<FoundChoice>,
}

/// Up to so many choices the plain enumeration is used. Beyond, the fast one is,
/// which is held against the plain one in `enumeration.rs`.
const MOST_FOR_PLAIN: u64 = 300;

impl SearchedSheet {
    fn new(sheet: Sheet) -> Self {
        let proper = ProperSheet::new(sheet);
        let found = if untied_count(&proper.sheet) <= MOST_FOR_PLAIN {
            choices::first_choice(&proper)
        } else {
            fast_enumeration::first_choice(&proper)
        };
        SearchedSheet { proper, found }
    }

    /// Searched among all tables, of which those that break a tie are passed
    /// over one by one.
    fn filtered(sheet: Sheet) -> Self {
        let proper = ProperSheet::new(sheet);
        SearchedSheet {
            found: fast_enumeration::first_among(&proper, choices::choices(&proper)),
            proper,
        }
    }

    /// What find wrote is passed by judge, and annotate writes the same.
    fn assert_verdicts(&self, written: &FindBuffers) {
        let Some(found) = &self.found else {
            return;
        };
        let sheet = &self.proper.bytes;
        let book = &written.book[..found.book.len()];
        let annotation = &written.annotation;
        assert_eq!(ffi::judge(sheet, book, annotation), POSITIVE);
        let mut again = annotation.clone();
        again[..found.annotation.len()].fill(7);
        let mut path = vec![7; least_path(found.annotation.len())];
        let mut lengths = [7; 2];
        let annotated = ffi::annotate(sheet, book, &mut again, &mut path, &mut lengths);
        assert_eq!(annotated, POSITIVE);
        assert_eq!(again, *annotation, "sheet {}", hex(sheet));
        assert!(lengths == [7; 2] && path.iter().all(|byte| *byte == 7));
    }
}

/// From so many choices on they are many, and one after so many is late.
const MANY: u64 = 1_000;

/// Counts what a sheet is like, once for all calls with it.
fn count_properties(tally: &mut Tally, searched: &SearchedSheet) {
    let sheet = &searched.proper.sheet;
    let (book, annotation) = lengths(sheet);
    let before = searched.found.as_ref().map(|found| found.before);
    let many_choices = choice_count(sheet) >= MANY;
    tally.count("processes", sheet.processes.len());
    tally.count("length of a book", book);
    tally.count("length of an annotation", annotation);
    tally.count("none", before.is_none());
    count_kinds(tally, sheet);
    tally.count("none of many choices", before.is_none() && many_choices);
    tally.count("not all zeros", before > Some(0));
    tally.count("found late", before >= Some(MANY));
    let starts_rejecting = sheet.is_rejecting(sheet.initial);
    tally.count(
        "found, the start rejecting",
        before.is_some() && starts_rejecting,
    );
    count_inputs(tally, sheet);
}

/// Calls find; the answer and both buffers have to be as expected.
fn compare_call(
    tally: &mut Tally,
    sheet: &[u8],
    held: &FindBuffers,
    answer: u32,
    after: &FindBuffers,
) {
    let mut book = GuardedBuffer::holding(&held.book);
    let mut annotation = GuardedBuffer::holding(&held.annotation);
    let library = ffi::find(sheet, book.lent(), annotation.lent());
    let as_expected = book.holds(&after.book) && annotation.holds(&after.annotation);
    assert!(
        library == answer && as_expected,
        "library {library}, independent {answer}, buffers of {:?}\nsheet {}\n\
         book: {}\nannotation: {}",
        held.lengths(),
        hex(sheet),
        book.compared(&after.book),
        annotation.compared(&after.annotation)
    );
    tally.count("find", answer);
}

/// A call that must be refused, with both buffers left.
fn compare_refused(tally: &mut Tally, sheet: &[u8], held: &FindBuffers) -> Refusal {
    let refusal = refusal(sheet, held).expect("a refusal");
    compare_call(tally, sheet, held, refusal, held);
    refusal
}

/// A call that must find tables, or none, with so much room behind the book and
/// the annotation.
fn compare_search(
    tally: &mut Tally,
    rng: &mut Rng,
    searched: &SearchedSheet,
    (book_room, annotation_room): (usize, usize),
) {
    let sheet = &searched.proper.bytes;
    let (book, annotation) = lengths(&searched.proper.sheet);
    let held = FindBuffers::new(rng, book + book_room, annotation + annotation_room);
    assert_eq!(refusal(sheet, &held), None);
    let (answer, after) = match &searched.found {
        Some(found) => (POSITIVE, held.with(found)),
        None => (NEGATIVE, held.clone()),
    };
    compare_call(tally, sheet, &held, answer, &after);
    if searched.found.is_some() {
        let rooms = 2 * u32::from(book_room > 0) + u32::from(annotation_room > 0);
        tally.count("room behind the book, the annotation", rooms);
    }
    searched.assert_verdicts(&after);
}

/// A search with buffers of exact length or longer; those too short are refused
/// whatever there is to find.
fn compare(tally: &mut Tally, rng: &mut Rng, searched: &SearchedSheet) {
    count_properties(tally, searched);
    let room = (any_room(rng), any_room(rng));
    compare_search(tally, rng, searched, room);
    compare_short(tally, rng, &searched.proper);
}

fn any_room(rng: &mut Rng) -> usize {
    match rng.below(3) {
        0 => 0,
        1 => 1,
        _ => rng.within(2, 40),
    }
}

/// One buffer too short, or both: the book's decides.
fn compare_short(tally: &mut Tally, rng: &mut Rng, proper: &ProperSheet) {
    let (book, vertices) = lengths(&proper.sheet);
    let short_books = [0, rng.below(book), book - 1];
    let short_annotations = [0, rng.below(vertices), vertices - 1];
    for short in short_books {
        for annotation in [0, vertices - 1, vertices, vertices + 3] {
            let held = FindBuffers::new(rng, short, annotation);
            let refusal = compare_refused(tally, &proper.bytes, &held);
            assert_eq!(refusal, SHORT_BUFFER);
        }
    }
    for short in short_annotations {
        for book in [book, book + 5] {
            let held = FindBuffers::new(rng, book, short);
            let refusal = compare_refused(tally, &proper.bytes, &held);
            assert_eq!(refusal, SHORT_ANNOTATION);
        }
    }
}

/// How many random sheets are searched.
const SHEETS: u64 = 6_000;

#[test]
fn finds_agree_on_few_choices() {
    let mut tally = Tally::default();
    let mut rng = Rng::new(SEED);
    for _ in 0..SHEETS {
        let searched = SearchedSheet::new(few_choices::sheet(&mut rng, 20_000));
        compare(&mut tally, &mut rng, &searched);
    }
    tally.print("sheets searched");

    assert_eq!(tally.total("none"), SHEETS);
    tally.assert_often("none", [true], SHEETS / 4);
    tally.assert_often("none of many choices", [true], SHEETS / 12);
    assert_both_kinds(&tally);
    tally.assert_often("not all zeros", [true], SHEETS / 3);
    tally.assert_often("found late", [true], SHEETS / 20);
    tally.assert_often("found, the start rejecting", [true], SHEETS / 20);
    let all_zeros = tally.seen("none", false) - tally.seen("not all zeros", true);
    assert!(all_zeros >= SHEETS / 5);
    tally.assert_often("processes", 1..=MOST_PROCESSES, SHEETS / 10);
    tally.assert_only("processes", 1..=MOST_PROCESSES);
    tally.assert_often(INPUT_COUNT, 0..=2, SHEETS / 20);
    tally.assert_often("room behind the book, the annotation", 0..4, SHEETS / 20);
    let refusals = [SHORT_BUFFER, SHORT_ANNOTATION];
    tally.assert_often("find", refusals, 6 * SHEETS);
}

/// Sheets with some hundred thousand choices, found late or not at all.
#[test]
fn finds_agree_on_more_choices() {
    let mut tally = Tally::default();
    let mut rng = Rng::new(SEED);
    let sheets = [
        case_c(3, 1),
        case_c(1, 3),
        case_c(3, 2),
        case_c(2, 3),
        three_clients(2, 2),
        three_clients(3, 1),
        relay(3, 2),
        relay(2, 3),
        prompt_relay(3, 2),
        prompt_relay(2, 3),
        opening(2),
        tied_openings(2),
    ];
    for sheet in sheets {
        compare(&mut tally, &mut rng, &SearchedSheet::new(sheet));
    }
    assert_eq!(tally.total("none"), 12);
    assert_eq!(tally.seen("none", true), 10);
    assert_eq!(tally.seen("found late", true), 2);
}

/// How many sheets are searched in which high variables are read.
const SHEETS_WITH_HIGH: u64 = 2_000;

#[test]
fn finds_agree_on_high_variables() {
    let mut tally = Tally::default();
    let mut rng = Rng::new(SEED);
    for _ in 0..SHEETS_WITH_HIGH {
        let sheet = few_choices::with_high_variables(&mut rng, 20_000);
        let searched = SearchedSheet::new(sheet);
        compare(&mut tally, &mut rng, &searched);
    }
    tally.print("sheets with high variables searched");

    tally.assert_often("none", [true], SHEETS_WITH_HIGH / 20);
    assert_both_kinds(&tally);
    tally.assert_often("not all zeros", [true], SHEETS_WITH_HIGH / 10);
    tally.assert_often(INPUT_COUNT, 0..=2, SHEETS_WITH_HIGH / 10);
    tally.assert_often(READS_HIGHEST, [true], SHEETS_WITH_HIGH / 10);
    tally.assert_often(READS_ACROSS_GAP, [true], SHEETS_WITH_HIGH / 10);
}

/// How many tied sheets are searched.
const SHEETS_WITH_TIES: u64 = 5_000;

const CHAINED: &str = "most processes with one table";

/// Counts what ties make of a search: the first choice without them may break
/// them.
fn count_untied(tally: &mut Tally, searched: &SearchedSheet) {
    let untied = SearchedSheet::new(searched.proper.sheet.without_ties());
    let entries = |searched: &SearchedSheet| searched.found.as_ref().map(|f| f.entries.clone());
    let (tied, untied) = (entries(searched), entries(&untied));
    tally.count("none by ties alone", tied.is_none() && untied.is_some());
    tally.count("other tables by ties", tied.is_some() && tied != untied);
}

/// Counts what the largest group of tied processes is like.
fn count_tied(tally: &mut Tally, sheet: &Sheet) {
    let groups = tied_groups(sheet).into_iter();
    let group = groups.max_by_key(Vec::len).expect("a process");
    tally.count(CHAINED, group.len());
    let [one, other] = [group[0], group[1]].map(|index| sheet.processes[index]);
    tally.count("tied, states", one.bound);
    tally.count("tied, inputs", one.inputs.count_ones());
    tally.count("tied, outputs", one.outputs.count_ones());
    tally.count("tied, other inputs", one.inputs != other.inputs);
    tally.count(
        "tied, outputs with a gap",
        has_gap(one.outputs) || has_gap(other.outputs),
    );
}

/// Whether a variable outside of the mask lies between two of it.
fn has_gap(mask: u8) -> bool {
    mask.count_ones() + mask.leading_zeros() + mask.trailing_zeros() < 8
}

#[test]
fn finds_agree_on_ties() {
    let mut tally = Tally::default();
    let mut rng = Rng::new(SEED);
    for _ in 0..SHEETS_WITH_TIES {
        let sheet = few_choices::with_ties(&mut rng, 20_000);
        let searched = SearchedSheet::filtered(sheet);
        compare(&mut tally, &mut rng, &searched);
        count_untied(&mut tally, &searched);
        count_tied(&mut tally, &searched.proper.sheet);
    }
    tally.print("tied sheets searched");

    assert_eq!(tally.total("none"), SHEETS_WITH_TIES);
    tally.assert_often("none", [true], SHEETS_WITH_TIES / 4);
    tally.assert_often("none by ties alone", [true], SHEETS_WITH_TIES / 10);
    tally.assert_often("other tables by ties", [true], SHEETS_WITH_TIES / 10);
    tally.assert_often("not all zeros", [true], SHEETS_WITH_TIES / 5);
    tally.assert_often("processes", 2..=MOST_PROCESSES, SHEETS_WITH_TIES / 10);
    tally.assert_often(CHAINED, 2..=MOST_PROCESSES, SHEETS_WITH_TIES / 20);
    tally.assert_often("tied, states", 1..=2, SHEETS_WITH_TIES / 10);
    tally.assert_often("tied, inputs", 0..=2, SHEETS_WITH_TIES / 20);
    tally.assert_often("tied, outputs", 1..=3, SHEETS_WITH_TIES / 50);
    let properties = ["tied, other inputs", "tied, outputs with a gap"];
    for property in properties {
        tally.assert_often(property, [true], SHEETS_WITH_TIES / 10);
    }
}

/// How many sheets with prompt inputs are searched.
const SHEETS_WITH_PROMPTS: u64 = 5_000;

/// Counts what prompt inputs make of a search: read one step later, the first
/// choice may be another one.
fn count_delayed(tally: &mut Tally, searched: &SearchedSheet) {
    let delayed = SearchedSheet::new(searched.proper.sheet.without_prompts());
    let entries = |searched: &SearchedSheet| searched.found.as_ref().map(|f| f.entries.clone());
    let (prompt, delayed) = (entries(searched), entries(&delayed));
    tally.count("none by delay alone", prompt.is_some() && delayed.is_none());
    tally.count("none by no delay", prompt.is_none() && delayed.is_some());
    let others = prompt.is_some() && delayed.is_some() && prompt != delayed;
    tally.count("other tables by delay", others);
}

#[test]
fn finds_agree_on_prompts() {
    let mut tally = Tally::default();
    let mut rng = Rng::new(SEED);
    for _ in 0..SHEETS_WITH_PROMPTS {
        let searched = SearchedSheet::new(few_choices::with_prompts(&mut rng, 20_000));
        compare(&mut tally, &mut rng, &searched);
        count_prompts(&mut tally, &searched.proper.sheet);
        count_delayed(&mut tally, &searched);
    }
    tally.print("sheets with prompt inputs searched");

    assert_eq!(tally.total("none"), SHEETS_WITH_PROMPTS);
    assert_prompts(&tally, SHEETS_WITH_PROMPTS);
    tally.assert_often("none", [true], SHEETS_WITH_PROMPTS / 4);
    tally.assert_often("not all zeros", [true], SHEETS_WITH_PROMPTS / 5);
    tally.assert_often("none by delay alone", [true], SHEETS_WITH_PROMPTS / 50);
    tally.assert_often("none by no delay", [true], SHEETS_WITH_PROMPTS / 100);
    tally.assert_often("other tables by delay", [true], SHEETS_WITH_PROMPTS / 50);
    tally.assert_often("processes", 2..=MOST_PROCESSES, SHEETS_WITH_PROMPTS / 10);
}

/// How many are drawn that have far more choices without their ties.
const SHEETS_WITH_MORE: u64 = 2_000;

/// Those with few choices, which are made without going through all tables:
/// longer chains and more states than above.
#[test]
fn finds_agree_on_ties_of_more_tables() {
    let mut tally = Tally::default();
    let mut rng = Rng::new(SEED);
    for _ in 0..SHEETS_WITH_MORE {
        let sheet = few_choices::with_ties(&mut rng, 100_000_000);
        if choice_count(&sheet) <= 20_000 {
            let searched = SearchedSheet::new(sheet);
            compare(&mut tally, &mut rng, &searched);
            count_tied(&mut tally, &searched.proper.sheet);
        }
    }
    tally.print("tied sheets with more tables searched");

    tally.assert_often("none", [false, true], SHEETS_WITH_MORE / 4);
    tally.assert_often("not all zeros", [true], SHEETS_WITH_MORE / 10);
    tally.assert_often(CHAINED, 2..=MOST_PROCESSES, SHEETS_WITH_MORE / 20);
    tally.assert_often("tied, states", 1..=3, SHEETS_WITH_MORE / 20);
    tally.assert_often("tied, inputs", 0..=2, SHEETS_WITH_MORE / 20);
}

/// Tables that depend on where each input is packed, for every mask of inputs:
/// with three and four there are too many choices for the tests above.
#[test]
fn finds_agree_on_every_input_mask() {
    let mut tally = Tally::default();
    let mut rng = Rng::new(SEED);
    for inputs in input_masks() {
        compare(&mut tally, &mut rng, &SearchedSheet::new(detector(inputs)));
    }
    tally.print("input masks searched");

    assert_eq!(tally.seen("none", true), 0);
    for (inputs, masks) in [1, 7, 21, 35, 35].into_iter().enumerate() {
        assert_eq!(tally.seen(INPUT_COUNT, inputs), masks);
    }
    assert_eq!(tally.seen(READS_HIGHEST, true), 42);
    tally.assert_often(READS_ACROSS_GAP, [true], 60);
}

/// The sheet with edges added up to the most, and changed so that every choice
/// keeps it: the first is all zeros.
fn kept_by_all(rng: &mut Rng, mut sheet: Sheet) -> SearchedSheet {
    random_sheets::add_edges(rng, &mut sheet, MOST_EDGES);
    rejecting_loops::exclude_rejecting_loops(rng, &mut sheet);
    let proper = ProperSheet::new(sheet);
    let zeros = vec![0; proper.entry_rules().count()];
    let found = FoundChoice::if_kept(&proper, &zeros, 0);
    assert!(found.is_some(), "every choice keeps the sheet");
    SearchedSheet { proper, found }
}

/// Sheets with T = 256 and 16 automaton states, and those with the longest book.
#[test]
fn first_choice_of_the_largest_sheets() {
    let mut tally = Tally::default();
    let mut rng = Rng::new(SEED);
    for round in 0..60 {
        let sheet = match round % 2 {
            0 => rejecting_loops::largest(&mut rng),
            _ => random_sheets::with_longest_book(&mut rng),
        };
        let searched = kept_by_all(&mut rng, sheet);
        compare(&mut tally, &mut rng, &searched);
    }
    let (book, annotation) = (LONGEST_BOOK as u64, MOST_VERTICES as u64);
    assert_eq!(tally.greatest("length of a book"), Some(book));
    assert_eq!(tally.greatest("length of an annotation"), Some(annotation));
}

/// Buffers for whatever sheet: empty, too short for nearly all, too long for
/// all.
fn any_buffers(rng: &mut Rng) -> FindBuffers {
    let book = *rng.pick(&[0, 9, LONGEST_BOOK + 1]);
    let annotation = *rng.pick(&[0, 3, MOST_VERTICES + 1]);
    FindBuffers::new(rng, book, annotation)
}

/// Sheets with any number of faults. Those left proper are not searched, since
/// most have too many choices; buffers too short are refused there too.
fn compare_random_faults(tally: &mut Tally, rng: &mut Rng) {
    for _ in 0..12_000 {
        let sheet = random_sheets::proper(rng);
        let bytes = match rng.below(8) {
            0 => random_faults::random_bytes(rng),
            _ => random_faults::changed_sheet(rng, &sheet),
        };
        match read_sheet(&bytes) {
            Ok(sheet) => compare_short(tally, rng, &ProperSheet::new(sheet)),
            Err(_) => {
                compare_refused(tally, &bytes, &any_buffers(rng));
            }
        }
    }
}

/// Sheets with one fault, whose refusal follows from how they are made.
fn compare_single_faults(tally: &mut Tally, rng: &mut Rng) {
    for shape in shapes() {
        let sheet = random_sheets::with_few_edges(rng, shape);
        let faulty = single_faults::field_faults(&sheet);
        for _ in 0..20 {
            let changed = rng.pick(&faulty);
            let refusal = compare_refused(tally, &changed.bytes, &any_buffers(rng));
            assert_eq!(refusal, changed.answer);
        }
    }
}

#[test]
fn refusals_leave_the_buffers() {
    let mut tally = Tally::default();
    let mut rng = Rng::new(SEED);
    compare_random_faults(&mut tally, &mut rng);
    compare_single_faults(&mut tally, &mut rng);
    tally.print("searches refused");
    tally.assert_often("find", SHEET_REFUSALS, 200);
    tally.assert_often("find", [SHORT_BUFFER, SHORT_ANNOTATION], 10_000);
}

/// The sheet comes before the buffers, the book's buffer before the
/// annotation's, and all of them before `none`.
#[test]
fn first_refusal_decides() {
    let (found, none) = (case_a().bytes(), case_b().bytes());
    let cases: [(&[u8], usize, usize, u32); 9] = [
        (&found[..59], 0, 0, CUT_OFF),
        (&none[..59], 0, 0, CUT_OFF),
        (&found, 19, 31, SHORT_BUFFER),
        (&found, 19, 32, SHORT_BUFFER),
        (&found, 20, 31, SHORT_ANNOTATION),
        (&none, 10, 15, SHORT_BUFFER),
        (&none, 10, 16, SHORT_BUFFER),
        (&none, 11, 15, SHORT_ANNOTATION),
        (&none, 11, 16, NEGATIVE),
    ];
    let mut tally = Tally::default();
    for (sheet, book, annotation, answer) in cases {
        let held = FindBuffers::new(&mut Rng::new(SEED), book, annotation);
        compare_call(&mut tally, sheet, &held, answer, &held);
    }
}

/// The lines that the finding program has to print for tables.
fn printed(sheet: &Sheet, found: &FoundChoice) -> String {
    let rows = sheet.processes.iter().map(|process| process.bound as u32);
    let mut text = format!("tables {}\n", rows.sum::<u32>());
    let mut left = found.entries.iter();
    for (index, process) in sheet.processes.iter().enumerate() {
        for state in 0..process.bound {
            let output = left.next().expect("an output mask");
            let next = left.by_ref().take(process.row_places());
            let next: String = next.map(|state| format!(" {state}")).collect();
            text += &format!("{index} {state} {output:02X}{next}\n");
        }
    }
    text + &format!("greatest {}\n", greatest_number(&found.annotation))
}

/// What is found, by the library in buffers of exact lengths and longer ones.
fn find(sheet: Sheet) -> Option<FoundChoice> {
    let searched = SearchedSheet::new(sheet);
    let mut tally = Tally::default();
    let mut rng = Rng::new(SEED);
    for room in [(0, 0), (0, 9), (9, 0), (9, 9)] {
        compare_search(&mut tally, &mut rng, &searched, room);
    }
    compare_short(&mut tally, &mut rng, &searched.proper);
    searched.found
}

fn assert_found(sheet: Sheet, book: &[u8], annotation: &[u16]) {
    let found = find(sheet).expect("tables");
    assert_eq!(found.book, book, "book {}", hex(&found.book));
    assert_eq!(found.annotation, annotation);
}

fn assert_printed(sheet: Sheet, text: &str) {
    let found = find(sheet.clone()).expect("tables");
    assert_eq!(printed(&sheet, &found), text);
}

/// Refused so with no room at all, and with room for any result.
fn assert_refused(name: &str, sheet: &[u8], answer: Refusal) {
    let mut tally = Tally::default();
    for (book, annotation) in [(0, 0), (LONGEST_BOOK, MOST_VERTICES)] {
        let held = FindBuffers::new(&mut Rng::new(SEED), book, annotation);
        let refusal = compare_refused(&mut tally, sheet, &held);
        assert_eq!(refusal, answer, "{name}");
    }
}

/// All refused cases of one letter, so many of them.
fn assert_refused_cases(letter: &str, count: usize) {
    let mut cases = refused_cases();
    cases.retain(|(name, ..)| name.starts_with(letter));
    assert_eq!(cases.len(), count);
    for (name, bytes, refusal) in cases {
        assert_refused(name, &bytes, refusal);
    }
}

#[test]
fn bench_case_a() {
    assert_eq!(case_a().bytes(), SHEET_A);
    for sheet in [case_a(), case_a_unless()] {
        assert_found(sheet.clone(), &BOOK_A, &ANNOTATION_A);
        assert_printed(sheet, TEXT_A);
    }
}

#[test]
fn bench_cases_b_and_c_have_none() {
    for sheet in [case_b(), case_c(1, 1), case_c(2, 1), case_c(1, 2)] {
        assert_eq!(find(sheet), None);
    }
}

#[test]
fn bench_case_d() {
    assert_printed(case_d(), TEXT_D);
}

#[test]
fn bench_cases_e_to_h() {
    assert_found(case_e(), &BOOK_E, &[0]);
    assert_eq!(find(case_f(1)), None);
    assert_eq!(find(case_f(4)), None);
    assert_found(case_f_unless(), &BOOK_E, &[1]);
    assert_found(case_g(), &BOOK_E, &[1]);
    assert_found(case_h(REJECTING_0), &BOOK_E, &[1, 1]);
    assert_found(case_h(REJECTING_1), &BOOK_E, &[0, 1]);
}

#[test]
fn bench_case_i() {
    assert_refused_cases("case I", 258);
}

/// Nothing is demanded, so the first choice is found at once.
#[test]
fn bench_case_j() {
    let found = find(case_j()).expect("tables");
    assert_eq!(found.entries, [0; 16]);
    assert_eq!(found.annotation[0], 0);
    assert_eq!(found.annotation[1..], [BLANK; 255]);
    assert_refused_cases("case J", 1);
}

/// With the tie and without it, and where the tie leaves no tables.
#[test]
fn bench_case_s() {
    assert_eq!(case_s().bytes(), SHEET_S);
    assert_printed(case_s(), TEXT_S);
    assert_printed(case_s().without_ties(), TEXT_S_UNTIED);
    assert_eq!(find(case_s_with_edge()), None);
    assert!(find(case_s_with_edge().without_ties()).is_some());
    assert_refused_cases("case S", 70);
}

/// With two pairs that are tied, with both tied together, and with a third tie
/// that says nothing new.
#[test]
fn bench_case_u() {
    assert_eq!(case_u().bytes(), SHEET_U);
    assert_printed(case_u(), TEXT_U);
    for chaining in [[3, 1], [1, 3], [0, 2], [0, 3], [2, 1]] {
        assert_eq!(find(case_u_with_tie(chaining)), None);
    }
    for repeated in [[2, 3], [3, 2], [1, 0]] {
        assert_printed(case_u_with_tie(repeated), TEXT_U);
    }
    assert_eq!(find(case_u_circular()), None);
}

/// With the prompt input there are tables, and read one step later there are none.
#[test]
fn bench_case_p() {
    assert_eq!(case_p(Some(0x02)).bytes(), SHEET_P);
    assert_printed(case_p(Some(0x02)), TEXT_P);
    assert_eq!(find(case_p(Some(0x00))), None);
    assert_eq!(find(case_p(None)), None);
    assert_refused_cases("case P", 38);
}

/// Tables with one prompt input or the other, and none with both or without.
#[test]
fn bench_case_q() {
    assert_eq!(case_q(0x02).bytes(), SHEET_Q);
    assert_printed(case_q(0x02), TEXT_Q);
    assert_printed(case_q(0x04), TEXT_Q_04);
    assert_eq!(find(case_q(0x00)), None);
    assert_eq!(find(case_q(0x06)), None);
}

/// Through three processes within the step, of which two can share a table.
#[test]
fn bench_case_chain() {
    for ties in [&[][..], &[[2, 1]]] {
        assert_printed(case_chain(ties), TEXT_CHAIN);
    }
    for delayed in 1..=2 {
        assert_eq!(find(case_chain_delayed(&[], delayed)), None);
    }
    assert_refused_cases("chain", 2);
}

#[test]
fn bench_case_k_and_edges() {
    assert_refused_cases("case K", 4);
    assert_refused_cases("65 edges", 2);
}

//! The library's check of a sheet against the independent reading.

use soclethyme_tests::bench_cases::{
    case_a, case_j, case_p, case_q, case_s, case_u, proper_cases, refused_cases, SHEET_A, SHEET_P,
    SHEET_Q, SHEET_S, SHEET_U,
};
use soclethyme_tests::edge_kinds::{assert_both_kinds, count_kinds};
use soclethyme_tests::ffi;
use soclethyme_tests::prompt_places::{
    self, assert_prompts, count_prompts, PromptPlace, FIELDS_LEFT,
};
use soclethyme_tests::prompts::PromptFault;
use soclethyme_tests::random_faults;
use soclethyme_tests::random_prompts;
use soclethyme_tests::random_sheets::{self, shapes, Shape};
use soclethyme_tests::random_ties;
use soclethyme_tests::refusal::{
    CUT_OFF, SHEET_REFUSALS, WRONG_COMPOSITION, WRONG_EDGE, WRONG_MARK, WRONG_PROCESS,
    WRONG_PROMPT, WRONG_TIE,
};
use soclethyme_tests::rng::Rng;
use soclethyme_tests::sheet::{
    read_sheet, Reading, RecordKind, Sheet, LONGEST_SHEET, MOST_COMPOSED,
};
use soclethyme_tests::single_faults::{self, ChangedSheet};
use soclethyme_tests::tally::Tally;
use soclethyme_tests::text::hex;
use soclethyme_tests::tie_places::{
    assert_ties, count_refusal, count_ties, TiePlace, BEFORE_COMPOSITION, CUT_BEHIND_PROCESS,
    ONLY_FAULT, PLACE, PLACE_OF_MARK,
};
use soclethyme_tests::ties::TieFault;

const SEED: u64 = 0x5EED_0001;

/// A shape whose counts can go up and down by one and stay within the rules.
const MIDDLE_SHAPE: Shape = Shape {
    variables: 6,
    environment: 2,
    processes: 3,
};

const REFUSED_AT_EX: &str = "refused at an EX";
const REFUSED_AT_PM: &str = "refused at a PM";

/// Holds the library's answer against the independent one.
fn compare(tally: &mut Tally, bytes: &[u8]) -> u32 {
    let reading = Reading::of(bytes);
    let own = reading.refusal.unwrap_or(0);
    let library = ffi::check(bytes);
    assert_eq!(
        library,
        own,
        "library {library}, independent reading {own}, sheet of {} bytes: {}",
        bytes.len(),
        hex(bytes)
    );
    tally.count("check", own);
    tally.count("length of a sheet", bytes.len());
    if own != 0 && reading.mark == RecordKind::EdgeUnless.mark() {
        tally.count(REFUSED_AT_EX, own);
    }
    if own != 0 && reading.mark == RecordKind::ProcessWithPrompts.mark() {
        tally.count(REFUSED_AT_PM, own);
    }
    count_refusal(tally, &reading);
    prompt_places::count_refusal(tally, &reading);
    own
}

/// The same, where the answer also follows from how the sheets were made.
fn compare_made(tally: &mut Tally, sheets: &[ChangedSheet]) {
    for sheet in sheets {
        let answer = compare(tally, &sheet.bytes);
        let made_for = sheet.answer;
        let bytes = hex(&sheet.bytes);
        assert_eq!(answer, made_for, "sheet made for {made_for}: {bytes}");
    }
}

/// Every front of the file, with the rest behind it in memory: a reader that
/// passes the length would find it.
fn compare_fronts(tally: &mut Tally, bytes: &[u8]) {
    for length in 0..bytes.len() {
        compare(tally, &bytes[..length]);
    }
}

/// Counts what a proper sheet is like.
fn count_properties(tally: &mut Tally, sheet: &Sheet) {
    tally.count("shape", Shape::of(sheet).digits());
    tally.count("root bits", sheet.root.count_ones());
    tally.count("T", sheet.composed());
    tally.count("automaton states", sheet.states);
    tally.count("initial state", sheet.initial);
    tally.count("rejecting states", sheet.rejecting.count_ones());
    tally.count("edges", sheet.edges.len());
    count_kinds(tally, sheet);
    count_ties(tally, sheet);
    count_prompts(tally, sheet);
    tally.count("length", sheet.bytes().len());
    for process in &sheet.processes {
        tally.count("inputs", process.inputs.count_ones());
        tally.count("outputs", process.outputs.count_ones());
        tally.count("bound", process.bound);
    }
    for edge in &sheet.edges {
        tally.count("on", edge.on.count_ones());
        tally.count("off", edge.off.count_ones());
    }
}

/// The proper sheets had each property often that should be met.
fn assert_properties(tally: &Tally) {
    let digits = shapes().into_iter().map(|shape| shape.digits());
    tally.assert_often("shape", digits, 100);
    let often = 20;
    tally.assert_often("root bits", 0..=4, often);
    let composed = [1, 2, 3, 4, 6, 8, 9, 12, 16, 128, 192, MOST_COMPOSED];
    tally.assert_often("T", composed, often);
    tally.assert_often("automaton states", 1..=16, often);
    tally.assert_often("initial state", 0..=15, often);
    tally.assert_often("rejecting states", 0..=16, often);
    tally.assert_often("edges", 0..=64, often);
    assert_both_kinds(tally);
    assert_ties(tally);
    assert_prompts(tally, 5_000);
    tally.assert_often("length", [18, LONGEST_SHEET], often);
    tally.assert_often("inputs", 0..=4, often);
    tally.assert_often("outputs", 0..=8, often);
    tally.assert_often("bound", 1..=4, often);
    tally.assert_often("on", 0..=8, often);
    tally.assert_often("off", 0..=8, often);
}

fn compare_proper_sheets(tally: &mut Tally, rng: &mut Rng) {
    let mut properties = Tally::default();
    let mut compare_proper = |sheet: Sheet| {
        let bytes = sheet.bytes();
        let answer = compare(tally, &bytes);
        assert_eq!(answer, 0, "made as proper: {}", hex(&bytes));
        assert_eq!(read_sheet(&bytes).as_ref(), Ok(&sheet), "{}", hex(&bytes));
        count_properties(&mut properties, &sheet);
    };
    for shape in shapes() {
        for _ in 0..250 {
            compare_proper(random_sheets::proper_of_shape(rng, shape));
        }
    }
    for _ in 0..200 {
        compare_proper(random_sheets::with_all_records(rng));
        compare_proper(random_sheets::with_chained_ties(rng));
    }
    assert_properties(&properties);
}

/// One fault in turn, of all fields and records.
fn compare_faults_of(tally: &mut Tally, sheet: &Sheet) {
    compare_made(tally, &single_faults::field_faults(sheet));
    compare_made(tally, &single_faults::inserted_records(sheet));
    compare_made(tally, &single_faults::removed_records(sheet));
}

fn compare_single_faults(tally: &mut Tally, rng: &mut Rng) {
    for shape in shapes() {
        for _ in 0..3 {
            compare_faults_of(tally, &random_sheets::with_few_edges(rng, shape));
        }
        let sheet = random_sheets::with_few_edges(rng, shape);
        compare_made(tally, &single_faults::all_bounds(&sheet));
        for index in 0..shape.processes {
            compare_made(tally, &single_faults::input_sets(&sheet, index));
            compare_made(tally, &single_faults::prompt_masks(&sheet, index));
        }
        compare_made(tally, &single_faults::cut_prompts(&sheet));
    }
    for _ in 0..3 {
        let sheet = random_sheets::with_all_records(rng);
        compare_faults_of(tally, &sheet);
        compare_made(tally, &single_faults::cut_ties(&sheet));
    }
    for _ in 0..50 {
        let sheet = random_sheets::with_all_records(rng);
        compare_made(tally, &single_faults::fifth_process(&sheet));
        compare_made(tally, &single_faults::surplus_edge(&sheet));
        compare_made(tally, &single_faults::misplaced_ties(&sheet));
    }
}

/// Every front of a proper sheet is cut off.
fn compare_proper_fronts(tally: &mut Tally, rng: &mut Rng) {
    let sheets = shapes().into_iter();
    let mut sheets: Vec<Sheet> = sheets
        .map(|shape| random_sheets::with_few_edges(rng, shape))
        .collect();
    sheets.push(random_sheets::with_all_records(rng));
    for sheet in &sheets {
        let bytes = sheet.bytes();
        for length in 0..bytes.len() {
            assert_eq!(compare(tally, &bytes[..length]), CUT_OFF);
        }
    }
}

fn compare_faulty_fronts(tally: &mut Tally, rng: &mut Rng) {
    for shape in shapes() {
        let sheet = random_sheets::with_few_edges(rng, shape);
        let faulty = single_faults::field_faults(&sheet);
        for _ in 0..4 {
            compare_fronts(tally, &rng.pick(&faulty).bytes);
        }
        compare_fronts(tally, &random_faults::changed_sheet(rng, &sheet));
    }
}

fn compare_trailing_bytes(tally: &mut Tally, rng: &mut Rng) {
    for shape in shapes() {
        let sheet = random_sheets::with_few_edges(rng, shape);
        for _ in 0..8 {
            let bytes = [sheet.bytes(), random_faults::trailing_bytes(rng)].concat();
            assert_eq!(compare(tally, &bytes), WRONG_MARK, "{}", hex(&bytes));
        }
    }
    // So many that lengths kept in one byte or two come round to the same value.
    for count in [256, 512, 65_536, 131_072] {
        let mut bytes = random_sheets::with_all_records(rng).bytes();
        bytes.extend(rng.bytes(count));
        assert_eq!(compare(tally, &bytes), WRONG_MARK, "{count} more bytes");
    }
}

/// The byte set to each of these values in turn.
fn compare_values(
    tally: &mut Tally,
    bytes: &[u8],
    position: usize,
    values: impl Iterator<Item = u8>,
) {
    let mut changed = bytes.to_vec();
    for value in values {
        changed[position] = value;
        compare(tally, &changed);
    }
}

/// Each bit of sheets with few edges flipped, and each byte set to each value.
fn compare_byte_changes(tally: &mut Tally, rng: &mut Rng) {
    for shape in shapes() {
        let bytes = random_sheets::with_few_edges(rng, shape).bytes();
        for (position, byte) in bytes.iter().enumerate() {
            let flipped = (0..8).map(|bit| byte ^ 1 << bit);
            compare_values(tally, &bytes, position, flipped);
        }
    }
    let bytes = random_sheets::with_few_edges(rng, MIDDLE_SHAPE).bytes();
    for position in 0..bytes.len() {
        compare_values(tally, &bytes, position, 0..=255);
    }
}

/// Two records swapped, and the first of them repeated before the second.
fn compare_moved(tally: &mut Tally, records: &[Vec<u8>], first: usize, second: usize) {
    let mut swapped = records.to_vec();
    swapped.swap(first, second);
    compare(tally, &swapped.concat());

    let mut repeated = records.to_vec();
    repeated.insert(second, records[first].clone());
    compare(tally, &repeated.concat());
}

fn compare_orders(tally: &mut Tally, rng: &mut Rng) {
    for shape in shapes() {
        let records = random_sheets::with_few_edges(rng, shape).records();
        for first in 0..records.len() {
            for second in 0..records.len() {
                compare_moved(tally, &records, first, second);
            }
        }
    }
}

/// A record with each mark in turn, with all, few or no bytes behind it.
fn compare_marks_at(tally: &mut Tally, records: &[Vec<u8>], index: usize) {
    let mark_end = records[..index].concat().len() + 2;
    for mark in random_faults::MARKS {
        let mut changed = records.to_vec();
        changed[index][..2].copy_from_slice(mark);
        let bytes = changed.concat();
        compare(tally, &bytes);
        for length in mark_end - 1..bytes.len().min(mark_end + 5) {
            compare(tally, &bytes[..length]);
        }
    }
}

fn compare_marks(tally: &mut Tally, rng: &mut Rng) {
    for shape in shapes() {
        let records = random_sheets::with_few_edges(rng, shape).records();
        for index in 0..records.len() {
            compare_marks_at(tally, &records, index);
        }
    }
}

fn compare_random_faults(tally: &mut Tally, rng: &mut Rng) {
    for _ in 0..100_000 {
        let sheet = random_sheets::proper(rng);
        compare(tally, &random_faults::changed_sheet(rng, &sheet));
    }
    for _ in 0..20_000 {
        compare(tally, &random_faults::random_bytes(rng));
    }
}

#[test]
fn check_agrees_on_generated_sheets() {
    let mut tally = Tally::default();
    let mut rng = Rng::new(SEED);
    compare_proper_sheets(&mut tally, &mut rng);
    compare_single_faults(&mut tally, &mut rng);
    compare_proper_fronts(&mut tally, &mut rng);
    compare_faulty_fronts(&mut tally, &mut rng);
    compare_trailing_bytes(&mut tally, &mut rng);
    compare_byte_changes(&mut tally, &mut rng);
    compare_orders(&mut tally, &mut rng);
    compare_marks(&mut tally, &mut rng);
    compare_random_faults(&mut tally, &mut rng);
    tally.print("sheets checked");

    assert!(tally.total("check") >= 200_000);
    tally.assert_often("check", [0], 10_000);
    tally.assert_often("check", SHEET_REFUSALS, 5_000);
    tally.assert_only("check", [&[0], &SHEET_REFUSALS[..]].concat());
    let at_ex = [CUT_OFF, WRONG_MARK, WRONG_EDGE];
    tally.assert_often(REFUSED_AT_EX, at_ex, 2_000);
    tally.assert_only(REFUSED_AT_EX, at_ex);
    let at_pm = [CUT_OFF, WRONG_MARK, WRONG_PROCESS, WRONG_PROMPT];
    tally.assert_often(REFUSED_AT_PM, at_pm, 2_000);
    tally.assert_only(REFUSED_AT_PM, at_pm);
}

/// A tied sheet with a wrong tie, with an SY in a wrong place or cut off, or with
/// any faults.
fn faulty_ties(rng: &mut Rng) -> Vec<u8> {
    let mut sheet = random_sheets::with_ties(rng, 2);
    match rng.below(4) {
        0 | 1 => {
            random_ties::spoil(rng, &mut sheet);
            sheet.bytes()
        }
        2 => random_ties::misplaced(rng, &sheet),
        _ => random_faults::changed_sheet(rng, &sheet),
    }
}

#[test]
fn check_agrees_on_ties() {
    let mut tally = Tally::default();
    let mut rng = Rng::new(SEED);
    for _ in 0..100_000 {
        compare(&mut tally, &faulty_ties(&mut rng));
    }
    tally.print("tied sheets checked");

    let often = 1_000;
    let faults = TieFault::ALL.map(|fault| fault as usize);
    tally.assert_often(ONLY_FAULT, faults, often);
    let places = TiePlace::ALL.map(|place| place as usize);
    tally.assert_often(PLACE, places, often);
    tally.assert_often(PLACE_OF_MARK, places, often / 4);
    tally.assert_often(CUT_BEHIND_PROCESS, [false, true], often);
    tally.assert_often(BEFORE_COMPOSITION, [false, true], often);
}

const WITHOUT_PROMPTS: &str = "21, and the same sheet with PR alone";

/// A sheet with a wrong prompt input, and perhaps with a wrong tie or a variable
/// without an owner behind it.
fn compare_wrong_prompt(tally: &mut Tally, rng: &mut Rng, mut sheet: Sheet) {
    match rng.below(4) {
        0 => random_ties::spoil(rng, &mut sheet),
        1 => sheet.variables = (sheet.variables + 1).min(8),
        _ => {}
    }
    random_prompts::spoil(rng, &mut sheet);
    if compare(tally, &sheet.bytes()) == WRONG_PROMPT {
        let answer = compare(tally, &sheet.without_prompts().bytes());
        tally.count(WITHOUT_PROMPTS, answer);
    }
}

/// A sheet with prompt inputs of which one is wrong, with a PM in a wrong place or
/// cut off, or with any faults.
fn compare_faulty_prompts(tally: &mut Tally, rng: &mut Rng) {
    let sheet = random_sheets::with_prompts(rng, 2);
    match rng.below(4) {
        0 | 1 => compare_wrong_prompt(tally, rng, sheet),
        2 => {
            compare(tally, &random_prompts::misplaced(rng, &sheet));
        }
        _ => {
            compare(tally, &random_faults::changed_sheet(rng, &sheet));
        }
    }
}

#[test]
fn check_agrees_on_prompts() {
    let mut tally = Tally::default();
    let mut rng = Rng::new(SEED);
    for _ in 0..100_000 {
        compare_faulty_prompts(&mut tally, &mut rng);
    }
    tally.print("sheets with prompt inputs checked");

    let often = 1_000;
    let faults = PromptFault::ALL.map(|fault| fault as usize);
    tally.assert_often(prompt_places::ONLY_FAULT, faults, often);
    let places = PromptPlace::ALL.map(|place| place as usize);
    tally.assert_often(prompt_places::PLACE, places, often);
    tally.assert_often(prompt_places::PLACE_OF_MARK, places, often / 10);
    tally.assert_often(FIELDS_LEFT, 0..=3, often);
    let behind = [0, WRONG_TIE, WRONG_COMPOSITION];
    tally.assert_often(WITHOUT_PROMPTS, behind, often);
}

/// The library and the independent reading both give the stated answer.
fn assert_answer(name: &str, bytes: &[u8], answer: u32) {
    assert_eq!(ffi::check(bytes), answer, "library, {name}");
    let own = read_sheet(bytes).err().unwrap_or(0);
    assert_eq!(own, answer, "independent reading, {name}");
}

#[test]
fn bench_case_a_is_read_field_by_field() {
    assert_eq!(case_a().bytes(), SHEET_A);
    assert_eq!(read_sheet(&SHEET_A), Ok(case_a()));
    assert_answer("case A", &SHEET_A, 0);
}

#[test]
fn bench_cases_are_read_field_by_field() {
    let cases = [
        (case_s(), &SHEET_S[..]),
        (case_u(), &SHEET_U[..]),
        (case_p(Some(0x02)), &SHEET_P[..]),
        (case_q(0x02), &SHEET_Q[..]),
    ];
    for (sheet, bytes) in cases {
        assert_eq!(sheet.bytes(), bytes);
        assert_eq!(read_sheet(bytes), Ok(sheet));
        assert_answer("a case", bytes, 0);
    }
}

#[test]
fn bench_cases_that_are_proper() {
    for (name, sheet) in proper_cases() {
        assert_answer(name, &sheet.bytes(), 0);
    }
    assert_eq!(case_j().composed(), MOST_COMPOSED);
}

#[test]
fn bench_cases_that_are_refused() {
    for (name, bytes, refusal) in refused_cases() {
        assert_answer(name, &bytes, refusal);
    }
}

//! The enumeration that find is held against: the order and the count of the
//! choices, and the fast one against the plain one. The library is not called.

use soclethyme_tests::bench_cases::{book_s, case_c, proper_cases, BOOK_A};
use soclethyme_tests::book::{book_of, read, TABLES_LENGTH};
use soclethyme_tests::choices::{self, choice_count, choices, untied_count, FoundChoice};
use soclethyme_tests::detectors::{detector, input_masks};
use soclethyme_tests::fast_enumeration;
use soclethyme_tests::few_choices;
use soclethyme_tests::many_choices::{opening, relay, three_clients, tied_openings};
use soclethyme_tests::proper_sheet::ProperSheet;
use soclethyme_tests::random_sheets;
use soclethyme_tests::rng::Rng;
use soclethyme_tests::sheet::Sheet;
use soclethyme_tests::text::hex;

const SEED: u64 = 0x5EED_0005;

fn assert_proper_choice(proper: &ProperSheet, entries: &[u8]) {
    let book = book_of(&proper.layout, entries);
    let mut tables = [0; TABLES_LENGTH];
    assert_eq!(read(&proper.bytes, &book, &mut tables), Ok(()));
    assert_eq!(&tables[..entries.len()], entries);
}

/// Rising choices within the rules, and as many as there are: all of them.
#[test]
fn choices_rise_and_are_counted() {
    let mut rng = Rng::new(SEED);
    for round in 0..1_000 {
        let sheet = match round % 2 {
            0 => few_choices::sheet(&mut rng, 300),
            _ => few_choices::with_ties(&mut rng, 5_000),
        };
        let proper = ProperSheet::new(sheet);
        let choices: Vec<Vec<u8>> = choices(&proper).collect();
        assert_eq!(choices.len() as u64, choice_count(&proper.sheet));
        assert!(choices.iter().is_sorted_by(|one, next| one < next));
        for entries in &choices {
            assert_proper_choice(&proper, entries);
        }
    }
}

#[test]
fn counts_of_many_choices() {
    assert_eq!(choice_count(&case_c(3, 3)), 34_012_224);
    assert_eq!(choice_count(&three_clients(3, 2)), 47_775_744);
    assert_eq!(choice_count(&relay(3, 3)), 34_012_224);
    assert_eq!(choice_count(&opening(3)), 34_012_224);
    let tied = tied_openings(3);
    assert_eq!(choice_count(&tied), 34_012_224);
    assert_eq!(untied_count(&tied), 34_012_224 * 34_012_224);
    let sheet = random_sheets::with_longest_book(&mut Rng::new(SEED));
    assert_eq!(choice_count(&sheet), u64::MAX);
}

/// What both enumerations give.
fn agreed(sheet: Sheet) -> Option<FoundChoice> {
    let proper = ProperSheet::new(sheet);
    let plain = choices::first_choice(&proper);
    let fast = fast_enumeration::first_choice(&proper);
    assert_eq!(fast, plain, "sheet {}", hex(&proper.bytes));
    plain
}

/// How many sheets have few choices, and how many can have many.
const WITH_FEW: usize = 3_000;
const WITH_MANY: usize = 100;

#[test]
fn fast_enumeration_agrees() {
    let mut rng = Rng::new(SEED);
    let limits = [vec![300; WITH_FEW], vec![20_000; WITH_MANY]].concat();
    let found = limits.into_iter().map(|most| {
        let sheet = few_choices::sheet(&mut rng, most);
        agreed(sheet)
    });
    let (found, none): (Vec<_>, Vec<_>) = found.partition(Option::is_some);
    let not_first = found.iter().flatten().filter(|found| found.before > 0);
    assert!(none.len() >= 800 && not_first.count() >= 800);
}

/// How many sheets have ties.
const WITH_TIES: usize = 1_000;

/// Both agree, and so does the fast test of all tables that keep the ties.
#[test]
fn fast_enumeration_agrees_on_ties() {
    let mut rng = Rng::new(SEED);
    let found = (0..WITH_TIES).map(|_| {
        let sheet = few_choices::with_ties(&mut rng, 20_000);
        let proper = ProperSheet::new(sheet.clone());
        let found = agreed(sheet);
        let filtered = fast_enumeration::first_among(&proper, choices(&proper));
        assert_eq!(filtered, found, "sheet {}", hex(&proper.bytes));
        found
    });
    let (found, none): (Vec<_>, Vec<_>) = found.partition(Option::is_some);
    let not_first = found.iter().flatten().filter(|found| found.before > 0);
    assert!(none.len() >= WITH_TIES / 5 && not_first.count() >= WITH_TIES / 5);
}

/// One input and two, wherever they lie; with more the plain one takes long.
#[test]
fn fast_enumeration_agrees_on_input_masks() {
    let masks = input_masks().filter(|mask| mask.count_ones() <= 2);
    let found: Vec<_> = masks.map(|inputs| agreed(detector(inputs))).collect();
    assert!(found.len() == 29 && found.iter().all(Option::is_some));
}

/// How many sheets have prompt inputs.
const WITH_PROMPTS: usize = 1_000;

#[test]
fn fast_enumeration_agrees_on_prompts() {
    let mut rng = Rng::new(SEED);
    let found = (0..WITH_PROMPTS).map(|_| {
        let sheet = few_choices::with_prompts(&mut rng, 1_000);
        agreed(sheet)
    });
    let (found, none): (Vec<_>, Vec<_>) = found.partition(Option::is_some);
    let not_first = found.iter().flatten().filter(|found| found.before > 0);
    assert!(none.len() >= WITH_PROMPTS / 5 && not_first.count() >= WITH_PROMPTS / 5);
}

/// Beyond so many choices the plain one takes long.
const MOST_IN_CASES: u64 = 100_000;

#[test]
fn fast_enumeration_agrees_on_cases() {
    let mut cases = proper_cases();
    cases.retain(|(_, sheet)| choice_count(sheet) <= MOST_IN_CASES);
    for (name, sheet) in cases {
        let found = agreed(sheet);
        let none = [
            "case B",
            "case C",
            "case F, bound",
            "case S, one edge more",
            "case U, chained",
            "case U, circular",
            "case P, ",
        ];
        let expected = !none.iter().any(|none| name.starts_with(none));
        assert_eq!(found.is_some(), expected, "{name}");
        if let Some(case_s) = found.as_ref().filter(|_| name.starts_with("case S")) {
            let untied = name == "case S, no tie";
            let (before, masks) = if untied { (6, (1, 8)) } else { (3, (5, 10)) };
            assert_eq!(case_s.before, before, "{name}");
            assert_eq!(case_s.book, book_s(masks.0, masks.1), "{name}");
        }
        if let Some(case_a) = found.filter(|_| name.starts_with("case A")) {
            assert_eq!((case_a.before, case_a.book), (2_016, BOOK_A.to_vec()));
        }
    }
}

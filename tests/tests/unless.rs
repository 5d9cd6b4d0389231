//! The library with edges that say unless against itself without them: each is
//! replaced by the edges that it stands for, and all that is written is compared.
//! Only the run to a rejecting loop is not, since its edges have other numbers
//! then: it is replayed.

use soclethyme_tests::few_choices;
use soclethyme_tests::ffi::{self, NEGATIVE, POSITIVE};
use soclethyme_tests::lasso::{least_path, Lasso};
use soclethyme_tests::random_books::with_book;
use soclethyme_tests::random_sheets::{self, shapes};
use soclethyme_tests::rejecting_loops;
use soclethyme_tests::rng::Rng;
use soclethyme_tests::sheet::Sheet;
use soclethyme_tests::tally::Tally;
use soclethyme_tests::text::hex;
use soclethyme_tests::transition_system::TransitionSystem;

const SEED: u64 = 0x5EED_0007;

/// A sheet with edges that say unless, and the same sheet without them.
struct Replaced {
    unless: Vec<u8>,
    plain: Vec<u8>,
    vertices: usize,
}

impl Replaced {
    /// None if it says unless nowhere, or if 64 edges do not suffice.
    fn new(tally: &mut Tally, sheet: &Sheet) -> Option<Self> {
        let said = sheet.edges.iter().filter(|edge| edge.unless).count();
        let plain = sheet.without_unless().filter(|_| said > 0)?;
        tally.count("edges that say unless", said);
        tally.count(
            "edges in their place",
            plain.edges.len() + said - sheet.edges.len(),
        );
        Some(Replaced {
            unless: sheet.bytes(),
            plain: plain.bytes(),
            vertices: sheet.vertices(),
        })
    }

    /// The answer to both, with what the call then holds.
    fn same<T: PartialEq>(
        &self,
        tally: &mut Tally,
        call: &'static str,
        answered: impl Fn(&[u8]) -> (u32, T),
    ) -> u32 {
        let (unless, plain) = (answered(&self.unless), answered(&self.plain));
        let sheets = || format!("{}\n{}", hex(&self.unless), hex(&self.plain));
        assert!(unless == plain, "{call}\n{}", sheets());
        tally.count(call, unless.0);
        unless.0
    }

    fn compare_check(&self, tally: &mut Tally) {
        let answer = self.same(tally, "check", |sheet| (ffi::check(sheet), ()));
        assert_eq!(answer, POSITIVE);
    }

    fn compare_annotate(&self, tally: &mut Tally, book: &[u8]) {
        self.same(tally, "annotate", |sheet| {
            let mut annotation = vec![0xEEEE; self.vertices + 3];
            let mut path = vec![0xEE; least_path(self.vertices)];
            let mut lengths = [0; 2];
            let answer = ffi::annotate(sheet, book, &mut annotation, &mut path, &mut lengths);
            if answer == NEGATIVE {
                assert_replays(sheet, book, &path, lengths);
            }
            (answer, annotation)
        });
    }

    fn compare_find(&self, tally: &mut Tally) {
        self.same(tally, "find", |sheet| {
            let (mut book, mut annotation) = (vec![0xEE; 340], vec![0xEEEE; self.vertices + 3]);
            let answer = ffi::find(sheet, &mut book, &mut annotation);
            (answer, (book, annotation))
        });
    }
}

fn assert_replays(sheet: &[u8], book: &[u8], path: &[u8], lengths: [u32; 2]) {
    let system = TransitionSystem::read(sheet, book).expect("a proper sheet and book");
    if let Err(fault) = Lasso::replayed(&system, path, lengths) {
        panic!("{fault:?}, sheet {}, book {}", hex(sheet), hex(book));
    }
}

/// Checks both, and annotates a book with both.
fn compare_book(tally: &mut Tally, rng: &mut Rng, sheet: Sheet) {
    let input = with_book(rng, sheet);
    if let Some(replaced) = Replaced::new(tally, &input.proper.sheet) {
        replaced.compare_check(tally);
        replaced.compare_annotate(tally, &input.book);
    }
}

#[test]
fn unless_is_one_edge_for_each_variable() {
    let mut tally = Tally::default();
    let mut rng = Rng::new(SEED);
    for shape in shapes() {
        for _ in 0..40 {
            let sheet = random_sheets::proper_of_shape(&mut rng, shape);
            compare_book(&mut tally, &mut rng, sheet);
            let sheet = rejecting_loops::sheet_of_shape(&mut rng, shape);
            compare_book(&mut tally, &mut rng, sheet);
        }
    }
    for _ in 0..4_000 {
        let sheet = few_choices::sheet(&mut rng, 20_000);
        if let Some(replaced) = Replaced::new(&mut tally, &sheet) {
            replaced.compare_check(&mut tally);
            replaced.compare_find(&mut tally);
        }
    }
    tally.print("sheets with unless, and without");

    let (findings, often) = ([POSITIVE, NEGATIVE], 500);
    for call in ["annotate", "find"] {
        tally.assert_often(call, findings, often);
        tally.assert_only(call, findings);
    }
    tally.assert_often("edges that say unless", 1..=4, often);
    tally.assert_often("edges in their place", 0..=8, 100);
}

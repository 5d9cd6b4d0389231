//! How much stack find and annotate take: a thread's stack is painted, the call
//! runs on it, and what is no longer painted was used.

use std::hint::black_box;
use std::mem::MaybeUninit;
use std::thread;

use soclethyme_tests::bench_cases::{case_a, case_c};
use soclethyme_tests::book::LONGEST_BOOK;
use soclethyme_tests::ffi;
use soclethyme_tests::joint_counter::LONGEST_COUNTER;
use soclethyme_tests::lasso::least_path;
use soclethyme_tests::looping_books::{adders, longest_run, PassedOnce};
use soclethyme_tests::many_choices::{counters, opening, relay, three_clients, tied_openings};
use soclethyme_tests::proper_sheet::SheetAndBook;
use soclethyme_tests::sheet::{Sheet, MOST_VERTICES};

/// What is painted; the thread's stack is larger.
const PAINTED: usize = 4 << 20;

const MEMORY_PAGE: usize = 4096;

/// Pages that are passed over: the two frames need not lie at the same depth.
const MARGIN: usize = 16;

const STACK: usize = 16 << 20;

const PAINT: u8 = 0xA5;

#[inline(never)]
fn paint() {
    let mut area = [PAINT; PAINTED];
    black_box(&mut area);
}

/// Bytes between the deepest page that was changed and this frame.
#[inline(never)]
fn used() -> usize {
    let mut area = MaybeUninit::<[u8; PAINTED]>::uninit();
    let first = black_box(area.as_mut_ptr()) as *const u8;
    // SAFETY: the bytes are this frame's own, and were painted before.
    let byte = |at: usize| unsafe { first.add(at).read_volatile() };
    // A large frame writes a word to each page as it begins: this one did too.
    let is_painted = |page: &usize| {
        let changed = (0..MEMORY_PAGE).filter(|at| byte(page * MEMORY_PAGE + at) != PAINT);
        changed.count() <= 16
    };
    let pages = MARGIN..PAINTED / MEMORY_PAGE;
    let untouched = pages.take_while(is_painted).count();
    PAINTED - (MARGIN + untouched) * MEMORY_PAGE
}

/// Prints the answer and the bytes of a call that has a thread of its own.
fn measure(name: &str, run: impl FnOnce() -> (u32, usize) + Send + 'static) {
    let thread = thread::Builder::new().stack_size(STACK).spawn(run);
    let (answer, bytes) = thread.expect("a thread").join().expect("its result");
    println!("{name:<32} {answer:>6} {bytes:>8}");
}

fn measure_find(name: &str, sheet: Sheet) {
    let sheet = sheet.bytes();
    measure(name, move || {
        let mut book = [0; LONGEST_BOOK];
        let mut annotation = [0; MOST_VERTICES];
        paint();
        let answer = ffi::find(&sheet, &mut book, &mut annotation);
        (answer, used())
    });
}

fn measure_annotate(name: &str, input: SheetAndBook) {
    measure(name, move || {
        let (sheet, book) = (&input.proper.bytes, &input.book);
        let mut annotation = [0; MOST_VERTICES];
        let mut path = vec![0; least_path(MOST_VERTICES)];
        let mut lengths = [0; 2];
        paint();
        let answer = ffi::annotate(sheet, book, &mut annotation, &mut path, &mut lengths);
        (answer, used())
    });
}

fn main() {
    println!("{:<32} {:>6} {:>8}", "find", "answer", "bytes");
    measure_find("case A", case_a());
    measure_find("case C, bounds 3 and 3", case_c(3, 3));
    measure_find("three clients, bounds 3 and 2", three_clients(3, 2));
    measure_find("relay, bounds 3 and 3", relay(3, 3));
    measure_find("opening, bound 3", opening(3));
    measure_find("tied openings, bounds 3", tied_openings(3));
    measure_find("counters, no environment", counters(0));
    measure_find("counters, one variable", counters(1));
    println!();
    println!("{:<32} {:>6} {:>8}", "annotate", "answer", "bytes");
    measure_annotate("longest counter", LONGEST_COUNTER.with_book());
    measure_annotate("longest run", longest_run(false));
    let behind = adders(PassedOnce::Behind, true);
    measure_annotate("loop, rejecting behind", behind);
}

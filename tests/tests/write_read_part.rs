//! The library's writing, reading and parting of books against the independent
//! ones. After each call every lent byte is compared, also behind a refusal.

use soclethyme_tests::bench_cases::{
    book_s, case_d, case_e, BOOK_A, BOOK_D, BOOK_E, SHEET_A, SHEET_S,
};
use soclethyme_tests::book::{
    self, book_of, entries, ByteRule, Tables, LONGEST_BOOK, TABLES_LENGTH,
};
use soclethyme_tests::ffi::{self, numbered_part, part_number, success_number};
use soclethyme_tests::guarded_buffer::GuardedBuffer;
use soclethyme_tests::proper_sheet::ProperSheet;
use soclethyme_tests::random_books::{
    self, any_tables, loosed_entries, maybe_wrong_book, maybe_wrong_tables, wrong_byte, wrong_bytes,
};
use soclethyme_tests::random_faults;
use soclethyme_tests::random_sheets::{self, shapes};
use soclethyme_tests::refusal::{
    CUT_OFF, NO_PROCESS, SHEET_REFUSALS, SHORT_BUFFER, WRONG_ENTRY, WRONG_FORM,
};
use soclethyme_tests::rng::Rng;
use soclethyme_tests::single_faults;
use soclethyme_tests::tally::Tally;
use soclethyme_tests::text::hex;

const SEED: u64 = 0x5EED_0002;

/// Writes into a buffer that holds these bytes.
fn compare_write(tally: &mut Tally, sheet: &[u8], tables: &Tables, held: &[u8]) -> u32 {
    let mut expected = held.to_vec();
    let own = success_number(book::write(sheet, tables, &mut expected));
    assert!(own == 0 || expected == held, "a refusal changes no buffer");
    let mut lent = GuardedBuffer::holding(held);
    let library = ffi::write(sheet, tables, lent.lent());
    assert!(
        library == own && lent.holds(&expected),
        "write: library {library}, independent {own}, buffer of {}\nsheet {}\ntables {}\n{}",
        held.len(),
        hex(sheet),
        hex(tables),
        lent.compared(&expected)
    );
    tally.count("write", own);
    own
}

/// Reads into tables that hold these bytes.
fn compare_read(tally: &mut Tally, sheet: &[u8], book: &[u8], held: &Tables) -> u32 {
    let mut expected = *held;
    let own = success_number(book::read(sheet, book, &mut expected));
    assert!(own == 0 || expected == *held, "a refusal changes no tables");
    let mut lent = GuardedBuffer::holding(held);
    let tables = lent.lent().try_into().expect("272 bytes");
    let library = ffi::read(sheet, book, tables);
    assert!(
        library == own && lent.holds(&expected),
        "read: library {library}, independent {own}\nsheet {}\nbook {}\n{}",
        hex(sheet),
        hex(book),
        lent.compared(&expected)
    );
    tally.count("read", own);
    own
}

/// Gives 0 for a part, whose start and end are compared.
fn compare_part(tally: &mut Tally, sheet: &[u8], book: &[u8], process: usize) -> u32 {
    let own = book::part(sheet, book, process);
    let library = ffi::part(sheet, book, process);
    assert_eq!(
        library,
        own.as_ref().map_or_else(|refusal| *refusal, part_number),
        "part of process {process}: library {library}, independent {own:?}\nsheet {}\nbook {}",
        hex(sheet),
        hex(book)
    );
    let answer = success_number(own.map(|_| ()));
    tally.count("part", answer);
    answer
}

/// Sheets of every shape, such with chains of ties, and those with the longest
/// books.
fn proper_sheets(rng: &mut Rng) -> Vec<ProperSheet> {
    let mut sheets = Vec::new();
    for shape in shapes() {
        let sheet = random_sheets::with_few_edges(rng, shape);
        sheets.push(ProperSheet::new(sheet));
    }
    for _ in 0..20 {
        let chained = random_sheets::with_chained_ties(rng);
        sheets.push(ProperSheet::new(chained));
    }
    for _ in 0..3 {
        let longest = ProperSheet::new(random_sheets::with_longest_book(rng));
        assert_eq!(longest.layout.len(), LONGEST_BOOK);
        assert_eq!(longest.entry_rules().count(), TABLES_LENGTH);
        sheets.push(longest);
    }
    sheets
}

/// Lengths of buffers that are too short, right, and too long.
fn lengths_around(rng: &mut Rng, right: usize) -> Vec<usize> {
    let shorter = rng.below(right);
    let longer = right + rng.within(1, 80);
    let mut lengths = vec![0, 1, 2, shorter];
    lengths.extend(right - 2..=right + 2);
    lengths.extend([longer, right + 256, LONGEST_BOOK]);
    lengths
}

fn any_length_around(rng: &mut Rng, right: usize) -> usize {
    let lengths = lengths_around(rng, right);
    *rng.pick(&lengths)
}

fn compare_written_books(tally: &mut Tally, rng: &mut Rng, proper: &ProperSheet) {
    let right = proper.layout.len();
    for length in lengths_around(rng, right) {
        let tables = random_books::tables(rng, proper);
        let answer = compare_write(tally, &proper.bytes, &tables, &rng.bytes(length));
        let expected = if length < right { SHORT_BUFFER } else { 0 };
        assert_eq!(answer, expected);
    }
}

/// Each entry out of range in turn, with buffers of which some are too short.
fn compare_wrong_tables(tally: &mut Tally, rng: &mut Rng, proper: &ProperSheet) {
    for (entry, rule) in proper.entry_rules().enumerate() {
        for wrong in wrong_bytes(rule) {
            let mut tables = random_books::tables(rng, proper);
            tables[entry] = wrong;
            let length = any_length_around(rng, proper.layout.len());
            let answer = compare_write(tally, &proper.bytes, &tables, &rng.bytes(length));
            assert_eq!(answer, WRONG_ENTRY, "entry {entry} set to {wrong}");
        }
    }
}

/// What breaks a tie: a mask, or a next state.
const BROKEN_TABLES: &str = "a tie broken by a mask";

/// Each tied entry with another value that it may have by itself, in tables and
/// in a book. The form of the book, and whether there is the process, come first;
/// whether the book fits into its buffer comes later.
fn compare_broken_ties(tally: &mut Tally, rng: &mut Rng, proper: &ProperSheet) {
    let rules: Vec<ByteRule> = proper.entry_rules().collect();
    let choice = random_books::entries(rng, proper);
    for loosed in loosed_entries(rng, proper, &choice) {
        let mut broken = choice.clone();
        broken[loosed.at] = loosed.value;
        let is_mask = matches!(rules[loosed.at], ByteRule::Output(_));
        tally.count(BROKEN_TABLES, is_mask);
        let tables = tables_of(&broken, rng.byte());
        let length = any_length_around(rng, proper.layout.len());
        let answer = compare_write(tally, &proper.bytes, &tables, &rng.bytes(length));
        assert_eq!(answer, WRONG_ENTRY, "entry {} loosed", loosed.at);
        compare_broken_book(tally, rng, proper, &book_of(&proper.layout, &broken));
    }
}

fn compare_broken_book(tally: &mut Tally, rng: &mut Rng, proper: &ProperSheet, book: &[u8]) {
    let missing = proper.sheet.processes.len();
    assert_answer(tally, rng, proper, book, WRONG_ENTRY);
    let answer = compare_part(tally, &proper.bytes, book, missing);
    assert_eq!(answer, NO_PROCESS);

    let mut wrong_form = book.to_vec();
    wrong_form[book.len() - 1] ^= 1;
    assert_answer(tally, rng, proper, &wrong_form, WRONG_FORM);
    let answer = compare_part(tally, &proper.bytes, &wrong_form, missing);
    assert_eq!(answer, NO_PROCESS);
}

/// Process numbers that there are, that there are not, and that would be there
/// if they were kept in fewer bits.
fn process_numbers() -> Vec<usize> {
    let mut numbers: Vec<usize> = (0..=5).collect();
    let word = u32::MAX as usize;
    numbers.extend([255, 256, 257, 65_535, 65_536, 65_537]);
    numbers.extend([word, word.wrapping_add(1), word.wrapping_add(2)]);
    numbers.extend([usize::MAX / 2 + 1, usize::MAX - 1, usize::MAX]);
    numbers
}

/// Reads a book and takes a part of it, where the answer is known.
fn assert_answer(tally: &mut Tally, rng: &mut Rng, proper: &ProperSheet, book: &[u8], answer: u32) {
    let given = compare_read(tally, &proper.bytes, book, &any_tables(rng));
    assert_eq!(given, answer, "read {}", hex(book));
    let process = rng.below(proper.sheet.processes.len());
    let given = compare_part(tally, &proper.bytes, book, process);
    assert_eq!(given, answer, "part {process} of {}", hex(book));
}

fn compare_proper_books(tally: &mut Tally, rng: &mut Rng, proper: &ProperSheet) {
    for _ in 0..6 {
        let book = random_books::book(rng, proper);
        assert_answer(tally, rng, proper, &book, 0);
        for process in process_numbers() {
            let known = process < proper.sheet.processes.len();
            let answer = compare_part(tally, &proper.bytes, &book, process);
            assert_eq!(answer, if known { 0 } else { NO_PROCESS });
        }
    }
}

/// Books cut at every length, with the rest behind them in memory, and books
/// with bytes behind their EN.
fn compare_wrong_lengths(tally: &mut Tally, rng: &mut Rng, proper: &ProperSheet) {
    let book = random_books::book(rng, proper);
    for length in 0..book.len() {
        assert_answer(tally, rng, proper, &book[..length], WRONG_FORM);
    }
    for _ in 0..4 {
        let longer = [book.clone(), random_faults::trailing_bytes(rng)].concat();
        assert_answer(tally, rng, proper, &longer, WRONG_FORM);
    }
    for count in [1, 2, 256, 65_536] {
        let longer = [book.clone(), rng.bytes(count)].concat();
        assert_answer(tally, rng, proper, &longer, WRONG_FORM);
    }
}

/// A wrong byte, alone and with a wrong entry elsewhere: the form decides.
fn compare_wrong_byte(
    tally: &mut Tally,
    rng: &mut Rng,
    proper: &ProperSheet,
    position: usize,
    wrong: u8,
) {
    let answer = proper.refusal_at(position);
    let mut book = random_books::book(rng, proper);
    book[position] = wrong;
    assert_answer(tally, rng, proper, &book, answer);

    let other = *rng.pick(&proper.entry_positions());
    let entry = wrong_byte(rng, proper.layout[other]);
    if let Some(entry) = entry.filter(|_| other != position) {
        book[other] = entry;
        assert_answer(tally, rng, proper, &book, answer);
    }
}

/// Each byte wrong in turn.
fn compare_wrong_bytes(tally: &mut Tally, rng: &mut Rng, proper: &ProperSheet) {
    for (position, rule) in proper.layout.iter().enumerate() {
        for wrong in wrong_bytes(*rule) {
            compare_wrong_byte(tally, rng, proper, position, wrong);
        }
    }
}

/// Wrong books for processes that there are not: the process decides.
fn compare_wrong_processes(tally: &mut Tally, rng: &mut Rng, proper: &ProperSheet) {
    for process in process_numbers() {
        let mut book = random_books::book(rng, proper);
        random_faults::change_byte(rng, &mut book);
        let answer = compare_part(tally, &proper.bytes, &book, process);
        let known = process < proper.sheet.processes.len();
        assert_eq!(answer != NO_PROCESS, known, "process {process}");
    }
}

/// All three calls on whatever sheet, book, tables and buffer.
fn compare_calls(tally: &mut Tally, rng: &mut Rng, sheet: &[u8], book: &[u8], tables: &Tables) {
    let length = any_length_around(rng, book.len().max(8));
    compare_write(tally, sheet, tables, &rng.bytes(length));
    compare_read(tally, sheet, book, &any_tables(rng));
    let process = *rng.pick(&process_numbers());
    compare_part(tally, sheet, book, process);
}

fn compare_maybe_wrong(tally: &mut Tally, rng: &mut Rng) {
    for _ in 0..15_000 {
        let proper = ProperSheet::new(random_sheets::proper(rng));
        let book = maybe_wrong_book(rng, &proper);
        let tables = maybe_wrong_tables(rng, &proper);
        compare_calls(tally, rng, &proper.bytes, &book, &tables);
    }
}

/// Improper sheets, with books and tables that would suit the proper ones.
fn compare_improper_sheets(tally: &mut Tally, rng: &mut Rng) {
    for _ in 0..50_000 {
        let proper = ProperSheet::new(random_sheets::proper(rng));
        let sheet = random_faults::changed_sheet(rng, &proper.sheet);
        let book = maybe_wrong_book(rng, &proper);
        let tables = maybe_wrong_tables(rng, &proper);
        compare_calls(tally, rng, &sheet, &book, &tables);
    }
    for shape in shapes() {
        let proper = ProperSheet::new(random_sheets::with_few_edges(rng, shape));
        let faulty = single_faults::field_faults(&proper.sheet);
        for _ in 0..40 {
            let changed = rng.pick(&faulty);
            let book = random_books::book(rng, &proper);
            let tables = random_books::tables(rng, &proper);
            compare_calls(tally, rng, &changed.bytes, &book, &tables);
        }
    }
}

/// Each of these answers often, beside success and the refusals of a sheet, and
/// no other.
fn assert_answers(tally: &Tally, call: &'static str, refusals: &[u32]) {
    let answers = [&[0], &SHEET_REFUSALS[..], refusals].concat();
    tally.assert_often(call, answers.clone(), 1_000);
    tally.assert_only(call, answers);
}

#[test]
fn calls_agree_on_generated_books() {
    let mut tally = Tally::default();
    let mut rng = Rng::new(SEED);
    for proper in proper_sheets(&mut rng) {
        compare_written_books(&mut tally, &mut rng, &proper);
        compare_wrong_tables(&mut tally, &mut rng, &proper);
        compare_broken_ties(&mut tally, &mut rng, &proper);
        compare_proper_books(&mut tally, &mut rng, &proper);
        compare_wrong_lengths(&mut tally, &mut rng, &proper);
        compare_wrong_bytes(&mut tally, &mut rng, &proper);
        compare_wrong_processes(&mut tally, &mut rng, &proper);
    }
    for _ in 0..300 {
        let tied = random_sheets::with_ties(&mut rng, 2);
        compare_broken_ties(&mut tally, &mut rng, &ProperSheet::new(tied));
    }
    compare_maybe_wrong(&mut tally, &mut rng);
    compare_improper_sheets(&mut tally, &mut rng);
    tally.print("books written, read and parted");

    let calls = ["write", "read", "part"].map(|call| tally.total(call));
    assert!(calls.iter().sum::<u64>() >= 200_000);
    assert_answers(&tally, "write", &[SHORT_BUFFER, WRONG_ENTRY]);
    assert_answers(&tally, "read", &[WRONG_FORM, WRONG_ENTRY]);
    assert_answers(&tally, "part", &[WRONG_FORM, WRONG_ENTRY, NO_PROCESS]);
    tally.assert_often(BROKEN_TABLES, [false, true], 200);
}

/// What is written is read back, and reading then writing gives the same book.
#[test]
fn library_reads_what_it_writes() {
    let mut rng = Rng::new(SEED);
    for proper in proper_sheets(&mut rng) {
        let count = proper.entry_rules().count();
        let tables = random_books::tables(&mut rng, &proper);
        let mut book = vec![0; proper.layout.len()];
        assert_eq!(ffi::write(&proper.bytes, &tables, &mut book), 0);
        let mut back = any_tables(&mut rng);
        assert_eq!(ffi::read(&proper.bytes, &book, &mut back), 0);
        assert_eq!(back[..count], tables[..count]);
        assert!(back[count..].iter().all(|byte| *byte == 0));
        let mut again = vec![0; proper.layout.len()];
        assert_eq!(ffi::write(&proper.bytes, &back, &mut again), 0);
        assert_eq!(again, book);
    }
}

/// The parts of all processes, in order, and EN make up the book.
#[test]
fn parts_make_up_the_book() {
    let mut rng = Rng::new(SEED);
    for proper in proper_sheets(&mut rng) {
        let book = random_books::book(&mut rng, &proper);
        let mut end = 0;
        for process in 0..proper.sheet.processes.len() {
            let part = numbered_part(ffi::part(&proper.bytes, &book, process));
            assert_eq!(part.start, end);
            assert!(book[part.clone()].starts_with(&[b'T', b'B', process as u8, 0]));
            end = part.end;
        }
        assert_eq!(book[end..], *b"EN");
    }
}

/// Tables with these entries at the front and this byte behind them.
fn tables_of(entries: &[u8], behind: u8) -> Tables {
    let mut tables = [behind; TABLES_LENGTH];
    tables[..entries.len()].copy_from_slice(entries);
    tables
}

/// Written, read and parted as stated, by the library and here.
fn assert_book(sheet: &[u8], choice: &[u8], book: &[u8], part_ends: &[usize]) {
    let mut tally = Tally::default();
    let mut buffer = [0xEE; 400];
    let tables = tables_of(choice, 0xFF);
    assert_eq!(compare_write(&mut tally, sheet, &tables, &buffer), 0);
    assert_eq!(ffi::write(sheet, &tables, &mut buffer), 0);
    assert_eq!(buffer[..book.len()], *book);
    assert!(buffer[book.len()..].iter().all(|byte| *byte == 0xEE));

    let mut back = [0xEE; TABLES_LENGTH];
    assert_eq!(compare_read(&mut tally, sheet, book, &back), 0);
    assert_eq!(ffi::read(sheet, book, &mut back), 0);
    assert_eq!(back, tables_of(choice, 0));

    let mut start = 0;
    for (process, end) in part_ends.iter().enumerate() {
        assert_eq!(compare_part(&mut tally, sheet, book, process), 0);
        let part = numbered_part(ffi::part(sheet, book, process));
        assert_eq!(part, start..*end);
        start = *end;
    }
    let none = compare_part(&mut tally, sheet, book, part_ends.len());
    assert_eq!(none, NO_PROCESS);
}

#[test]
fn bench_case_a_book() {
    let choice = [4, 1, 1, 1, 1, 8, 0, 0, 0, 0];
    assert_book(&SHEET_A, &choice, &BOOK_A, &[18]);
}

#[test]
fn bench_case_d_book() {
    let choice = [4, 1, 1, 0, 0, 0, 0, 1, 1, 8, 0, 0];
    assert_book(&case_d().bytes(), &choice, &BOOK_D, &[14, 28]);
}

#[test]
fn bench_case_e_book() {
    assert_book(&case_e().bytes(), &[0, 0], &BOOK_E, &[6]);
}

/// S's book with its tie kept, and with each pair of masks: packed they are alike
/// or the tie is broken.
#[test]
fn bench_case_s_book() {
    let (kept, broken) = (book_s(0x01, 0x02), book_s(0x01, 0x08));
    assert_book(&SHEET_S, &[1, 0, 2, 0], &kept, &[6, 12]);
    let tally = &mut Tally::default();
    let held = [0xEE; TABLES_LENGTH];
    for first in [0, 1, 4, 5] {
        for second in [0, 2, 8, 10] {
            let answer = if second == 2 * first { 0 } else { WRONG_ENTRY };
            let book = book_s(first, second);
            assert_eq!(compare_read(tally, &SHEET_S, &book, &held), answer);
            assert_eq!(compare_part(tally, &SHEET_S, &book, 1), answer);
            let tables = tables_of(&[first, 0, second, 0], 0xEE);
            assert_eq!(compare_write(tally, &SHEET_S, &tables, &[0xEE; 14]), answer);
            let short = if answer == 0 { SHORT_BUFFER } else { answer };
            assert_eq!(compare_write(tally, &SHEET_S, &tables, &[0xEE; 13]), short);
        }
    }
    let mut wrong_form = broken;
    wrong_form[13] = 0x4F;
    assert_eq!(
        compare_read(tally, &SHEET_S, &wrong_form, &held),
        WRONG_FORM
    );
    for process in 0..2 {
        let answer = compare_part(tally, &SHEET_S, &wrong_form, process);
        assert_eq!(answer, WRONG_FORM);
    }
    for book in [kept, broken, wrong_form] {
        assert_eq!(compare_part(tally, &SHEET_S, &book, 2), NO_PROCESS);
    }
}

/// What A's book gets with this value at this position.
fn answer_to_changed_book_a(position: usize, value: u8) -> u32 {
    match position % 9 {
        _ if value == BOOK_A[position] => 0,
        0..=3 => WRONG_FORM,
        4 if value & !0x0C == 0 => 0,
        5..=8 if value < 2 => 0,
        _ => WRONG_ENTRY,
    }
}

/// Each byte of A's book set to each value.
#[test]
fn every_byte_of_case_a_book() {
    let mut tally = Tally::default();
    let held = [0xEE; TABLES_LENGTH];
    for position in 0..BOOK_A.len() {
        for value in 0..=255 {
            let mut book = BOOK_A;
            book[position] = value;
            let answer = answer_to_changed_book_a(position, value);
            assert_eq!(compare_read(&mut tally, &SHEET_A, &book, &held), answer);
            assert_eq!(compare_part(&mut tally, &SHEET_A, &book, 0), answer);
            assert_eq!(compare_part(&mut tally, &SHEET_A, &book, 1), NO_PROCESS);
        }
    }
}

/// The order of two faults at once: 11 before 8, 12 before 10, 10 before 11,
/// and a sheet's fault before them all.
#[test]
fn first_refusal_decides() {
    let tally = &mut Tally::default();
    let held = [0xEE; TABLES_LENGTH];
    let wrong_choice = tables_of(&[4, 1, 1, 1, 2, 8, 0, 0, 0, 0], 0);
    let answer = compare_write(tally, &SHEET_A, &wrong_choice, &[]);
    assert_eq!(answer, WRONG_ENTRY);

    let mut wrong_form = BOOK_A;
    wrong_form[4] = 0x10;
    wrong_form[19] = 0;
    let answer = compare_read(tally, &SHEET_A, &wrong_form, &held);
    assert_eq!(answer, WRONG_FORM);
    assert_eq!(compare_part(tally, &SHEET_A, &wrong_form, 0), WRONG_FORM);
    assert_eq!(compare_part(tally, &SHEET_A, &wrong_form, 1), NO_PROCESS);

    let cut = &SHEET_A[..59];
    assert_eq!(compare_write(tally, cut, &wrong_choice, &[]), CUT_OFF);
    assert_eq!(compare_read(tally, cut, &wrong_form, &held), CUT_OFF);
    assert_eq!(compare_part(tally, cut, &wrong_form, usize::MAX), CUT_OFF);
}

/// The entries that the independent reading finds are those it was built from.
#[test]
fn entries_and_books_are_inverse() {
    let mut rng = Rng::new(SEED);
    for proper in proper_sheets(&mut rng) {
        let choice = random_books::entries(&mut rng, &proper);
        let book = book_of(&proper.layout, &choice);
        assert_eq!(entries(&proper.layout, &book), choice);
    }
}

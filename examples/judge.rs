//! Finds the tables of case A, then judges them, and a copy that was tampered with.

#[link(name = "export", kind = "static")]
extern "C" {
    fn soclethyme_find(
        sheet: *const u8,
        sheet_len: usize,
        book: *mut u8,
        book_len: usize,
        annotation: *mut u16,
        annotation_len: usize,
    ) -> u32;
    fn soclethyme_judge(
        sheet: *const u8,
        sheet_len: usize,
        book: *const u8,
        book_len: usize,
        annotation: *const u16,
        annotation_len: usize,
    ) -> u32;
}

const CASE_A: [u8; 60] = *b"AR\x04\x02\x00PR\x03\x0C\x02AU\x04\x00\x0E\x00\
    ED\x00\x00\x00\x00ED\x00\x03\x0C\x00ED\x00\x01\x01\x00\
    ED\x00\x02\x02\x00ED\x01\x01\x00\x04ED\x02\x02\x00\x08\
    ED\x03\x03\x00\x00EN";

/// The tables of two states with four next states have two records of 9 bytes, then EN.
const BOOK_LENGTH: usize = 20;

fn judge(book: &[u8], annotation: &[u16]) -> String {
    // SAFETY: each pointer goes with the length of its own slice, and nothing is written.
    let answer = unsafe {
        soclethyme_judge(
            CASE_A.as_ptr(),
            CASE_A.len(),
            book.as_ptr(),
            book.len(),
            annotation.as_ptr(),
            annotation.len(),
        )
    };
    match answer {
        0 => "yes".into(),
        256 => "no".into(),
        refusal => format!("refused {refusal}"),
    }
}

fn main() {
    // The largest that any sheet needs.
    let mut book = [0u8; 338];
    let mut annotation = [0u16; 4096];
    // SAFETY: each pointer goes with the length of its own array, which nobody else uses.
    let answer = unsafe {
        soclethyme_find(
            CASE_A.as_ptr(),
            CASE_A.len(),
            book.as_mut_ptr(),
            book.len(),
            annotation.as_mut_ptr(),
            annotation.len(),
        )
    };
    println!("found: {}", answer == 0);
    let book = &mut book[..BOOK_LENGTH];
    println!("as found: {}", judge(book, &annotation));
    // The second state grants nothing: its output mask is the fifth byte of the second record.
    book[13] = 0;
    println!("without the second grant: {}", judge(book, &annotation));
    // A next state that there is not.
    book[14] = 2;
    println!("with a third state: {}", judge(book, &annotation));
}

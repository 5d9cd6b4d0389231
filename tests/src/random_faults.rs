//! Sheets with any number of faults, made from proper ones or from nothing.

use crate::random_prompts;
use crate::random_sheets;
use crate::random_ties;
use crate::rng::Rng;
use crate::sheet::{RecordKind, Sheet};

/// Values next to the limits of some field.
const LIMITS: [u8; 16] = [0, 1, 2, 3, 4, 5, 7, 8, 9, 15, 16, 17, 64, 127, 128, 255];

/// The marks of sheets and books.
pub const MARKS: [&[u8; 2]; 9] = [
    b"AR", b"PR", b"PM", b"SY", b"AU", b"ED", b"EX", b"EN", b"TB",
];

/// A sheet changed in a few ways at once; the first fault then decides.
pub fn changed_sheet(rng: &mut Rng, sheet: &Sheet) -> Vec<u8> {
    let mut sheet = sheet.clone();
    if rng.one_in(8) {
        random_ties::spoil(rng, &mut sheet);
    }
    if rng.one_in(8) {
        random_prompts::spoil(rng, &mut sheet);
    }
    let mut records = sheet.records();
    for _ in 0..rng.below(4) {
        change_field(rng, &mut records);
    }
    if rng.one_in(3) {
        change_records(rng, &sheet, &mut records);
    }
    let mut bytes = records.concat();
    match rng.below(8) {
        0 => cut(rng, &mut bytes),
        1 => bytes.extend(trailing_bytes(rng)),
        2 => change_byte(rng, &mut bytes),
        _ => {}
    }
    bytes
}

/// Sets one field of one record near a limit, or flips one of its bits.
fn change_field(rng: &mut Rng, records: &mut [Vec<u8>]) {
    // Edges can outnumber all other records, so the kind is drawn first.
    let kind = rng.pick(&RecordKind::WITH_FIELDS);
    let mut records: Vec<&mut Vec<u8>> = records
        .iter_mut()
        .filter(|record| record.starts_with(kind.mark()))
        .collect();
    if records.is_empty() {
        return;
    }
    let index = rng.below(records.len());
    let record = &mut records[index];
    let field = rng.within(2, record.len() - 1);
    let value = &mut record[field];
    *value = match rng.below(5) {
        0 => value.wrapping_add(1),
        1 => value.wrapping_sub(1),
        2 => *value ^ 1 << rng.below(8),
        3 => rng.byte(),
        _ => *rng.pick(&LIMITS),
    };
}

/// Inserts, removes, repeats or swaps records, or changes a mark.
fn change_records(rng: &mut Rng, sheet: &Sheet, records: &mut Vec<Vec<u8>>) {
    let index = rng.below(records.len());
    let second = rng.below(records.len());
    match rng.below(6) {
        0 => {
            let others = random_sheets::proper(rng).records();
            records.insert(index, rng.pick(&others).clone());
        }
        1 => {
            records.remove(index);
        }
        2 => records.insert(index, records[index].clone()),
        3 => records.swap(index, second),
        4 => {
            let mark = any_mark(rng);
            records[index][..2].copy_from_slice(&mark);
        }
        _ => {
            let edge = random_sheets::edge(rng, sheet);
            records.insert(index, edge.record());
        }
    }
}

/// A mark, or one that differs from it by little.
fn any_mark(rng: &mut Rng) -> [u8; 2] {
    let mut mark = **rng.pick(&MARKS);
    match rng.below(6) {
        0 => mark.swap(0, 1),
        1 => mark[rng.below(2)] ^= 0x20,
        2 => mark[rng.below(2)] = rng.byte(),
        _ => {}
    }
    mark
}

/// Drops the end, from any position on.
fn cut(rng: &mut Rng, bytes: &mut Vec<u8>) {
    let length = rng.below(bytes.len() + 1);
    bytes.truncate(length);
}

/// Bytes that may stand behind a sheet.
pub fn trailing_bytes(rng: &mut Rng) -> Vec<u8> {
    match rng.below(4) {
        0 => vec![0],
        1 => rng.pick(&MARKS).to_vec(),
        2 => vec![rng.byte()],
        _ => {
            let count = rng.within(1, 40);
            rng.bytes(count)
        }
    }
}

/// Flips a bit of, replaces, inserts or removes one byte.
pub fn change_byte(rng: &mut Rng, bytes: &mut Vec<u8>) {
    if bytes.is_empty() {
        return;
    }
    let position = rng.below(bytes.len());
    match rng.below(4) {
        0 => bytes[position] ^= 1 << rng.below(8),
        1 => bytes[position] = rng.byte(),
        2 => bytes.insert(position, rng.byte()),
        _ => {
            bytes.remove(position);
        }
    }
}

/// Bytes that no sheet was drawn for: any at all, marks with random fields, or
/// a sheet's front with random bytes behind it.
pub fn random_bytes(rng: &mut Rng) -> Vec<u8> {
    match rng.below(3) {
        0 => {
            let count = rng.below(80);
            rng.bytes(count)
        }
        1 => random_records(rng),
        _ => {
            let mut bytes = random_sheets::proper(rng).bytes();
            cut(rng, &mut bytes);
            let count = rng.below(30);
            bytes.extend(rng.bytes(count));
            bytes
        }
    }
}

/// Marks in any order with low fields, thus sometimes in range.
fn random_records(rng: &mut Rng) -> Vec<u8> {
    let kinds = RecordKind::IN_ORDER;
    // With one process no tie fits.
    let mut due = kinds.to_vec();
    due.retain(|kind| *kind != RecordKind::Tie);
    let mut bytes = Vec::new();
    for rank in 0..rng.below(8) {
        let kind = if rng.one_in(4) {
            *rng.pick(&kinds)
        } else {
            due[rank.min(due.len() - 1)]
        };
        bytes.extend(kind.mark());
        bytes.extend((0..kind.field_count()).map(|_| rng.below(6) as u8));
    }
    bytes
}

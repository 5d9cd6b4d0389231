//! Bytes and numbers as text, for comparisons that fail.

/// Bytes as the specification lists them, two upper-case digits each.
pub fn hex(bytes: &[u8]) -> String {
    let digits: Vec<String> = bytes.iter().map(|byte| format!("{byte:02X}")).collect();
    digits.join(" ")
}

/// Each number with how often it follows itself, and no more of them than can
/// be read.
pub fn run_lengths(numbers: &[u16]) -> String {
    let runs = numbers.chunk_by(|one, next| one == next);
    let runs = runs.map(|run| format!("{}*{}", run[0], run.len()));
    runs.take(300).collect::<Vec<_>>().join(" ")
}

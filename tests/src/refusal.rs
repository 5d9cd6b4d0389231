//! The numbers of the refusals.

/// 0 is never one: it stands for "not refused".
pub type Refusal = u32;

pub const CUT_OFF: Refusal = 1;
pub const WRONG_MARK: Refusal = 2;
pub const WRONG_ARCHITECTURE: Refusal = 3;
pub const WRONG_PROCESS: Refusal = 4;
pub const WRONG_COMPOSITION: Refusal = 5;
pub const WRONG_AUTOMATON: Refusal = 6;
pub const WRONG_EDGE: Refusal = 7;
/// The buffer for a book or for a joined sheet.
pub const SHORT_BUFFER: Refusal = 8;
pub const SHORT_ANNOTATION: Refusal = 9;
pub const WRONG_FORM: Refusal = 10;
pub const WRONG_ENTRY: Refusal = 11;
pub const NO_PROCESS: Refusal = 12;
pub const SHORT_PATH: Refusal = 13;
pub const WRONG_DESK: Refusal = 14;
pub const WRONG_TIE: Refusal = 15;
pub const FRONTS_DIFFER: Refusal = 19;
pub const TOO_LARGE: Refusal = 20;
pub const WRONG_PROMPT: Refusal = 21;

/// Those of a sheet.
pub const SHEET_REFUSALS: [Refusal; 9] = [1, 2, 3, 4, 5, 6, 7, WRONG_TIE, WRONG_PROMPT];

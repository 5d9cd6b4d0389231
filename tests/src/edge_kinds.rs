//! Which kinds of edges the sheets of a test have.

use crate::sheet::Sheet;
use crate::tally::Tally;

const BOTH_KINDS: &str = "edges of both kinds";

pub fn count_kinds(tally: &mut Tally, sheet: &Sheet) {
    tally.count(BOTH_KINDS, sheet.has_both_kinds());
}

/// A third of the sheets at least have edges of both kinds.
pub fn assert_both_kinds(tally: &Tally) {
    let sheets = tally.total(BOTH_KINDS);
    tally.assert_often(BOTH_KINDS, [true], sheets.div_ceil(3));
}

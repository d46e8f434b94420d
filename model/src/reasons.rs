//! What each refusal means, as the table of `docs/REFUSALS.md` says it.

use std::sync::LazyLock;

/// Its rows are `| number | what it means | what to do |`.
const TABLE: &str = include_str!("../../docs/REFUSALS.md");

static REASONS: LazyLock<Vec<(u8, String)>> =
    LazyLock::new(|| TABLE.lines().filter_map(row).collect());

/// The sentence that goes with a refusal's number.
pub fn reason(number: u8) -> &'static str {
    let found = REASONS.iter().find(|(row, _)| *row == number);
    found.map_or("no such refusal", |(_, meaning)| meaning)
}

/// The number and the meaning of a row, if a line is one.
fn row(line: &str) -> Option<(u8, String)> {
    let mut cells = line.strip_prefix('|')?.split('|').map(plain);
    Some((cells.next()?.parse().ok()?, cells.next()?))
}

/// A cell without its marks for code and emphasis.
fn plain(cell: &str) -> String {
    cell.replace(['`', '*'], "").trim().into()
}

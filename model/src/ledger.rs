//! How a plan's cost builds up: a table with a line for each step, and the cost below it.

use crate::form::VMS;
use crate::records::{Room, Step};
use crate::rules::{step_cost, step_sum};

const HEADING: [&str; 6] = ["step", "moves", "most", "before", "sum", "total"];

/// The line of a step: its number, its moves, the largest memory they move, what the steps before
/// it cost in all, what its own moves cost, and what the plan costs up to here.
pub type Line = [u64; 6];

/// The lines of a plan, or why it has none: a VM that is not there has no memory to pay for.
pub fn lines(room: &Room, steps: &[Step]) -> Result<Vec<Line>, String> {
    let (mut before, mut total) = (0, 0);
    let mut lines = Vec::new();
    for (number, step) in (1..).zip(steps) {
        if let Some(m) = step.iter().find(|m| m.vm >= room.vms.len()) {
            let why = VMS.missing(m.vm as u64, room.vms.len());
            return Err(format!("In step {number}, {why}."));
        }
        let most = step_cost(room, step);
        let sum = step_sum(room, step, before);
        total += sum;
        lines.push([number, step.len() as u64, most, before, sum, total]);
        before += most;
    }
    Ok(lines)
}

/// The table as text: the heading, the lines, and a last line that ends with the cost.
pub fn table(lines: &[Line], cost: u64) -> String {
    let mut rows = vec![HEADING.map(String::from)];
    rows.extend(lines.iter().map(|line| line.map(|number| number.to_string())));
    rows.push(["cost", "", "", "", "", &cost.to_string()].map(String::from));
    let wide = |column: usize| rows.iter().map(|row| row[column].len()).max().unwrap_or(0);
    let widths = [0, 1, 2, 3, 4, 5].map(wide);
    rows.iter().map(|row| flush_right(row, widths) + "\n").collect()
}

/// A row's cells, each at the right of its column.
fn flush_right(row: &[String; 6], widths: [usize; 6]) -> String {
    let cells = row.iter().zip(widths).map(|(cell, width)| format!("{cell:>width$}"));
    cells.collect::<Vec<String>>().join("  ")
}

//! What the programs print for a plan, a verdict, a stop and a split, and how numbers and marks are read.

use crate::planner::{build, Answer, BUFFER};
use crate::records::{parse_plan, Version, PLAN_HEADER};
use crate::rules::Verdict;
use crate::split::{self, Split};
use crate::stop::{stop, Stop};

/// A line of counts and a line for each move, or the line of a refusal.
pub fn plan_text(reserve: u64, cluster: &[u8]) -> String {
    planned(reserve, cluster).0
}

/// What the planning program prints, and the plan record unless it is a refusal.
pub fn planned(reserve: u64, cluster: &[u8]) -> (String, Option<Vec<u8>>) {
    let mut out = [0; BUFFER];
    let (word, steps, moves, cost) = match build(reserve, cluster, &mut out) {
        Answer::Plan { steps, moves, cost } => ("plan", steps, moves, cost),
        Answer::Blocked { steps, moves, cost } => ("blocked", steps, moves, cost),
        Answer::Refused { number, step } => {
            return (verdict_text(Verdict::Refused { number, step }), None);
        }
    };
    let width = Version::Two.width();
    let length = PLAN_HEADER + 2 * usize::from(steps) + width * usize::from(moves);
    let record = out[..length].to_vec();
    let first = format!("{word} steps {steps} moves {moves} cost {cost}\n");
    (first + &move_lines(&record), Some(record))
}

/// The line of a verdict.
pub fn verdict_text(verdict: Verdict) -> String {
    match verdict {
        Verdict::Accepted { cost } => format!("accepted cost {cost}\n"),
        Verdict::Refused { number, step } => format!("refused {number} step {step}\n"),
    }
}

/// The line of a stop, and the cluster record as it then is unless it is a refusal.
pub fn stopped(
    reserve: u64,
    cluster: &[u8],
    plan: &[u8],
    step: u64,
    marks: &[u8],
) -> (String, Option<Vec<u8>>) {
    let mut out = vec![0; cluster.len()];
    match stop(reserve, cluster, plan, step, marks, &mut out) {
        Stop::Done { length } => (format!("stopped length {length}\n"), Some(out)),
        Stop::Refused { number, step } => (verdict_text(Verdict::Refused { number, step }), None),
    }
}

/// The line of a split, and the divided plan's record unless it is a refusal.
pub fn divided(reserve: u64, cluster: &[u8], plan: &[u8]) -> (String, Option<Vec<u8>>) {
    let mut out = vec![0; split::BUFFER];
    match split::split(reserve, cluster, plan, &mut out) {
        Split::Done { steps, cost } => {
            let width = Version::of(out[0]).expect("a record").width();
            out.truncate(PLAN_HEADER + (2 + width) * usize::from(steps));
            (format!("divided steps {steps} cost {cost}\n"), Some(out))
        }
        Split::Refused { number, step } => (verdict_text(Verdict::Refused { number, step }), None),
    }
}

/// A reserve or a step in decimal digits. More than 64 bits can hold is given as the most they hold, as
/// both are too high for a reserve, and no plan has a step of either number.
pub fn read_number(digits: &str) -> Option<u64> {
    let is_number = !digits.is_empty() && digits.bytes().all(|b| b.is_ascii_digit());
    is_number.then(|| digits.parse().unwrap_or(u64::MAX))
}

/// A mark for each of some decimal digits, of its value. No digits are no marks.
pub fn read_marks(digits: &str) -> Option<Vec<u8>> {
    digits.chars().map(|digit| digit.to_digit(10).map(|mark| mark as u8)).collect()
}

/// Step, VM, source and destination of each move of a built plan; 255 is on no node.
fn move_lines(plan: &[u8]) -> String {
    let plan = parse_plan(plan).expect("a plan that was built");
    let mut lines = String::new();
    for (i, step) in plan.steps.iter().enumerate() {
        for m in step {
            let from = m.from.expect("a plan of version 2");
            lines += &format!("{} {} {from} {}\n", i + 1, m.vm, m.to);
        }
    }
    lines
}

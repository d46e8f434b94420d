//! Seeded stops, right and wrong: a step, marks, and the length of a buffer for the record.

use crate::gen::Rng;
use crate::records::{parse_plan, Step};

/// What is asked of a stop beside its reserve, cluster and plan.
#[derive(Clone, Debug, PartialEq, Eq)]
pub struct Ask {
    pub step: u64,
    pub marks: Vec<u8>,
    pub buffer: usize,
}

/// Added to a step, these give one that no plan has. Cut to fewer bits it would be the step again.
pub const CUT_OFF: [u64; 5] = [1 << 8, 1 << 16, 1 << 32, 1 << 48, 1 << 63];

/// Marks that are none. Cut to fewer bits, or read as signed, some would be taken.
pub const NO_MARKS: [u8; 6] = [2, 3, 127, 128, 254, 255];

/// A stop of a plan for a cluster record: one that is right for a plan that is accepted and has steps,
/// or at times one with some of it wrong.
pub fn some_stop(rng: &mut Rng, cluster: &[u8], plan: &[u8]) -> Ask {
    let mut ask = right_stop(rng, cluster, plan);
    let steps = parse_plan(plan).map_or(vec![], |plan| plan.steps);
    if rng.chance(60) {
        return ask;
    }
    if rng.chance(30) {
        ask.step = other_step(rng, ask.step, steps.len());
    }
    if rng.chance(30) {
        other_count(rng, &mut ask.marks, &steps);
    }
    if rng.chance(30) && !ask.marks.is_empty() {
        let at = rng.below(ask.marks.len());
        ask.marks[at] = rng.pick(&NO_MARKS);
    }
    if rng.chance(30) {
        ask.buffer = match rng.below(3) {
            0 => 0,
            1 => rng.below(1 + cluster.len()),
            _ => cluster.len().saturating_sub(1),
        };
    }
    ask
}

/// A step of the plan, mostly its first or last or one in the middle, marks for it, and a buffer that the
/// record fits. With no steps it is step 1 without marks.
pub fn right_stop(rng: &mut Rng, cluster: &[u8], plan: &[u8]) -> Ask {
    let steps = parse_plan(plan).map_or(vec![], |plan| plan.steps);
    let at = match rng.below(5) {
        _ if steps.is_empty() => 0,
        0 => 0,
        1 => steps.len() - 1,
        _ => rng.below(steps.len()),
    };
    let percent = rng.pick(&[0, 20, 50, 50, 80, 100]);
    let moves = steps.get(at).map_or(0, Vec::len);
    let marks = (0..moves).map(|_| u8::from(rng.chance(percent))).collect();
    let more = match rng.below(4) {
        0 => 1,
        1 => rng.below(40),
        _ => 0,
    };
    Ask { step: at as u64 + 1, marks, buffer: cluster.len() + more }
}

/// A step that is not in a plan of so many.
fn other_step(rng: &mut Rng, step: u64, steps: usize) -> u64 {
    let past = steps as u64 + 1;
    let cut_off = step.wrapping_add(rng.pick(&CUT_OFF));
    match rng.below(6) {
        0 => 0,
        1 => past,
        2 => past + rng.below(600) as u64,
        3 => u64::MAX,
        _ if cut_off > steps as u64 => cut_off,
        _ => past,
    }
}

/// Leaves out some marks, or adds some, or gives as many as another step has moves.
fn other_count(rng: &mut Rng, marks: &mut Vec<u8>, steps: &[Step]) {
    let right = marks.len();
    let other = match rng.below(6) {
        0 => right.saturating_sub(1),
        1 => right + 1,
        2 => 0,
        3 => right + 256,
        4 => right + rng.below(300),
        _ if steps.is_empty() => 1,
        _ => rng.pick(steps).len(),
    };
    marks.resize(other, u8::from(rng.chance(50)));
}

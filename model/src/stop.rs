//! Stopping a plan in the middle of a step: the cluster record with every VM where it then is.

use crate::records::{cluster_bytes, parse_cluster, parse_plan, Room, Step};
use crate::rules::{check, Verdict};

/// What a stop gives back, beside the record it writes.
#[derive(Clone, Copy, Debug, PartialEq, Eq)]
pub enum Stop {
    Done { length: usize },
    Refused { number: u8, step: u16 },
}

/// Stops a plan in one of its steps, at a reserve, and writes the cluster record as it then is at the
/// front of `out`. There is a mark for each move of the step, in the plan's order: 1 if it has ended, 0
/// if it had not begun or was called back. Bytes behind the record stay; a refusal changes nothing. All
/// that the checker refuses comes first, then 20, 21 and 22.
pub fn stop(
    reserve: u64,
    cluster: &[u8],
    plan: &[u8],
    step: u64,
    marks: &[u8],
    out: &mut [u8],
) -> Stop {
    if let Verdict::Refused { number, step } = check(reserve, cluster, plan) {
        return Stop::Refused { number, step };
    }
    let room = parse_cluster(cluster).expect("the checker took it");
    let steps = parse_plan(plan).expect("the checker took it").steps;
    match stopped(room, &steps, step, marks).and_then(|room| put(&room, out)) {
        Ok(length) => Stop::Done { length },
        Err(number) => Stop::Refused { number, step: 0 },
    }
}

/// The room when a step was stopped: all moves of the steps before it have ended, and those of its own
/// that are marked 1. The error is the refusal number, 20 or 21.
pub fn stopped(mut room: Room, steps: &[Step], step: u64, marks: &[u8]) -> Result<Room, u8> {
    let before = step.checked_sub(1).and_then(|before| usize::try_from(before).ok()).ok_or(20)?;
    let moves = steps.get(before).filter(|moves| moves.len() == marks.len()).ok_or(20)?;
    if marks.iter().any(|&mark| mark > 1) {
        return Err(21);
    }
    let ended = moves.iter().zip(marks).filter(|(_, &mark)| mark == 1).map(|(m, _)| m);
    for m in steps[..before].iter().flatten().chain(ended) {
        room.vms[m.vm].current = m.to;
    }
    Ok(room)
}

/// Writes the record of a room at the front of a buffer; its length, or 22 if there is no room for it.
fn put(room: &Room, out: &mut [u8]) -> Result<usize, u8> {
    let record = cluster_bytes(room);
    out.get_mut(..record.len()).ok_or(22)?.copy_from_slice(&record);
    Ok(record.len())
}

//! Verdicts, answers, stops and splits as single 64-bit numbers.
//!
//! Bits 63-62: 0 accepted, plan, stopped or divided, 1 blocked, 2 refused. A checked plan has its cost
//! in bits 43 to 0. A built one has steps in bits 61 to 53, moves in bits 52 to 44 and cost in bits 43 to
//! 0. A stopped one has in bits 43 to 0 the length of the record written. A divided one has steps in bits
//! 53 to 44, as they may be 512, and cost in bits 43 to 0. A refusal has its number in bits 23 to 16 and
//! its step in bits 15 to 0. All other bits are 0.

use crate::planner::Answer;
use crate::rules::Verdict;
use crate::split::Split;
use crate::stop::Stop;

const BLOCKED: u64 = 1 << 62;
const REFUSED: u64 = 2 << 62;

pub fn pack_verdict(verdict: Verdict) -> u64 {
    match verdict {
        Verdict::Accepted { cost } => in_bits(cost, 44),
        Verdict::Refused { number, step } => refused(number, step),
    }
}

pub fn pack_answer(answer: Answer) -> u64 {
    match answer {
        Answer::Plan { steps, moves, cost } => built(steps, moves, cost),
        Answer::Blocked { steps, moves, cost } => BLOCKED | built(steps, moves, cost),
        Answer::Refused { number, step } => refused(number, step),
    }
}

pub fn pack_stop(stop: Stop) -> u64 {
    match stop {
        Stop::Done { length } => in_bits(length as u64, 44),
        Stop::Refused { number, step } => refused(number, step),
    }
}

pub fn pack_split(split: Split) -> u64 {
    match split {
        Split::Done { steps, cost } => in_bits(u64::from(steps), 10) << 44 | in_bits(cost, 44),
        Split::Refused { number, step } => refused(number, step),
    }
}

/// The split that a number stands for, if it stands for one: no bit is set that has no meaning.
pub fn unpack_split(packed: u64) -> Option<Split> {
    let split = match packed >> 62 {
        0 => Split::Done { steps: (packed >> 44 & 1_023) as u16, cost: packed & ((1 << 44) - 1) },
        _ => Split::Refused { number: (packed >> 16) as u8, step: packed as u16 },
    };
    (pack_split(split) == packed).then_some(split)
}

fn built(steps: u16, moves: u16, cost: u64) -> u64 {
    in_bits(u64::from(steps), 9) << 53 | in_bits(u64::from(moves), 9) << 44 | in_bits(cost, 44)
}

fn refused(number: u8, step: u16) -> u64 {
    REFUSED | u64::from(number) << 16 | u64::from(step)
}

/// A value that must fit its field.
fn in_bits(value: u64, bits: u32) -> u64 {
    assert!(value >> bits == 0, "{value} does not fit in {bits} bits");
    value
}

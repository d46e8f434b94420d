//! Dividing a plan: every step becomes steps of one move each.

use crate::records::{parse_cluster, parse_plan, plan_bytes, Plan, Step, Version};
use crate::rules::{check, plan_cost, Verdict};

/// What a split gives back, beside the record it writes: the steps and the cost of the divided plan.
#[derive(Clone, Copy, Debug, PartialEq, Eq)]
pub enum Split {
    Done { steps: u16, cost: u64 },
    Refused { number: u8, step: u16 },
}

/// The most steps that a plan may have.
pub const MOST_STEPS: usize = 512;

/// The buffer that any divided plan fits in: a header, and 512 steps of one move in version 2. It is
/// asked for whatever the plan is.
pub const BUFFER: usize = 2_567;

/// Divides every step of a plan into single moves, by VM number, at a reserve, and writes the divided
/// plan's record at the front of `out`, in the plan's version. Bytes behind the record stay; a refusal
/// changes nothing. All that the checker refuses comes first, then 10 and 14.
pub fn split(reserve: u64, cluster: &[u8], plan: &[u8], out: &mut [u8]) -> Split {
    if let Verdict::Refused { number, step } = check(reserve, cluster, plan) {
        return Split::Refused { number, step };
    }
    if out.len() < BUFFER {
        return Split::Refused { number: 10, step: 0 };
    }
    let divided = divided(plan);
    if divided.steps.len() > MOST_STEPS {
        return Split::Refused { number: 14, step: 0 };
    }
    let record = plan_bytes(&divided);
    out[..record.len()].copy_from_slice(&record);
    let room = parse_cluster(cluster).expect("the checker took it");
    let cost = plan_cost(&room, &divided.steps);
    Split::Done { steps: divided.steps.len() as u16, cost }
}

/// The divided plan of a record that the checker takes, with as many steps as it has moves. A file of 0
/// bytes has no version to keep; what becomes of it is of version 2.
pub fn divided(plan: &[u8]) -> Plan {
    if plan.is_empty() {
        return Plan::empty(Version::Two);
    }
    let plan = parse_plan(plan).expect("the checker took it");
    Plan { steps: single_moves(&plan.steps), ..plan }
}

/// A step for each move. The VMs of a step rise, so its moves stand by number already.
pub fn single_moves(steps: &[Step]) -> Vec<Step> {
    steps.iter().flatten().map(|&m| vec![m]).collect()
}

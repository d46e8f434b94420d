//! The same steps as a plan of either version: with the sources of their moves named, or without.

use crate::records::{Move, Plan, Room, Step, Version};

/// Steps as a plan of version 1: what sources they name is left out.
pub fn bare(steps: &[Step]) -> Plan {
    let unnamed = |m: &Move| Move { from: None, ..*m };
    let steps = steps.iter().map(|step| step.iter().map(unnamed).collect()).collect();
    Plan { version: Version::One, steps }
}

/// Steps as a plan of version 2: each move names the place that its VM has when its step starts.
/// A source that is named already stays. Steps may be faulty; a VM that is not there has no
/// place, and 0 is named.
pub fn named(room: &Room, steps: &[Step]) -> Plan {
    let mut place: Vec<usize> = room.vms.iter().map(|vm| vm.current).collect();
    let mut named = Vec::new();
    for step in steps {
        let start = place.clone();
        let source = |m: &Move| m.from.or(start.get(m.vm).copied()).or(Some(0));
        named.push(step.iter().map(|m| Move { from: source(m), ..*m }).collect());
        for m in step.iter().filter(|m| m.vm < start.len()) {
            place[m.vm] = m.to;
        }
    }
    Plan { version: Version::Two, steps: named }
}

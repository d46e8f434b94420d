//! Clusters of version 2 among those that were planned: what came of them, and what there is to tell
//! of the launches and shutdowns in what was built.

use crate::report::{missing, print_kinds, Counts, Kind, Stream, BLOCKED};
use crate::seen::Made;
use crate::told::{Table, Told};
use kobdrieft_model::{on_a_node, Move, Step};

/// What can come of planning for a cluster of version 2.
const KINDS: [Kind; 4] =
    [("plan", 0..=0), ("3 to 9", 3..=9), ("10", 10..=10), ("blocked", BLOCKED..=BLOCKED)];

fn is_launch(m: &Move) -> bool {
    m.from.is_some_and(|from| !on_a_node(from))
}

fn is_shutdown(m: &Move) -> bool {
    !on_a_node(m.to)
}

impl Made {
    fn has(&self, holds: fn(&Move) -> bool) -> bool {
        self.steps().iter().flatten().any(holds)
    }

    /// Whether some launch goes to a node that an earlier step shut a VM down on.
    fn launched_behind_a_shutdown(&self) -> bool {
        let behind = |(i, step): (usize, &Step)| {
            let mut earlier = self.steps()[..i].iter().flatten().filter(|m| is_shutdown(m));
            earlier.any(|off| step.iter().any(|m| is_launch(m) && off.from == Some(m.to)))
        };
        self.steps().iter().enumerate().any(behind)
    }

    /// Whether some pivot is followed by a step of launches and nothing else.
    fn pivoted_for_a_launch(&self) -> bool {
        let pivots = |step: &Step| matches!(step[..], [m] if m.to != self.room.vms[m.vm].target);
        self.steps().windows(2).any(|pair| pivots(&pair[0]) && pair[1].iter().all(is_launch))
    }

    /// Whether some VM is on no node from first to last.
    fn stays_down(&self) -> bool {
        self.room.vms.iter().any(|vm| !on_a_node(vm.current) && !on_a_node(vm.target))
    }

    /// Whether some VM that is to be launched never was.
    fn still_down(&self) -> bool {
        let moved = |vm: usize| self.steps().iter().flatten().any(|m| m.vm == vm);
        let to_launch = |vm: &usize| {
            let row = &self.room.vms[*vm];
            !on_a_node(row.current) && on_a_node(row.target)
        };
        (0..self.room.vms.len()).filter(to_launch).any(|vm| !moved(vm))
    }
}

const TOLD: [Told<Made>; 8] = [
    ("plan, a launch", |m| m.planned && m.has(is_launch)),
    ("plan, a shutdown", |m| m.planned && m.has(is_shutdown)),
    ("plan, both in one step", |m| {
        m.planned && m.steps().iter().any(|s| s.iter().any(is_launch) && s.iter().any(is_shutdown))
    }),
    ("plan, launch behind shutdown", |m| m.planned && m.launched_behind_a_shutdown()),
    ("plan, pivot for a launch", |m| m.planned && m.pivoted_for_a_launch()),
    ("plan, one stays down", |m| m.planned && !m.steps().is_empty() && m.stays_down()),
    ("blocked, one still down", |m| !m.planned && m.still_down()),
    ("blocked after a shutdown", |m| !m.planned && m.has(is_shutdown)),
];

pub(crate) struct Launches {
    outcomes: Counts,
    told: Table<Made>,
}

impl Default for Launches {
    fn default() -> Launches {
        Launches { outcomes: Counts::default(), told: Table::of(&TOLD) }
    }
}

impl Launches {
    /// Counts what the model made of a cluster of version 2.
    pub(crate) fn count(&mut self, stream: Stream, outcome: usize) {
        self.outcomes[outcome][stream as usize] += 1;
    }

    /// Counts what there is to tell of steps that were built.
    pub(crate) fn tell(&mut self, stream: Stream, made: &Made) {
        self.told.count(stream, made);
    }

    /// What no generated input led to.
    pub(crate) fn missing(&self) -> Vec<String> {
        let wanted = KINDS.into_iter().flat_map(|(_, outcomes)| outcomes);
        let outcomes = missing(&self.outcomes, "build, cluster 2,", wanted);
        [outcomes, self.told.missing()].concat()
    }

    pub(crate) fn print(&self) {
        print_kinds("build, cluster 2", &KINDS, &self.outcomes);
        self.told.print();
    }
}

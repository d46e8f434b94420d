//! What a step means, by brute force: every order of begins and ends is gone through, and each
//! begin is tested as it happens. Sums, mates and who waits for whom are worked out here afresh from the
//! rows and the constraints; nothing of the closed forms in `rules` is used. At a reserve the room is to
//! be given with its usable amounts.

use crate::records::{on_a_node, Constraint, Move, Node, Room};
use std::collections::HashSet;

/// How far a move of the step has come.
#[derive(Clone, Copy, Debug, PartialEq, Eq, Hash)]
pub enum Phase {
    Waiting,
    Running,
    Ended,
}

/// One entry of an order; the number is the move's position in the step.
#[derive(Clone, Copy, Debug, PartialEq, Eq)]
pub enum Event {
    Begin(usize),
    End(usize),
}

/// What can go wrong in some order of a step.
#[derive(Clone, Copy, Debug, PartialEq, Eq, Default)]
pub struct Found {
    /// In some order a begin does not fit (17).
    pub misfit: bool,
    /// In some order a begin meets a spread mate (18).
    pub mate: bool,
    /// In some order a VM begins that waits for another (33).
    pub soon: bool,
}

impl Found {
    /// Adds what goes wrong at another begin.
    pub fn add(&mut self, other: Found) {
        self.misfit |= other.misfit;
        self.mate |= other.mate;
        self.soon |= other.soon;
    }
}

/// A step under way: the room, where VMs were when it started, and its moves. The step must have
/// no fault 15, so that each VM moves at most once and to another place. Sources that its moves
/// name are not looked at.
pub struct Run<'a> {
    pub room: &'a Room,
    pub start: &'a [usize],
    pub step: &'a [Move],
}

impl Run<'_> {
    /// Whether a VM counts on a node: on its source until its move ends, on its destination from
    /// when its move begins, and so on both while the move runs. A launch has no node to leave, and
    /// a shutdown none to go to.
    pub fn counts_on(&self, phases: &[Phase], vm: usize, node: usize) -> bool {
        let source = self.start[vm];
        match self.step.iter().position(|m| m.vm == vm) {
            None => source == node,
            Some(i) => match phases[i] {
                Phase::Waiting => source == node,
                Phase::Running => source == node || self.step[i].to == node,
                Phase::Ended => self.step[i].to == node,
            },
        }
    }

    /// Memory and CPU of the VMs that count on a node.
    pub fn load(&self, phases: &[Phase], node: usize) -> (u64, u64) {
        let mut load = (0, 0);
        for (vm, row) in self.room.vms.iter().enumerate() {
            if self.counts_on(phases, vm, node) {
                load = (load.0 + row.memory, load.1 + row.cpu);
            }
        }
        load
    }

    /// Whether both of a node's sums are within its capacity.
    pub fn is_within(&self, phases: &[Phase], node: usize) -> bool {
        let (memory, cpu) = self.load(phases, node);
        memory <= self.room.nodes[node].memory && cpu <= self.room.nodes[node].cpu
    }

    /// Whether a VM fits a node it counts on: by memory, and if it has CPU by CPU too.
    fn fits(&self, phases: &[Phase], vm: usize, node: usize) -> bool {
        let (memory, cpu) = self.load(phases, node);
        let Node { memory: most_memory, cpu: most_cpu } = self.room.nodes[node];
        memory <= most_memory && (self.room.vms[vm].cpu == 0 || cpu <= most_cpu)
    }

    /// Whether those who wait for a VM may not begin in this step: it is off its target when the step
    /// starts, or the step moves it.
    fn detains(&self, vm: usize) -> bool {
        let at_home = self.start[vm] == self.room.vms[vm].target;
        let stays = self.step.iter().all(|m| m.vm != vm);
        !(at_home && stays)
    }

    /// Tests the begin of a waiting move as things stand: whether the VM then fits its destination,
    /// the mates that count there, and those it waits for. Of a shutdown only these are asked.
    pub fn test_begin(&self, phases: &[Phase], i: usize) -> Found {
        let Move { vm, to, .. } = self.step[i];
        let begun = with(phases, i, Phase::Running);
        let mut vms = 0..self.room.vms.len();
        Found {
            misfit: on_a_node(to) && !self.fits(&begun, vm, to),
            mate: on_a_node(to)
                && vms.any(|o| are_mates(self.room, vm, o) && self.counts_on(phases, o, to)),
            soon: self.room.befores().any(|(first, second)| second == vm && self.detains(first)),
        }
    }
}

/// Whether two different VMs stand in one spread list.
fn are_mates(room: &Room, a: usize, b: usize) -> bool {
    a != b
        && room.constraints.iter().any(|constraint| match constraint {
            Constraint::Spread { vms } => vms.contains(&a) && vms.contains(&b),
            _ => false,
        })
}

fn with(phases: &[Phase], i: usize, phase: Phase) -> Vec<Phase> {
    let mut next = phases.to_vec();
    next[i] = phase;
    next
}

/// Goes through every state some order reaches, each once, and calls `visit` on it. A begin that
/// fails its test still happens, so no order is cut short.
pub fn every_state(moves: usize, mut visit: impl FnMut(&[Phase])) {
    let mut seen = HashSet::new();
    let mut to_do = vec![vec![Phase::Waiting; moves]];
    while let Some(phases) = to_do.pop() {
        if !seen.insert(phases.clone()) {
            continue;
        }
        visit(&phases);
        for i in 0..moves {
            match phases[i] {
                Phase::Waiting => to_do.push(with(&phases, i, Phase::Running)),
                Phase::Running => to_do.push(with(&phases, i, Phase::Ended)),
                Phase::Ended => {}
            }
        }
    }
}

/// Tries every begin in every state that some order of the step reaches.
pub fn explore(room: &Room, start: &[usize], step: &[Move]) -> Found {
    let run = Run { room, start, step };
    let mut found = Found::default();
    every_state(step.len(), |phases| {
        for i in 0..step.len() {
            if phases[i] == Phase::Waiting {
                found.add(run.test_begin(phases, i));
            }
        }
    });
    found
}

/// Lists every order of a step with this many moves, with no memory of states. Four moves have
/// 2,520 orders; more are best left to `explore`.
pub fn every_order(moves: usize) -> Vec<Vec<Event>> {
    let mut orders = Vec::new();
    extend_order(&mut Vec::new(), &mut vec![Phase::Waiting; moves], &mut orders);
    orders
}

fn extend_order(order: &mut Vec<Event>, phases: &mut Vec<Phase>, orders: &mut Vec<Vec<Event>>) {
    if phases.iter().all(|&phase| phase == Phase::Ended) {
        orders.push(order.clone());
        return;
    }
    for i in 0..phases.len() {
        let (event, before, after) = match phases[i] {
            Phase::Waiting => (Event::Begin(i), Phase::Waiting, Phase::Running),
            Phase::Running => (Event::End(i), Phase::Running, Phase::Ended),
            Phase::Ended => continue,
        };
        phases[i] = after;
        order.push(event);
        extend_order(order, phases, orders);
        order.pop();
        phases[i] = before;
    }
}

/// Follows one order from the start of the step to its end.
pub fn follow(room: &Room, start: &[usize], step: &[Move], order: &[Event]) -> Found {
    let run = Run { room, start, step };
    let mut phases = vec![Phase::Waiting; step.len()];
    let mut found = Found::default();
    for event in order {
        match *event {
            Event::Begin(i) => {
                found.add(run.test_begin(&phases, i));
                phases[i] = Phase::Running;
            }
            Event::End(i) => phases[i] = Phase::Ended,
        }
    }
    found
}

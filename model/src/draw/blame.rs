//! What refuses a step, for the faults 27, 16 to 18 and 33: what to mark in its frame, and why.

use super::kept::Kept;
use super::words::place_words;
use crate::form::{constraint_line, number_list, NODES};
use crate::records::{on_a_node, Move, Room};
use crate::rules::{allows, firsts, mates, memory_within, takes, Placement, Sum};

/// More reasons than this are only counted; all are marked.
const MOST_TOLD: usize = 3;

/// More begins than this are listed in short.
const MOST_BEGINS: usize = 6;

/// The place that refuses, if it is there; the blocks to mark, as place and VM; and the reason in
/// words.
#[derive(Clone, Debug)]
struct Culprit {
    place: Option<usize>,
    blocks: Vec<(usize, usize)>,
    why: String,
}

/// All that refuses a step, and the word that stands at its places.
#[derive(Clone, Debug, Default)]
pub struct Blame {
    pub word: &'static str,
    culprits: Vec<Culprit>,
}

impl Blame {
    pub fn of(room: &Room, kept: &Kept, here: &Placement, step: &[Move], number: u8) -> Blame {
        let (word, culprits) = match number {
            27 => ("not here", step.iter().filter_map(|&m| misplaced(room, here, m)).collect()),
            16 => ("forbidden", step.iter().filter_map(|&m| forbidden(room, m)).collect()),
            17 => ("no space", no_space(room, kept, here, step)),
            18 => ("mates meet", step.iter().flat_map(|&m| meets(room, here, step, m)).collect()),
            33 => ("waited for", step.iter().flat_map(|m| waits(room, here, step, m.vm)).collect()),
            _ => ("", vec![]),
        };
        Blame { word, culprits }
    }

    pub fn has_place(&self, place: usize) -> bool {
        self.culprits.iter().any(|culprit| culprit.place == Some(place))
    }

    pub fn has_vm(&self, place: usize, vm: usize) -> bool {
        self.culprits.iter().any(|culprit| culprit.blocks.contains(&(place, vm)))
    }

    pub fn notes(&self) -> Vec<String> {
        let told = self.culprits.iter().take(MOST_TOLD).map(|culprit| culprit.why.clone());
        let more = self.culprits.len().saturating_sub(MOST_TOLD);
        told.chain((more > 0).then(|| format!("And {more} more like this."))).collect()
    }
}

/// Fault 27: the place that a move names as its source, and the VM where it really is.
fn misplaced(room: &Room, here: &Placement, Move { vm, from, to }: Move) -> Option<Culprit> {
    let place = here.place[vm];
    let from = from.filter(|&from| from != place)?;
    let there = from < room.nodes.len() || !on_a_node(from);
    let more = match there {
        true => String::new(),
        false => format!("; {}", NODES.missing(from as u64, room.nodes.len())),
    };
    let what = match on_a_node(to) {
        true => format!("move of VM {vm} to node {to}"),
        false => format!("shutdown of VM {vm}"),
    };
    let (named, found) = (place_words(from), place_words(place));
    let why = format!(
        "The {what} names {named} as its source, but VM {vm} is on {found} when the step \
         starts{more}."
    );
    Some(Culprit { place: there.then_some(from), blocks: vec![(place, vm)], why })
}

/// Fault 16: the ban or fence that keeps a move from its destination.
fn forbidden(room: &Room, Move { vm, to, .. }: Move) -> Option<Culprit> {
    let rule = room.constraints.iter().find(|constraint| !allows(constraint, vm, to))?;
    let why = format!("VM {vm} may not go to node {to}: {}.", constraint_line(rule));
    Some(Culprit { place: Some(to), blocks: vec![(to, vm)], why })
}

/// Fault 17: each node that in some order does not take an arrival.
fn no_space(room: &Room, kept: &Kept, here: &Placement, step: &[Move]) -> Vec<Culprit> {
    (0..room.nodes.len()).filter_map(|node| misfit(room, kept, here, step, node)).collect()
}

/// The arrivals at a node begin by number until one does not fit; nobody ends. Where it does not fit
/// by CPU, idle VMs have no part in it and are left out.
fn misfit(
    room: &Room,
    kept: &Kept,
    here: &Placement,
    step: &[Move],
    node: usize,
) -> Option<Culprit> {
    let mut sum = here.sums[node];
    let mut begun = Vec::new();
    for m in step.iter().filter(|m| m.to == node) {
        sum = sum.plus(&room.vms[m.vm]);
        begun.push(m.vm);
        if !takes(room, node, sum, &room.vms[m.vm]) {
            let by_cpu = memory_within(room, node, sum);
            let has_part = |vm: usize| !(by_cpu && room.vms[vm].is_idle());
            begun.retain(|&vm| has_part(vm));
            let leaves = |m: &&Move| here.place[m.vm] == node && has_part(m.vm);
            let leavers: Vec<Move> = step.iter().filter(leaves).copied().collect();
            let what = format!("{}{}", excess(room, kept, node, sum), still_there(&leavers));
            let why = order(&begun, node, &what);
            return Some(Culprit { place: Some(node), blocks: vec![], why });
        }
    }
    None
}

/// The sum that is too much for a node: memory, or CPU if there is memory enough.
pub fn excess(room: &Room, kept: &Kept, node: usize, sum: Sum) -> String {
    let row = &room.nodes[node];
    let usable = if kept.is_some() { " usable" } else { "" };
    if memory_within(room, node, sum) {
        format!("CPU {} of {}{usable}", sum.cpu, row.cpu)
    } else {
        format!("memory {} of {}{usable}", sum.memory, row.memory)
    }
}

/// Fault 18: the mates that a move may meet: those that start on its destination, and those that
/// arrive there too, each pair once.
fn meets(room: &Room, here: &Placement, step: &[Move], m: Move) -> Vec<Culprit> {
    let Move { vm, to, .. } = m;
    if !on_a_node(to) {
        return vec![];
    }
    let meet = |mate: usize| {
        let moves = step.iter().find(|m| m.vm == mate);
        let arrives = moves.is_some_and(|m| m.to == to) && mate < vm;
        let begun = match here.place[mate] == to {
            true => vec![vm],
            false if arrives => vec![mate, vm],
            false => return None,
        };
        let leavers: Vec<Move> =
            moves.into_iter().copied().filter(|_| here.place[mate] == to).collect();
        let what = format!("VMs {vm} and {mate}, spread mates{}", still_there(&leavers));
        let blocks = vec![(to, vm), (to, mate)];
        Some(Culprit { place: Some(to), blocks, why: order(&begun, to, &what) })
    };
    mates(room, vm).into_iter().filter_map(meet).collect()
}

/// Fault 33: those that a moving VM waits for and that are off their targets, or move too. Each is
/// marked where it is when the step starts, and so is the VM that waits.
fn waits(room: &Room, here: &Placement, step: &[Move], vm: usize) -> Vec<Culprit> {
    let wait = |first: usize| {
        let (place, target) = (here.place[first], room.vms[first].target);
        let away = format!("is not on its target, {}, when the step starts", place_words(target));
        let with_it = "moves in the same step".to_string();
        let reasons = [(place != target, away), (step.iter().any(|m| m.vm == first), with_it)];
        let said: Vec<String> =
            reasons.into_iter().filter(|(holds, _)| *holds).map(|(_, words)| words).collect();
        let why = format!("VM {vm} waits for VM {first}, which {}.", said.join(", and "));
        let blocks = vec![(place, first), (here.place[vm], vm)];
        (!said.is_empty()).then_some(Culprit { place: Some(place), blocks, why })
    };
    firsts(room, vm).into_iter().filter_map(wait).collect()
}

/// An order up to the begin that fails, and what its node would then have.
fn order(begun: &[usize], node: usize, what: &str) -> String {
    let begins = if begun.len() <= MOST_BEGINS {
        let begins: Vec<String> = begun.iter().map(|vm| format!("begin VM {vm}")).collect();
        begins.join(", ")
    } else {
        format!("begin VMs {} one by one", number_list(begun, ""))
    };
    format!("An order that fails: {begins}: node {node} would have {what}.")
}

/// A remark on moves that leave a node in the same step.
fn still_there(leavers: &[Move]) -> String {
    match leavers {
        [] => String::new(),
        [Move { vm, to, .. }] => {
            let what = if on_a_node(*to) { "move" } else { "shutdown" };
            format!(" (VM {vm} counts there until its {what} ends)")
        }
        moves => {
            let vms: Vec<usize> = moves.iter().map(|m| m.vm).collect();
            format!(" (VMs {} count there until their moves end)", number_list(&vms, ""))
        }
    }
}

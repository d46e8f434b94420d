//! What is said of the steps in words.

use super::frame::is_pivot;
use crate::form::{number_list, NODES, VMS};
use crate::records::{on_a_node, Move, Room};
use crate::rules::{step_cost, step_sum, Placement};

/// More ways than this are only counted.
const MOST_WAYS: usize = 24;

/// More pairs of which one waits for the other are only counted.
const MOST_PAIRS: usize = 12;

/// A count with its noun.
pub fn many(count: usize, noun: &str) -> String {
    let end = if count == 1 { "" } else { "s" };
    format!("{count} {noun}{end}")
}

/// A place in words.
pub fn place_words(place: usize) -> String {
    if on_a_node(place) {
        return format!("node {place}");
    }
    "no node".into()
}

/// Why a step does not fit the cluster, if it does not: fault 15 in words.
pub fn stranger(room: &Room, here: &Placement, step: &[Move]) -> Option<String> {
    let mut before = None;
    for &Move { vm, to, .. } in step {
        if vm >= room.vms.len() {
            return Some(VMS.missing(vm as u64, room.vms.len()));
        }
        let target = room.vms[vm].target;
        if on_a_node(to) && to >= room.nodes.len() {
            return Some(NODES.missing(to as u64, room.nodes.len()));
        }
        if !on_a_node(to) && on_a_node(target) {
            return Some(format!("VM {vm} is to be shut down, but its target is node {target}"));
        }
        if let Some(before) = before.filter(|&before| before >= vm) {
            return Some(format!("VM {vm} stands behind VM {before}; the VMs of a step rise"));
        }
        if here.place[vm] == to {
            return Some(match on_a_node(to) {
                true => format!("VM {vm} goes to node {to}, where it already is"),
                false => format!("VM {vm} is to be shut down, but it is on no node already"),
            });
        }
        before = Some(vm);
    }
    None
}

/// Moves that go the same way: from where, where to, whether as pivots, and the VMs.
type Way = (usize, usize, bool, Vec<usize>);

/// The moves of a step in words, those that go the same way together.
pub fn moves(room: &Room, here: &Placement, step: &[Move]) -> String {
    let mut ways: Vec<Way> = Vec::new();
    for m in step {
        let (from, to, pivot) = (here.place[m.vm], m.to, is_pivot(room, m));
        match ways.iter_mut().find(|way| (way.0, way.1, way.2) == (from, to, pivot)) {
            Some(way) => way.3.push(m.vm),
            None => ways.push((from, to, pivot, vec![m.vm])),
        }
    }
    let mut words: Vec<String> = ways.iter().take(MOST_WAYS).map(way_words).collect();
    let more: usize = ways.iter().skip(MOST_WAYS).map(|way| way.3.len()).sum();
    if more > 0 {
        words.push(format!("and {more} more"));
    }
    format!("{}.", words.join(", "))
}

fn way_words((from, to, pivot, vms): &Way) -> String {
    let end = if vms.len() == 1 { "" } else { "s" };
    let remark = if *pivot { format!(" (pivot{end})") } else { String::new() };
    let way = match (on_a_node(*from), on_a_node(*to)) {
        (true, true) => format!("from node {from} to {to}"),
        (false, _) => format!("launched on node {to}"),
        (true, false) => format!("shut down on node {from}"),
    };
    format!("VM{end} {} {way}{remark}", number_list(vms, ""))
}

/// Who waits for whom, if anybody does.
pub fn befores(room: &Room) -> Option<String> {
    let pair = |(first, second): (usize, usize)| format!("VM {first} before VM {second}");
    let mut words: Vec<String> = room.befores().take(MOST_PAIRS).map(pair).collect();
    match room.befores().skip(MOST_PAIRS).count() {
        0 => {}
        n => words.push(format!("and {n} more")),
    }
    (!words.is_empty()).then(|| format!("{}.", words.join(", ")))
}

/// What the steps so far cost, and what the plan costs up to them.
#[derive(Default)]
pub struct Spent {
    earlier: u64,
    plan: u64,
}

impl Spent {
    /// Adds a step and says what it adds.
    pub fn step(&mut self, room: &Room, step: &[Move]) -> String {
        let cost = step_sum(room, step, self.earlier);
        self.plan += cost;
        self.earlier += step_cost(room, step);
        format!("Cost of these moves {cost}, of the plan so far {}.", self.plan)
    }
}

/// What is said of the steps that follow a refused one.
pub fn behind(steps: usize) -> Option<String> {
    match steps {
        0 => None,
        1 => Some("The step behind it is not drawn.".into()),
        n => Some(format!("The {n} steps behind it are not drawn.")),
    }
}

//! From a cluster to text.

use super::{place_word, Things, NODES, VMS};
use crate::records::{Constraint, Node, Room, Version, Vm};

/// Writes a cluster's text, with remarks: the numbers of nodes and VMs, and what a line `before` asks.
/// Its version needs a line only where no place tells it and it is not 1.
pub fn write_cluster(room: &Room) -> String {
    let mut text = String::from("# memory in MiB, CPU in hundredths of a processing unit\n");
    if room.version == Version::Two && !room.has_nowhere() {
        text += "version 2\n";
    }
    text += &rows(&room.nodes, NODES, |Node { memory, cpu }| format!("node {memory} {cpu}"));
    text += &rows(&room.vms, VMS, |Vm { memory, cpu, current, target }| {
        let [current, target] = [current, target].map(|&place| place_word(place));
        format!("vm {memory} {cpu} from {current} to {target}")
    });
    for constraint in &room.constraints {
        let line = constraint_line(constraint);
        text += &match constraint {
            Constraint::Before { first, second } => {
                remarked(&line, &format!("VM {first} is on its target before VM {second} moves"))
            }
            _ => line + "\n",
        };
    }
    text
}

/// A line with a remark behind it.
fn remarked(line: &str, remark: &str) -> String {
    format!("{line:<32}# {remark}\n")
}

/// A line for each run of equal rows.
fn rows<T: PartialEq>(rows: &[T], things: Things, line: impl Fn(&T) -> String) -> String {
    let mut first = 0;
    let mut text = String::new();
    for equals in rows.chunk_by(|a, b| a == b) {
        let last = first + equals.len() - 1;
        let row = line(&equals[0]);
        text += &if first == last {
            remarked(&row, &format!("{} {first}", things.one))
        } else {
            let row = format!("{row} x{}", equals.len());
            remarked(&row, &format!("{} {first} to {last}", things.many))
        };
        first = last + 1;
    }
    text
}

/// One constraint as a line, without its end.
pub fn constraint_line(constraint: &Constraint) -> String {
    match constraint {
        Constraint::Ban { vms, nodes } => on_nodes("ban", vms, nodes),
        Constraint::Fence { vms, nodes } => on_nodes("fence", vms, nodes),
        Constraint::Spread { vms } => format!("spread vms {}", number_list(vms, "none")),
        Constraint::Latency { vms, groups } => {
            let groups: Vec<String> =
                groups.iter().map(|group| number_list(group, "empty")).collect();
            let groups = if groups.is_empty() { "none".into() } else { groups.join(" | ") };
            format!("latency vms {} groups {groups}", number_list(vms, "none"))
        }
        Constraint::Before { first, second } => format!("before {first} {second}"),
    }
}

fn on_nodes(kind: &str, vms: &[usize], nodes: &[usize]) -> String {
    format!("{kind} vms {} nodes {}", number_list(vms, "none"), number_list(nodes, "none"))
}

/// A list's numbers, three or more in a row as a run.
pub(crate) fn number_list(numbers: &[usize], empty: &str) -> String {
    if numbers.is_empty() {
        return empty.into();
    }
    let runs = numbers.chunk_by(|a, b| a + 1 == *b);
    let words: Vec<String> = runs.flat_map(run).collect();
    words.join(" ")
}

fn run(numbers: &[usize]) -> Vec<String> {
    match numbers {
        [first, _, .., last] => vec![format!("{first}-{last}")],
        _ => numbers.iter().map(usize::to_string).collect(),
    }
}

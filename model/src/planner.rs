//! The planner: direct steps while there are any, else one useful pivot, else blocked.

use crate::records::{on_a_node, plan_bytes, Move, Room, Step};
use crate::rules::{accepted_cluster, plan_cost, step_fault, Book, Placement};
use crate::sources::named;

/// What building a plan gives back, beside the record it writes.
#[derive(Clone, Copy, Debug, PartialEq, Eq)]
pub enum Answer {
    Plan { steps: u16, moves: u16, cost: u64 },
    Blocked { steps: u16, moves: u16, cost: u64 },
    Refused { number: u8, step: u16 },
}

/// The buffer that any plan the planner makes fits in: a header, and 511 steps of one move.
pub const BUFFER: usize = 2_562;

/// Builds a plan for a cluster at a reserve and writes its record, of version 2, at the front of
/// `out`. Bytes behind the record stay; a refusal changes nothing.
pub fn build(reserve: u64, cluster: &[u8], out: &mut [u8]) -> Answer {
    let room = match accepted_cluster(reserve, cluster) {
        Ok(room) => room,
        Err(number) => return Answer::Refused { number, step: 0 },
    };
    if out.len() < BUFFER {
        return Answer::Refused { number: 10, step: 0 };
    }
    let (steps, all_home) = make_steps(&room);
    let record = plan_bytes(&named(&room, &steps));
    out[..record.len()].copy_from_slice(&record);

    let cost = plan_cost(&room, &steps);
    let moves = steps.iter().map(|step| step.len() as u16).sum();
    let steps = steps.len() as u16;
    if all_home {
        Answer::Plan { steps, moves, cost }
    } else {
        Answer::Blocked { steps, moves, cost }
    }
}

/// The planner's steps from the current placement, and whether everybody got home. Sources are
/// named when the steps are written.
pub fn make_steps(room: &Room) -> (Vec<Step>, bool) {
    make_steps_from(room, Placement::current(room))
}

/// The planner's steps from some placement, and whether everybody got home.
pub fn make_steps_from(room: &Room, start: Placement) -> (Vec<Step>, bool) {
    let book = Book::of(room);
    let mut here = start;
    let mut steps = Vec::new();
    loop {
        if here.out_of_place(room).is_empty() {
            return (steps, true);
        }
        let direct = direct_step(room, &book, &here);
        let step = if !direct.is_empty() {
            direct
        } else {
            match useful_pivot(room, &book, &here) {
                Some(pivot) => vec![pivot],
                None => return (steps, false),
            }
        };
        here = here.after(room, &step);
        steps.push(step);
    }
}

/// Goes through the VMs out of place by number and keeps each move home, launch and shutdown too,
/// that leaves the step gathered so far sound.
fn direct_step(room: &Room, book: &Book, here: &Placement) -> Step {
    let mut step = Vec::new();
    for vm in here.out_of_place(room) {
        step.push(home(room, vm));
        if step_fault(room, book, here, &step).is_some() {
            step.pop();
        }
    }
    step
}

/// The lowest VM that has a useful pivot, sent to its lowest such node. Only a VM on a node has one.
fn useful_pivot(room: &Room, book: &Book, here: &Placement) -> Option<Move> {
    for vm in here.out_of_place(room).into_iter().filter(|&vm| on_a_node(here.place[vm])) {
        for to in 0..room.nodes.len() {
            let pivot = Move::bare(vm, to);
            if is_useful(room, book, here, pivot) {
                return Some(pivot);
            }
        }
    }
    None
}

/// Whether a move of a VM out of place goes to a third node, is sound alone, and lets some other
/// VM go home at once.
fn is_useful(room: &Room, book: &Book, here: &Placement, pivot: Move) -> bool {
    let Move { vm, to, .. } = pivot;
    if to == here.place[vm] || to == room.vms[vm].target {
        return false;
    }
    if step_fault(room, book, here, &[pivot]).is_some() {
        return false;
    }
    let then = here.after(room, &[pivot]);
    then.out_of_place(room)
        .into_iter()
        .any(|other| other != vm && has_direct_move(room, book, &then, other))
}

/// Whether moving this VM alone to its target is a sound step.
fn has_direct_move(room: &Room, book: &Book, here: &Placement, vm: usize) -> bool {
    step_fault(room, book, here, &[home(room, vm)]).is_none()
}

/// The move of a VM to its target.
fn home(room: &Room, vm: usize) -> Move {
    Move::bare(vm, room.vms[vm].target)
}

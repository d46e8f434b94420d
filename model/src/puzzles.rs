//! Seeded small clusters that are hard to plan: VMs that change places, or are launched and shut
//! down, while next to nothing is free, with spare nodes to step onto that are small, over their CPU,
//! or closed to some.

use crate::edges::{node, room, steps, vm};
use crate::gen::{self, Rng};
use crate::records::{Constraint, Node, Room, Step, Vm};
use crate::rules::Placement;

/// A cluster of 2 to 8 nodes and 0 to 12 VMs with none of the faults 1 to 9.
pub fn puzzle(rng: &mut Rng) -> Room {
    let n = rng.range(2, 8);
    let v = rng.range(0, 12);
    let spares = rng.range(0, 2.min(n - 2));
    let largest = rng.pick(&[1, 1, 2, 3, 6]);
    let mut vms: Vec<Vm> = places(rng, n - spares, v)
        .into_iter()
        .map(|(current, target)| {
            let (memory, cpu) = (rng.range(1, largest) as u64, rng.below(3) as u64);
            Vm { memory, cpu, current, target }
        })
        .collect();
    rng.shuffle(&mut vms);
    let mut room = gen::unsized_room(n, vms);
    gen::some_idle(rng, &mut room);
    let warm = gen::warm_up(rng, &mut room, spares);
    gen::some_down(rng, &mut room);
    size_nodes(rng, &mut room);
    let held = Placement::current(&room).sums;
    for (spare, held) in room.nodes.iter_mut().zip(held).skip(n - spares) {
        let cpu = if warm { rng.below(2) } else { rng.range(1, 9) };
        *spare = Node { memory: held.memory + rng.below(largest + 2) as u64, cpu: cpu as u64 };
    }
    for _ in 0..rng.pick(&[0, 0, 1, 2, 4]) {
        let constraint = constraint(rng, &room, spares);
        room.constraints.push(constraint);
    }
    room
}

/// A cluster in which the planner is blocked, and steps that bring everybody home all the same. The
/// planner sends a VM home that is then in the way, or two VMs have to step aside before anybody can go.
pub fn missed(rng: &mut Rng) -> (Room, Vec<Step>) {
    let (mut room, steps) = if rng.chance(50) { in_the_way() } else { two_aside() };
    // VMs at home on nodes that they fill.
    for home in (room.nodes.len()..).take(rng.below(4)) {
        room.nodes.push(node(1, 9));
        room.vms.push(vm(1, 1, home, home));
    }
    let unit = rng.range(1, 9) as u64;
    room.nodes.iter_mut().for_each(|node| node.memory *= unit);
    room.vms.iter_mut().for_each(|vm| vm.memory *= unit);
    (room, steps)
}

fn in_the_way() -> (Room, Vec<Step>) {
    let vms = [vm(2, 1, 2, 0), vm(2, 1, 1, 0), vm(2, 1, 0, 1)];
    let room = room(&[node(4, 9), node(2, 9), node(1, 9)], &vms, &[]);
    (room, steps(&[&[(1, 0)], &[(2, 1)], &[(0, 0)]]))
}

fn two_aside() -> (Room, Vec<Step>) {
    let vms = [vm(1, 1, 0, 1), vm(1, 1, 0, 1), vm(2, 1, 1, 0)];
    let room = room(&[node(2, 9), node(2, 9), node(1, 9), node(1, 9)], &vms, &[]);
    (room, steps(&[&[(0, 2), (1, 3)], &[(2, 0)], &[(0, 1), (1, 1)]]))
}

/// Current and target nodes: exchanges, cycles, all slots dealt anew, a heap, or drawn freely.
fn places(rng: &mut Rng, busy: usize, v: usize) -> Vec<(usize, usize)> {
    let style = rng.below(8);
    let turn = rng.below(busy);
    let mut dealt: Vec<usize> = (0..v).map(|i| i % busy).collect();
    rng.shuffle(&mut dealt);
    let stay = rng.pick(&[0, 0, 20, 40]);
    let place = |i: usize, rng: &mut Rng| {
        let here = i % busy;
        let target = match style {
            _ if rng.chance(stay) => here,
            0 | 1 => here ^ 1,
            2 | 3 => (here + 1) % busy,
            4 | 5 => dealt[i],
            6 => return (turn, rng.below(busy)),
            _ => return (rng.below(busy), rng.below(busy)),
        };
        (here, target.min(busy - 1))
    };
    (0..v).map(|i| place(i, rng)).collect()
}

/// Capacities that hold the target, and mostly the start too, with little over. One of memory and
/// CPU is tight; the other may be.
fn size_nodes(rng: &mut Rng, room: &mut Room) {
    let (start, end) = (Placement::current(room).sums, Placement::target(room).sums);
    let slack = rng.pick(&[0, 0, 0, 1, 1, 2]);
    let overfull = rng.pick(&[0, 0, 10, 40]);
    let (roomy_memory, roomy_cpu) =
        rng.pick(&[(true, false), (false, true), (false, true), (false, false)]);
    for (i, node) in room.nodes.iter_mut().enumerate() {
        let mut enough = |start: u64, end: u64, roomy: bool| {
            let held = if rng.chance(overfull) { end } else { start.max(end) };
            held + if roomy { 30 } else { rng.range(0, slack) as u64 }
        };
        *node = Node {
            memory: enough(start[i].memory, end[i].memory, roomy_memory),
            cpu: enough(start[i].cpu, end[i].cpu, roomy_cpu),
        };
    }
}

/// A constraint that the target keeps. Most concern what a pivot may do.
fn constraint(rng: &mut Rng, room: &Room, spares: usize) -> Constraint {
    match rng.below(10) {
        0 => gen::fence(rng, room),
        1 => gen::ban(rng, room),
        2 | 3 => spares_closed(rng, room, spares),
        4 => exchange_apart(rng, room),
        5 => gen::latency(rng, room),
        6 | 7 => {
            let queue = gen::queue(rng, room);
            gen::before(rng, &queue)
        }
        _ => gen::spread_among(rng, room, (0..room.vms.len()).collect()),
    }
}

/// A ban of some VMs from the spare nodes. Nobody's target is among them.
fn spares_closed(rng: &mut Rng, room: &Room, spares: usize) -> Constraint {
    let n = room.nodes.len();
    let closed: Vec<usize> = (n - spares..n).collect();
    Constraint::Ban { vms: gen::some_vms(rng, room), nodes: rng.some_of(&closed) }
}

/// A spread of a VM and those who are where it is wanted.
fn exchange_apart(rng: &mut Rng, room: &Room) -> Constraint {
    if room.vms.is_empty() {
        return Constraint::Spread { vms: vec![] };
    }
    let one = rng.below(room.vms.len());
    let wanted = room.vms[one].target;
    let met = (0..room.vms.len()).filter(|&vm| vm == one || room.vms[vm].current == wanted);
    gen::spread_among(rng, room, met.collect())
}

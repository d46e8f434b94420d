//! The rooms that `build` is measured on, each made by a function of its own. All have 256 VMs, and
//! all but the small one as many nodes as a record may have.

use crate::inputs::{full_room, latencies, spread_lists, CONSTRAINTS, HOMES, NODES, VMS};
use kobdrieft_model::edges::cluster_a;
use kobdrieft_model::gen::swaps;
use kobdrieft_model::reserves::raised;
use kobdrieft_model::rules::Placement;
use kobdrieft_model::{cluster_bytes, Constraint, Node, Room, Version, Vm, NOWHERE};

/// One room, with the answer it is made for at this reserve.
pub struct Task {
    pub name: &'static str,
    pub reserve: u64,
    pub room: Room,
    pub cluster: Vec<u8>,
    pub ends: Ends,
    pub steps: u16,
}

/// How planning ends.
#[derive(Clone, Copy, Debug, PartialEq, Eq)]
pub enum Ends {
    Plan,
    Blocked,
}

/// All rooms, cluster A last.
pub fn all() -> Vec<Task> {
    vec![
        task("all direct", direct(), Ends::Plan, 1),
        task("exchanges", exchanges(1), Ends::Plan, 384),
        task("exchanges, 3 nodes", swaps(VMS / 2), Ends::Plan, 384),
        task("rotation, 128 spreads", spread_rotation(), Ends::Plan, 140),
        task("rotation, tight", tight_rotation(), Ends::Plan, 256),
        tight_at_a_reserve(),
        task("exchanges, blocked late", exchanges(2), Ends::Blocked, 381),
        task("exchanges beside stuck", stuck(Node { memory: 0, cpu: 0 }), Ends::Blocked, 192),
        task("the same, nodes free", stuck(ROOMY), Ends::Blocked, 192),
        task("exchanges, mates around", mates_around(), Ends::Blocked, 102),
        task("shutdowns, then launches", turnover(), Ends::Plan, 2),
        task("relay from a launch", relay(), Ends::Plan, 64),
        task("relay of idle VMs", idle_relay(), Ends::Plan, 65),
        task("befores in a row", row_of_befores(), Ends::Plan, 129),
        task("befores in a ring", ring_of_befores(), Ends::Blocked, 1),
        task("exchanges, befores", exchanges_in_turn(), Ends::Plan, 384),
        task("cluster A", cluster_a(), Ends::Plan, 3),
    ]
}

fn task(name: &'static str, room: Room, ends: Ends, steps: u16) -> Task {
    Task { name, reserve: 0, cluster: cluster_bytes(&room), room, ends, steps }
}

const ROOMY: Node = Node { memory: 60_000, cpu: 60_000 };

/// VMs with current and target node and memory as given, and nodes that hold just the start.
fn full_nodes(vm: impl Fn(usize) -> (usize, usize, u64), constraints: Vec<Constraint>) -> Room {
    let vm = |i| {
        let (current, target, memory) = vm(i);
        Vm { memory, cpu: 1, current, target }
    };
    let nodes = vec![Node { memory: 0, cpu: 0 }; NODES];
    let vms = (0..VMS).map(vm).collect();
    let mut room = Room { version: Version::One, nodes, vms, constraints };
    let start = Placement::current(&room).sums;
    for (node, sum) in room.nodes.iter_mut().zip(start) {
        *node = Node { memory: sum.memory, cpu: 60_000 };
    }
    room
}

/// Every VM goes to another node at once.
fn direct() -> Room {
    anywhere(latencies(CONSTRAINTS))
}

/// Every VM is to go to another node, and there is room for all.
fn anywhere(constraints: Vec<Constraint>) -> Room {
    full_room(NODES, |vm| (vm % NODES, (7 * vm + 3) % NODES), constraints)
}

/// VM 1 waits for VM 0, VM 2 for VM 1, up to VM 128; all others go at once.
fn row_of_befores() -> Room {
    let before = |first| Constraint::Before { first, second: first + 1 };
    anywhere((0..CONSTRAINTS).map(before).collect())
}

/// The first 128 VMs wait for each other in a ring, and so for good; all others go at once.
fn ring_of_befores() -> Room {
    let before = |first| Constraint::Before { first, second: (first + 1) % CONSTRAINTS };
    anywhere((0..CONSTRAINTS).map(before).collect())
}

/// 128 pairs that change places, the last pair first: of each pair the lower VM waits for that of the
/// next pair, and VM 254 for VM 255.
fn exchanges_in_turn() -> Room {
    let before = |first| Constraint::Before { first, second: first - 1 };
    let constraints = (1..CONSTRAINTS).chain([VMS - 1]).map(before).collect();
    Room { constraints, ..exchanges(1) }
}

/// 128 pairs that change places on 62 full nodes, with room for one VM of memory 1 on the last
/// node. VM 0 and its partner have the memory given.
fn exchanges(first_pair: u64) -> Room {
    let pairs = VMS / 2;
    let place = |i: usize| {
        let (pair, back) = (i % pairs, i / pairs);
        let left = 2 * (pair % (HOMES / 2));
        let memory = if pair == 0 { first_pair } else { 1 };
        (left + back, left + 1 - back, memory)
    };
    let mut room = full_nodes(place, latencies(CONSTRAINTS));
    room.nodes[NODES - 1].memory = 1;
    room
}

/// Every VM goes to the next of 62 roomy nodes, with 128 spreads of one VM from each of them, and
/// two nodes free.
fn spread_rotation() -> Room {
    let place = |vm| (vm % HOMES, (vm % HOMES + 1) % HOMES);
    full_room(NODES, place, spread_lists(CONSTRAINTS, HOMES))
}

/// Four VMs on each of 63 full nodes go to the next one, with room for one VM on the last node.
fn tight_rotation() -> Room {
    let ring = NODES - 1;
    let place = |i: usize| match i {
        _ if i < 4 * ring => (i % ring, (i % ring + 1) % ring, 10),
        _ => (ring, ring, 10),
    };
    let mut room = full_nodes(place, latencies(CONSTRAINTS));
    room.nodes[ring].memory += 10;
    room
}

/// The same at reserve 10, where just what was there is usable.
fn tight_at_a_reserve() -> Task {
    let reserve = 10;
    let room = raised(reserve, &tight_rotation());
    Task { reserve, ..task("rotation, tight, reserve 10", room, Ends::Plan, 256) }
}

/// Where VM i is and where it should go: first two times `half` VMs that are to change nodes 0 and
/// 1, then so many pairs that change places on nodes 2 and 3, then VMs at home, a node each.
fn knotted(i: usize, half: usize, pairs: usize) -> (usize, usize, u64) {
    let pairs_at = 2 * half;
    let homes_at = pairs_at + 2 * pairs;
    match i {
        _ if i < half => (0, 1, 1),
        _ if i < pairs_at => (1, 0, 1),
        _ if i < pairs_at + pairs => (2, 3, 1),
        _ if i < homes_at => (3, 2, 1),
        _ => (4 + i - homes_at, 4 + i - homes_at, 1),
    }
}

/// The first 128 VMs are out of place for good: each has two spread mates where it should go, so
/// that it does not help if one of them steps aside. Beside them 64 pairs change places. The nodes
/// in between are as given, and the last takes anybody.
fn stuck(between: Node) -> Room {
    let half = VMS / 4;
    let mates = |i: usize| {
        let other = half + i;
        [vec![i, other], vec![(i + 1) % half, other]].map(|vms| Constraint::Spread { vms })
    };
    let constraints = (0..half).flat_map(mates).collect();
    let mut room = full_nodes(|i| knotted(i, half, VMS / 4), constraints);
    room.nodes[..2].fill(ROOMY);
    room.nodes[4..].fill(between);
    room.nodes[NODES - 1] = ROOMY;
    room
}

/// The first 128 VMs are out of place for good: nodes 0 and 1 are full, and on each of the roomy
/// nodes they would meet a mate, one of the last 60 VMs. Beside them 34 pairs change places.
fn mates_around() -> Room {
    let half = VMS / 4;
    let homes_at = VMS - (NODES - 4);
    let pairs = (homes_at - 2 * half) / 2;
    let spread = |vm| Constraint::Spread { vms: [vm].into_iter().chain(homes_at..VMS).collect() };
    let constraints = (0..2 * half).map(spread).collect();
    let mut room = full_nodes(|i| knotted(i, half, pairs), constraints);
    room.nodes[4..].fill(ROOMY);
    room
}

/// Two VMs on each node are shut down, and two are launched in their place.
fn turnover() -> Room {
    let place = |i: usize| match i < VMS / 2 {
        true => (i % NODES, NOWHERE, 10),
        false => (NOWHERE, i % NODES, 10),
    };
    Room { version: Version::Two, ..full_nodes(place, latencies(CONSTRAINTS)) }
}

/// Four VMs on each of 63 full nodes go to the next one; those of the last are shut down, and four
/// are launched on the first.
fn relay() -> Room {
    let last = NODES - 2;
    let place = |i: usize| match i % (last + 1) {
        _ if i >= 4 * (last + 1) => (NOWHERE, 0, 10),
        node if node == last => (node, NOWHERE, 10),
        node => (node, node + 1, 10),
    };
    Room { version: Version::Two, ..full_nodes(place, latencies(CONSTRAINTS)) }
}

/// Three idle VMs on each of 63 full nodes go to the next one; those of the last are shut down, and
/// the first takes one from the roomy node beside them and two that are launched. An active VM on
/// each but the first keeps it over its CPU; it goes to the roomy node when its mate, the one from
/// there, has left. Two more are launched there.
fn idle_relay() -> Room {
    let roomy = NODES - 1;
    let active = 3 * roomy;
    let mate = active + roomy - 1;
    let place = |i: usize| match i % roomy {
        _ if i > mate + 2 => (NOWHERE, roomy, 10),
        _ if i > mate => (NOWHERE, 0, 10),
        _ if i == mate => (roomy, 0, 10),
        node if i >= active => (node + 1, roomy, 10),
        node if node == roomy - 1 => (node, NOWHERE, 10),
        node => (node, node + 1, 10),
    };
    let spread = |vm| Constraint::Spread { vms: vec![vm, mate] };
    let mut constraints = latencies(CONSTRAINTS - (mate - active));
    constraints.extend((active..mate).map(spread));
    let mut room = Room { version: Version::Two, ..full_nodes(place, constraints) };
    for (i, vm) in room.vms.iter_mut().enumerate() {
        vm.cpu = if (active..mate).contains(&i) { 2 } else { 0 };
    }
    room.nodes.iter_mut().for_each(|node| node.cpu = 1);
    room.nodes[roomy] = ROOMY;
    room
}

//! Seeded reserves, and rooms that are on the edge at one: what is usable of their nodes is just enough,
//! one less, or one more.

use crate::gen::{Rng, MOST_CPU, MOST_MEMORY};
use crate::records::{cluster_bytes, parse_cluster, Node, Room};
use crate::rules::{Placement, MOST_RESERVE};

/// Reserves that are refused. Cut to fewer bits, or read as signed, some of them would be taken.
pub const TOO_HIGH: [u64; 8] = [91, 100, 255, 256, 1 << 32, (1 << 32) + 10, 1 << 63, u64::MAX];

/// A reserve that is taken and is not 0.
pub fn some_reserve(rng: &mut Rng) -> u64 {
    let any = rng.range(1, MOST_RESERVE as usize) as u64;
    rng.pick(&[any, any, any, any, 1, 10, 50, MOST_RESERVE])
}

/// A reserve and a cluster record to go with it: the one given, on the edge if it can be read. At times
/// the reserve is too high, and the record as it was given.
pub fn reserved(rng: &mut Rng, cluster: &[u8]) -> (u64, Vec<u8>) {
    if rng.chance(15) {
        return (rng.pick(&TOO_HIGH), cluster.to_vec());
    }
    let reserve = some_reserve(rng);
    let cluster = match parse_cluster(cluster) {
        Ok(room) => cluster_bytes(&on_the_edge(rng, reserve, &room)),
        Err(_) => cluster.to_vec(),
    };
    (reserve, cluster)
}

/// The least capacity of which so much is usable at a reserve.
fn least_for(amount: u64, reserve: u64) -> u64 {
    (100 * amount).div_ceil(100 - reserve)
}

/// The room whose usable amounts at a reserve are what this one's nodes have, as far as a record can
/// say it. Each capacity is the least for that.
pub fn raised(reserve: u64, room: &Room) -> Room {
    with_capacities(room, |amount| least_for(amount, reserve))
}

/// A room with these capacities in place of its own, but none above the largest.
fn with_capacities(room: &Room, mut capacity: impl FnMut(u64) -> u64) -> Room {
    let node = |node: &Node| Node {
        memory: capacity(node.memory).min(MOST_MEMORY),
        cpu: capacity(node.cpu).min(MOST_CPU),
    };
    Room { nodes: room.nodes.iter().map(node).collect(), ..room.clone() }
}

/// A room on the edge at a reserve. What is usable of its nodes is just what this one's have, or one
/// less in one place, or one less or more in many; the capacities are any of which just so much is
/// usable. A few rooms are as they were.
pub fn on_the_edge(rng: &mut Rng, reserve: u64, room: &Room) -> Room {
    let mut wanted = room.clone();
    match rng.below(10) {
        0 => return wanted,
        1..=4 => pinch(rng, &mut wanted),
        5 | 6 => wanted = with_capacities(&wanted, |amount| shaken(rng, amount)),
        _ => {}
    }
    with_capacities(&wanted, |amount| {
        let (least, next) = (least_for(amount, reserve), least_for(amount + 1, reserve));
        rng.range(least as usize, next as usize - 1) as u64
    })
}

/// Takes one off the memory or the CPU of a node that has more than its target needs, if one has.
fn pinch(rng: &mut Rng, room: &mut Room) {
    let end = Placement::target(room).sums;
    let mut spare = Vec::new();
    for (Node { memory, cpu }, end) in room.nodes.iter_mut().zip(end) {
        spare.extend((*memory > end.memory).then_some(memory));
        spare.extend((*cpu > end.cpu).then_some(cpu));
    }
    if !spare.is_empty() {
        let i = rng.below(spare.len());
        *spare[i] -= 1;
    }
}

/// An amount, or one less, or one more.
fn shaken(rng: &mut Rng, amount: u64) -> u64 {
    match rng.below(5) {
        0 => amount.saturating_sub(1),
        1 => amount + 1,
        _ => amount,
    }
}

//! Hand-set splits: what becomes of small plans move by move, plans on both sides of 512 moves, buffers on
//! both sides of 2,567 bytes, and what is refused.

use super::stops::{uneven, ASIDE, BOTH};
use super::{a_with, ban, before, cluster_a, header, node, room, room_2, spread, steps};
use super::{sourced, to_and_fro, vm};
use crate::gen::{MOST_CPU, MOST_MEMORY};
use crate::planner;
use crate::records::{cluster_bytes, plan_bytes, Room, Step, Version, NOWHERE};
use crate::reserves::TOO_HIGH;
use crate::sources::{bare, named};
use crate::split::BUFFER;
use crate::splits::OF_VERSION_1;

/// What comes of a split: the divided plan's record and its cost, or number and step of the refusal.
pub type Ends = Result<(Vec<u8>, u64), (u8, u16)>;

/// One split with its expected outcome.
#[derive(Clone, Debug)]
pub struct SplitEdge {
    pub name: String,
    pub reserve: u64,
    pub cluster: Vec<u8>,
    pub plan: Vec<u8>,
    pub buffer: usize,
    pub ends: Ends,
}

/// Steps as rows of VM and destination.
type Rows<'a> = &'a [&'a [(usize, usize)]];

/// A move of a divided plan: VM, source and destination.
type Row = (usize, usize, usize);

/// Buffers that are too short: of no use, for others, for version 1, for one step less, by a byte.
const SHORT: [usize; 8] =
    [0, 1, 7, 2_051, OF_VERSION_1, planner::BUFFER, planner::BUFFER + 1, BUFFER - 1];

/// Buffers that are long enough.
const LONG: [usize; 4] = [BUFFER, BUFFER + 1, 4_103, 70_000];

/// The record of a plan with one move in each step, byte by byte.
fn record(version: Version, moves: &[Row]) -> Vec<u8> {
    let mut bytes = vec![];
    for &(vm, from, to) in moves {
        let row = match version {
            Version::One => vec![vm, to],
            Version::Two => vec![vm, from, to],
        };
        bytes.extend([0, 1]);
        bytes.extend(row.into_iter().map(|b| b as u8));
    }
    let length = (7 + bytes.len() as u32).to_be_bytes();
    let count = (moves.len() as u16).to_be_bytes();
    [&[version as u8][..], &length, &count, &bytes].concat()
}

/// The splits gathered so far, with ways to add one.
#[derive(Default)]
struct Splits(Vec<SplitEdge>);

impl Splits {
    /// Steps in each plan version, in buffers that are long enough, and what becomes of them.
    fn done(
        &mut self,
        name: &str,
        reserve: u64,
        room: &Room,
        list: &[Step],
        moves: &[Row],
        cost: u64,
    ) {
        for plan in [bare(list), named(room, list)] {
            let ends = Ok((record(plan.version, moves), cost));
            self.buffers(name, reserve, &cluster_bytes(room), &plan_bytes(&plan), &LONG, ends);
        }
    }

    /// As `done`, with no reserve and from rows of VM and destination.
    fn rows(&mut self, name: &str, room: &Room, list: Rows, moves: &[Row], cost: u64) {
        self.done(name, 0, room, &steps(list), moves, cost);
    }

    /// Steps in each plan version that are refused, in these buffers.
    fn refused(
        &mut self,
        name: &str,
        reserve: u64,
        room: &Room,
        list: &[Step],
        buffers: &[usize],
        ends: (u8, u16),
    ) {
        for plan in [bare(list), named(room, list)] {
            let (cluster, plan) = (cluster_bytes(room), plan_bytes(&plan));
            self.buffers(name, reserve, &cluster, &plan, buffers, Err(ends));
        }
    }

    /// One plan's bytes in each of these buffers.
    fn buffers(
        &mut self,
        name: &str,
        reserve: u64,
        cluster: &[u8],
        plan: &[u8],
        buffers: &[usize],
        ends: Ends,
    ) {
        for &buffer in buffers {
            let name = format!("{name}, reserve {reserve}, buffer {buffer}");
            let (cluster, plan, ends) = (cluster.to_vec(), plan.to_vec(), ends.clone());
            self.0.push(SplitEdge { name, reserve, cluster, plan, buffer, ends });
        }
    }
}

/// All hand-set splits.
pub fn split_edges() -> Vec<SplitEdge> {
    let mut splits = Splits::default();
    small_plans(&mut splits);
    launches_and_shutdowns(&mut splits);
    waiting(&mut splits);
    idle_and_mates(&mut splits);
    at_reserves(&mut splits);
    many_moves(&mut splits);
    dearest(&mut splits);
    no_steps(&mut splits);
    short_buffers(&mut splits);
    refused_plans(&mut splits);
    splits.0
}

/// Plans of single moves stay as they are; of the others each move is a step.
fn small_plans(s: &mut Splits) {
    let a = [cluster_a(), Room { version: Version::Two, ..cluster_a() }];
    for room in &a {
        s.rows("A", room, ASIDE, &[(0, 0, 2), (1, 1, 0), (0, 2, 1)], 3 + 5 + 8);
    }
    // Undivided it costs 5, and with VM 1 first 2 + 5.
    s.rows("A, memory 5", &a_with(5, 5), BOTH, &[(0, 0, 1), (1, 1, 0)], 3 + 5);
    // Undivided it costs 5 + 11 + 17.
    let twice: Rows = &[&[(0, 1), (1, 0)], &[(0, 2), (1, 2)], &[(0, 1), (1, 0)]];
    let moves = [(0, 0, 1), (1, 1, 0), (0, 1, 2), (1, 0, 2), (0, 2, 1), (1, 2, 0)];
    s.rows("A, memory 9", &a_with(9, 9), twice, &moves, 3 + 5 + 8 + 10 + 13 + 15);
    let (room, list) = uneven();
    let moves = [(0, 0, 2), (2, 2, 0), (1, 1, 3), (2, 0, 1), (3, 3, 2), (4, 0, 1), (3, 2, 3)];
    s.done("all kinds of constraint", 0, &room, &list, &moves, 2 + 4 + 6 + 8 + 10 + 12 + 14);
}

/// A shutdown's step costs nothing, and it pays for those before it.
fn launches_and_shutdowns(s: &mut Splits) {
    const DOWN: usize = NOWHERE;
    let vms = [vm(3, 1, DOWN, 1), vm(2, 4, 1, DOWN), vm(1, 1, 0, 1), vm(1, 1, DOWN, DOWN)];
    let room = room_2(&[node(9, 9), node(9, 9)], &vms, &[]);
    let all: Rows = &[&[(0, 1), (1, DOWN), (2, 1)]];
    let moves = [(0, DOWN, 1), (1, 1, DOWN), (2, 0, 1)];
    s.rows("a launch, a shutdown and a move", &room, all, &moves, 3 + 3 + 4);
    let vms = [vm(5, 1, 0, DOWN), vm(2, 1, DOWN, 0), vm(3, 1, 1, 0)];
    let room = room_2(&[node(10, 9), node(9, 9)], &vms, &[]);
    let all: Rows = &[&[(0, DOWN), (1, 0), (2, 0)]];
    let moves = [(0, 0, DOWN), (1, DOWN, 0), (2, 1, 0)];
    s.rows("a shutdown, a launch and a move", &room, all, &moves, 2 + 5);
    let vms = [vm(5, 1, 0, DOWN), vm(2, 1, 0, DOWN)];
    let room = room_2(&[node(7, 2)], &vms, &[]);
    let both: Rows = &[&[(0, DOWN), (1, DOWN)]];
    s.rows("two shutdowns", &room, both, &[(0, 0, DOWN), (1, 0, DOWN)], 0);
    let room = room_2(&[node(1, 1), node(1, 1)], &[vm(1, 1, DOWN, DOWN)], &[]);
    let list: Rows = &[&[(0, 0)], &[(0, 1)], &[(0, DOWN)]];
    s.rows("up, on and down again", &room, list, &[(0, DOWN, 0), (0, 0, 1), (0, 1, DOWN)], 5);
}

/// Those who wait for one that is home, or that came home in a step before.
fn waiting(s: &mut Splits) {
    let vms = [vm(4, 1, 0, 0), vm(1, 1, 0, 1), vm(2, 1, 0, 2), vm(3, 1, 0, 1)];
    let waits = [before(0, 1), before(0, 2)];
    let home = room(&vec![node(20, 9); 3], &vms, &waits);
    let moves = [(1, 0, 1), (2, 0, 2), (3, 0, 1)];
    s.rows("two wait for one at home", &home, &[&[(1, 1), (2, 2), (3, 1)]], &moves, 1 + 3 + 6);
    let vms = [vm(1, 1, 0, 1), vm(2, 1, 0, 2), vm(4, 1, 0, 1), vm(3, 1, 0, 2)];
    let waits = [before(2, 0), before(2, 1), before(3, 0)];
    let turn = room(&vec![node(20, 9); 3], &vms, &waits);
    let list: Rows = &[&[(2, 1), (3, 2)], &[(0, 1), (1, 2)]];
    let moves = [(2, 0, 1), (3, 0, 2), (0, 0, 1), (1, 0, 2)];
    s.rows("two wait for two", &turn, list, &moves, 4 + 7 + 8 + 10);
    let early: Rows = &[&[(0, 1), (2, 1)], &[(1, 2), (3, 2)]];
    s.refused("one waits in one step", 0, &turn, &steps(early), &[BUFFER], (33, 1));
}

/// An idle VM comes to a node over its CPU, and mates come to nodes of their own.
fn idle_and_mates(s: &mut Splits) {
    let vms = [vm(2, 0, 0, 1), vm(3, 2, 1, 2)];
    let busy = room(&[node(9, 9), node(9, 1), node(9, 9)], &vms, &[]);
    let moves = [(0, 0, 1), (1, 1, 2)];
    s.rows("idle onto a busy node", &busy, &[&[(0, 1), (1, 2)]], &moves, 2 + 5);
    let vms = [vm(2, 1, 0, 2), vm(5, 1, 1, 3), vm(1, 1, 4, 0)];
    let apart = room(&vec![node(9, 9); 5], &vms, &[spread(&[0, 1, 2])]);
    let list: Rows = &[&[(0, 2), (1, 3)], &[(2, 0)]];
    let moves = [(0, 0, 2), (1, 1, 3), (2, 4, 0)];
    s.rows("mates that keep apart", &apart, list, &moves, 2 + 7 + 8);
    let meet: Rows = &[&[(0, 2), (1, 3), (2, 0)]];
    s.refused("a mate still there", 0, &apart, &steps(meet), &[BUFFER], (18, 1));
}

/// Node 0 is over what is usable of it at reserve 20, where that is 8, until one has left; at 50 it is 5.
fn at_reserves(s: &mut Splits) {
    let vms = [vm(5, 1, 0, 1), vm(4, 1, 0, 2)];
    let room = room(&vec![node(10, 10); 3], &vms, &[]);
    let list = steps(&[&[(0, 1), (1, 2)]]);
    for reserve in [0, 1, 20, 50] {
        s.done("both leave", reserve, &room, &list, &[(0, 0, 1), (1, 0, 2)], 5 + 9);
    }
    s.refused("the target does not fit", 51, &room, &list, &[0, BUFFER], (8, 0));
    for reserve in TOO_HIGH {
        s.refused("too high", reserve, &room, &list, &[0, BUFFER - 1, BUFFER], (23, 0));
    }
}

/// A room for plans of many moves. The last of its VMs is wanted on node 1 if `odd`, else all are home.
fn wide(odd: bool, vms: usize) -> Room {
    let mut room = room(&[node(MOST_MEMORY, MOST_CPU), node(MOST_MEMORY, MOST_CPU)], &[], &[]);
    room.vms = vec![vm(1, 1, 0, 0); vms];
    room.vms[vms - 1].target = usize::from(odd);
    room
}

/// 512 moves can be single ones, and no more.
fn many_moves(s: &mut Splits) {
    let all = |from: usize, count: usize| (0..count).map(move |vm| (vm, from, 1 - from));
    let sum = |moves: u64| moves * (moves + 1) / 2;
    let moves: Vec<Row> = all(0, 256).chain(all(1, 256)).collect();
    s.done("512 moves", 0, &wide(false, 256), &to_and_fro(&[256, 256]), &moves, sum(512));
    let moves: Vec<Row> = all(0, 256).chain(all(1, 255)).collect();
    s.done("511 moves", 0, &wide(true, 256), &to_and_fro(&[256, 255]), &moves, sum(511));
    let there = |count: usize| (0..256).flat_map(move |i| all(i % 2, count));
    let moves: Vec<Row> = there(2).collect();
    s.done("256 steps of 2", 0, &wide(false, 2), &to_and_fro(&[2; 256]), &moves, sum(512));
    let moves: Vec<Row> = there(1).chain(there(1)).collect();
    s.done("512 steps of 1", 0, &wide(false, 1), &to_and_fro(&[1; 512]), &moves, sum(512));

    let one_step_more: Vec<usize> = [vec![2], vec![1; 511]].concat();
    let table: [(bool, usize, &[usize]); 6] = [
        (true, 256, &[256, 255, 1, 1]),
        (true, 2, &one_step_more),
        (false, 256, &[256, 256, 1, 1]),
        (true, 256, &[256, 256, 256, 255]),
        (false, 256, &[256; 4]),
        (false, 2, &[2; 512]),
    ];
    for (odd, vms, counts) in table {
        let (room, list) = (wide(odd, vms), to_and_fro(counts));
        let name = format!("{} moves", counts.iter().sum::<usize>());
        s.refused(&name, 0, &room, &list, &LONG, (14, 0));
        // 10 comes first.
        s.refused(&name, 0, &room, &list, &SHORT, (10, 0));
        s.refused(&name, 91, &room, &list, &[0, BUFFER], (23, 0));
    }
    // What the checker itself refuses with 14 comes before 10.
    for counts in [&[1; 513][..], &[1; 514], &[256, 256, 256, 256, 1], &[0], &[257, 257]] {
        let list = to_and_fro(counts);
        s.refused("14 by the checker", 0, &wide(false, 256), &list, &SHORT, (14, 0));
        s.refused("14 by the checker", 0, &wide(false, 256), &list, &LONG, (14, 0));
    }
}

/// The largest VMs, on nodes that hold just one, in 256 steps of two moves.
fn dearest(s: &mut Splits) {
    let vms = [vm(MOST_MEMORY, MOST_CPU, 0, 0), vm(MOST_MEMORY, MOST_CPU, 1, 1)];
    let big = room(&vec![node(MOST_MEMORY, MOST_CPU); 4], &vms, &[]);
    let sway = |i: usize| steps(&[&[(0, 2 - 2 * (i % 2)), (1, 3 - 2 * (i % 2))]]).remove(0);
    let there = |i: usize| [(0, 0, 2), (1, 1, 3), (0, 2, 0), (1, 3, 1)][i % 4];
    let moves: Vec<Row> = (0..512).map(there).collect();
    let list: Vec<Step> = (0..256).map(sway).collect();
    s.done("the dearest", 0, &big, &list, &moves, MOST_MEMORY * (512 * 513 / 2));
}

/// A header keeps its version; no bytes become one of version 2.
fn no_steps(s: &mut Splits) {
    let home = cluster_bytes(&room(&[node(9, 9)], &[vm(1, 1, 0, 0)], &[]));
    let nobody = cluster_bytes(&room(&[node(9, 9)], &[], &[]));
    let away = cluster_bytes(&cluster_a());
    let [one, two] = Version::ALL.map(header);
    for (plan, becomes) in [(vec![], two.clone()), (one.clone(), one), (two.clone(), two)] {
        for cluster in [&home, &nobody] {
            s.buffers("no steps", 0, cluster, &plan, &LONG, Ok((becomes.clone(), 0)));
            s.buffers("no steps", 0, cluster, &plan, &SHORT, Err((10, 0)));
        }
        s.buffers("no steps, nobody", 90, &nobody, &plan, &LONG, Ok((becomes.clone(), 0)));
        s.buffers("no steps, no room", 90, &home, &plan, &[0, BUFFER], Err((8, 0)));
        s.buffers("no steps, not home", 0, &away, &plan, &[0, BUFFER], Err((19, 0)));
        s.buffers("no steps, no cluster", 0, &[], &plan, &[0, BUFFER], Err((1, 0)));
    }
}

/// 2,567 bytes are asked of every plan, whatever its own record needs.
fn short_buffers(s: &mut Splits) {
    s.refused("A", 0, &cluster_a(), &steps(ASIDE), &SHORT, (10, 0));
    s.refused("A, memory 5", 0, &a_with(5, 5), &steps(BOTH), &SHORT, (10, 0));
    let list = to_and_fro(&[256, 256]);
    s.refused("512 moves", 0, &wide(false, 256), &list, &SHORT, (10, 0));
    let (room, list) = uneven();
    s.refused("all kinds of constraint", 0, &room, &list, &SHORT, (10, 0));
}

/// What is wrong with the reserve, the cluster or the plan comes before what is wrong with the buffer.
fn refused_plans(s: &mut Splits) {
    let a = cluster_a();
    let buffers = [0, OF_VERSION_1, BUFFER - 1, BUFFER, BUFFER + 1];
    let mut add = |reserve: u64, room: &Room, list: Rows, ends: (u8, u16)| {
        s.refused("a plan that is refused", reserve, room, &steps(list), &buffers, ends);
    };
    add(0, &a, BOTH, (17, 1));
    add(0, &a, &[&[(0, 2)]], (19, 0));
    add(0, &a, &[&[(0, 2)], &[(1, 0)], &[(0, 2)]], (15, 3));
    add(0, &a_with(9, 9), &[&[(1, 0), (0, 1)]], (15, 1));
    add(26, &a, ASIDE, (8, 0));
    add(20, &a_with(5, 5), BOTH, (17, 1));
    add(0, &Room { constraints: vec![ban(&[0], &[2])], ..a.clone() }, ASIDE, (16, 1));
    add(0, &Room { constraints: vec![spread(&[0, 1])], ..a_with(9, 9) }, BOTH, (18, 1));
    add(0, &Room { constraints: vec![before(0, 1)], ..a_with(9, 9) }, BOTH, (33, 1));
    for reserve in TOO_HIGH {
        add(reserve, &a, ASIDE, (23, 0));
    }
    let wrong = plan_bytes(&sourced(&[&[(0, 0, 2)], &[(1, 1, 0)], &[(0, 0, 1)]]));
    s.buffers("a wrong source", 0, &cluster_bytes(&a), &wrong, &buffers, Err((27, 3)));
}

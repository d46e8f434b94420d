//! Seeded generators: valid clusters of many kinds, plans good and spoilt, and damage to both
//! records. The same seed always gives the same inputs.

use crate::planner::{make_steps, make_steps_from, BUFFER};
use crate::records::{
    cluster_bytes_with, constraint_body, on_a_node, plan_bytes, state_length, Constraint, Move,
    Node, Plan, Room, Step, Version, Vm, CLUSTER_HEADER, NODE_ROW, NOWHERE, PLAN_HEADER, VM_ROW,
};
use crate::rules::{cpu_within, mates, may_go, step_fault, Book, Placement, Sum};
use crate::sources::{bare, named};

pub const MOST_MEMORY: u64 = 16_777_215;
pub const MOST_CPU: u64 = 65_535;

// ---------------------------------------------------------------- random numbers

/// The splitmix64 generator.
#[derive(Clone, Debug)]
pub struct Rng(u64);

impl Rng {
    pub fn new(seed: u64) -> Rng {
        Rng(seed)
    }

    pub fn draw(&mut self) -> u64 {
        self.0 = self.0.wrapping_add(0x9E37_79B9_7F4A_7C15);
        let mut z = self.0;
        z = (z ^ (z >> 30)).wrapping_mul(0xBF58_476D_1CE4_E5B9);
        z = (z ^ (z >> 27)).wrapping_mul(0x94D0_49BB_1331_11EB);
        z ^ (z >> 31)
    }

    /// A number below `n`; `n` must not be 0.
    pub fn below(&mut self, n: usize) -> usize {
        (self.draw() % n as u64) as usize
    }

    /// A number from `low` to `high`, both included.
    pub fn range(&mut self, low: usize, high: usize) -> usize {
        low + self.below(high - low + 1)
    }

    pub fn chance(&mut self, percent: usize) -> bool {
        self.below(100) < percent
    }

    pub fn pick<T: Clone>(&mut self, from: &[T]) -> T {
        from[self.below(from.len())].clone()
    }

    pub fn shuffle<T>(&mut self, list: &mut [T]) {
        for i in (1..list.len()).rev() {
            list.swap(i, self.below(i + 1));
        }
    }

    /// Some of the entries, order kept; how dense is drawn anew each time.
    pub fn some_of<T: Clone>(&mut self, list: &[T]) -> Vec<T> {
        let percent = self.pick(&[0, 10, 30, 60, 100]);
        list.iter().filter(|_| self.chance(percent)).cloned().collect()
    }
}

// ---------------------------------------------------------------- valid clusters

#[derive(Clone, Copy, Debug, PartialEq, Eq)]
pub enum Size {
    Tiny,
    Small,
    Medium,
    Large,
}

/// A cluster with none of the faults 1 to 9: the VMs and their targets come first, then nodes
/// and constraints are drawn so that the target keeps to them.
pub fn room(rng: &mut Rng, size: Size) -> Room {
    let (n, v) = counts(rng, size);
    let vms = vms_on_target(rng, n, v);
    let mut room = unsized_room(n, vms);
    some_idle(rng, &mut room);
    scatter(rng, &mut room);
    some_down(rng, &mut room);
    size_nodes(rng, &mut room);
    room.constraints = constraints(rng, &room, size);
    room
}

/// A room of version 1 with nodes that have nothing to give.
pub(crate) fn unsized_room(n: usize, vms: Vec<Vm>) -> Room {
    let nodes = vec![Node { memory: 0, cpu: 0 }; n];
    Room { version: Version::One, nodes, vms, constraints: vec![] }
}

/// Makes a room one of version 2 at times, in which some VMs are to be launched or shut down or are
/// on no node all the time; in a few of them nobody is.
pub(crate) fn some_down(rng: &mut Rng, room: &mut Room) {
    if rng.chance(50) {
        return;
    }
    room.version = Version::Two;
    let percent = rng.pick(&[0, 10, 25, 25, 50, 80]);
    for vm in &mut room.vms {
        if rng.chance(percent) {
            match rng.below(5) {
                0 | 1 => vm.current = NOWHERE,
                2 | 3 => vm.target = NOWHERE,
                _ => stay_down(rng, vm),
            }
        }
    }
}

/// Makes many VMs of a room idle, in one room of three.
pub(crate) fn some_idle(rng: &mut Rng, room: &mut Room) {
    if rng.chance(67) {
        return;
    }
    let percent = rng.pick(&[20, 50, 50, 80]);
    room.vms.iter_mut().filter(|_| rng.chance(percent)).for_each(|vm| vm.cpu = 0);
}

/// Puts a VM on no node for good, at times one that no node could hold.
fn stay_down(rng: &mut Rng, vm: &mut Vm) {
    (vm.current, vm.target) = (NOWHERE, NOWHERE);
    if rng.chance(20) {
        (vm.memory, vm.cpu) = (MOST_MEMORY, MOST_CPU);
    }
}

fn counts(rng: &mut Rng, size: Size) -> (usize, usize) {
    match size {
        Size::Tiny => (rng.range(2, 4), rng.range(1, 6)),
        Size::Small => (rng.range(1, 6), rng.range(0, 10)),
        Size::Medium => (rng.range(1, 20), rng.range(0, 60)),
        Size::Large => (rng.pick(&[1, 8, 32, 63, 64]), rng.pick(&[0, 64, 200, 255, 256])),
    }
}

/// VMs already on their targets, so spread that no node's sums pass the largest capacity.
fn vms_on_target(rng: &mut Rng, n: usize, v: usize) -> Vec<Vm> {
    let style = rng.below(6);
    let fewer_nodes = if rng.chance(40) { rng.range(1, n) } else { n };
    let mut sums = vec![Sum::NOTHING; n];
    let mut vms = Vec::new();
    for _ in 0..v {
        let (mut memory, mut cpu) = demand(rng, style);
        let first = rng.below(fewer_nodes);
        let takes = |node: usize, memory: u64, cpu: u64| {
            sums[node].memory + memory <= MOST_MEMORY && sums[node].cpu + cpu <= MOST_CPU
        };
        let search = || (0..n).map(|i| (first + i) % n);
        let mut node = search().find(|&node| takes(node, memory, cpu));
        if node.is_none() {
            (memory, cpu) = (1, 0);
            node = search().find(|&node| takes(node, memory, cpu));
        }
        let Some(node) = node else { break };
        let vm = Vm { memory, cpu, current: node, target: node };
        sums[node] = sums[node].plus(&vm);
        vms.push(vm);
    }
    vms
}

/// Memory and CPU of one VM.
fn demand(rng: &mut Rng, style: usize) -> (u64, u64) {
    let memory = match style {
        0 => 1,
        1 => rng.range(1, 4),
        2 => rng.pick(&[256, 512, 1024, 2048]),
        3 => rng.range(1, 60_000),
        4 => rng.pick(&[1, 255, 256, 65_535, 65_536, 8_388_607, 16_777_214, 16_777_215]),
        _ => rng.range(1, 9),
    };
    let cpu = match style {
        0 => rng.below(2),
        1 => rng.range(0, 3),
        2 => rng.pick(&[0, 50, 100]),
        3 => rng.range(0, 250),
        4 => rng.pick(&[0, 0, 0, 1, 255, 256, 32_767, 65_535]),
        _ => 0,
    };
    (memory as u64, cpu as u64)
}

/// Draws the current nodes.
fn scatter(rng: &mut Rng, room: &mut Room) {
    let n = room.nodes.len();
    let heap = rng.below(n);
    let turn = rng.below(n);
    let mut mixed: Vec<usize> = room.vms.iter().map(|vm| vm.target).collect();
    rng.shuffle(&mut mixed);
    let style = rng.below(10);
    for (vm, &shuffled) in room.vms.iter_mut().zip(&mixed) {
        let target = vm.target;
        vm.current = match style {
            0 => target,
            1 if rng.chance(80) => target,
            2 => heap,
            3 => (target + turn) % n,
            4 | 5 if rng.chance(50) => target,
            6..=8 => shuffled,
            _ => rng.below(n),
        };
    }
}

/// Draws capacities that hold the target: just so, enough for start and target, or with room
/// over. Memory and CPU are drawn apart, so that either may be the tight one.
fn size_nodes(rng: &mut Rng, room: &mut Room) {
    let start = Placement::current(room).sums;
    let end = Placement::target(room).sums;
    let most_memory = room.vms.iter().map(|vm| vm.memory).max().unwrap_or(0);
    let most_cpu = room.vms.iter().map(|vm| vm.cpu).max().unwrap_or(0);
    let (memory_style, cpu_style) = (rng.below(7), rng.pick(&[0, 0, 1, 2, 3, 3, 4, 4, 4, 5, 6]));
    for node in 0..room.nodes.len() {
        let (first, last) = (start[node].memory, end[node].memory);
        let memory = capacity(rng, memory_style, first, last, most_memory, MOST_MEMORY);
        let (first, last) = (start[node].cpu, end[node].cpu);
        let cpu = capacity(rng, cpu_style, first, last, most_cpu, MOST_CPU);
        room.nodes[node] = Node { memory, cpu };
    }
    if !room.nodes.is_empty() && rng.chance(50) {
        let spare = rng.below(room.nodes.len());
        let node = &mut room.nodes[spare];
        node.memory = (node.memory + most_memory).min(MOST_MEMORY);
        node.cpu = (node.cpu + most_cpu).min(MOST_CPU);
    }
}

fn capacity(rng: &mut Rng, style: usize, start: u64, end: u64, largest: u64, most: u64) -> u64 {
    let both = start.max(end);
    let wanted = match style {
        0 => end,
        1 => both,
        2 => both + rng.below(largest as usize + 1) as u64,
        3 => both + largest,
        4 => most,
        5 => both + rng.below(3) as u64,
        _ => rng.pick(&[end, both, both + largest / 2, both + largest]),
    };
    wanted.min(most)
}

/// Constraints that the target keeps.
fn constraints(rng: &mut Rng, room: &Room, size: Size) -> Vec<Constraint> {
    let many = match size {
        Size::Tiny | Size::Small => 6,
        Size::Medium => 30,
        Size::Large => 128,
    };
    let how_many = match rng.below(4) {
        0 => 0,
        1 => rng.range(1, 2),
        2 => rng.range(1, 4),
        _ => rng.range(0, many),
    };
    let one_kind = if rng.chance(30) { Some(rng.below(5)) } else { None };
    let queue = queue(rng, room);
    (0..how_many)
        .map(|_| match one_kind.unwrap_or_else(|| rng.below(5)) {
            0 => ban(rng, room),
            1 => fence(rng, room),
            2 => spread(rng, room),
            3 => latency(rng, room),
            _ => before(rng, &queue),
        })
        .collect()
}

/// All VMs in some order, for those behind to wait for those ahead.
pub(crate) fn queue(rng: &mut Rng, room: &Room) -> Vec<usize> {
    let mut vms: Vec<usize> = (0..room.vms.len()).collect();
    rng.shuffle(&mut vms);
    vms
}

/// One of a queue waits for another, most often for one ahead, so that few bind each other. With nobody
/// to wait for it is a spread of nobody.
pub(crate) fn before(rng: &mut Rng, queue: &[usize]) -> Constraint {
    let Some(last) = queue.len().checked_sub(1).filter(|&last| last > 0) else {
        return Constraint::Spread { vms: vec![] };
    };
    let ahead = rng.below(last);
    let (first, second) = (queue[ahead], queue[rng.range(ahead + 1, last)]);
    match rng.chance(10) {
        true => Constraint::Before { first: second, second: first },
        false => Constraint::Before { first, second },
    }
}

pub(crate) fn some_vms(rng: &mut Rng, room: &Room) -> Vec<usize> {
    let all: Vec<usize> = (0..room.vms.len()).collect();
    rng.some_of(&all)
}

/// The nodes split into targets of these VMs and all others.
fn targets_and_others(room: &Room, vms: &[usize]) -> (Vec<usize>, Vec<usize>) {
    (0..room.nodes.len()).partition(|&node| vms.iter().any(|&vm| room.vms[vm].target == node))
}

pub(crate) fn ban(rng: &mut Rng, room: &Room) -> Constraint {
    let vms = some_vms(rng, room);
    let (_, others) = targets_and_others(room, &vms);
    Constraint::Ban { vms, nodes: rng.some_of(&others) }
}

pub(crate) fn fence(rng: &mut Rng, room: &Room) -> Constraint {
    let vms = some_vms(rng, room);
    let (mut nodes, others) = targets_and_others(room, &vms);
    nodes.extend(rng.some_of(&others));
    nodes.sort();
    Constraint::Fence { vms, nodes }
}

fn spread(rng: &mut Rng, room: &Room) -> Constraint {
    let candidates = some_vms(rng, room);
    spread_among(rng, room, candidates)
}

/// A spread over as many of these VMs as have targets apart, or none.
pub(crate) fn spread_among(rng: &mut Rng, room: &Room, mut candidates: Vec<usize>) -> Constraint {
    rng.shuffle(&mut candidates);
    let mut used = vec![false; room.nodes.len()];
    candidates.retain(|&vm| {
        let target = room.vms[vm].target;
        !on_a_node(target) || !std::mem::replace(&mut used[target], true)
    });
    candidates.truncate(rng.range(2, 64));
    candidates.sort();
    Constraint::Spread { vms: candidates }
}

pub(crate) fn latency(rng: &mut Rng, room: &Room) -> Constraint {
    let how_many = rng.pick(&[0, 1, 2, 3, 5, 64]);
    let mut groups = vec![Vec::new(); how_many];
    let percent = rng.pick(&[50, 90, 100]);
    for node in 0..room.nodes.len() {
        if how_many > 0 && rng.chance(percent) {
            groups[rng.below(how_many)].push(node);
        }
    }
    let chosen = if groups.is_empty() { vec![] } else { rng.pick(&groups) };
    let fits = |target: usize| chosen.contains(&target) || !on_a_node(target);
    let mut vms = some_vms(rng, room);
    vms.retain(|&vm| fits(room.vms[vm].target));
    Constraint::Latency { vms, groups }
}

/// A knot: VMs that change places among nodes with next to nothing free, and a node or two beside
/// them to step onto, at times over their CPU. Most need pivots; many block.
pub fn knot(rng: &mut Rng, size: Size) -> Room {
    let (n, v) = counts(rng, size);
    let n = n.max(3);
    let busy = n - rng.range(1, 2.min(n - 2));
    let largest = rng.pick(&[1, 2, 2, 3, 6]);
    let mut places: Vec<usize> = (0..v).map(|i| i % busy).collect();
    rng.shuffle(&mut places);
    let vm = |rng: &mut Rng, target: usize| {
        let (memory, cpu) = (rng.range(1, largest) as u64, rng.below(3) as u64);
        Vm { memory, cpu, current: target, target }
    };
    let vms: Vec<Vm> = places.iter().map(|&target| vm(rng, target)).collect();
    let mut room = unsized_room(n, vms);
    rng.shuffle(&mut places);
    let stay = rng.pick(&[0, 0, 20, 50]);
    for (vm, &place) in room.vms.iter_mut().zip(&places) {
        vm.current = if rng.chance(stay) { vm.target } else { place };
    }
    some_idle(rng, &mut room);
    let warm = warm_up(rng, &mut room, n - busy);
    some_down(rng, &mut room);
    let (start, end) = (Placement::current(&room).sums, Placement::target(&room).sums);
    let free = rng.pick(&[1, 1, 2, largest]);
    let roomy_cpu = rng.chance(70);
    for i in 0..n {
        let memory = start[i].memory.max(end[i].memory) + rng.below(free) as u64;
        let cpu = start[i].cpu.max(end[i].cpu) + if roomy_cpu { 9 } else { rng.below(2) as u64 };
        room.nodes[i] = Node { memory, cpu };
    }
    for (spare, start) in room.nodes.iter_mut().zip(start).skip(busy) {
        let cpu = if warm { rng.below(2) as u64 } else { spare.cpu + 2 };
        *spare = Node { memory: start.memory + rng.range(1, largest) as u64, cpu };
    }
    if rng.chance(40) {
        room.constraints = constraints(rng, &room, Size::Tiny);
    }
    room
}

/// At times puts some VMs on the spare nodes, the last ones, to start from there; whether it did.
/// Nobody should end there, so they may then have next to no CPU.
pub(crate) fn warm_up(rng: &mut Rng, room: &mut Room, spares: usize) -> bool {
    let warm = spares > 0 && rng.chance(20);
    let n = room.nodes.len();
    for vm in &mut room.vms {
        if warm && rng.chance(30) {
            vm.current = rng.range(n - spares, n - 1);
        }
    }
    warm
}

/// A busy room: nodes that are over their CPU until active VMs have left them, and idle VMs that are
/// wanted there. Memory may be what keeps them out.
pub fn busy(rng: &mut Rng, size: Size) -> Room {
    let (n, v) = counts(rng, size);
    let n = n.max(2);
    let mut nodes: Vec<usize> = (0..n).collect();
    rng.shuffle(&mut nodes);
    let (hot, cool) = nodes.split_at(rng.range(1, n - 1));
    let (largest, idle) = (rng.pick(&[1, 2, 3, 6]), rng.pick(&[30, 50, 70]));
    let vm = |rng: &mut Rng| {
        let cpu = if rng.chance(idle) { 0 } else { rng.range(1, 3) as u64 };
        let (one, other) = (rng.pick(hot), rng.pick(cool));
        let (current, target) = match rng.below(10) {
            0 | 1 => (one, one),
            2 => (rng.below(n), rng.below(n)),
            _ if cpu == 0 => (other, one),
            _ => (one, other),
        };
        Vm { memory: rng.range(1, largest) as u64, cpu, current, target }
    };
    let vms = (0..v).map(|_| vm(rng)).collect();
    let mut room = unsized_room(n, vms);
    some_down(rng, &mut room);
    let (start, end) = (Placement::current(&room).sums, Placement::target(&room).sums);
    let (over_memory, over_cpu) = (rng.pick(&[0, 0, 20]), rng.pick(&[60, 90, 100]));
    let free = rng.pick(&[1, 2, largest, 99]);
    for i in 0..n {
        let held = |over: bool, start: u64, end: u64| if over { end } else { start.max(end) };
        let memory = held(rng.chance(over_memory), start[i].memory, end[i].memory);
        let cpu = held(rng.chance(over_cpu), start[i].cpu, end[i].cpu);
        let (memory, cpu) = (memory + rng.below(free) as u64, cpu + rng.pick(&[0, 0, 1, 3]));
        room.nodes[i] = Node { memory, cpu };
    }
    if rng.chance(40) {
        room.constraints = constraints(rng, &room, Size::Tiny);
    }
    if rng.chance(30) {
        let wide = spread_among(rng, &room, (0..v).collect());
        room.constraints.push(wide);
    }
    room
}

/// Nodes of the largest capacity, so that spreads, and a ban or fence at times, are what keeps
/// VMs from moving all at once.
pub fn apart(rng: &mut Rng, size: Size) -> Room {
    let mut room = room(rng, size);
    room.nodes.fill(Node { memory: MOST_MEMORY, cpu: MOST_CPU });
    if rng.chance(60) {
        room.constraints.clear();
    }
    for _ in 0..rng.range(1, 4) {
        let all = (0..room.vms.len()).collect();
        let wide = spread_among(rng, &room, all);
        room.constraints.push(wide);
    }
    if rng.chance(20) {
        room.constraints.push(ban(rng, &room));
        room.constraints.push(fence(rng, &room));
    }
    room.constraints.truncate(128);
    room
}

/// Rooms in which VMs wait for others, and mostly for nothing else: in a row, many for one, one for many,
/// each for its partner, or as it is drawn. Mostly it is those out of place that wait and are waited for.
pub fn waiting(rng: &mut Rng, size: Size) -> Room {
    let mut room = room(rng, size);
    if rng.chance(75) {
        room.nodes.fill(Node { memory: MOST_MEMORY, cpu: MOST_CPU });
    }
    if rng.chance(60) {
        room.constraints.clear();
    }
    let mut queue = queue(rng, &room);
    let away = Placement::current(&room).out_of_place(&room);
    if away.len() > 1 && rng.chance(75) {
        queue.retain(|vm| away.contains(vm));
    }
    queue.truncate(rng.pick(&[2, 3, 4, 6, 64]));
    let pair = |first: usize, second: usize| Constraint::Before { first, second };
    let Some((&one, others)) = queue.split_first() else { return room };
    room.constraints.extend(match rng.below(8) {
        0 | 1 => queue.windows(2).map(|two| pair(two[0], two[1])).collect(),
        2 => others.iter().map(|&other| pair(one, other)).collect(),
        3 => others.iter().map(|&other| pair(other, one)).collect(),
        4 => queue.chunks_exact(2).flat_map(|p| [pair(p[0], p[1]), pair(p[1], p[0])]).collect(),
        _ => (0..rng.range(1, 6)).map(|_| before(rng, &queue)).collect::<Vec<Constraint>>(),
    });
    rng.shuffle(&mut room.constraints);
    room.constraints.truncate(128);
    room
}

/// Pairs of VMs that change places, one pair after the other, each through the one spare node:
/// a pivot and two direct steps a pair.
pub fn swaps(pairs: usize) -> Room {
    let (left, right, spare) = (0, 1, 2);
    let forth = Vm { memory: 1, cpu: 1, current: left, target: right };
    let back = Vm { memory: 1, cpu: 1, current: right, target: left };
    let full = Node { memory: pairs as u64, cpu: pairs as u64 };
    let mut nodes = vec![full; 3];
    nodes[spare] = Node { memory: 1, cpu: 1 };
    let vms = (0..2 * pairs).map(|i| if i < pairs { forth.clone() } else { back.clone() });
    Room { version: Version::One, nodes, vms: vms.collect(), constraints: vec![] }
}

/// A ring: every node but the last is full, and each VM's target is the next node. One pivot
/// onto the last node opens it, and the rest follow one by one.
pub fn ring(rng: &mut Rng, n: usize) -> Room {
    let memory = rng.range(1, 100) as u64;
    let vm = |i: usize| Vm { memory, cpu: 10, current: i, target: (i + 1) % (n - 1) };
    Room {
        version: Version::One,
        nodes: vec![Node { memory, cpu: 10 }; n],
        vms: (0..n - 1).map(vm).collect(),
        constraints: vec![],
    }
}

/// A relay: every node is full, each VM's target is the next node, that of the last is none, and
/// one is to be launched on the first. The shutdown comes first, the rest follow one by one, and
/// the launch comes last.
pub fn relay(rng: &mut Rng, n: usize) -> Room {
    let memory = rng.range(1, 100) as u64;
    let place = |i: usize| if i < n { i } else { NOWHERE };
    let vm = |i: usize| Vm { memory, cpu: 10, current: place(i), target: place(i + 1) };
    let launched = Vm { memory, cpu: 10, current: NOWHERE, target: 0 };
    let mut vms: Vec<Vm> = (0..n).map(vm).chain([launched]).collect();
    rng.shuffle(&mut vms);
    let nodes = vec![Node { memory, cpu: 10 }; n];
    Room { version: Version::Two, nodes, vms, constraints: vec![] }
}

/// Two VMs of a node are to change places with one of another node that needs both their places,
/// and so many small ones are to be launched beside it. One that steps aside lets one be launched.
pub fn launches_after_pivots(rng: &mut Rng, launches: usize) -> Room {
    let (left, right) = (0, 1);
    let vm = |memory, current, target| Vm { memory, cpu: 1, current, target };
    let mut vms = vec![vm(2, left, right), vm(3, left, right), vm(4, right, left)];
    vms.extend(vec![vm(1, NOWHERE, left); launches]);
    if rng.chance(50) {
        rng.shuffle(&mut vms);
    }
    let held = 4 + launches as u64;
    let room = |memory: u64| Node { memory, cpu: 99 };
    let nodes = vec![room(held.max(5)), room(5), room(5)];
    Room { version: Version::Two, nodes, vms, constraints: vec![] }
}

/// Two VMs of full nodes are to change places. The one node with memory to step onto is over its CPU
/// until an active VM leaves it, which waits for their places too. Mostly both are idle.
pub fn idle_pivots(rng: &mut Rng) -> Room {
    let (left, right, spare) = (0, 1, 2);
    let cpus = rng.pick(&[[0, 0], [0, 0], [0, 0], [0, 1], [1, 0], [1, 1]]);
    let vm = |memory, cpu, current, target| Vm { memory, cpu, current, target };
    let mut vms =
        vec![vm(3, cpus[0], left, right), vm(2, cpus[1], right, left), vm(2, 2, spare, left)];
    rng.shuffle(&mut vms);
    let node = |memory, cpu| Node { memory, cpu };
    let nodes = vec![node(4, 9), node(4, 9), node(rng.range(4, 5) as u64, rng.below(2) as u64)];
    Room { version: Version::One, nodes, vms, constraints: vec![] }
}

// ---------------------------------------------------------------- plans

/// Where the steps of a generated plan come from, and what sources it names.
#[derive(Clone, Copy, Debug, PartialEq, Eq)]
pub enum Origin {
    /// The planner's own steps; every source that is named is right.
    Planner,
    /// Other steps; every source that is named is right.
    Spoilt,
    /// Sources named before the steps were spoilt.
    Stale,
    /// All sources right but one.
    OneWrong,
    /// Source and destination of a move, or of all of them, have changed places.
    TurnedRound,
    /// A plan made for another cluster.
    OtherFile,
}

impl Origin {
    pub const ALL: [Origin; 6] = [
        Origin::Planner,
        Origin::Spoilt,
        Origin::Stale,
        Origin::OneWrong,
        Origin::TurnedRound,
        Origin::OtherFile,
    ];
}

/// A plan of either version for a room.
pub fn plan(rng: &mut Rng, room: &Room) -> (Plan, Origin) {
    if rng.chance(10) {
        return (other_file(rng, room), Origin::OtherFile);
    }
    let (steps, planned) = some_steps(rng, room);
    if planned && rng.chance(50) {
        return (either(rng, room, &steps), Origin::Planner);
    }
    spoilt_plan(rng, room, &steps)
}

/// Steps for a room, and whether they are the planner's own: those, a detour that the planner
/// then ends, or moves drawn blindly.
fn some_steps(rng: &mut Rng, room: &Room) -> (Vec<Step>, bool) {
    match rng.below(10) {
        0..=5 => (make_steps(room).0, true),
        6..=8 => (detour(rng, room), false),
        _ => ((0..rng.below(4)).map(|_| blind_step(rng, room)).collect(), false),
    }
}

/// Steps as a plan of one version or the other, with sources that are right.
pub fn either(rng: &mut Rng, room: &Room, steps: &[Step]) -> Plan {
    if rng.chance(45) {
        return bare(steps);
    }
    named(room, steps)
}

/// A plan with something wrong in its steps or its sources, most often.
fn spoilt_plan(rng: &mut Rng, room: &Room, steps: &[Step]) -> (Plan, Origin) {
    if rng.chance(12) {
        let mut stale = named(room, steps).steps;
        (0..rng.range(1, 3)).for_each(|_| spoil(rng, room, &mut stale));
        return (named(room, &stale), Origin::Stale);
    }
    let mut steps = steps.to_vec();
    if rng.chance(80) {
        (0..rng.range(1, 3)).for_each(|_| spoil(rng, room, &mut steps));
    }
    if rng.chance(2) {
        stretch(rng, room, &mut steps);
    }
    match rng.below(10) {
        0 | 1 if !steps.is_empty() => (one_wrong(rng, room, named(room, &steps)), Origin::OneWrong),
        2 if !steps.is_empty() => (turned_round(rng, named(room, &steps)), Origin::TurnedRound),
        _ => (either(rng, room, &steps), Origin::Spoilt),
    }
}

/// Gives one move another source: the record's place, the destination, where some move goes to, any
/// node, nowhere, or a number that no node has.
pub fn one_wrong(rng: &mut Rng, room: &Room, mut plan: Plan) -> Plan {
    let n = room.nodes.len();
    let goes_to: Vec<usize> = plan.steps.iter().flatten().map(|m| m.to).collect();
    on_a_move(rng, &mut plan.steps, |rng, m| {
        let current = room.vms.get(m.vm).map_or(0, |vm| vm.current);
        let (other, any) = (rng.pick(&goes_to), rng.below(n));
        let source = rng.pick(&[current, current, m.to, other, any, any, n, 64, NOWHERE, NOWHERE]);
        // A source that was right is not drawn again.
        m.from = Some(if m.from == Some(source) { (source + 1) % (n + 1) } else { source });
    });
    plan
}

/// Source and destination of a move, or of all moves, change places.
pub fn turned_round(rng: &mut Rng, mut plan: Plan) -> Plan {
    let turn = |m: &mut Move| {
        let from = m.from.replace(m.to);
        m.to = from.unwrap_or(m.to);
    };
    if rng.chance(50) {
        plan.steps.iter_mut().flatten().for_each(turn);
    } else {
        on_a_move(rng, &mut plan.steps, |_, m| turn(m));
    }
    plan
}

/// The planner's plan for another cluster, as if files had been swapped: one in which VMs stand
/// elsewhere, this one after some of its steps, or one that has nothing to do with this one.
pub fn other_file(rng: &mut Rng, room: &Room) -> Plan {
    let other = match rng.below(8) {
        0 => self::room(rng, Size::Tiny),
        1 | 2 => later(rng, room),
        _ => elsewhere(rng, room),
    };
    either(rng, &other, &make_steps(&other).0)
}

/// The same cluster with some VMs at other places.
fn elsewhere(rng: &mut Rng, room: &Room) -> Room {
    let mut other = room.clone();
    let percent = rng.pick(&[10, 30, 100]);
    let down = if room.version == Version::Two { 20 } else { 0 };
    for vm in &mut other.vms {
        if rng.chance(percent) {
            vm.current = if rng.chance(down) { NOWHERE } else { rng.below(room.nodes.len()) };
        }
    }
    other
}

/// The same cluster when some of the planner's steps have been made.
fn later(rng: &mut Rng, room: &Room) -> Room {
    let steps = make_steps(room).0;
    let done = &steps[..rng.below(steps.len() + 1)];
    let here = done.iter().fold(Placement::current(room), |here, step| here.after(room, step));
    let mut other = room.clone();
    for (vm, place) in other.vms.iter_mut().zip(here.place) {
        vm.current = place;
    }
    other
}

/// Puts a sound step and its way back in front of a plan, so often that the plan comes near 512
/// steps or 1,024 moves.
fn stretch(rng: &mut Rng, room: &Room, steps: &mut Vec<Step>) {
    let book = Book::of(room);
    let here = Placement::current(room);
    let there = random_sound_step(rng, room, &book, &here, 30);
    let back: Step = there.iter().map(|m| Move::bare(m.vm, here.place[m.vm])).collect();
    let returns = step_fault(room, &book, &here.after(room, &there), &back).is_none();
    if there.is_empty() || !returns {
        return;
    }
    let moves: usize = steps.iter().map(Vec::len).sum();
    let by_steps = 512usize.saturating_sub(steps.len()) / 2;
    let by_moves = 1_024usize.saturating_sub(moves) / (2 * there.len());
    for _ in 0..by_steps.min(by_moves) + rng.below(2) {
        steps.splice(0..0, [there.clone(), back.clone()]);
    }
}

/// A place to send a VM to: any node, or at times nowhere if it should end there.
pub fn some_place(rng: &mut Rng, room: &Room, vm: usize) -> usize {
    let may_end = room.vms.get(vm).is_some_and(|row| !on_a_node(row.target));
    if may_end && rng.chance(40) {
        return NOWHERE;
    }
    rng.below(room.nodes.len())
}

/// Goes through the VMs and keeps each random move that leaves the step sound.
pub(crate) fn random_sound_step(
    rng: &mut Rng,
    room: &Room,
    book: &Book,
    here: &Placement,
    percent: usize,
) -> Step {
    let mut step = Vec::new();
    for vm in 0..room.vms.len() {
        if rng.chance(percent) {
            step.push(Move::bare(vm, some_place(rng, room, vm)));
            if step_fault(room, book, here, &step).is_some() {
                step.pop();
            }
        }
    }
    step
}

/// At times some of the planner's steps, then random sound ones, then the planner's way home from there.
fn detour(rng: &mut Rng, room: &Room) -> Vec<Step> {
    let book = Book::of(room);
    let mut steps = if rng.chance(30) { make_steps(room).0 } else { vec![] };
    steps.truncate(rng.below(steps.len() + 1));
    let mut here = steps.iter().fold(Placement::current(room), |here, step| here.after(room, step));
    for _ in 0..rng.range(1, 5) {
        let percent = rng.pick(&[20, 50, 100]);
        let step = random_sound_step(rng, room, &book, &here, percent);
        if !step.is_empty() {
            here = here.after(room, &step);
            steps.push(step);
        }
    }
    steps.extend(make_steps_from(room, here).0);
    steps
}

/// VMs that rise and destinations that exist or are nowhere, drawn with no eye on the rules.
fn blind_step(rng: &mut Rng, room: &Room) -> Step {
    let n = room.nodes.len();
    let mut vms = some_vms(rng, room);
    if vms.is_empty() {
        vms.push(rng.below(room.vms.len() + 1));
    }
    let away = |rng: &mut Rng, vm: usize| match room.vms.get(vm) {
        Some(row) if !on_a_node(row.target) && rng.chance(40) => NOWHERE,
        _ if rng.chance(1) => NOWHERE,
        Some(row) if n > 1 && rng.chance(95) => (row.current + rng.range(1, n - 1)) % n,
        _ => rng.below(n),
    };
    vms.into_iter().map(|vm| Move::bare(vm, away(rng, vm))).collect()
}

/// Changes a plan in one place; if VMs wait for others, often in that. Steps left empty go, as they would
/// only be fault 14.
pub fn spoil(rng: &mut Rng, room: &Room, steps: &mut Vec<Step>) {
    let waits = room.befores().next().is_some();
    match rng.below(35) {
        _ if waits && rng.chance(60) => too_soon(rng, room, steps),
        0 | 1 => swap_moves(rng, steps),
        2..=4 => merge_steps(rng, steps),
        5 | 6 => split_step(rng, steps),
        7 => on_a_step(rng, steps, |rng, step| {
            step.remove(rng.below(step.len()));
        }),
        8 | 9 => extra_move(rng, room, steps),
        10 => on_a_move(rng, steps, |rng, m| m.to = some_place(rng, room, m.vm)),
        11 => swap_steps(rng, steps),
        12 => repeat_step(rng, steps),
        13 => on_a_step(rng, steps, |_, step| step.reverse()),
        14 => on_a_move(rng, steps, |rng, m| m.vm = rng.pick(&[room.vms.len(), 255, 0])),
        15 => on_a_move(rng, steps, |rng, m| m.to = rng.pick(&[room.nodes.len(), 64, 254])),
        16 => on_a_move(rng, steps, |_, m| m.to = room.vms.get(m.vm).map_or(0, |vm| vm.current)),
        17 | 18 => to_a_closed_node(rng, room, steps),
        19..=21 | 32 | 33 => to_a_mate(rng, room, steps),
        22 => crowd(rng, room, steps),
        23 => on_a_move(rng, steps, |_, m| m.to = NOWHERE),
        24 | 25 => shut_down(rng, room, steps),
        26 | 27 => hurry(rng, room, steps),
        28..=31 => onto_a_busy_node(rng, room, steps),
        _ => {
            steps.pop();
        }
    }
    steps.retain(|step| !step.is_empty());
}

fn on_a_step(rng: &mut Rng, steps: &mut [Step], change: impl Fn(&mut Rng, &mut Step)) {
    if !steps.is_empty() {
        let i = rng.below(steps.len());
        change(rng, &mut steps[i]);
    }
}

fn on_a_move(rng: &mut Rng, steps: &mut [Step], change: impl Fn(&mut Rng, &mut Move)) {
    on_a_step(rng, steps, |rng, step| {
        let i = rng.below(step.len());
        change(rng, &mut step[i]);
    });
}

/// Puts a move into a step where its VM's number belongs.
fn insert(step: &mut Step, m: Move) {
    let at = step.iter().position(|other| other.vm > m.vm).unwrap_or(step.len());
    step.insert(at, m);
}

/// Two moves of different steps change places.
fn swap_moves(rng: &mut Rng, steps: &mut [Step]) {
    if steps.len() < 2 {
        return;
    }
    let (a, b) = (rng.below(steps.len()), rng.below(steps.len()));
    let (i, j) = (rng.below(steps[a].len()), rng.below(steps[b].len()));
    if a != b {
        let (first, second) = (steps[a].remove(i), steps[b].remove(j));
        insert(&mut steps[a], second);
        insert(&mut steps[b], first);
    }
}

fn merge_steps(rng: &mut Rng, steps: &mut Vec<Step>) {
    if steps.len() >= 2 {
        let i = rng.below(steps.len() - 1);
        let second = steps.remove(i + 1);
        second.into_iter().for_each(|m| insert(&mut steps[i], m));
    }
}

fn split_step(rng: &mut Rng, steps: &mut Vec<Step>) {
    if !steps.is_empty() {
        let i = rng.below(steps.len());
        let at = rng.below(steps[i].len());
        let back = steps[i].split_off(at);
        steps.insert(i + 1, back);
    }
}

fn swap_steps(rng: &mut Rng, steps: &mut [Step]) {
    if steps.len() >= 2 {
        let (a, b) = (rng.below(steps.len()), rng.below(steps.len()));
        steps.swap(a, b);
    }
}

fn repeat_step(rng: &mut Rng, steps: &mut Vec<Step>) {
    if !steps.is_empty() {
        let step = rng.pick(steps);
        steps.insert(rng.below(steps.len() + 1), step);
    }
}

/// Adds a move to a step, or as a step of its own.
fn add_move(rng: &mut Rng, steps: &mut Vec<Step>, m: Move) {
    if steps.is_empty() || rng.chance(50) {
        steps.insert(rng.below(steps.len() + 1), vec![m]);
    } else {
        let i = rng.below(steps.len());
        insert(&mut steps[i], m);
    }
}

fn extra_move(rng: &mut Rng, room: &Room, steps: &mut Vec<Step>) {
    if !room.vms.is_empty() {
        let vm = rng.below(room.vms.len());
        let m = Move::bare(vm, some_place(rng, room, vm));
        add_move(rng, steps, m);
    }
}

/// Shuts a VM down, most often one that should end so, wherever it is by then.
fn shut_down(rng: &mut Rng, room: &Room, steps: &mut Vec<Step>) {
    let all = 0..room.vms.len();
    let ends: Vec<usize> = all.clone().filter(|&vm| !on_a_node(room.vms[vm].target)).collect();
    if ends.is_empty() && rng.chance(70) {
        return extra_move(rng, room, steps);
    }
    let from = if ends.is_empty() || rng.chance(20) { all.collect() } else { ends };
    if !from.is_empty() {
        let m = Move::bare(rng.pick(&from), NOWHERE);
        add_move(rng, steps, m);
    }
}

/// Brings a launch forward into an earlier step, most often one that shuts down a VM.
fn hurry(rng: &mut Rng, room: &Room, steps: &mut [Step]) {
    let launches = |m: &Move| room.vms.get(m.vm).is_some_and(|vm| !on_a_node(vm.current));
    let Some(last) = steps.iter().rposition(|step| step.iter().any(launches)) else { return };
    let shuts_down = |step: &Step| step.iter().any(|m| !on_a_node(m.to));
    let earlier: Vec<usize> = (0..last).filter(|&i| shuts_down(&steps[i])).collect();
    let first = match earlier.last() {
        Some(&i) if rng.chance(80) => i,
        _ => rng.below(last + 1),
    };
    let at = steps[last].iter().position(launches);
    let launch = at.map(|at| steps[last].remove(at));
    launch.into_iter().for_each(|m| insert(&mut steps[first], m));
}

/// Moves a VM that waits for another too soon: before the first is home, in the step that brings it home,
/// or in one that sends it away. The room must have one that waits; most often it is one that moves.
fn too_soon(rng: &mut Rng, room: &Room, steps: &mut Vec<Step>) {
    let step_of =
        |steps: &[Step], vm: usize| steps.iter().position(|step| step.iter().any(|m| m.vm == vm));
    let (mut moved, all): (Vec<_>, Vec<_>) =
        room.befores().partition(|&(_, second)| step_of(steps, second).is_some());
    if moved.is_empty() || rng.chance(30) {
        moved.extend(all);
    }
    let (first, second) = rng.pick(&moved);
    if let Some(at) = step_of(steps, second).filter(|_| rng.chance(35)) {
        let away = Move::bare(first, rng.below(room.nodes.len()));
        return insert_anew(&mut steps[at], away);
    }
    let home = Move::bare(second, room.vms[second].target);
    let aside = Move::bare(second, some_place(rng, room, second));
    let drawn = rng.pick(&[home, aside]);
    let taken = step_of(steps, second).map(|at| take_move(&mut steps[at], second));
    let m = taken.filter(|_| rng.chance(80)).unwrap_or(drawn);
    match step_of(steps, first) {
        Some(at) if rng.chance(50) => insert_anew(&mut steps[at], m),
        _ if !steps.is_empty() && rng.chance(50) => insert_anew(&mut steps[0], m),
        _ => steps.insert(0, vec![m]),
    }
}

/// Takes the move of a VM out of a step that has one.
fn take_move(step: &mut Step, vm: usize) -> Move {
    let at = step.iter().position(|m| m.vm == vm);
    step.remove(at.expect("a step that moves it"))
}

/// Puts a move into a step, in place of its VM's own if there is one.
fn insert_anew(step: &mut Step, m: Move) {
    step.retain(|other| other.vm != m.vm);
    insert(step, m);
}

/// Sends some VMs to a node that is over its CPU at first: an idle one, an active one, or both, before
/// the first step or in it.
fn onto_a_busy_node(rng: &mut Rng, room: &Room, steps: &mut Vec<Step>) {
    let sums = Placement::current(room).sums;
    let over: Vec<usize> =
        (0..room.nodes.len()).filter(|&node| !cpu_within(room, node, sums[node])).collect();
    if over.is_empty() {
        return extra_move(rng, room, steps);
    }
    if let Some(m) = idle_onto_a_mate(room, &over).filter(|_| rng.chance(40)) {
        return steps.insert(0, vec![m]);
    }
    let to = rng.pick(&over);
    let (mut idle, mut active): (Vec<usize>, Vec<usize>) = (0..room.vms.len())
        .filter(|&vm| room.vms[vm].current != to)
        .partition(|&vm| room.vms[vm].is_idle());
    rng.shuffle(&mut idle);
    rng.shuffle(&mut active);
    idle.truncate(rng.below(3));
    active.truncate(rng.below(2));
    let mut first = if steps.is_empty() || rng.chance(50) { vec![] } else { steps.remove(0) };
    for vm in idle.into_iter().chain(active) {
        if first.iter().all(|m| m.vm != vm) {
            insert(&mut first, Move::bare(vm, to));
        }
    }
    steps.insert(0, first);
}

/// A move of an idle VM to a spread mate on one of these nodes, if there is one.
fn idle_onto_a_mate(room: &Room, nodes: &[usize]) -> Option<Move> {
    let mut idle = (0..room.vms.len()).filter(|&vm| room.vms[vm].is_idle());
    idle.find_map(|vm| {
        let mut places = mates(room, vm).into_iter().map(|mate| room.vms[mate].current);
        let to = places.find(|to| nodes.contains(to) && *to != room.vms[vm].current)?;
        Some(Move::bare(vm, to))
    })
}

/// Sends a VM to a node that a ban or fence closes to it.
fn to_a_closed_node(rng: &mut Rng, room: &Room, steps: &mut Vec<Step>) {
    let mut vms: Vec<usize> = (0..room.vms.len()).collect();
    rng.shuffle(&mut vms);
    if rng.chance(30) {
        down_first(room, &mut vms);
    }
    for vm in vms {
        let closed: Vec<usize> =
            (0..room.nodes.len()).filter(|&node| !may_go(room, vm, node)).collect();
        if !closed.is_empty() {
            let m = Move::bare(vm, rng.pick(&closed));
            if rng.chance(50) {
                return steps.insert(0, vec![m]);
            }
            return add_move(rng, steps, m);
        }
    }
}

/// Puts VMs that start on no node in front.
fn down_first(room: &Room, vms: &mut [usize]) {
    vms.sort_by_key(|&vm| on_a_node(room.vms[vm].current));
}

/// Sends a VM to where a spread mate starts or should end, at times together with a mate.
fn to_a_mate(rng: &mut Rng, room: &Room, steps: &mut Vec<Step>) {
    let mut vms: Vec<usize> = (0..room.vms.len()).collect();
    rng.shuffle(&mut vms);
    if rng.chance(40) {
        down_first(room, &mut vms);
    }
    for vm in vms {
        let mates = mates(room, vm);
        if mates.is_empty() {
            continue;
        }
        if let Some(step) = with_a_mate(rng, room, vm, &mates) {
            return steps.insert(0, step);
        }
        let mate = &room.vms[rng.pick(&mates)];
        let m = Move::bare(vm, rng.pick(&[mate.current, mate.target]));
        if rng.chance(50) {
            return steps.insert(0, vec![m]);
        }
        return add_move(rng, steps, m);
    }
}

/// At times a step that sends a VM to where a mate is shut down, or both to one node, most often if
/// both start on none.
fn with_a_mate(rng: &mut Rng, room: &Room, vm: usize, mates: &[usize]) -> Option<Step> {
    let starts_down = |vm: usize| !on_a_node(room.vms[vm].current);
    let ends_down = |vm: usize| !starts_down(vm) && !on_a_node(room.vms[vm].target);
    let leaver = mates.iter().copied().find(|&mate| ends_down(mate));
    let (mate, of_mate, to) = if let Some(mate) = leaver.filter(|_| rng.chance(40)) {
        (mate, NOWHERE, room.vms[mate].current)
    } else if rng.chance(if starts_down(vm) { 70 } else { 20 }) {
        let mate = mates.iter().copied().find(|&mate| starts_down(mate)).unwrap_or(mates[0]);
        let to = rng.below(room.nodes.len());
        (mate, to, to)
    } else {
        return None;
    };
    let mut step = vec![Move::bare(vm, to)];
    insert(&mut step, Move::bare(mate, of_mate));
    Some(step)
}

/// Sends a few more VMs of the first step to one node.
fn crowd(rng: &mut Rng, room: &Room, steps: &mut [Step]) {
    let to = rng.below(room.nodes.len());
    if let Some(step) = steps.first_mut() {
        for vm in 0..room.vms.len() {
            let free = room.vms[vm].current != to && step.iter().all(|m| m.vm != vm);
            if free && rng.chance(30) {
                insert(step, Move::bare(vm, to));
            }
        }
    }
}

// ---------------------------------------------------------------- damage to records

/// Damages the rows or the target: faults 6, 8 and 9. Where the VM is on no node, or should end
/// there, some of it is no damage.
pub fn damage_room(rng: &mut Rng, room: &mut Room) {
    let n = room.nodes.len();
    if room.vms.is_empty() {
        return;
    }
    let idle_arrival = room.vms.iter().position(|vm| vm.is_idle() && vm.current != vm.target);
    let (i, what) = match idle_arrival {
        Some(i) if rng.chance(20) => (i, 4),
        _ => (rng.below(room.vms.len()), rng.below(12)),
    };
    let target = room.vms[i].target;
    let held = Placement::target(room).sums.get(target).copied();
    match what {
        0 => room.vms[i].memory = 0,
        1 => room.vms[i].current = rng.pick(&[n, n + 1, 254, NOWHERE]),
        2 => room.vms[i].target = rng.pick(&[n, n + 1, 254, NOWHERE]),
        3 => held.into_iter().for_each(|sum| room.nodes[target].memory = sum.memory - 1),
        4 => held.into_iter().for_each(|sum| room.nodes[target].cpu = sum.cpu.saturating_sub(1)),
        5 if held.is_some() => {
            room.constraints.push(Constraint::Ban { vms: vec![i], nodes: vec![target] });
        }
        6 => room.constraints.push(Constraint::Fence { vms: vec![i], nodes: vec![] }),
        7 => room.constraints.push(fence_elsewhere(n, i, target)),
        8 => room.constraints.push(Constraint::Latency { vms: vec![i], groups: vec![vec![]] }),
        9 => room.version = Version::One,
        _ => spread_on_one_target(rng, room),
    }
    room.constraints.truncate(128);
}

fn fence_elsewhere(n: usize, vm: usize, target: usize) -> Constraint {
    Constraint::Fence { vms: vec![vm], nodes: (0..n).filter(|&node| node != target).collect() }
}

/// Adds a spread over VMs of one target, or a latency over VMs of two groups.
fn spread_on_one_target(rng: &mut Rng, room: &mut Room) {
    let target = room.vms[rng.below(room.vms.len())].target;
    let (there, away): (Vec<usize>, Vec<usize>) =
        (0..room.vms.len()).partition(|&vm| room.vms[vm].target == target);
    if there.len() >= 2 && rng.chance(60) {
        room.constraints.push(Constraint::Spread { vms: there });
    } else if !away.is_empty() {
        let (its, others) = (0..room.nodes.len()).partition(|&node| node == target);
        let vms = (0..room.vms.len()).collect();
        room.constraints.push(Constraint::Latency { vms, groups: vec![its, others] });
    }
}

/// Damages one constraint's bytes, or adds a bad one: fault 7.
pub fn damage_bodies(rng: &mut Rng, room: &Room, bodies: &mut Vec<Vec<u8>>) {
    if bodies.is_empty() || (bodies.len() < 128 && rng.chance(40)) {
        let body = bad_body(rng, room);
        bodies.insert(rng.below(bodies.len() + 1), body);
        return;
    }
    let i = rng.below(bodies.len());
    let body = &mut bodies[i];
    let at = rng.below(body.len());
    match rng.below(8) {
        0 => body.clear(),
        1 => body[0] = rng.pick(&[0, 5, 6, 255]),
        2 => body.push(rng.pick(&[0, 255])),
        3 => cut(body),
        4 => body[at] = body[at].wrapping_add(1),
        5 => body[at] = body[at].wrapping_sub(1),
        6 => body[at] = rng.draw() as u8,
        _ => {
            body.remove(at);
        }
    }
}

/// A constraint with one thing wrong.
fn bad_body(rng: &mut Rng, room: &Room) -> Vec<u8> {
    let n = room.nodes.len() as u8;
    let v = room.vms.len().min(255) as u8;
    let node = rng.below(room.nodes.len()) as u8;
    let choices: [Vec<u8>; 25] = [
        vec![],
        vec![0, 0, 0],
        vec![6, 0, 0],
        vec![5],
        vec![5, 0],
        vec![5, v / 2, v / 2],
        vec![5, v, 0],
        vec![5, 0, v],
        vec![5, 0, 1, 0],
        vec![5, 0, 2, 0, 1],
        vec![3],
        vec![3, 0, 0, 0],
        vec![3, 0, 1, v],
        vec![3, 0, 2, 0, 0],
        vec![3, 1, 0],
        vec![1, 0, 0],
        vec![1, 0, 0, 1, n],
        vec![2, 0, 0, 2, node, node],
        vec![1, 0, 0, 1, 255],
        vec![2, 0, 0, 2, node, 255],
        vec![4, 0, 0, 1, 1, 255],
        vec![4, 0, 0, 2, 1, node, 1, 255],
        vec![4, 0, 0, 1],
        vec![4, 0, 0, 2, 1, node, 1, node],
        [vec![4, 0, 0, 65], vec![0; 65]].concat(),
    ];
    rng.pick(&choices)
}

/// Damages a cluster record's bytes: faults 1 to 5, and now and then any other.
pub fn damage_cluster(rng: &mut Rng, bytes: &mut Vec<u8>) {
    let n = usize::from(bytes[5]) * 256 + usize::from(bytes[6]);
    let v = usize::from(bytes[7]) * 256 + usize::from(bytes[8]);
    let constraints_at = CLUSTER_HEADER + NODE_ROW * n + VM_ROW * v;
    match rng.below(17) {
        0 => bytes.truncate(rng.pick(&[0, 1, 5, 9, 10])),
        1 => bytes[0] = rng.pick(&[0, 3, 255]),
        2 => bytes[4] = bytes[4].wrapping_add(rng.pick(&[1, 255])),
        3 => bytes[rng.pick(&[1, 2])] = rng.pick(&[1, 128, 255]),
        4 => bytes.push(0),
        5 => cut(bytes),
        6 => bytes[5..7].copy_from_slice(&rng.pick(&[[0, 0], [0, 65], [1, 0], [1, 1]])),
        7 => bytes[7..9].copy_from_slice(&rng.pick(&[[1, 1], [2, 0], [255, 255]])),
        8 => bytes[9..11].copy_from_slice(&rng.pick(&[[0, 129], [1, 0], [255, 255]])),
        9 => {
            let at = rng.pick(&[6, 8, 10]);
            bytes[at] = bytes[at].wrapping_add(rng.pick(&[1, 255]));
        }
        10 => {
            bytes.push(0);
            state_length(bytes);
        }
        11 => cut_and_state(rng, bytes, CLUSTER_HEADER),
        12 if constraints_at + 1 < bytes.len() => {
            let at = rng.pick(&[constraints_at, constraints_at + 1]);
            bytes[at] = bytes[at].wrapping_add(rng.pick(&[1, 255]));
        }
        13 => bytes.truncate(CLUSTER_HEADER),
        // The other version's number.
        15 => bytes[0] = 3 - bytes[0],
        14 => {
            bytes.resize(rng.pick(&[65_535, 65_536, 70_000]), 0);
            state_length(bytes);
        }
        _ => flip(rng, bytes),
    }
}

/// Cuts bytes off the end, not into the header, and states the new length.
fn cut_and_state(rng: &mut Rng, bytes: &mut Vec<u8>, header: usize) {
    let most = bytes.len() - header;
    if most > 0 {
        let cut = if rng.chance(60) { 1 } else { rng.range(1, most) };
        bytes.truncate(bytes.len() - cut);
        state_length(bytes);
    }
}

/// Takes the last byte off.
fn cut(bytes: &mut Vec<u8>) {
    bytes.pop();
}

fn flip(rng: &mut Rng, bytes: &mut [u8]) {
    if !bytes.is_empty() {
        let at = rng.below(bytes.len());
        bytes[at] ^= 1 << rng.below(8);
    }
}

/// Leaves 1 to 6 bytes of a plan record, as they were or with others in their place: fault 11.
fn leave_too_few(rng: &mut Rng, bytes: &mut Vec<u8>) {
    bytes.truncate(rng.range(1, PLAN_HEADER - 1));
    match rng.below(6) {
        0 => bytes.fill(0),
        1 => bytes.fill_with(|| rng.draw() as u8),
        2 if bytes.len() >= 5 => state_length(bytes),
        _ => {}
    }
}

/// Damages a plan record's bytes: faults 11 to 14, and now and then any other.
pub fn damage_plan(rng: &mut Rng, bytes: &mut Vec<u8>) {
    let step_at = PLAN_HEADER;
    match rng.below(16) {
        0 => leave_too_few(rng, bytes),
        1 => bytes[0] = rng.pick(&[0, 3, 255]),
        2 => bytes[4] = bytes[4].wrapping_add(rng.pick(&[1, 255])),
        3 => bytes[rng.pick(&[1, 2])] = rng.pick(&[1, 128, 255]),
        4 => bytes.push(0),
        5 => cut(bytes),
        6 => bytes[6] = bytes[6].wrapping_add(rng.pick(&[1, 255])),
        7 => bytes[5..7].copy_from_slice(&rng.pick(&[[2, 0], [2, 1], [255, 255]])),
        8 => {
            bytes.push(0);
            state_length(bytes);
        }
        9 => cut_and_state(rng, bytes, PLAN_HEADER),
        10 if bytes.len() > step_at + 1 => {
            let count = rng.pick(&[[0, 0], [1, 0], [1, 1], [255, 255]]);
            bytes[step_at..step_at + 2].copy_from_slice(&count);
        }
        11 if bytes.len() > step_at + 1 => {
            bytes[step_at + 1] = bytes[step_at + 1].wrapping_add(rng.pick(&[1, 255]));
        }
        12 => {
            bytes[6] = bytes[6].wrapping_add(1);
            bytes.extend([0, 0]);
            state_length(bytes);
        }
        // The other version's number.
        13 => bytes[0] = 3 - bytes[0],
        _ => flip(rng, bytes),
    }
}

// ---------------------------------------------------------------- whole inputs

/// One input for the checker (cluster and plan) and the planner (cluster and buffer length), with
/// the origin of a plan that has bytes, before any damage to them.
#[derive(Clone, Debug)]
pub struct Case {
    pub cluster: Vec<u8>,
    pub plan: Vec<u8>,
    pub origin: Option<Origin>,
    pub buffer: usize,
}

/// Many inputs from one seed.
pub fn cases(seed: u64, how_many: usize) -> impl Iterator<Item = Case> {
    let mut rng = Rng::new(seed);
    (0..how_many).map(move |_| case(&mut rng))
}

/// An input of a random size, whole or damaged.
pub fn case(rng: &mut Rng) -> Case {
    let size = match rng.below(100) {
        0..=44 => Size::Tiny,
        45..=84 => Size::Small,
        85..=97 => Size::Medium,
        _ => Size::Large,
    };
    sized_case(rng, size)
}

/// An input of a given size. Damage may come on several layers at once, so that the order of
/// the tests shows.
pub fn sized_case(rng: &mut Rng, size: Size) -> Case {
    let mut room = match rng.below(110) {
        0..=2 => {
            let n = rng.range(3, 12);
            ring(rng, n)
        }
        3..=34 => knot(rng, size),
        35..=54 => apart(rng, size),
        55 => swaps(rng.range(1, 6)),
        56 | 57 => {
            let n = rng.range(1, 8);
            relay(rng, n)
        }
        58 => {
            let launches = rng.range(1, 4);
            launches_after_pivots(rng, launches)
        }
        59 => idle_pivots(rng),
        60..=75 => busy(rng, size),
        76..=94 => waiting(rng, size),
        _ => room(rng, size),
    };
    let (plan, origin) = plan_case(rng, &room);
    let damaged = rng.chance(30);
    if damaged && rng.chance(45) {
        damage_room(rng, &mut room);
    }
    let mut bodies: Vec<Vec<u8>> = room.constraints.iter().map(constraint_body).collect();
    if damaged && rng.chance(35) {
        damage_bodies(rng, &room, &mut bodies);
    }
    let mut cluster = cluster_bytes_with(&room, &bodies);
    if damaged && rng.chance(45) {
        damage_cluster(rng, &mut cluster);
    }
    let buffer = match rng.below(20) {
        0 => BUFFER - 1,
        1 => rng.below(BUFFER),
        2 => 4_096,
        3 => BUFFER + 1,
        _ => BUFFER,
    };
    Case { cluster, plan, origin, buffer }
}

/// A plan record for a room, now and then damaged, or no bytes: most often where nothing needs
/// moving.
fn plan_case(rng: &mut Rng, room: &Room) -> (Vec<u8>, Option<Origin>) {
    let all_home = Placement::current(room).out_of_place(room).is_empty();
    if rng.chance(if all_home { 15 } else { 6 }) {
        return (Vec::new(), None);
    }
    let (plan, origin) = plan(rng, room);
    let mut bytes = plan_bytes(&plan);
    if rng.chance(15) {
        damage_plan(rng, &mut bytes);
    }
    (bytes, Some(origin))
}

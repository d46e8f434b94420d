//! The inputs that the benchmark measures, each made by a function of its own.
//!
//! A full room has 64 nodes, 256 VMs and 128 constraints, and a full plan 1,024 moves. The
//! largest valid record has 52,043 bytes: 2,123 of header and rows, and 128 latencies of 390 bytes
//! with all VMs, all nodes and 64 groups. No other constraint can be as long.

use kobdrieft_model::edges::{self, cluster_a};
use kobdrieft_model::gen::{MOST_CPU, MOST_MEMORY};
use kobdrieft_model::rules::Placement;
use kobdrieft_model::{bare, cluster_bytes, named, plan_bytes};
use kobdrieft_model::{Constraint, Move, Node, Plan, Room, Step, Version, Vm, NOWHERE};

/// What an input is made for: `None` for accepted, else number and step.
pub type Outcome = Option<(u8, u16)>;

/// One input: the same steps as a plan of version 1 and as one of version 2, each with the outcome
/// it is made for at this reserve.
pub struct Input {
    pub name: &'static str,
    pub reserve: u64,
    pub room: Room,
    pub steps: Vec<Step>,
    pub cluster: Vec<u8>,
    pub plans: [Vec<u8>; 2],
    pub outcomes: [Outcome; 2],
}

pub(crate) const NODES: usize = 64;
pub(crate) const VMS: usize = 256;
pub(crate) const CONSTRAINTS: usize = 128;
const LAST: u16 = 512;

/// All inputs, the small room last.
pub fn all() -> Vec<Input> {
    vec![
        hops(),
        hops_not_home(),
        hops_too_full(),
        hops_wrong_source(),
        thin_hops(),
        spreads(),
        spreads_meeting(),
        closed_nodes(),
        closed_nodes_entered(),
        mixed(),
        mixed_at_a_reserve(),
        wide_steps(),
        wide_steps_too_full(),
        wide_steps_wrong_source(),
        wide_spreads(),
        launches_and_shutdowns(),
        wide_launches(),
        idle_arrivals(),
        befores(),
        befores_too_soon(),
        wide_befores(),
        small_room(),
    ]
}

/// Steps with one outcome in both versions, as every source that is named is right, and no reserve.
fn input(name: &'static str, (room, steps): (Room, Vec<Step>), outcome: Outcome) -> Input {
    let cluster = cluster_bytes(&room);
    let plans = [bare(&steps), named(&room, &steps)].map(|plan| plan_bytes(&plan));
    Input { name, reserve: 0, room, steps, cluster, plans, outcomes: [outcome; 2] }
}

/// An accepted input whose last move names its destination as its source: 27 in version 2.
fn wrong_source(name: &'static str, plan: (Room, Vec<Step>)) -> Input {
    let accepted = input(name, plan, None);
    let mut wrong = named(&accepted.room, &accepted.steps);
    let last = last_move(&mut wrong.steps);
    last.from = Some(last.to);
    let Plan { steps, .. } = &wrong;
    let outcomes = [None, Some((27, steps.len() as u16))];
    let plans = [bare(steps), wrong].map(|plan| plan_bytes(&plan));
    Input { plans, outcomes, ..accepted }
}

fn last_move(steps: &mut [Step]) -> &mut Move {
    steps.last_mut().and_then(|step| step.last_mut()).expect("a plan with moves")
}

/// Sends the last move of the last step elsewhere.
fn ending_at((room, mut steps): (Room, Vec<Step>), to: usize) -> (Room, Vec<Step>) {
    last_move(&mut steps).to = to;
    (room, steps)
}

// ---------------------------------------------------------------- hops

/// 512 steps of 2 moves: four times round, each VM goes on by 5 nodes, the last time home.
pub fn hops() -> Input {
    input("hops", hopping(NODES - 1, latencies(CONSTRAINTS)), None)
}

/// The same, but in the last step VM 255 goes to its second stop and not home.
pub fn hops_not_home() -> Input {
    let nodes = NODES - 1;
    let plan = ending_at(hopping(nodes, latencies(CONSTRAINTS)), stop(VMS - 1, 1, nodes));
    input("hops, not home", plan, Some((19, 0)))
}

/// The same, but in the last step VM 255 goes to node 63, which has nothing to give.
pub fn hops_too_full() -> Input {
    let plan = ending_at(hopping(NODES - 1, latencies(CONSTRAINTS)), NODES - 1);
    input("hops, too full", plan, Some((17, LAST)))
}

/// The same, but in the last step VM 255 names its home as its source.
pub fn hops_wrong_source() -> Input {
    wrong_source("hops, wrong source", hopping(NODES - 1, latencies(CONSTRAINTS)))
}

/// The same moves with 128 constraints that say nothing, so that the steps are what takes time.
pub fn thin_hops() -> Input {
    let nothing = vec![Constraint::Spread { vms: vec![] }; CONSTRAINTS];
    input("thin hops", hopping(NODES - 1, nothing), None)
}

/// Where a hopping VM is after so many rounds, with this many nodes in use.
fn stop(vm: usize, round: usize, nodes: usize) -> usize {
    (vm + 5 * round) % nodes
}

/// Two VMs a step, four rounds. Nodes not in use have no capacity.
fn hopping(nodes: usize, constraints: Vec<Constraint>) -> (Room, Vec<Step>) {
    let room = full_room(nodes, |vm| (stop(vm, 0, nodes), stop(vm, 4, nodes)), constraints);
    let hop = |vm, round| Move::bare(vm, stop(vm, round, nodes));
    let step = |i: usize| {
        let (round, vm) = (1 + i / 128, i % 128);
        vec![hop(vm, round), hop(vm + 128, round)]
    };
    (room, (0..512).map(step).collect())
}

/// 256 VMs with current and target node as given, on the first `used` of 64 nodes.
pub(crate) fn full_room(
    used: usize,
    places: impl Fn(usize) -> (usize, usize),
    constraints: Vec<Constraint>,
) -> Room {
    let mut nodes = vec![Node { memory: MOST_MEMORY, cpu: MOST_CPU }; NODES];
    nodes[used..].fill(Node { memory: 0, cpu: 0 });
    let vm = |i: usize| {
        let (current, target) = places(i);
        Vm { memory: 512 + (i as u64 * 37) % 4_096, cpu: 10 + i as u64 % 90, current, target }
    };
    Room { version: Version::One, nodes, vms: (0..VMS).map(vm).collect(), constraints }
}

fn all_vms() -> Vec<usize> {
    (0..VMS).collect()
}

/// Latencies of the largest size: all VMs, 63 empty groups, then one with all nodes.
pub(crate) fn latencies(how_many: usize) -> Vec<Constraint> {
    let mut groups = vec![vec![]; 63];
    groups.push((0..NODES).collect());
    vec![Constraint::Latency { vms: all_vms(), groups }; how_many]
}

// ---------------------------------------------------------------- spreads

/// The nodes that have homes on them where VMs go away and back; two are left to go to.
pub(crate) const HOMES: usize = NODES - 2;

/// 128 spreads of 62 VMs, one from each home; 512 steps of 2 moves, away and back.
pub fn spreads() -> Input {
    input("spreads", away_and_back(spread_lists(CONSTRAINTS, HOMES)), None)
}

/// The same, but in the last step VM 255 goes to the node beside its home, where mates are.
pub fn spreads_meeting() -> Input {
    let plan = away_and_back(spread_lists(CONSTRAINTS, HOMES));
    input("spreads, a mate met", ending_at(plan, VMS % HOMES), Some((18, LAST)))
}

/// Two VMs go to the two free nodes, then home; all VMs do so twice.
fn away_and_back(constraints: Vec<Constraint>) -> (Room, Vec<Step>) {
    let room = full_room(NODES, |vm| (vm % HOMES, vm % HOMES), constraints);
    let pair =
        |a: usize, b: usize, to: [usize; 2]| vec![Move::bare(a, to[0]), Move::bare(b, to[1])];
    let both = |i: usize| {
        let (a, b) = (i % 128, i % 128 + 128);
        [pair(a, b, [HOMES, HOMES + 1]), pair(a, b, [a % HOMES, b % HOMES])]
    };
    (room, (0..256).flat_map(both).collect())
}

pub(crate) fn spread_lists(how_many: usize, apart: usize) -> Vec<Constraint> {
    (0..how_many).map(|k| Constraint::Spread { vms: one_of_each(k, apart) }).collect()
}

/// One VM for each remainder by `apart`, another choice for each list.
fn one_of_each(list: usize, apart: usize) -> Vec<usize> {
    let choose = |rest: usize| {
        let choices = (VMS - rest).div_ceil(apart);
        rest + apart * ((7 * list + 3 * rest + list * rest) % choices)
    };
    let mut vms: Vec<usize> = (0..apart).map(choose).collect();
    vms.sort();
    vms
}

// ---------------------------------------------------------------- bans and fences

/// 64 bans and 64 fences of all VMs around hops on 40 nodes.
pub fn closed_nodes() -> Input {
    input("bans and fences", hopping(40, bans_and_fences()), None)
}

/// The same, but in the last step VM 255 goes to a banned node.
pub fn closed_nodes_entered() -> Input {
    let plan = ending_at(hopping(40, bans_and_fences()), 50);
    input("bans, one entered", plan, Some((16, LAST)))
}

fn bans_and_fences() -> Vec<Constraint> {
    let ban = Constraint::Ban { vms: all_vms(), nodes: (40..NODES).collect() };
    let fence = |i: usize| Constraint::Fence { vms: all_vms(), nodes: (0..48 + i % 17).collect() };
    (0..CONSTRAINTS / 2).flat_map(|i| [ban.clone(), fence(i)]).collect()
}

/// 32 each of spread, ban, fence and latency: half the homes are closed to the VMs of the other half.
pub fn mixed() -> Input {
    let half = HOMES / 2;
    let (low, high): (Vec<usize>, Vec<usize>) = all_vms().iter().partition(|&vm| vm % HOMES < half);
    let ban = Constraint::Ban { vms: high, nodes: (0..half).collect() };
    let inside = (0..half).chain(HOMES..NODES).collect();
    let fence = Constraint::Fence { vms: low, nodes: inside };
    let mut constraints = spread_lists(32, HOMES);
    constraints.extend(vec![ban; 32]);
    constraints.extend(vec![fence; 32]);
    constraints.extend(latencies(32));
    input("mixed", away_and_back(constraints), None)
}

/// The same at reserve 10.
pub fn mixed_at_a_reserve() -> Input {
    Input { name: "mixed, reserve 10", reserve: 10, ..mixed() }
}

// ---------------------------------------------------------------- wide steps

/// 4 steps of 256 moves: all VMs go on by 5 nodes at once.
pub fn wide_steps() -> Input {
    input("wide steps", striding(NODES, 4), None)
}

/// The same on 63 nodes, but in the last step VM 255 goes to node 63, which has nothing to give.
pub fn wide_steps_too_full() -> Input {
    input("wide steps, too full", ending_at(striding(NODES - 1, 4), NODES - 1), Some((17, 4)))
}

/// The same on 64 nodes, but in the last step VM 255 names its destination as its source.
pub fn wide_steps_wrong_source() -> Input {
    wrong_source("wide steps, wrong source", striding(NODES, 4))
}

/// All VMs go on by 5 nodes at once, so many times.
fn striding(nodes: usize, rounds: usize) -> (Room, Vec<Step>) {
    let places = |vm| (stop(vm, 0, nodes), stop(vm, rounds, nodes));
    let room = full_room(nodes, places, latencies(CONSTRAINTS));
    let step = |round| (0..VMS).map(|vm| Move::bare(vm, stop(vm, round, nodes))).collect();
    (room, (1..=rounds).map(step).collect())
}

/// 128 spreads of 32 VMs; 4 steps in which all VMs go from their half of the nodes to the other.
pub fn wide_spreads() -> Input {
    let half = NODES / 2;
    let home = |vm| (vm % half, vm % half);
    let room = full_room(NODES, home, spread_lists(CONSTRAINTS, half));
    let there =
        |round: usize| (0..VMS).map(|vm| Move::bare(vm, vm % half + half * round)).collect();
    let steps = [1, 0, 1, 0].into_iter().map(there).collect();
    input("wide steps, spreads", (room, steps), None)
}

// ---------------------------------------------------------------- launches and shutdowns

/// 512 steps of 2 moves, four for each VM of a room of version 2.
pub fn launches_and_shutdowns() -> Input {
    let step = |i: usize| {
        let (round, vm) = (1 + i / 128, i % 128);
        [vm, vm + 128].map(|vm| Move::bare(vm, comes_and_goes(vm, round))).to_vec()
    };
    let steps = (0..512).map(step).collect();
    input("launches and shutdowns", (coming_and_going(), steps), None)
}

/// The same moves in 4 steps of 256.
pub fn wide_launches() -> Input {
    let step = |round| (0..VMS).map(|vm| Move::bare(vm, comes_and_goes(vm, round))).collect();
    input("wide steps, launches", (coming_and_going(), (1..=4).map(step).collect()), None)
}

/// Where a VM is after so many of its moves. A quarter of the VMs is launched and shut down twice;
/// the next is shut down, launched, moved and shut down; one is launched and moved three times; and
/// one is on nodes all the time.
fn comes_and_goes(vm: usize, round: usize) -> usize {
    match (vm % 4, round) {
        (0, 0 | 2 | 4) | (1, 1 | 4) | (2, 0) => NOWHERE,
        _ => stop(vm, round, NODES),
    }
}

fn coming_and_going() -> Room {
    let places = |vm| (comes_and_goes(vm, 0), comes_and_goes(vm, 4));
    Room { version: Version::Two, ..full_room(NODES, places, latencies(CONSTRAINTS)) }
}

// ---------------------------------------------------------------- idle VMs

/// 512 steps of 2 moves. Four active VMs on each node of the lower half keep it over its CPU until
/// they go to the upper half at last. Before that 128 idle ones go to and fro between the halves,
/// seven times each, and end on the lower.
pub fn idle_arrivals() -> Input {
    let (half, active) = (NODES / 2, VMS / 2);
    let stop = |vm: usize, round: usize| match vm < active {
        true => vm % half + half * round.saturating_sub(7),
        false => (vm + 5 * round) % half + half * ((round + 1) % 2),
    };
    let mut room = full_room(
        NODES,
        |vm| (stop(vm, 0), stop(vm, if vm < active { 8 } else { 7 })),
        latencies(CONSTRAINTS),
    );
    room.vms[active..].iter_mut().for_each(|vm| vm.cpu = 0);
    let start = Placement::current(&room).sums;
    for (node, sum) in room.nodes.iter_mut().zip(start).take(half) {
        node.cpu = sum.cpu - 1;
    }
    let pairs = |first: usize, round: usize| {
        let pair = move |i: usize| [first + i, first + i + 64];
        (0..64).map(move |i| pair(i).map(|vm| Move::bare(vm, stop(vm, round))).to_vec())
    };
    let steps = (1..=7).flat_map(|round| pairs(active, round)).chain(pairs(0, 8)).collect();
    input("idle arrivals", (room, steps), None)
}

// ---------------------------------------------------------------- VMs that wait for others

/// VM 128 waits for VM 0, VM 129 for VM 1, and so on.
fn halves() -> Vec<Constraint> {
    let before = |first| Constraint::Before { first, second: CONSTRAINTS + first };
    (0..CONSTRAINTS).map(before).collect()
}

/// 512 steps of 2 moves: the first 128 VMs go four times on by 5 nodes, then the 128 that wait for them.
pub fn befores() -> Input {
    input("befores", in_turn(), None)
}

/// The same, but in the last step VM 127 leaves its home, and VM 255 waits for it.
pub fn befores_too_soon() -> Input {
    let (room, mut steps) = in_turn();
    if let Some(step) = steps.last_mut() {
        step[0] = Move::bare(127, stop(127, 0, NODES));
    }
    input("befores, too soon", (room, steps), Some((33, LAST)))
}

fn in_turn() -> (Room, Vec<Step>) {
    let room = full_room(NODES, |vm| (stop(vm, 0, NODES), stop(vm, 4, NODES)), halves());
    let step = |i: usize| {
        let (half, round, vm) = (i / 256, 1 + i / 64 % 4, i % 64);
        [vm, vm + 64].map(|vm| vm + 128 * half).map(|vm| Move::bare(vm, stop(vm, round, NODES)))
    };
    (room, (0..512).map(|i| step(i).to_vec()).collect())
}

/// 8 steps of 128 moves: those who wait go on by 5 nodes at once, and those they wait for are home.
pub fn wide_befores() -> Input {
    let last = |vm: usize| if vm < CONSTRAINTS { 0 } else { 8 };
    let places = |vm| (stop(vm, 0, NODES), stop(vm, last(vm), NODES));
    let step = |round| (128..VMS).map(|vm| Move::bare(vm, stop(vm, round, NODES))).collect();
    let steps = (1..=8).map(step).collect();
    input("wide steps, befores", (full_room(NODES, places, halves()), steps), None)
}

// ---------------------------------------------------------------- the small room

/// Document 01's cluster A with its plan.
pub fn small_room() -> Input {
    let steps = edges::steps(&[&[(0, 2)], &[(1, 0)], &[(0, 1)]]);
    input("cluster A", (cluster_a(), steps), None)
}

// ---------------------------------------------------------------- stops

/// A plan of version 2 that is stopped in one of its steps.
pub struct Halt {
    pub name: &'static str,
    pub input: Input,
    pub step: u64,
    pub marks: Vec<u8>,
}

/// All stops that are measured, that of the small room last.
pub fn halts() -> Vec<Halt> {
    let half = (0..VMS).map(|vm| u8::from(vm % 2 == 0)).collect();
    vec![
        Halt { name: "hops, the last step", input: hops(), step: 512, marks: vec![1, 0] },
        Halt { name: "mixed, half way", input: mixed_at_a_reserve(), step: 256, marks: vec![0, 1] },
        Halt {
            name: "wide launches, half of a step",
            input: wide_launches(),
            step: 3,
            marks: half,
        },
        Halt { name: "cluster A", input: small_room(), step: 2, marks: vec![1] },
    ]
}

// ---------------------------------------------------------------- splits

/// A plan that is divided, in either version, or refused with a number that is not 0.
pub struct Cut {
    pub name: &'static str,
    pub input: Input,
    pub number: u8,
}

/// All splits that are measured, that of the small room last. A full room's 512 moves come in 2 steps, in
/// 4 with VMs that wait, in 2 with launches and shutdowns, and in 256; then there are 1,024 moves.
pub fn cuts() -> Vec<Cut> {
    let done = |name, plan| Cut { name, input: input(name, plan, None), number: 0 };
    let refused = |name, input| Cut { name, input, number: 14 };
    vec![
        done("2 wide steps", striding(NODES, 2)),
        done("4 steps, befores", waiting_steps()),
        done("2 steps, launches", last_launches()),
        done("256 steps of 2", half_the_hops()),
        refused("1,024 moves, 4 steps", wide_steps()),
        refused("1,024 moves, 512 steps", hops()),
        Cut { name: "cluster A", input: small_room(), number: 0 },
    ]
}

/// 4 steps of 128 moves: those who wait go on by 5 nodes at once, and those they wait for are home.
fn waiting_steps() -> (Room, Vec<Step>) {
    let last = |vm: usize| if vm < CONSTRAINTS { 0 } else { 4 };
    let places = |vm| (stop(vm, 0, NODES), stop(vm, last(vm), NODES));
    let step = |round| (128..VMS).map(|vm| Move::bare(vm, stop(vm, round, NODES))).collect();
    (full_room(NODES, places, halves()), (1..=4).map(step).collect())
}

/// 2 steps of 256 moves: the last two of each VM that comes and goes.
fn last_launches() -> (Room, Vec<Step>) {
    let places = |vm| (comes_and_goes(vm, 2), comes_and_goes(vm, 4));
    let room = Room { version: Version::Two, ..full_room(NODES, places, latencies(CONSTRAINTS)) };
    let step = |round| (0..VMS).map(|vm| Move::bare(vm, comes_and_goes(vm, round))).collect();
    (room, (3..=4).map(step).collect())
}

/// 256 steps of 2 moves: two rounds of hops.
fn half_the_hops() -> (Room, Vec<Step>) {
    let nodes = NODES - 1;
    let (mut room, mut steps) = hopping(nodes, latencies(CONSTRAINTS));
    steps.truncate(256);
    room.vms.iter_mut().enumerate().for_each(|(vm, row)| row.target = stop(vm, 2, nodes));
    (room, steps)
}

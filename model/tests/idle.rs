//! Idle VMs, those with CPU 0: tested for memory alone when they begin, so that a node over its CPU
//! may take them; and what a node over its memory or its CPU takes in every order of a sound step.

mod common;

use common::{accepted, checked, has, refused, steps_for, Rows, DOWN};
use kobdrieft_model::draw::{page, Whose};
use kobdrieft_model::edges::{node, room as made, room_2, steps, vm};
use kobdrieft_model::gen::{busy, cases, idle_pivots, knot, plan, room, Rng, Size};
use kobdrieft_model::orders::{every_order, explore, follow, Event, Found, Phase, Run};
use kobdrieft_model::puzzles::puzzle;
use kobdrieft_model::rules::{accepted_cluster, check_steps, meets_mate, misfits, step_fault};
use kobdrieft_model::rules::{Book, Placement};
use kobdrieft_model::text::plan_text;
use kobdrieft_model::*;

/// Node 1 has CPU 6 of 5 on it until VM 2 leaves for node 2. VM 0, with this memory and CPU, is
/// wanted there; VM 1 stays.
fn over_cpu(memory: u64, cpu: u64) -> Room {
    made(
        &[node(9, 9), node(3, 5), node(9, 9)],
        &[vm(memory, cpu, 0, 1), vm(1, 3, 1, 1), vm(1, 3, 1, 2)],
        &[],
    )
}

const FIRST: Rows = &[&[(0, 1)], &[(2, 2)]];
const TOGETHER: Rows = &[&[(0, 1), (2, 2)]];
const LAST: Rows = &[&[(2, 2)], &[(0, 1)]];

// ---------------------------------------------------------------- the checker

#[test]
fn an_idle_vm_enters_a_node_over_its_cpu() {
    let room = over_cpu(1, 0);
    assert_eq!(checked(&room, FIRST), accepted(1 + (1 + 1)));
    assert_eq!(checked(&room, TOGETHER), accepted(2));
    assert_eq!(checked(&room, LAST), accepted(1 + (1 + 1)));
}

#[test]
fn an_active_vm_does_not() {
    for cpu in [1, 2] {
        let room = over_cpu(1, cpu);
        assert_eq!(checked(&room, FIRST), refused(17, 1), "{cpu}");
        assert_eq!(checked(&room, TOGETHER), refused(17, 1), "{cpu}");
        assert_eq!(checked(&room, LAST), accepted(1 + (1 + 1)), "{cpu}");
    }
}

/// Memory is tested for every VM: at a node over its CPU, at one over its memory, and at one full.
#[test]
fn an_idle_vm_needs_memory() {
    let tight = over_cpu(2, 0);
    assert_eq!(checked(&tight, FIRST), refused(17, 1));
    assert_eq!(checked(&tight, TOGETHER), refused(17, 1));
    assert_eq!(checked(&tight, LAST), accepted(1 + (2 + 1)));
    // Node 1 has memory 4 of 3 on it at first.
    for most in [3, 6] {
        let heap = made(
            &[node(9, 9), node(3, most), node(9, 9)],
            &[vm(1, 0, 0, 1), vm(2, 3, 1, 1), vm(2, 3, 1, 2)],
            &[],
        );
        assert_eq!(checked(&heap, FIRST), refused(17, 1), "{most}");
        assert_eq!(checked(&heap, TOGETHER), refused(17, 1), "{most}");
        assert_eq!(checked(&heap, LAST), accepted(2 + (1 + 2)), "{most}");
    }
    let full = made(&[node(2, 9), node(1, 0)], &[vm(1, 0, 0, 0), vm(1, 0, 1, 1)], &[]);
    assert_eq!(checked(&full, &[&[(0, 1)]]), refused(17, 1));
    assert_eq!(checked(&full, &[&[(1, 0)], &[(1, 1)]]), accepted(1 + (1 + 1)));
}

/// Every CPU of an arrival at nodes of every CPU, with CPU 4 there: all fits but CPU that passes.
#[test]
fn every_cpu_beside_every_other() {
    for most in 0..=9 {
        for cpu in 0..=6 {
            // All have somewhere else to end, with CPU enough.
            let vms = [vm(1, cpu, 0, 2), vm(1, 4, 1, 2)];
            let room = made(&[node(9, 9), node(9, most), node(9, 19)], &vms, &[]);
            let fits = cpu == 0 || cpu + 4 <= most;
            let expected = if fits { accepted(1 + (1 + 1) * 2) } else { refused(17, 1) };
            assert_eq!(checked(&room, &[&[(0, 1)], &[(0, 2), (1, 2)]]), expected, "{cpu} {most}");
        }
    }
}

/// An idle VM (memory 2) and an active one (memory 3, CPU 2) that go to node 1, in this order or the
/// other, where VM 2 has memory 1 and CPU 4 until it leaves. Gives the numbers of the two as well.
fn pair(memory: u64, most: u64, idle_first: bool) -> (Room, usize, usize) {
    let (idle, active) = (vm(2, 0, 0, 1), vm(3, 2, 0, 1));
    let leaver = vm(1, 4, 1, 2);
    let nodes = [node(9, 9), node(memory, most), node(9, 9)];
    match idle_first {
        true => (made(&nodes, &[idle, active, leaver], &[]), 0, 1),
        false => (made(&nodes, &[active, idle, leaver], &[]), 1, 0),
    }
}

#[test]
fn an_idle_and_an_active_arrival_within_cpu() {
    for idle_first in [true, false] {
        let (room, idle, active) = pair(6, 6, idle_first);
        assert_eq!(checked(&room, &[&[(0, 1), (1, 1)], &[(2, 2)]]), accepted(5 + (1 + 3)));
        assert_eq!(checked(&room, &[&[(idle, 1)], &[(active, 1)]]), refused(19, 0));
        // With CPU one less the active one does not fit, beside the idle one or not.
        let (room, idle, active) = pair(6, 5, idle_first);
        assert_eq!(checked(&room, &[&[(0, 1), (1, 1)], &[(2, 2)]]), refused(17, 1));
        assert_eq!(checked(&room, &[&[(active, 1)]]), refused(17, 1));
        assert_eq!(checked(&room, &[&[(idle, 1)], &[(active, 1)]]), refused(17, 2));
        let good: Rows = &[&[(idle, 1)], &[(2, 2)], &[(active, 1)]];
        assert_eq!(checked(&room, good), accepted(2 + (1 + 2) + (3 + 3)));
    }
}

/// Node 1 has CPU 4 of 3 on it. The active one refuses the step, whatever stands beside it.
#[test]
fn an_idle_and_an_active_arrival_at_a_node_over_its_cpu() {
    for idle_first in [true, false] {
        let (room, idle, active) = pair(6, 3, idle_first);
        assert_eq!(checked(&room, &[&[(0, 1), (1, 1)], &[(2, 2)]]), refused(17, 1));
        assert_eq!(checked(&room, &[&[(0, 1), (1, 1), (2, 2)]]), refused(17, 1));
        assert_eq!(checked(&room, &[&[(active, 1)]]), refused(17, 1));
        assert_eq!(checked(&room, &[&[(idle, 1)], &[(active, 1)]]), refused(17, 2));
        let alone: Rows = &[&[(idle, 1)], &[(2, 2)], &[(active, 1)]];
        assert_eq!(checked(&room, alone), accepted(2 + (1 + 2) + (3 + 3)));
        let beside: Rows = &[&[(idle, 1), (2, 2)], &[(active, 1)]];
        assert_eq!(checked(&room, beside), accepted(3 + (3 + 2)));
    }
}

/// The memory of the idle one is what fills the node, or that of the active one, as one sees it.
#[test]
fn an_idle_arrival_that_fills_the_memory() {
    for idle_first in [true, false] {
        for most in [6, 9] {
            let (room, idle, active) = pair(5, most, idle_first);
            assert_eq!(checked(&room, &[&[(0, 1), (1, 1)], &[(2, 2)]]), refused(17, 1));
            let first: Rows = &[&[(idle, 1)], &[(2, 2)], &[(active, 1)]];
            assert_eq!(checked(&room, first), accepted(2 + (1 + 2) + (3 + 3)));
            let last: Rows = &[&[(active, 1)], &[(2, 2)], &[(idle, 1)]];
            assert_eq!(checked(&room, last), accepted(3 + (1 + 3) + (2 + 4)));
        }
    }
}

/// The target must fit both sums, even if all that arrives is idle, moved or launched.
#[test]
fn a_target_over_its_cpu() {
    for (current, version) in [(1, Version::One), (1, Version::Two), (DOWN, Version::Two)] {
        for (most, number) in [(4, 19), (3, 19), (2, 8), (0, 8)] {
            let vms = [vm(1, 3, 0, 0), vm(1, 0, current, 0)];
            let room = made(&[node(9, most), node(9, 9)], &vms, &[]);
            let cluster = cluster_bytes(&Room { version, ..room });
            assert_eq!(check(0, &cluster, &[]), refused(number, 0), "{current} {most}");
            let refuses = matches!(build(0, &cluster, &mut [0; 2_562]), Answer::Refused { .. });
            assert_eq!(refuses, number == 8);
        }
    }
    let idle = made(&[node(2, 0), node(9, 0)], &[vm(1, 0, 0, 0), vm(1, 0, 1, 0)], &[]);
    assert_eq!(checked(&idle, &[&[(1, 0)]]), accepted(1));
    let over = Room { nodes: vec![node(1, 0), node(9, 0)], ..idle };
    assert_eq!(checked(&over, &[&[(1, 0)]]), refused(8, 0));
}

/// An idle VM passes 17 at a node over its CPU, and what comes before and behind 17 is as ever.
#[test]
fn other_refusals_there() {
    let with = |cpu, list: &[Constraint]| Room { constraints: list.into(), ..over_cpu(1, cpu) };
    let mates = [Constraint::Spread { vms: vec![0, 2] }];
    assert_eq!(checked(&with(0, &mates), FIRST), refused(18, 1));
    assert_eq!(checked(&with(1, &mates), FIRST), refused(17, 1));
    assert_eq!(checked(&with(0, &mates), LAST), accepted(1 + (1 + 1)));
    let ban = [Constraint::Ban { vms: vec![0], nodes: vec![2] }];
    assert_eq!(checked(&with(0, &ban), &[&[(0, 2)]]), refused(16, 1));
    assert_eq!(checked(&with(0, &ban), FIRST), accepted(1 + (1 + 1)));
    assert_eq!(checked(&with(0, &[]), &[&[(0, 1)]]), refused(19, 0));
}

/// Each order of an idle and an active arrival at a node over its CPU, with memory for both: the
/// active begin fails in all of them but those in which the leaver has ended, the idle one in none.
#[test]
fn orders_at_a_node_over_its_cpu() {
    let (room, idle, active) = pair(9, 3, true);
    let step = [Move::bare(idle, 1), Move::bare(active, 1), Move::bare(2, 2)];
    let mut late = 0;
    for order in every_order(3) {
        let begin = order.iter().position(|event| *event == Event::Begin(1)).unwrap();
        let ended = order[..begin].contains(&Event::End(2));
        let found = follow(&room, &[0, 0, 1], &step, &order);
        assert_eq!(found, Found { misfit: !ended, ..Found::default() }, "{order:?}");
        late += usize::from(ended);
    }
    // In 1 of 6 orders of the other two the leaver ends before the active one begins.
    assert_eq!((every_order(3).len(), late), (90, 15));
    for order in every_order(2) {
        let without = [step[0], step[2]];
        assert_eq!(follow(&room, &[0, 0, 1], &without, &order), Found::default());
    }
}

// ---------------------------------------------------------------- the planner

#[test]
fn an_idle_vm_does_not_wait() {
    let both = steps(TOGETHER);
    assert_eq!(steps_for(&over_cpu(1, 0)), (both, true));
    assert_eq!(steps_for(&over_cpu(1, 1)), (steps(LAST), true));
    assert_eq!(steps_for(&over_cpu(2, 0)), (steps(LAST), true));
    let text = plan_text(0, &cluster_bytes(&over_cpu(1, 0)));
    assert_eq!(text, "plan steps 1 moves 2 cost 2\n1 0 0 1\n1 2 1 2\n");
}

/// The idle one goes at once, the active one once the node is within its CPU; in either order.
#[test]
fn an_active_vm_waits_beside_it() {
    for idle_first in [true, false] {
        let (room, idle, active) = pair(6, 3, idle_first);
        assert_eq!(steps_for(&room), (steps(&[&[(idle, 1), (2, 2)], &[(active, 1)]]), true));
        let (roomy, ..) = pair(6, 6, idle_first);
        assert_eq!(steps_for(&roomy), (steps(&[&[(0, 1), (1, 1), (2, 2)]]), true));
    }
}

#[test]
fn an_idle_launch_does_not_wait() {
    let launch = |memory, cpu| {
        let vms = [vm(1, 2, 0, DOWN), vm(memory, cpu, DOWN, 0)];
        room_2(&[node(2, 1)], &vms, &[])
    };
    assert_eq!(steps_for(&launch(1, 0)), (steps(&[&[(0, DOWN), (1, 0)]]), true));
    assert_eq!(steps_for(&launch(1, 1)), (steps(&[&[(0, DOWN)], &[(1, 0)]]), true));
    assert_eq!(steps_for(&launch(2, 0)), (steps(&[&[(0, DOWN)], &[(1, 0)]]), true));
    assert_eq!(checked(&launch(1, 0), &[&[(1, 0)], &[(0, DOWN)]]), accepted(1 + 1));
    assert_eq!(checked(&launch(1, 1), &[&[(1, 0)], &[(0, DOWN)]]), refused(17, 1));
    assert_eq!(checked(&launch(2, 0), &[&[(1, 0)], &[(0, DOWN)]]), refused(17, 1));
}

/// VMs 0 and 1 are to change places on full nodes. Node 2, with CPU 2 of 1 on it, has the memory given
/// to step onto; VM 2 waits for the places, too.
fn turn(cpus: [u64; 2], memory: u64) -> Room {
    let vms = [vm(3, cpus[0], 0, 1), vm(2, cpus[1], 1, 0), vm(2, 2, 2, 0)];
    made(&[node(4, 9), node(4, 9), node(memory, 1)], &vms, &[])
}

#[test]
fn an_idle_pivot_onto_a_node_over_its_cpu() {
    let by_the_first = steps(&[&[(0, 2)], &[(1, 0), (2, 0)], &[(0, 1)]]);
    assert_eq!(steps_for(&turn([0, 0], 5)), (by_the_first.clone(), true));
    assert_eq!(steps_for(&turn([0, 1], 5)), (by_the_first, true));
    // The first is active, or has no memory there: the second steps aside.
    let by_the_second = steps(&[&[(1, 2)], &[(0, 1)], &[(1, 0), (2, 0)]]);
    assert_eq!(steps_for(&turn([1, 0], 5)), (by_the_second.clone(), true));
    assert_eq!(steps_for(&turn([0, 0], 4)), (by_the_second, true));
    // Nobody can: both are active, or there is no memory.
    assert_eq!(steps_for(&turn([1, 1], 5)), (vec![], false));
    assert_eq!(steps_for(&turn([0, 0], 3)), (vec![], false));
    assert_eq!(checked(&turn([0, 0], 5), &[&[(0, 2)]]), refused(19, 0));
    assert_eq!(checked(&turn([1, 0], 5), &[&[(0, 2)]]), refused(17, 1));
}

// ---------------------------------------------------------------- every order

/// A small room with many idle VMs and some nodes over their CPU or their memory, and a step of one
/// to four moves, mostly to those nodes.
fn crowded(rng: &mut Rng) -> (Room, Placement, Step) {
    let (n, v) = (rng.range(2, 4), rng.range(3, 6));
    let idle = rng.pick(&[30, 50, 70]);
    let down = rng.pick(&[0, 0, 25]);
    let place = |rng: &mut Rng| if rng.chance(down) { DOWN } else { rng.below(n) };
    let row = |rng: &mut Rng| {
        let cpu = if rng.chance(idle) { 0 } else { rng.range(1, 3) as u64 };
        vm(rng.range(1, 3) as u64, cpu, place(rng), place(rng))
    };
    let vms: Vec<Vm> = (0..v).map(|_| row(rng)).collect();
    let mut room = room_2(&vec![node(0, 0); n], &vms, &[]);
    let start = Placement::current(&room);
    for (node, held) in room.nodes.iter_mut().zip(&start.sums) {
        let around = |rng: &mut Rng, held: u64, by: [u64; 5]| (held + rng.pick(&by)).max(1) - 1;
        *node = Node {
            memory: around(rng, held.memory, [0, 2, 5, 9, 9]),
            cpu: around(rng, held.cpu, [0, 0, 1, 2, 4]),
        };
    }
    if rng.chance(20) {
        let all: Vec<usize> = (0..v).collect();
        room.constraints.push(Constraint::Spread { vms: rng.some_of(&all) });
    }
    let over = |node: &usize| start.sums[*node].cpu > room.nodes[*node].cpu;
    let meeting = (0..n).find(over).unwrap_or(rng.below(n));
    let mut moving: Vec<usize> = (0..v).collect();
    rng.shuffle(&mut moving);
    moving.truncate(rng.range(1, 4));
    moving.sort();
    let to = |rng: &mut Rng, vm: usize| match start.place[vm] {
        place if place != meeting && rng.chance(60) => meeting,
        DOWN => rng.below(n),
        _ if room.vms[vm].target == DOWN && rng.chance(60) => DOWN,
        place => (place + rng.range(1, n - 1)) % n,
    };
    let step = moving.iter().map(|&vm| Move::bare(vm, to(rng, vm))).collect();
    (room, start, step)
}

/// A node's sums as they are in some state, beside what it has.
#[derive(Clone, Copy)]
struct Load {
    memory: u64,
    cpu: u64,
    has: (u64, u64),
}

impl Load {
    fn of(run: &Run, phases: &[Phase], at: usize) -> Load {
        let ((memory, cpu), Node { memory: m, cpu: c }) =
            (run.load(phases, at), run.room.nodes[at].clone());
        Load { memory, cpu, has: (m, c) }
    }

    fn over_memory(self) -> bool {
        self.memory > self.has.0
    }

    fn over_cpu(self) -> bool {
        self.cpu > self.has.1
    }
}

/// What happened along the orders of sound steps: begins, begins of idle VMs at a node over its CPU,
/// ends that brought a node within its CPU.
#[derive(Debug, Default)]
struct Events {
    begins: usize,
    idle_over_cpu: usize,
    relieved: usize,
}

/// Follows an order of a sound step, and looks at every node before and after each event.
fn hold_order(run: &Run, order: &[Event], seen: &mut Events) {
    let nodes = 0..run.room.nodes.len();
    let mut phases = vec![Phase::Waiting; run.step.len()];
    for &event in order {
        let loads = |phases: &[Phase]| -> Vec<Load> {
            nodes.clone().map(|node| Load::of(run, phases, node)).collect()
        };
        let before = loads(&phases);
        let (i, begins) = match event {
            Event::Begin(i) => (i, true),
            Event::End(i) => (i, false),
        };
        phases[i] = if begins { Phase::Running } else { Phase::Ended };
        let m = run.step[i];
        for (at, (was, is)) in before.iter().zip(loads(&phases)).enumerate() {
            assert!(!was.over_cpu() || is.cpu <= was.cpu, "CPU raised while over: {order:?}");
            assert!(!was.over_memory() || is.memory <= was.memory, "memory raised: {order:?}");
            let was_within = !was.over_cpu() && !was.over_memory();
            let is_within = !is.over_cpu() && !is.over_memory();
            assert!(!was_within || is_within, "node {at} left its capacity: {order:?}");
            if begins && m.to == at {
                assert!(!was.over_memory(), "a node over its memory took VM {}", m.vm);
                let idle = run.room.vms[m.vm].cpu == 0;
                assert!(idle || was_within, "VM {} began at a node over its CPU", m.vm);
                seen.begins += 1;
                seen.idle_over_cpu += usize::from(idle && was.over_cpu());
            }
            seen.relieved += usize::from(!begins && was.over_cpu() && !is.over_cpu());
        }
    }
}

/// Over all orders of every step without 17, event by event: a node over its memory takes nobody, one
/// over its CPU takes idle VMs only, so that its CPU is not raised while over, and a node within its
/// capacity stays within.
#[test]
fn every_order_of_every_sound_step() {
    let mut rng = Rng::new(91);
    let orders: Vec<_> = (0..=4).map(every_order).collect();
    let (mut sound, mut seen) = (0, Events::default());
    for round in 0..20_000 {
        let (room, start, step) = crowded(&mut rng);
        let run = Run { room: &room, start: &start.place, step: &step };
        if misfits(&room, &start, &step) {
            continue;
        }
        sound += 1;
        if step.len() == 4 && round % 10 != 0 {
            continue;
        }
        orders[step.len()].iter().for_each(|order| hold_order(&run, order, &mut seen));
    }
    println!("{sound} sound steps, {seen:?}");
    assert!(sound > 3_000 && seen.idle_over_cpu > 5_000 && seen.relieved > 1_000, "{seen:?}");
}

/// Steps are counted by who arrives at nodes over their CPU: idle VMs, active ones, or both.
#[test]
fn the_closed_form_says_what_all_orders_say() {
    let mut rng = Rng::new(92);
    let mut seen = [[0; 4]; 2];
    for _ in 0..40_000 {
        let (room, start, step) = crowded(&mut rng);
        let (misfit, mate) =
            (misfits(&room, &start, &step), meets_mate(&Book::of(&room), &start, &step));
        let closed = Found { misfit, mate, ..Found::default() };
        assert_eq!(explore(&room, &start.place, &step), closed, "{room:?} {step:?}");
        let over = |to: usize| to != DOWN && start.sums[to].cpu > room.nodes[to].cpu;
        let arrives = |idle: bool| {
            let of_kind = |m: &&Move| (room.vms[m.vm].cpu == 0) == idle;
            step.iter().filter(of_kind).any(|m| over(m.to))
        };
        let kind = usize::from(arrives(true)) + 2 * usize::from(arrives(false));
        seen[usize::from(closed.misfit)][kind] += 1;
    }
    println!("nobody, idle, active, both at a node over its CPU; sound, then 17: {seen:?}");
    assert!(seen[0][0] > 1_000 && seen[0][1] > 1_000, "{seen:?}");
    assert_eq!(seen[0][2] + seen[0][3], 0, "an active VM never fits there");
    assert!(seen[1].iter().all(|&count| count > 500), "{seen:?}");
}

/// 17 by the words of the rule: each arrival in turn begins last of all that arrive at its node.
#[test]
fn the_last_to_begin_has_it_hardest() {
    let mut rng = Rng::new(93);
    let (mut by_idle, mut by_active, mut beside) = (0, 0, 0);
    for _ in 0..40_000 {
        let (room, start, step) = crowded(&mut rng);
        let mut faults = Vec::new();
        for m in step.iter().filter(|m| m.to != DOWN) {
            let there = step.iter().filter(|other| other.to == m.to).map(|other| other.vm);
            let all = there.chain((0..room.vms.len()).filter(|&vm| start.place[vm] == m.to));
            let (mut memory, mut cpu) = (0, 0);
            for vm in all {
                memory += room.vms[vm].memory;
                cpu += room.vms[vm].cpu;
            }
            let has = &room.nodes[m.to];
            let idle = room.vms[m.vm].cpu == 0;
            if memory > has.memory || (cpu > has.cpu && !idle) {
                faults.push((idle, m.to));
            }
        }
        assert_eq!(misfits(&room, &start, &step), !faults.is_empty(), "{room:?} {step:?}");
        by_idle += usize::from(!faults.is_empty() && faults.iter().all(|(idle, _)| *idle));
        by_active += usize::from(!faults.is_empty() && faults.iter().all(|(idle, _)| !*idle));
        // Idle ones beside it have no fault of their own.
        let idle_beside = |to: usize| step.iter().any(|m| m.to == to && room.vms[m.vm].cpu == 0);
        let only_active = |to: usize| !faults.contains(&(true, to));
        beside += usize::from(faults.iter().any(|&(_, to)| idle_beside(to) && only_active(to)));
    }
    println!("17 by idle VMs alone {by_idle}, by active ones {by_active}, beside idle {beside}");
    assert!(by_idle > 1_000 && by_active > 1_000 && beside > 500);
}

/// Where there is memory enough, a step fits exactly if it does without its idle moves.
#[test]
fn idle_vms_take_memory_and_nothing_else() {
    let mut rng = Rng::new(94);
    let mut compared = [0; 2];
    for _ in 0..20_000 {
        let (mut room, start, step) = crowded(&mut rng);
        room.constraints.clear();
        room.nodes.iter_mut().for_each(|node| node.memory = 99);
        let active = |m: &&Move| room.vms[m.vm].cpu > 0;
        let rest: Step = step.iter().filter(active).copied().collect();
        let both = misfits(&room, &start, &step);
        assert_eq!(both, misfits(&room, &start, &rest), "{room:?} {step:?}");
        let after = |to: usize| {
            let arrivals = rest.iter().filter(|m| m.to == to).map(|m| room.vms[m.vm].cpu);
            start.sums[to].cpu + arrivals.sum::<u64>()
        };
        let passes = rest.iter().any(|m| m.to != DOWN && after(m.to) > room.nodes[m.to].cpu);
        assert_eq!(both, passes);
        compared[usize::from(both)] += 1;
    }
    assert!(compared.iter().all(|&count| count > 2_000), "{compared:?}");
}

// ---------------------------------------------------------------- generated rooms

/// Whether some move of these is of an idle VM to a node over its CPU when its step starts.
fn has_idle_over_cpu(room: &Room, steps: &[Step]) -> bool {
    let mut here = Placement::current(room);
    steps.iter().any(|step| {
        let over = |to: usize| to != DOWN && here.sums[to].cpu > room.nodes[to].cpu;
        let found = step.iter().any(|m| room.vms[m.vm].cpu == 0 && over(m.to));
        here = here.after(room, step);
        found
    })
}

/// Every plan the planner makes is sound in every order, however busy the nodes, and it does not say
/// blocked while some VM has a sound direct move.
#[test]
fn busy_rooms_planned() {
    let mut rng = Rng::new(95);
    let mut seen = [[0; 2]; 2];
    let mut pivots = 0;
    for turn in 0..24_000 {
        let room = match turn % 4 {
            0 => puzzle(&mut rng),
            1 if turn % 8 == 1 => idle_pivots(&mut rng),
            2 => knot(&mut rng, Size::Tiny),
            _ => busy(&mut rng, Size::Tiny),
        };
        let (steps, all_home) = steps_for(&room);
        let book = Book::of(&room);
        let mut here = Placement::current(&room);
        for step in &steps {
            assert_eq!(step_fault(&room, &book, &here, step), None);
            if step.len() <= 4 {
                assert_eq!(explore(&room, &here.place, step), Found::default());
            }
            let [m] = step[..] else {
                here = here.after(&room, step);
                continue;
            };
            let aside = m.to != DOWN && m.to != room.vms[m.vm].target;
            let over = aside && here.sums[m.to].cpu > room.nodes[m.to].cpu;
            assert!(!over || room.vms[m.vm].cpu == 0, "an active pivot onto a node over its CPU");
            pivots += usize::from(over);
            here = here.after(&room, step);
        }
        for vm in here.out_of_place(&room).into_iter().filter(|_| !all_home) {
            let home = [Move::bare(vm, room.vms[vm].target)];
            let bound = room.constraints.iter().any(|c| !matches!(c, Constraint::Latency { .. }));
            assert!(bound || explore(&room, &here.place, &home).misfit, "VM {vm} could go home");
        }
        seen[usize::from(all_home)][usize::from(has_idle_over_cpu(&room, &steps))] += 1;
    }
    println!("blocked, plan; without and with idle VMs onto nodes over their CPU: {seen:?}");
    println!("{pivots} idle pivots there");
    assert!(seen.as_flattened().iter().all(|&count| count > 50) && pivots > 500, "{seen:?}");
}

/// Generated rooms with many idle VMs and nodes over their CPU, accepted plans that bring the ones onto
/// the others, and steps refused with 17 whose idle moves alone would fit.
#[test]
fn random_cases_have_idle_vms() {
    let (mut rooms, mut many, mut over, mut entered, mut mixed) = (0, 0, 0, 0, 0);
    for case in cases(96, 20_000) {
        let (Ok(room), Ok(plan)) = (accepted_cluster(0, &case.cluster), parse_plan(&case.plan))
        else {
            continue;
        };
        let idle = room.vms.iter().filter(|vm| vm.cpu == 0).count();
        let start = Placement::current(&room);
        let is_over = |node: usize| start.sums[node].cpu > room.nodes[node].cpu;
        rooms += 1;
        many += usize::from(3 * idle >= room.vms.len() && idle > 0);
        over += usize::from((0..room.nodes.len()).any(is_over));
        match check_steps(&room, &plan.steps) {
            Verdict::Accepted { .. } => {
                entered += usize::from(has_idle_over_cpu(&room, &plan.steps));
            }
            Verdict::Refused { number: 17, step } => {
                let (before, at) = plan.steps.split_at(usize::from(step) - 1);
                let here = before.iter().fold(start, |here, step| here.after(&room, step));
                let idle = |m: &&Move| room.vms[m.vm].cpu == 0;
                let others: Step = at[0].iter().filter(idle).copied().collect();
                mixed += usize::from(!others.is_empty() && !misfits(&room, &here, &others));
            }
            _ => {}
        }
    }
    println!("{rooms} rooms, {many} with a third idle, {over} with a node over its CPU");
    println!("{entered} accepted plans with an idle VM onto one; {mixed} with 17 not by idle ones");
    assert!(3 * many > rooms && 8 * over > rooms && entered > 200 && mixed > 100);
}

/// Where nobody is idle, both sums are tested for all.
#[test]
fn without_idle_vms_both_sums_are_tested() {
    let mut rng = Rng::new(97);
    let mut compared = [0; 2];
    for turn in 0..8_000 {
        let mut room = match turn % 2 {
            0 => room(&mut rng, Size::Tiny),
            _ => busy(&mut rng, Size::Tiny),
        };
        let (plan, _) = plan(&mut rng, &room);
        let lifted = |vm: &mut Vm| vm.cpu = 2 * vm.cpu + u64::from(vm.cpu == 0);
        room.vms.iter_mut().for_each(lifted);
        let mut here = Placement::current(&room);
        for step in &bare(&plan.steps).steps {
            let known = |m: &Move| m.vm < room.vms.len() && (m.to < room.nodes.len());
            let rises = step.windows(2).all(|pair| pair[0].vm < pair[1].vm);
            if !rises || !step.iter().all(|m| known(m) && m.to != here.place[m.vm]) {
                break;
            }
            let passes = |to: usize| {
                let there = step.iter().filter(|m| m.to == to).map(|m| &room.vms[m.vm]);
                let sum = there.fold(here.sums[to], |sum, vm| sum.plus(vm));
                sum.memory > room.nodes[to].memory || sum.cpu > room.nodes[to].cpu
            };
            let fault = step.iter().any(|m| passes(m.to));
            assert_eq!(misfits(&room, &here, step), fault, "{room:?} {step:?}");
            compared[usize::from(fault)] += 1;
            here = here.after(&room, step);
        }
    }
    assert!(compared.iter().all(|&count| count > 500), "{compared:?}");
}

// ---------------------------------------------------------------- the page

fn drawn(room: &Room, rows: Rows) -> String {
    page(0, room, &bare(&steps(rows)), Whose::Model).expect("a plan that fits")
}

const NEEDS_ONLY_MEMORY: &str = "A VM with CPU 0 needs only memory to arrive";

/// The node stays marked as overfull while it is, and the page says why an idle VM may go there.
#[test]
fn an_idle_arrival_drawn() {
    let page = drawn(&over_cpu(1, 0), FIRST);
    has(&page, &["accepted cost 3", NEEDS_ONLY_MEMORY, ">CPU 6 of 5</text>"]);
    // At the start and in both steps, as VM 2 counts there until its move has ended.
    assert_eq!(page.matches("OVERFULL").count(), 3);
    let later = drawn(&over_cpu(1, 0), LAST);
    assert!(!later.contains(NEEDS_ONLY_MEMORY));
    assert_eq!(later.matches("OVERFULL").count(), 2);
    let active = drawn(&over_cpu(1, 1), FIRST);
    assert!(!active.contains(NEEDS_ONLY_MEMORY));
}

/// For an idle VM only memory is told, for an active one memory or CPU; idle ones are no part of a
/// CPU that is passed.
#[test]
fn why_an_arrival_does_not_fit() {
    let told = |what: &str| format!("<p>An order that fails: {what}.</p>");
    let leaves = "(VM 2 counts there until its move ends)";
    let cpu = drawn(&over_cpu(1, 1), TOGETHER);
    has(&cpu, &[&told(&format!("begin VM 0: node 1 would have CPU 7 of 5 {leaves}"))]);
    let memory = drawn(&over_cpu(2, 0), TOGETHER);
    has(&memory, &[&told(&format!("begin VM 0: node 1 would have memory 4 of 3 {leaves}"))]);
    let both = drawn(&over_cpu(2, 1), FIRST);
    has(&both, &[&told("begin VM 0: node 1 would have memory 4 of 3")]);
    let both: Rows = &[&[(0, 1), (1, 1)]];
    for (idle_first, active) in [(true, 1), (false, 0)] {
        let (busy, ..) = pair(6, 3, idle_first);
        let what = format!("begin VM {active}: node 1 would have CPU 6 of 3");
        has(&drawn(&busy, both), &[&told(&what)]);
        let (full, ..) = pair(5, 9, idle_first);
        let what = "begin VM 0, begin VM 1: node 1 would have memory 6 of 5";
        has(&drawn(&full, both), &[&told(what)]);
    }
    // VM 3 is idle and leaves, which is no matter to CPU.
    let mut leaver = over_cpu(1, 1);
    leaver.nodes[1].memory = 9;
    leaver.vms.push(vm(1, 0, 1, 2));
    let page = drawn(&leaver, &[&[(0, 1), (2, 2), (3, 2)]]);
    has(&page, &[&told(&format!("begin VM 0: node 1 would have CPU 7 of 5 {leaves}"))]);
}

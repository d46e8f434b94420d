//! A reserve of each node for the hypervisor: what is usable, 23, and what the checker and the planner
//! make of it.

mod common;

use common::{accepted, checked, checked_at, has, number_of, refused, steps_at, steps_checked_at};
use common::{is_given, Rows, DOWN, NUMBERS};
use kobdrieft_model::draw::{page, Whose};
use kobdrieft_model::edges::{
    a_with, cluster_a, node, over_usable, room as made, room_2, steps, vm,
};
use kobdrieft_model::gen::{apart, busy, cases, damage_plan, knot, plan, Case, Rng, Size};
use kobdrieft_model::gen::{MOST_CPU, MOST_MEMORY};
use kobdrieft_model::orders::{every_order, every_state, explore, follow, Event, Phase, Run};
use kobdrieft_model::planner::BUFFER;
use kobdrieft_model::puzzles::puzzle;
use kobdrieft_model::reserves::{on_the_edge, raised, some_reserve};
use kobdrieft_model::rules::{usable_room, Placement};
use kobdrieft_model::text::{plan_text, read_number};
use kobdrieft_model::*;
use std::collections::HashMap;

/// Reserves that are too high. Of some of them the lower bits would be taken.
const ABOVE_90: [u64; 12] = [
    91,
    92,
    99,
    100,
    101,
    255,
    256,
    65_546,
    4_294_967_296,
    4_294_967_306,
    9_223_372_036_854_775_808,
    18_446_744_073_709_551_615,
];

/// What is usable of a capacity, found by counting up to the last whole amount that is not over it.
fn usable(capacity: u64, reserve: u64) -> u64 {
    let mut most = 0;
    while 100 * (most + 1) <= capacity * (100 - reserve) {
        most += 1;
    }
    most
}

// ---------------------------------------------------------------- usable amounts

#[test]
fn memory_and_cpu_are_rounded_down_apart() {
    let of = |reserve, memory, cpu| {
        let room = usable_room(reserve, &made(&[node(memory, cpu)], &[], &[]));
        (room.nodes[0].memory, room.nodes[0].cpu)
    };
    assert_eq!(of(0, 4, 101), (4, 101));
    assert_eq!(of(1, 4, 101), (3, 99));
    assert_eq!(of(10, 4, 101), (3, 90));
    assert_eq!(of(10, 101, 4), (90, 3));
    assert_eq!(of(25, 4, 101), (3, 75));
    assert_eq!(of(26, 4, 101), (2, 74));
    assert_eq!(of(50, 4, 101), (2, 50));
    assert_eq!(of(90, 4, 101), (0, 10));
    assert_eq!(of(90, 10, 9), (1, 0));
    assert_eq!(of(0, 16_777_215, 65_535), (16_777_215, 65_535));
    assert_eq!(of(1, 16_777_215, 65_535), (16_609_442, 64_879));
    assert_eq!(of(90, 16_777_215, 65_535), (1_677_721, 6_553));
    for reserve in 0..=90 {
        for capacity in 0..=250 {
            let expected = usable(capacity, reserve);
            assert_eq!(of(reserve, capacity, 0), (expected, 0), "{capacity} at {reserve}");
            assert_eq!(of(reserve, 0, capacity), (0, expected), "{capacity} at {reserve}");
        }
    }
}

/// Nothing but the nodes is another.
#[test]
fn all_else_is_as_it_was() {
    let mut rng = Rng::new(101);
    for _ in 0..200 {
        let room = knot(&mut rng, Size::Small);
        let at = usable_room(some_reserve(&mut rng), &room);
        assert_eq!(Room { nodes: room.nodes.clone(), ..at }, room);
        assert_eq!(usable_room(0, &room), room);
    }
}

#[test]
fn reserves_in_digits() {
    let most = "18446744073709551615";
    for (digits, reserve) in [("0", 0), ("10", 10), ("090", 90), ("256", 256), (most, u64::MAX)] {
        assert_eq!(read_number(digits), Some(reserve));
    }
    for more in ["18446744073709551616", "18446744073709551626", &"1".repeat(99)] {
        assert!(read_number(more).is_some_and(|reserve| reserve > 90), "{more}");
    }
    assert_eq!(read_number(&format!("{}7", "0".repeat(99))), Some(7));
    for other in ["", " 1", "1 ", "+1", "-1", "1.0", "1e1", "0x10", "ten", "\u{661}", "10%"] {
        assert_eq!(read_number(other), None, "{other}");
    }
}

// ---------------------------------------------------------------- 23

/// Builds into buffers of many lengths, which a refusal must leave as they are.
fn refused_by_the_planner(reserve: u64, cluster: &[u8], number: u8) {
    for length in [0, 1, 2_561, BUFFER, 5_000] {
        let before: Vec<u8> = (0..length).map(|i| (i % 251) as u8).collect();
        let mut out = before.clone();
        let answer = build(reserve, cluster, &mut out);
        assert_eq!(answer, Answer::Refused { number, step: 0 }, "{reserve}, buffer {length}");
        assert_eq!(out, before);
    }
}

#[test]
fn twenty_three_comes_before_one() {
    for reserve in ABOVE_90 {
        assert_eq!(check(reserve, &[], &[]), refused(23, 0), "{reserve}");
        refused_by_the_planner(reserve, &[], 23);
        assert_eq!(plan_text(reserve, &[]), "refused 23 step 0\n");
    }
    for reserve in [0, 1, 10, 89, 90] {
        assert_eq!(check(reserve, &[], &[]), refused(1, 0), "{reserve}");
        refused_by_the_planner(reserve, &[], 1);
        assert_eq!(plan_text(reserve, &[]), "refused 1 step 0\n");
    }
    assert_eq!(pack_verdict(refused(23, 0)), 2 << 62 | 23 << 16);
    assert_eq!(pack_answer(Answer::Refused { number: 23, step: 0 }), 2 << 62 | 23 << 16);
}

/// Whatever else is wrong, or nothing.
#[test]
fn twenty_three_comes_before_all() {
    let mut rng = Rng::new(102);
    let mut numbers = [0; NUMBERS];
    for Case { cluster, plan, .. } in cases(103, 3_000) {
        let reserve = rng.pick(&ABOVE_90);
        assert_eq!(check(reserve, &cluster, &plan), refused(23, 0));
        refused_by_the_planner(reserve, &cluster, 23);
        numbers[number_of(check(0, &cluster, &plan))] += 1;
    }
    println!("accepted, then by number, with no reserve: {numbers:?}");
    assert!((0..NUMBERS).filter(|&number| is_given(number)).all(|number| numbers[number] > 0));
}

/// A from no reserve to all of it: at 25 percent memory 3 of 4 is left, at 26 only 2.
#[test]
fn a_at_every_reserve() {
    let a = cluster_a();
    let own: Rows = &[&[(0, 2)], &[(1, 0)], &[(0, 1)]];
    let planned = "plan steps 3 moves 3 cost 16\n1 0 0 2\n2 1 1 0\n3 0 2 1\n";
    for reserve in (0..=120).chain(ABOVE_90) {
        let (verdict, text) = match reserve {
            0..=25 => (accepted(16), planned),
            26..=90 => (refused(8, 0), "refused 8 step 0\n"),
            _ => (refused(23, 0), "refused 23 step 0\n"),
        };
        assert_eq!(checked_at(reserve, &a, own), verdict, "{reserve}");
        assert_eq!(plan_text(reserve, &cluster_bytes(&a)), text, "{reserve}");
    }
}

// ---------------------------------------------------------------- the checker

/// At 10 percent memory 3 of 4 and CPU 90 of 101 are usable.
#[test]
fn a_target_that_fits_with_no_reserve() {
    for (memory, cpu, fits) in [(3, 90, true), (4, 90, false), (3, 91, false), (4, 101, false)] {
        let room = made(&[node(4, 101), node(9, 999)], &[vm(memory, cpu, 1, 0)], &[]);
        let expected = if fits { accepted(memory) } else { refused(8, 0) };
        assert_eq!(checked_at(10, &room, &[&[(0, 0)]]), expected, "{memory} {cpu}");
        assert_eq!(checked(&room, &[&[(0, 0)]]), accepted(memory));
        let text = plan_text(10, &cluster_bytes(&room));
        assert_eq!(text == "refused 8 step 0\n", !fits, "{text}");
    }
    // Idle or not, both sums of a target are tested.
    let idle = made(&[node(9, 10), node(9, 99)], &[vm(1, 10, 0, 0), vm(1, 0, 1, 0)], &[]);
    assert_eq!(checked_at(10, &idle, &[&[(1, 0)]]), refused(8, 0));
    assert_eq!(checked(&idle, &[&[(1, 0)]]), accepted(1));
}

/// Node 1 takes memory 3 or CPU 90 at 10 percent, and one more of each with no reserve.
#[test]
fn a_step_that_fits_with_no_reserve() {
    for (memory, cpu, fits) in [(3, 90, true), (4, 90, false), (3, 91, false)] {
        let room = made(&[node(9, 999), node(4, 101)], &[vm(memory, cpu, 0, 0)], &[]);
        let cost = memory + 2 * memory;
        let expected = if fits { accepted(cost) } else { refused(17, 1) };
        assert_eq!(checked_at(10, &room, &[&[(0, 1)], &[(0, 0)]]), expected, "{memory} {cpu}");
        assert_eq!(checked(&room, &[&[(0, 1)], &[(0, 0)]]), accepted(cost));
    }
    // The second step is the first at fault: VM 1 beside VM 0 is one too much.
    let pair = made(&[node(20, 99), node(10, 99)], &[vm(4, 1, 0, 0), vm(5, 1, 0, 0)], &[]);
    let there: Rows = &[&[(0, 1)], &[(1, 1)], &[(0, 0), (1, 0)]];
    assert_eq!(checked_at(20, &pair, there), refused(17, 2));
    assert_eq!(checked_at(10, &pair, there), accepted(4 + (5 + 4) + (4 + 5 + 9 + 9)));
}

// In `over_usable` node 0 has memory 9 of 10, or CPU 90 of 100, until VM 0 leaves for node 1. At 20
// percent 8 and 80 are usable. VM 2 is wanted there.

const FIRST: Rows = &[&[(2, 0)], &[(0, 1)]];
const TOGETHER: Rows = &[&[(0, 1), (2, 0)]];
const LAST: Rows = &[&[(0, 1)], &[(2, 0)]];

/// It may be left, at once and by all, and the plan is accepted.
#[test]
fn a_node_over_its_usable_amount_may_be_left() {
    for by_memory in [true, false] {
        let mut room = over_usable(by_memory, 1, 1);
        room.vms.truncate(2);
        let cost = room.vms[0].memory;
        for reserve in [0, 10, 20] {
            assert_eq!(checked_at(reserve, &room, &[&[(0, 1)]]), accepted(cost), "{reserve}");
            assert_eq!(checked_at(reserve, &room, &[]), refused(19, 0), "{reserve}");
        }
        // It may not stay so.
        room.vms[0].target = 0;
        assert_eq!(checked_at(20, &room, &[]), refused(8, 0));
        assert_eq!(checked_at(10, &room, &[]), accepted(0));
    }
}

/// Over its usable memory it takes nobody, idle or not; over its usable CPU only idle VMs.
#[test]
fn what_a_node_over_its_usable_amount_takes() {
    for (by_memory, cpu, takes) in
        [(true, 0, false), (true, 1, false), (false, 0, true), (false, 1, false)]
    {
        let room = over_usable(by_memory, 1, cpu);
        let large = room.vms[0].memory;
        let costs = [1 + (large + 1), large + 1, large + (1 + large)].map(accepted);
        let expected = if takes { costs } else { [refused(17, 1), refused(17, 1), costs[2]] };
        for (i, plan) in [FIRST, TOGETHER, LAST].into_iter().enumerate() {
            assert_eq!(checked_at(20, &room, plan), expected[i], "{by_memory} {cpu} {i}");
            assert_eq!(checked(&room, plan), costs[i]);
        }
    }
    // Within its usable CPU but for the idle one's memory.
    assert_eq!(checked_at(20, &over_usable(false, 6, 0), FIRST), accepted(6 + (1 + 6)));
    assert_eq!(checked_at(20, &over_usable(false, 7, 0), FIRST), refused(17, 1));
}

/// The orders of an idle arrival, an active one and the leaver at a node over its usable CPU: the active
/// begin fails in all but those in which the leaver has ended.
#[test]
fn orders_at_a_node_over_its_usable_cpu() {
    let mut room = over_usable(false, 1, 0);
    room.vms.push(vm(1, 1, 2, 0));
    let step = [Move::bare(0, 1), Move::bare(2, 0), Move::bare(3, 0)];
    let at_20 = usable_room(20, &room);
    for order in every_order(3) {
        let begin = order.iter().position(|event| *event == Event::Begin(2)).unwrap();
        let ended = order[..begin].contains(&Event::End(0));
        assert_eq!(follow(&at_20, &[0, 0, 2, 2], &step, &order).misfit, !ended, "{order:?}");
        assert!(!follow(&room, &[0, 0, 2, 2], &step, &order).misfit);
    }
    assert_eq!(checked_at(20, &room, &[&[(0, 1), (2, 0), (3, 0)]]), refused(17, 1));
    assert_eq!(checked_at(20, &room, &[&[(0, 1), (2, 0)], &[(3, 0)]]), accepted(2 + (1 + 1)));
}

/// Launches and shutdowns: a shutdown on a node over its usable amounts may begin, a launch may not.
#[test]
fn launches_and_shutdowns_at_a_reserve() {
    let turn = room_2(&[node(10, 100)], &[vm(9, 90, 0, DOWN), vm(1, 10, DOWN, 0)], &[]);
    assert_eq!(checked_at(20, &turn, &[&[(0, DOWN)], &[(1, 0)]]), accepted(1));
    assert_eq!(checked_at(20, &turn, &[&[(1, 0)], &[(0, DOWN)]]), refused(17, 1));
    assert_eq!(checked_at(20, &turn, &[&[(0, DOWN), (1, 0)]]), refused(17, 1));
    assert_eq!(checked(&turn, &[&[(0, DOWN), (1, 0)]]), accepted(1));
    // On no node nothing counts, at no reserve.
    let down = room_2(&[node(0, 0)], &[vm(9, 9, DOWN, DOWN)], &[]);
    assert_eq!(checked_at(90, &down, &[]), accepted(0));
}

/// 15, 27, 16, 18, 33, 9, 19 and the cost do not look at it: where nodes have more than enough at each
/// reserve, so has every verdict.
#[test]
fn what_does_not_look_at_the_reserve() {
    let mut rng = Rng::new(104);
    let mut numbers = [0; NUMBERS];
    for turn in 0..6_000 {
        let mut room = apart(&mut rng, Size::Tiny);
        room.vms.iter_mut().for_each(|vm| (vm.memory, vm.cpu) = (vm.memory % 999 + 1, vm.cpu % 99));
        let (mut plan, _) = plan(&mut rng, &room);
        if turn % 10 == 0 && !plan.steps.is_empty() {
            plan.steps.remove(0);
        }
        let mut bytes = plan_bytes(&plan);
        if turn % 20 == 0 {
            damage_plan(&mut rng, &mut bytes);
        }
        let cluster = cluster_bytes(&room);
        let verdict = check(0, &cluster, &bytes);
        for reserve in [1, 10, 50, 90, some_reserve(&mut rng)] {
            assert_eq!(check(reserve, &cluster, &bytes), verdict, "{reserve}");
            assert_eq!(plan_text(reserve, &cluster), plan_text(0, &cluster), "{reserve}");
        }
        numbers[number_of(verdict)] += 1;
    }
    println!("accepted, then by number: {numbers:?}");
    assert!([0, 12, 13, 14, 15, 16, 18, 19, 27, 33].iter().all(|&number| numbers[number] > 5));
    assert_eq!(numbers[17], 0);
}

/// No plan bytes and the headers of a plan of no steps get one verdict at every reserve.
#[test]
fn no_plan_bytes_at_a_reserve() {
    let mut rng = Rng::new(105);
    let mut seen = [0; NUMBERS];
    for Case { cluster, .. } in cases(106, 6_000) {
        let reserve = rng.pick(&[1, 10, 50, 90, 91, u64::MAX]);
        let verdict = check(reserve, &cluster, &[]);
        for version in Version::ALL {
            assert_eq!(check(reserve, &cluster, &plan_bytes(&Plan::empty(version))), verdict);
        }
        assert!(verdict == accepted(0) || matches!(verdict, Verdict::Refused { step: 0, .. }));
        seen[number_of(verdict)] += 1;
    }
    assert!([0, 8, 19, 23].iter().all(|&number| seen[number] > 100), "{seen:?}");
}

// ---------------------------------------------------------------- the planner

/// A with memory 5. With no reserve both go at once. At 20 percent memory 4 is left: one must step aside,
/// the other one if node 2 has memory 3, of which 2 are left, and with memory 2, of which 1 is, nobody
/// can.
#[test]
fn planned_otherwise_at_a_reserve() {
    let both = steps(&[&[(0, 1), (1, 0)]]);
    for spare in [5, 3, 2] {
        let room = a_with(5, spare);
        assert_eq!(steps_at(0, &room), (both.clone(), true));
        assert_eq!(steps_checked_at(20, &room, &both), refused(17, 1));
    }
    assert_eq!(steps_at(20, &a_with(5, 5)), (steps(&[&[(0, 2)], &[(1, 0)], &[(0, 1)]]), true));
    assert_eq!(steps_at(20, &a_with(5, 3)), (steps(&[&[(1, 2)], &[(0, 1)], &[(1, 0)]]), true));
    assert_eq!(steps_at(20, &a_with(5, 2)), (vec![], false));
    let text = plan_text(20, &cluster_bytes(&a_with(5, 2)));
    assert_eq!(text, "blocked steps 0 moves 0 cost 0\n");
}

/// An active VM waits for a node over its usable CPU, an idle one does not; with no reserve neither
/// does.
#[test]
fn who_waits_at_a_reserve() {
    let mut room = over_usable(false, 1, 0);
    room.vms.push(vm(1, 1, 2, 0));
    let all = steps(&[&[(0, 1), (2, 0), (3, 0)]]);
    assert_eq!(steps_at(0, &room), (all, true));
    assert_eq!(steps_at(20, &room), (steps(&[&[(0, 1), (2, 0)], &[(3, 0)]]), true));
    // Over its usable memory it takes neither.
    let mut room = over_usable(true, 1, 0);
    room.vms.push(vm(1, 1, 2, 0));
    assert_eq!(steps_at(20, &room), (steps(&[&[(0, 1)], &[(2, 0), (3, 0)]]), true));
}

/// A room that has usable at a reserve what another has with none gets the same verdicts, the same
/// answers and the same record, byte for byte.
#[test]
fn only_the_usable_amounts_count() {
    let mut rng = Rng::new(107);
    let (mut numbers, mut builds) = ([0; NUMBERS], [0; 3]);
    for Case { cluster, plan, buffer, .. } in cases(108, 12_000) {
        let Ok(room) = parse_cluster(&cluster) else { continue };
        let reserve = some_reserve(&mut rng);
        let other = raised(reserve, &room);
        if usable_room(reserve, &other) != room {
            let most = |node: &Node| node.memory == MOST_MEMORY || node.cpu == MOST_CPU;
            assert!(other.nodes.iter().any(most));
            continue;
        }
        let raised = cluster_bytes(&other);
        let verdict = check(0, &cluster, &plan);
        assert_eq!(check(reserve, &raised, &plan), verdict, "{reserve} {other:?}");
        let mut outs = [vec![0xAA; buffer], vec![0xAA; buffer]];
        let answer = build(0, &cluster, &mut outs[0]);
        assert_eq!(build(reserve, &raised, &mut outs[1]), answer, "{reserve} {other:?}");
        assert_eq!(outs[0], outs[1]);
        numbers[number_of(verdict)] += 1;
        builds[match answer {
            Answer::Plan { .. } => 0,
            Answer::Blocked { .. } => 1,
            Answer::Refused { .. } => 2,
        }] += 1;
    }
    println!("accepted, then by number: {numbers:?}; plan, blocked, refused: {builds:?}");
    for number in [0, 8, 9].into_iter().chain(11..=19).chain([27, 33]) {
        assert!(numbers[number] > 10, "{number}: {numbers:?}");
    }
    assert!(builds.iter().all(|&count| count > 100), "{builds:?}");
}

// ---------------------------------------------------------------- more reserve is stricter

/// A room on the edge at a reserve, and a plan for it.
fn edge_case(rng: &mut Rng, turn: usize) -> (u64, Room, Plan) {
    let first = match turn % 4 {
        0 => puzzle(rng),
        1 => busy(rng, Size::Tiny),
        2 => knot(rng, Size::Tiny),
        _ => gen::room(rng, Size::Tiny),
    };
    let reserve = some_reserve(rng);
    let (plan, _) = plan(rng, &first);
    (reserve, on_the_edge(rng, reserve, &first), plan)
}

/// A plan that is accepted at a reserve is accepted at the same cost at every smaller one. So a refused
/// one is refused at every larger one, and a target that does not fit never does again.
#[test]
fn more_reserve_is_stricter() {
    let mut rng = Rng::new(109);
    let (mut kept, mut lost, mut by) = (0, 0, [0; NUMBERS]);
    for turn in 0..12_000 {
        let (reserve, room, plan) = edge_case(&mut rng, turn);
        let (cluster, plan) = (cluster_bytes(&room), plan_bytes(&plan));
        let verdicts: Vec<Verdict> = (0..=90).map(|r| check(r, &cluster, &plan)).collect();
        for pair in verdicts.windows(2) {
            match (pair[0], pair[1]) {
                (_, Verdict::Accepted { .. }) => assert_eq!(pair[0], pair[1], "{room:?}"),
                (Verdict::Refused { number: 8, .. }, next) => assert_eq!(next, refused(8, 0)),
                (Verdict::Accepted { .. }, Verdict::Refused { number, .. }) => {
                    assert!(matches!(number, 8 | 17), "{number}");
                    by[usize::from(number)] += 1;
                }
                _ => {}
            }
        }
        match verdicts[reserve as usize] {
            Verdict::Accepted { .. } => kept += 1,
            _ => lost += usize::from(number_of(verdicts[0]) == 0),
        }
    }
    println!("{kept} accepted at the reserve drawn, {lost} only below; at a higher one");
    println!("{} are refused with 8 and {} with 17", by[8], by[17]);
    assert!(kept > 1_000 && lost > 500 && by[8] > 1_000 && by[17] > 500);
}

// ---------------------------------------------------------------- every order

/// VMs that start on node 0 or 1, with memory 1 or 2 and with CPU 0 or 1, and should end on no node, so
/// that the target always fits.
fn every_trio() -> Vec<[Vm; 3]> {
    let kinds: Vec<Vm> = (0..8u64)
        .map(|bits| vm(1 + (bits & 1), bits >> 1 & 1, (bits >> 2) as usize, DOWN))
        .collect();
    let mut trios = Vec::new();
    for a in &kinds {
        for b in &kinds {
            trios.extend(kinds.iter().map(|c| [a.clone(), b.clone(), c.clone()]));
        }
    }
    trios
}

/// Every step of three VMs in which some change between nodes 0 and 1.
fn every_step(vms: &[Vm; 3]) -> Vec<Step> {
    let moves = |mask: usize, vm: usize| (mask >> vm & 1 == 1).then(|| 1 - vms[vm].current);
    let step = |mask: usize| {
        (0..3).filter_map(|vm| Some(Move::bare(vm, moves(mask, vm)?))).collect::<Step>()
    };
    (1..8).map(step).collect()
}

/// All rooms of two nodes, one of every small memory and CPU, and three small VMs; all steps of these;
/// all orders of each; at several reserves: the checker says 17 exactly if in some order some begin does
/// not fit what is usable.
#[test]
fn every_order_of_every_small_step() {
    let reserves = [0, 1, 10, 34, 50, 75, 90];
    let mut seen = [[0; 2]; 7];
    for vms in every_trio() {
        for step in every_step(&vms) {
            let plan = plan_bytes(&bare(std::slice::from_ref(&step)));
            let start: Vec<usize> = vms.iter().map(|vm| vm.current).collect();
            let mut by_orders = HashMap::new();
            for (memory, cpu) in (0..=7).flat_map(|memory| (0..=4).map(move |cpu| (memory, cpu))) {
                let room = room_2(&[node(99, 99), node(memory, cpu)], &vms, &[]);
                let cluster = cluster_bytes(&room);
                for (i, reserve) in reserves.into_iter().enumerate() {
                    let [far, near] = [(99, 99), (memory, cpu)]
                        .map(|(m, c)| node(usable(m, reserve), usable(c, reserve)));
                    let key = (near.memory, near.cpu, far.memory);
                    let misfit = *by_orders.entry(key).or_insert_with(|| {
                        explore(&room_2(&[far, near], &vms, &[]), &start, &step).misfit
                    });
                    let expected = if misfit { refused(17, 1) } else { refused(19, 0) };
                    let verdict = check(reserve, &cluster, &plan);
                    assert_eq!(verdict, expected, "{reserve} {room:?} {step:?}");
                    seen[i][usize::from(misfit)] += 1;
                }
            }
        }
    }
    println!("sound, then 17, by reserve: {seen:?}");
    assert!(seen.as_flattened().iter().all(|&count| count > 1_000), "{seen:?}");
    assert!(seen.windows(2).all(|pair| pair[0][1] <= pair[1][1]), "{seen:?}");
}

/// Along all states of accepted plans at a reserve, a node within its usable amounts stays within them;
/// one over its usable memory takes nobody, and one over its usable CPU only idle VMs.
#[test]
fn every_state_of_accepted_plans() {
    let mut rng = Rng::new(110);
    let (mut steps, mut over, mut idle) = (0, 0, 0);
    for turn in 0..12_000 {
        let (reserve, whole, plan) = edge_case(&mut rng, turn);
        if number_of(check(reserve, &cluster_bytes(&whole), &plan_bytes(&plan))) > 0 {
            continue;
        }
        let room = usable_room(reserve, &whole);
        let mut here = Placement::current(&room);
        for step in &plan.steps {
            let [run, in_all] = [&room, &whole].map(|room| Run { room, start: &here.place, step });
            let waiting = vec![Phase::Waiting; step.len()];
            for node in 0..room.nodes.len() {
                let is_within = run.is_within(&waiting, node);
                let is_over = !is_within && in_all.is_within(&waiting, node);
                let over_memory = run.load(&waiting, node).0 > room.nodes[node].memory;
                for m in step.iter().filter(|m| m.to == node) {
                    assert!(!over_memory, "a node over its usable memory took VM {}", m.vm);
                    assert!(is_within || room.vms[m.vm].is_idle(), "VM {} is active", m.vm);
                    idle += usize::from(is_over);
                }
                over += usize::from(is_over);
                if step.len() <= 5 && is_within {
                    every_state(step.len(), |phases| assert!(run.is_within(phases, node)));
                }
            }
            steps += 1;
            here = here.after(&room, step);
        }
    }
    println!("{steps} steps; {over} nodes over what is usable of them and within their capacity;");
    println!("{idle} idle arrivals at such nodes");
    assert!(steps > 1_000 && over > 200 && idle > 50);
}

// ---------------------------------------------------------------- the page

fn drawn(reserve: u64, room: &Room, rows: Rows) -> String {
    page(reserve, room, &bare(&steps(rows)), Whose::Model).expect("a plan that fits")
}

#[test]
fn the_page_tells_the_reserve() {
    let room = over_usable(false, 1, 0);
    let page = drawn(20, &room, FIRST);
    has(
        &page,
        &[
            "<h1>2 steps, 2 moves, cost 3, reserve 20 percent</h1>",
            "<p>Reserve 20 percent: 80 percent of a node's memory and of its CPU are usable",
            "<b>accepted cost 3</b>",
            ">CPU 90 of 80</text>",
            ">memory 2 of 8</text>",
            ">kept 2 and 20</text>",
            "A VM with CPU 0 needs only memory to arrive",
        ],
    );
    // Node 0 is over its usable CPU at the start and until VM 0 has left it, in the second step.
    assert_eq!(page.matches("OVERFULL").count(), 3);
    let plain = drawn(0, &room, FIRST);
    assert!(!plain.contains("eserve") && !plain.contains("kept") && !plain.contains("OVERFULL"));
}

/// What does not fit, a step or the target, is told with the usable amounts.
#[test]
fn the_page_tells_why_by_the_usable_amounts() {
    let by_memory = drawn(20, &over_usable(true, 1, 0), FIRST);
    has(&by_memory, &["begin VM 2: node 0 would have memory 10 of 8 usable.</p>"]);
    let by_cpu = drawn(20, &over_usable(false, 1, 1), FIRST);
    has(&by_cpu, &["begin VM 2: node 0 would have CPU 91 of 80 usable.</p>"]);
    let target = drawn(26, &cluster_a(), &[]);
    has(
        &target,
        &["<b>refused 8 step 0</b>", " Node 1 would have memory 3 of 2 usable. The steps"],
    );
    let mut cpu = cluster_a();
    cpu.vms[0].cpu = 80;
    has(&drawn(25, &cpu, &[]), &[" Node 1 would have CPU 80 of 75 usable. The steps"]);
    let plain = drawn(0, &a_with(5, 1), &[&[(0, 2)]]);
    has(&plain, &["begin VM 0: node 2 would have memory 3 of 1.</p>"]);
}

#[test]
fn nothing_is_drawn_with_a_reserve_that_is_too_high() {
    for reserve in ABOVE_90 {
        assert!(page(reserve, &cluster_a(), &bare(&[]), Whose::Model).is_err());
    }
    assert!(page(90, &cluster_a(), &bare(&[]), Whose::Model).is_ok());
}

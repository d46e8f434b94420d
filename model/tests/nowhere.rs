//! VMs on no node: records of version 2, launches, shutdowns, VMs that stay down, and what none of
//! them changes.

mod common;

use common::{accepted, checked, hex, refused, steps_for, Rows, DOWN, NUMBERS};
use kobdrieft_model::edges::{before, node, room as made, room_2, sourced, steps, vm};
use kobdrieft_model::gen::{apart, cases, knot, plan, room, Rng, Size};
use kobdrieft_model::orders::{every_order, follow, Event, Found};
use kobdrieft_model::planner::make_steps;
use kobdrieft_model::puzzles::puzzle;
use kobdrieft_model::rules::{check_steps, plan_cost};
use kobdrieft_model::text::plan_text;
use kobdrieft_model::*;

/// The refusal of a cluster beside a plan of no steps, or 0; building gives the same, but not 19.
fn number_of(cluster: &[u8]) -> u8 {
    let number = match check(0, cluster, &[]) {
        Verdict::Accepted { .. } => 0,
        Verdict::Refused { number, .. } => number,
    };
    match build(0, cluster, &mut [0; 2_562]) {
        Answer::Refused { number: built, .. } => assert_eq!(built, number),
        _ => assert!(matches!(number, 0 | 19), "{number}"),
    }
    number
}

// ---------------------------------------------------------------- records

/// One VM is launched on node 1 in the place of another, which is shut down there.
fn turn() -> Room {
    room_2(&[node(4, 100), node(4, 100)], &[vm(3, 50, DOWN, 1), vm(2, 50, 1, DOWN)], &[])
}

#[test]
fn a_record_of_version_2() {
    let record =
        hex("02 00000023 0002 0002 0000 0000040064 0000040064 0000030032 ff 01 0000020032 01 ff");
    assert_eq!(cluster_bytes(&turn()), record);
    assert_eq!(parse_cluster(&record), Ok(turn()));
    assert_eq!(plan_text(0, &record), "plan steps 2 moves 2 cost 3\n1 1 1 255\n2 0 255 1\n");
    let mut out = [0xAA; 2_562];
    assert_eq!(build(0, &record, &mut out), Answer::Plan { steps: 2, moves: 2, cost: 3 });
    assert_eq!(out[..17], hex("02 00000011 0002 0001 01 01 ff 0001 00 ff 01"));
    assert!(out[17..].iter().all(|&b| b == 0xAA));
    let mut one = record.clone();
    one[0] = 1;
    assert_eq!(number_of(&one), 6);
}

#[test]
fn every_version() {
    let mut record = cluster_bytes(&made(&[node(1, 1)], &[vm(1, 1, 0, 0)], &[]));
    for version in 0..=255 {
        record[0] = version;
        assert_eq!(number_of(&record), if matches!(version, 1 | 2) { 0 } else { 2 }, "{version}");
    }
}

/// Every byte as current and as target of a VM, in both versions and with few nodes and many.
#[test]
fn every_place_of_a_row() {
    for (version, n) in [(1, 1), (1, 3), (1, 64), (2, 1), (2, 3), (2, 64)] {
        let mut record = cluster_bytes(&made(&vec![node(9, 9); n], &[vm(1, 1, 0, 0)], &[]));
        record[0] = version;
        let at = record.len() - 2;
        for place in 0..=255 {
            let known = usize::from(place) < n || (version == 2 && place == 255);
            for other in [0, 255] {
                let mut changed = record.clone();
                (changed[at], changed[at + 1]) = (place, other);
                let expected = match () {
                    _ if !known || (version == 1 && other == 255) => 6,
                    _ if place == other => 0,
                    _ => 19,
                };
                assert_eq!(number_of(&changed), expected, "{version}, {n}, {place}, {other}");
                changed.swap(at, at + 1);
                assert_eq!(number_of(&changed), expected, "{version}, {n}, {other}, {place}");
            }
        }
    }
}

/// 255 is a node out of range in every node list, in both versions, whatever VMs it is for.
#[test]
fn no_list_has_255() {
    let down = room_2(&[node(9, 9)], &[vm(1, 1, DOWN, DOWN)], &[]);
    let home = made(&[node(9, 9)], &[vm(1, 1, 0, 0)], &[]);
    let bodies: [&[u8]; 6] = [
        &[1, 0, 0, 1, 255],
        &[1, 0, 1, 0, 1, 255],
        &[2, 0, 1, 0, 2, 0, 255],
        &[2, 0, 1, 0, 1, 255],
        &[4, 0, 0, 1, 1, 255],
        &[4, 0, 1, 0, 2, 1, 0, 1, 255],
    ];
    for body in bodies {
        for room in [&down, &home] {
            let record = records::cluster_bytes_with(room, &[body.to_vec()]);
            assert_eq!(number_of(&record), 7, "{body:?}");
        }
    }
}

/// A record in which nobody is on no node comes to the same in both versions.
#[test]
fn the_version_alone_changes_nothing() {
    let mut compared = [0; NUMBERS];
    for case in cases(81, 30_000) {
        let Ok(room) = parse_cluster(&case.cluster) else { continue };
        if room.has_nowhere() {
            continue;
        }
        let [one, two] =
            Version::ALL.map(|version| cluster_bytes(&Room { version, ..room.clone() }));
        let verdict = check(0, &one, &case.plan);
        assert_eq!(check(0, &two, &case.plan), verdict, "{case:?}");
        assert_eq!(plan_text(0, &two), plan_text(0, &one));
        compared[common::number_of(verdict)] += 1;
    }
    println!("accepted, then by number: {compared:?}");
    for number in [0, 8, 9, 11, 12, 13, 14, 15, 16, 17, 18, 19, 27, 33] {
        assert!(compared[number] > 20, "{number}: {compared:?}");
    }
}

// ---------------------------------------------------------------- moves

/// Every destination of a VM that stays down, is to be launched, is to be shut down or is at home,
/// each on nodes without limits.
#[test]
fn every_destination() {
    let vms = [vm(1, 1, DOWN, DOWN), vm(1, 1, DOWN, 1), vm(1, 1, 2, DOWN), vm(1, 1, 0, 0)];
    let room = room_2(&vec![node(9, 9); 3], &vms, &[]);
    let cluster = cluster_bytes(&room);
    let may_go: [&[usize]; 4] = [&[0, 1, 2], &[0, 1, 2], &[0, 1, 255], &[1, 2]];
    for (vm, open) in may_go.into_iter().enumerate() {
        for to in 0..=255 {
            let expected = if open.contains(&to) { refused(19, 0) } else { refused(15, 1) };
            assert_eq!(checked(&room, &[&[(vm, to)]]), expected, "VM {vm} to {to}");
            for from in 0..=255 {
                let plan = plan_bytes(&sourced(&[&[(vm, from, to)]]));
                let right = from == room.vms[vm].current;
                let expected = match expected {
                    Verdict::Refused { number: 19, .. } if !right => refused(27, 1),
                    _ => expected,
                };
                assert_eq!(check(0, &cluster, &plan), expected, "VM {vm} from {from} to {to}");
            }
        }
    }
}

/// In a cluster of version 1 destination 255 is refused with 15, wherever it stands.
#[test]
fn shutdowns_in_version_1() {
    let room = made(&vec![node(9, 9); 2], &[vm(1, 1, 0, 1), vm(1, 1, 1, 1)], &[]);
    assert_eq!(checked(&room, &[&[(0, DOWN)]]), refused(15, 1));
    assert_eq!(checked(&room, &[&[(0, 1), (1, DOWN)]]), refused(15, 1));
    assert_eq!(checked(&room, &[&[(0, 1)], &[(0, DOWN)]]), refused(15, 2));
    let mut rng = Rng::new(82);
    let mut seen = 0;
    for _ in 0..8_000 {
        let room = self::room(&mut rng, Size::Tiny);
        let Plan { steps, .. } = plan(&mut rng, &room).0;
        let first = steps.iter().position(|step| step.iter().any(|m| m.to == DOWN));
        let (Version::One, Some(first)) = (room.version, first) else { continue };
        match check_steps(&room, &steps) {
            Verdict::Refused { number: 15, step } if usize::from(step) == first + 1 => seen += 1,
            Verdict::Refused { step, .. } => assert!((1..=first + 1).contains(&usize::from(step))),
            Verdict::Accepted { .. } => panic!("{room:?} {steps:?}"),
        }
    }
    assert!(seen > 50, "{seen}");
}

/// What may be done with a VM that stays down, by a plan from elsewhere.
#[test]
fn guests() {
    let room = room_2(&[node(4, 9), node(3, 9)], &[vm(4, 1, DOWN, DOWN), vm(1, 1, 0, 1)], &[]);
    assert_eq!(checked(&room, &[&[(1, 1)]]), accepted(1));
    assert_eq!(checked(&room, &[&[(0, 0)]]), refused(17, 1));
    // 1, then 4 + 1 for the launch, then 0 + 5 for the shutdown.
    assert_eq!(checked(&room, &[&[(1, 1)], &[(0, 0)], &[(0, DOWN)]]), accepted(11));
    assert_eq!(checked(&room, &[&[(1, 1)], &[(0, 0)]]), refused(19, 0));
    assert_eq!(checked(&room, &[&[(1, 1)], &[(0, 1)]]), refused(17, 2));
    assert_eq!(checked(&room, &[&[(1, 1)], &[(0, 0)], &[(0, DOWN)], &[(0, DOWN)]]), refused(15, 4));
}

/// A shutdown counts until it has ended, a launch from when it has begun, in every order.
#[test]
fn orders_of_a_launch_and_a_shutdown() {
    let turn_on = |memory, mates: &[Constraint]| {
        room_2(&[node(memory, 9)], &[vm(3, 1, DOWN, 0), vm(2, 1, 0, DOWN)], mates)
    };
    let spread = [Constraint::Spread { vms: vec![0, 1] }];
    let step = [Move::bare(0, 0), Move::bare(1, DOWN)];
    let (misfit, mate) = (|f: &Found| f.misfit, |f: &Found| f.mate);
    let tight = turn_on(4, &[]);
    let fails: Vec<bool> = every_order(2)
        .iter()
        .map(|order| {
            let found = follow(&tight, &[DOWN, 0], &step, order);
            assert!(!mate(&found));
            // The launch fits if and only if it begins when the shutdown has ended.
            let begin = order.iter().position(|event| *event == Event::Begin(0)).unwrap();
            let ended = order[..begin].contains(&Event::End(1));
            assert_eq!(misfit(&found), !ended, "{order:?}");
            ended
        })
        .collect();
    assert_eq!((fails.len(), fails.iter().filter(|&&ended| ended).count()), (6, 1));
    let met = every_order(2)
        .iter()
        .filter(|order| follow(&turn_on(9, &spread), &[DOWN, 0], &step, order).mate)
        .count();
    assert_eq!(met, 5);
    assert_eq!(checked(&tight, &[&[(0, 0), (1, DOWN)]]), refused(17, 1));
    assert_eq!(checked(&turn_on(9, &spread), &[&[(0, 0), (1, DOWN)]]), refused(18, 1));
    assert_eq!(checked(&turn_on(5, &[]), &[&[(0, 0), (1, DOWN)]]), accepted(3));
    assert_eq!(checked(&tight, &[&[(1, DOWN)], &[(0, 0)]]), accepted(3));
    assert_eq!(checked(&turn_on(9, &spread), &[&[(1, DOWN)], &[(0, 0)]]), accepted(3));
}

// ---------------------------------------------------------------- constraints

/// What each kind asks of the target, with VMs 0 and 1 ending on no node and VMs 2 and 3 on nodes 0
/// and 1.
#[test]
fn constraints_on_the_target() {
    let (ban, fence) = (
        |vms: &[usize], nodes: &[usize]| Constraint::Ban { vms: vms.into(), nodes: nodes.into() },
        |vms: &[usize], nodes: &[usize]| Constraint::Fence { vms: vms.into(), nodes: nodes.into() },
    );
    let spread = |vms: &[usize]| Constraint::Spread { vms: vms.into() };
    let latency = |vms: &[usize], groups: &[&[usize]]| {
        let groups = groups.iter().map(|group| group.to_vec()).collect();
        Constraint::Latency { vms: vms.into(), groups }
    };
    let table = [
        (ban(&[0, 1], &[0, 1, 2]), true),
        (ban(&[0, 2], &[1, 2]), true),
        (ban(&[0, 2], &[0]), false),
        (fence(&[0, 1], &[]), true),
        (fence(&[0, 1], &[2]), true),
        (fence(&[0, 1, 2], &[0]), true),
        (fence(&[0, 1, 2], &[1, 2]), false),
        (fence(&[0, 2], &[]), false),
        (spread(&[0, 1]), true),
        (spread(&[0, 1, 2, 3]), true),
        (latency(&[0], &[]), true),
        (latency(&[0, 1], &[]), true),
        (latency(&[0, 1], &[&[]]), true),
        (latency(&[0, 1], &[&[2]]), true),
        (latency(&[0, 1, 2], &[&[0]]), true),
        (latency(&[0, 1, 2, 3], &[&[2], &[0, 1]]), true),
        (latency(&[0, 2, 3], &[&[0], &[1]]), false),
        (latency(&[0, 2], &[&[1, 2]]), false),
        (latency(&[0, 2], &[]), false),
        (latency(&[2], &[]), false),
    ];
    // Where they are at first is no matter.
    for current in [[DOWN, DOWN, 0, 1], [0, 0, DOWN, DOWN], [2, DOWN, 2, DOWN]] {
        let targets = [DOWN, DOWN, 0, 1];
        let vms: Vec<Vm> = (0..4).map(|i| vm(1, 1, current[i], targets[i])).collect();
        for (constraint, kept) in &table {
            let room = room_2(&vec![node(4, 4); 3], &vms, std::slice::from_ref(constraint));
            let number = number_of(&cluster_bytes(&room));
            assert_eq!(number != 9, *kept, "{constraint:?}");
        }
    }
}

/// Two mates that end on one node are refused though a third ends on none.
#[test]
fn mates_that_end_together_beside_one_down() {
    let vms = [vm(1, 1, 0, DOWN), vm(1, 1, 0, 1), vm(1, 1, 0, 1)];
    let spread = |vms: &[usize]| Constraint::Spread { vms: vms.into() };
    let with = |list: &[usize]| room_2(&vec![node(4, 4); 3], &vms, &[spread(list)]);
    assert_eq!(number_of(&cluster_bytes(&with(&[0, 1, 2]))), 9);
    assert_eq!(number_of(&cluster_bytes(&with(&[0, 2]))), 19);
}

/// Ban and fence bind every launch and no shutdown.
#[test]
fn closed_nodes() {
    let vms = [vm(1, 1, DOWN, 0), vm(1, 1, 2, DOWN)];
    let ban = Constraint::Ban { vms: vec![0, 1], nodes: vec![1] };
    let fence = Constraint::Fence { vms: vec![0, 1], nodes: vec![0, 1] };
    let room = room_2(&vec![node(4, 4); 3], &vms, &[ban, fence]);
    assert_eq!(checked(&room, &[&[(0, 0), (1, DOWN)]]), accepted(1));
    assert_eq!(checked(&room, &[&[(0, 1)]]), refused(16, 1));
    assert_eq!(checked(&room, &[&[(0, 2)]]), refused(16, 1));
    assert_eq!(checked(&room, &[&[(1, 1)]]), refused(16, 1));
    assert_eq!(checked(&room, &[&[(1, 0)], &[(0, 0), (1, DOWN)]]), accepted(1 + (1 + 1) + 1));
}

// ---------------------------------------------------------------- cost

/// A launch has its memory, a shutdown none, as the step's largest and as its own; both pay for the
/// steps before.
#[test]
fn costs() {
    let vms = [vm(3, 1, DOWN, 0), vm(9, 1, 1, DOWN), vm(2, 1, 0, 1), vm(5, 1, 1, DOWN)];
    let room = room_2(&vec![node(99, 99); 2], &vms, &[]);
    let table: [(Rows, u64); 7] = [
        (&[&[(0, 0)]], 3),
        (&[&[(1, DOWN)]], 0),
        (&[&[(0, 0), (1, DOWN), (2, 1), (3, DOWN)]], 3 + 2),
        // The shutdown's step costs 0, so nobody pays for it.
        (&[&[(1, DOWN)], &[(0, 0)], &[(2, 1)]], 3 + (2 + 3)),
        // It pays for the steps before it: 3, and then 3 + 2.
        (&[&[(0, 0)], &[(1, DOWN)], &[(2, 1)], &[(3, DOWN)]], 3 + 3 + (2 + 3) + (3 + 2)),
        // Beside a launch of 3 the shutdown of 9 does not count as the largest.
        (&[&[(0, 0), (1, DOWN)], &[(2, 1), (3, DOWN)]], 3 + (2 + 3) + 3),
        (&[&[(1, DOWN), (3, DOWN)], &[(0, 0), (2, 1)]], 3 + 2),
    ];
    for (list, cost) in table {
        assert_eq!(plan_cost(&room, &steps(list)), cost, "{list:?}");
        let complete = list.iter().map(|step| step.len()).sum::<usize>() == 4;
        assert_eq!(checked(&room, list), if complete { accepted(cost) } else { refused(19, 0) });
    }
    // Shut down and launched again, a VM pays each time: 0, 9, and 0 + 9.
    let again = [&[(1, DOWN)][..], &[(1, 0)], &[(1, DOWN)]];
    assert_eq!(plan_cost(&room, &steps(&again)), 18);
}

// ---------------------------------------------------------------- the planner

#[test]
fn a_launch_waits_for_a_shutdown() {
    let room = room_2(&[node(4, 100)], &[vm(3, 1, 0, DOWN), vm(2, 1, DOWN, 0)], &[]);
    assert_eq!(steps_for(&room), (steps(&[&[(0, DOWN)], &[(1, 0)]]), true));
    let other = room_2(&[node(4, 100)], &[vm(2, 1, DOWN, 0), vm(3, 1, 0, DOWN)], &[]);
    assert_eq!(steps_for(&other), (steps(&[&[(1, DOWN)], &[(0, 0)]]), true));
    let roomy = room_2(&[node(5, 100)], &[vm(3, 1, 0, DOWN), vm(2, 1, DOWN, 0)], &[]);
    assert_eq!(steps_for(&roomy), (steps(&[&[(0, DOWN), (1, 0)]]), true));
    let mates = Constraint::Spread { vms: vec![0, 1] };
    let apart = room_2(&[node(9, 100)], &[vm(3, 1, 0, DOWN), vm(2, 1, DOWN, 0)], &[mates]);
    assert_eq!(steps_for(&apart), (steps(&[&[(0, DOWN)], &[(1, 0)]]), true));
}

/// Once VM 0 has stepped aside, only the launch of VM 2 fits.
#[test]
fn a_pivot_for_a_launch() {
    let vms = [vm(2, 1, 0, 1), vm(3, 1, 0, 1), vm(1, 1, DOWN, 0), vm(4, 1, 1, 0)];
    let room = room_2(&vec![node(5, 100); 3], &vms, &[]);
    let expected = [&[(0, 2)][..], &[(2, 0)], &[(1, 2)], &[(3, 0)], &[(0, 1), (1, 1)]];
    assert_eq!(steps_for(&room), (steps(&expected), true));
    // Without VM 2 the first useful pivot is another one.
    let vms = [vms[0].clone(), vms[1].clone(), vms[3].clone()];
    let room = room_2(&vec![node(5, 100); 3], &vms, &[]);
    assert_eq!(steps_for(&room).0[0], steps(&[&[(2, 2)]])[0]);
    let mut stays = room.clone();
    stays.vms.push(vm(1, 1, DOWN, DOWN));
    assert_eq!(steps_for(&stays), steps_for(&room));
}

/// A launch blocks where nobody can leave its node, and nobody is shut down to help.
#[test]
fn blocked_launches() {
    let vms = [vm(3, 1, 0, 1), vm(2, 1, 1, 0), vm(2, 1, DOWN, 0)];
    let room = room_2(&vec![node(4, 100); 2], &vms, &[]);
    assert_eq!(steps_for(&room), (vec![], false));
    let mut off = room.clone();
    off.vms.push(vm(1, 1, 1, DOWN));
    assert_eq!(steps_for(&off), (steps(&[&[(3, DOWN)]]), false));
    let cluster = cluster_bytes(&off);
    let mut out = [0; 2_562];
    assert_eq!(build(0, &cluster, &mut out), Answer::Blocked { steps: 1, moves: 1, cost: 0 });
    assert_eq!(check(0, &cluster, &out[..12]), refused(19, 0));
}

#[test]
fn nobody_to_move() {
    let room = room_2(&[node(0, 0)], &[vm(9, 9, DOWN, DOWN), vm(9, 9, DOWN, DOWN)], &[]);
    assert_eq!(plan_text(0, &cluster_bytes(&room)), "plan steps 0 moves 0 cost 0\n");
    assert_eq!(check(0, &cluster_bytes(&room), &[]), accepted(0));
}

// ---------------------------------------------------------------- what changes nothing

/// A room of one kind or another.
fn some_room(rng: &mut Rng, turn: usize) -> Room {
    let size = if turn.is_multiple_of(5) { Size::Small } else { Size::Tiny };
    match turn % 4 {
        0 => room(rng, size),
        1 => knot(rng, size),
        2 => apart(rng, size),
        _ => puzzle(rng),
    }
}

/// A VM that stays down may need anything, stand in every list and be waited for by all: planner and
/// checker say the same.
#[test]
fn vms_that_stay_down() {
    let mut rng = Rng::new(83);
    let mut seen = 0;
    for turn in 0..12_000 {
        let room = some_room(&mut rng, turn);
        let stays = |vm: &Vm| vm.current == DOWN && vm.target == DOWN;
        let Some(down) = room.vms.iter().position(stays) else { continue };
        let mut other = room.clone();
        (other.vms[down].memory, other.vms[down].cpu) = (16_777_215, 65_535);
        for constraint in &mut other.constraints {
            if let Constraint::Ban { vms, .. }
            | Constraint::Fence { vms, .. }
            | Constraint::Spread { vms }
            | Constraint::Latency { vms, .. } = constraint
            {
                vms.push(down);
                vms.sort();
                vms.dedup();
            }
        }
        let waits = (0..room.vms.len()).filter(|&vm| vm != down).map(|vm| before(down, vm));
        other.constraints.extend(waits);
        let all = (0..room.nodes.len()).collect();
        other.constraints.push(Constraint::Ban { vms: vec![down], nodes: all });
        other.constraints.push(Constraint::Fence { vms: vec![down], nodes: vec![] });
        other.constraints.push(Constraint::Latency { vms: vec![down], groups: vec![] });
        let [one, two] = [&room, &other].map(cluster_bytes);
        assert_eq!(plan_text(0, &one), plan_text(0, &two));
        let (plan, _) = plan(&mut rng, &room);
        if plan.steps.iter().flatten().all(|m| m.vm != down) {
            assert_eq!(check(0, &one, &plan_bytes(&plan)), check(0, &two, &plan_bytes(&plan)));
            seen += 1;
        }
    }
    assert!(seen > 500, "{seen}");
}

/// The same room with a node more in the place of no node, that holds anything: fences let those in
/// who end there, all others are banned from it, and latencies are without them. Spreads are left
/// out, as mates would meet there.
fn with_a_node_for_none(room: &Room) -> Room {
    let n = room.nodes.len();
    let mut other = room.clone();
    other.version = Version::One;
    other.nodes.push(node(1 << 40, 1 << 40));
    let there = |place: usize| if place == DOWN { n } else { place };
    for vm in &mut other.vms {
        (vm.current, vm.target) = (there(vm.current), there(vm.target));
    }
    let ends: Vec<bool> = room.vms.iter().map(|vm| vm.target == DOWN).collect();
    other.constraints.retain(|constraint| !matches!(constraint, Constraint::Spread { .. }));
    for constraint in &mut other.constraints {
        match constraint {
            Constraint::Fence { nodes, .. } => nodes.push(n),
            Constraint::Latency { vms, .. } => vms.retain(|&vm| !ends[vm]),
            _ => {}
        }
    }
    let others = (0..room.vms.len()).filter(|&vm| !ends[vm]).collect();
    other.constraints.push(Constraint::Ban { vms: others, nodes: vec![n] });
    other
}

/// The planner makes the same steps, and a plan is sound or not, as with a node for those on none.
#[test]
fn no_node_is_like_a_node_without_limits() {
    let mut rng = Rng::new(84);
    let (mut planned, mut moves, mut verdicts) = (0, 0, [0; 3]);
    for turn in 0..12_000 {
        let mut room = some_room(&mut rng, turn);
        room.constraints.retain(|constraint| !matches!(constraint, Constraint::Spread { .. }));
        if !room.has_nowhere() {
            continue;
        }
        let (n, other) = (room.nodes.len(), with_a_node_for_none(&room));
        let there = |m: &Move| Move::bare(m.vm, if m.to == DOWN { n } else { m.to });
        let moved = |steps: &[Step]| -> Vec<Step> {
            steps.iter().map(|step| step.iter().map(there).collect()).collect()
        };
        let (steps, home) = make_steps(&room);
        assert_eq!(make_steps(&other), (moved(&steps), home), "{room:?}");
        planned += usize::from(home);
        moves += steps.iter().flatten().filter(|m| m.to == DOWN).count();

        let (plan, _) = plan(&mut rng, &room);
        let steps = bare(&plan.steps).steps;
        // The node more is a node: there a move to it is no longer refused with 15.
        let own = match check_steps(&room, &steps) {
            Verdict::Refused { number: 15, .. } => continue,
            Verdict::Refused { number, step } => Err((number, step)),
            Verdict::Accepted { .. } => Ok(()),
        };
        let its = match check_steps(&other, &moved(&steps)) {
            Verdict::Refused { number, step } => Err((number, step)),
            Verdict::Accepted { .. } => Ok(()),
        };
        assert_eq!(own, its, "{room:?} {steps:?}");
        verdicts[match own {
            Ok(()) => 0,
            Err((19, _)) => 1,
            Err(_) => 2,
        }] += 1;
    }
    println!("{planned} planned, {moves} shutdowns; accepted, 19, other: {verdicts:?}");
    assert!(planned > 1_000 && moves > 1_000 && verdicts.iter().all(|&count| count > 100));
}

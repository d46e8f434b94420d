//! What must hold of every plan the planner makes, and a second planner whose soundness test is
//! the brute force over orders.

use kobdrieft_model::gen::{apart, knot, relay, ring, room, swaps, waiting, Rng, Size};
use kobdrieft_model::orders::{every_order, explore, follow, Found};
use kobdrieft_model::planner::make_steps;
use kobdrieft_model::puzzles::puzzle;
use kobdrieft_model::rules::may_go;
use kobdrieft_model::*;

/// Builds, checks, and holds the outcome against everything document 01 says of it.
fn hold(room: &Room, tail: usize) -> Answer {
    let cluster = cluster_bytes(room);
    assert!(cluster.len() <= 65_535);
    let mut out: Vec<u8> = (0..2_562 + tail).map(|i| (i % 251) as u8).collect();
    let before = out.clone();
    let answer = build(0, &cluster, &mut out);
    let (steps, moves, cost) = match answer {
        Answer::Plan { steps, moves, cost } | Answer::Blocked { steps, moves, cost } => {
            (usize::from(steps), usize::from(moves), cost)
        }
        Answer::Refused { .. } => panic!("a cluster made to be accepted was refused: {answer:?}"),
    };
    let length = 7 + 2 * steps + 3 * moves;
    assert!(length <= 2_562);
    assert_eq!(out[length..], before[length..]);
    let plan = parse_plan(&out[..length]).expect("the record written has its shape");
    assert_eq!(plan.version, Version::Two);
    let written = plan.steps;
    assert_eq!(written.len(), steps);
    sources_are_places(room, &written);
    launches_and_shutdowns_are_direct(room, &written);
    assert_eq!(written.iter().map(Vec::len).sum::<usize>(), moves);
    assert_eq!(cost_again(room, &written), cost);

    let away = room.vms.iter().filter(|vm| vm.current != vm.target).count();
    assert!(steps <= (2 * away).saturating_sub(1));
    assert_eq!(steps == 0 && matches!(answer, Answer::Plan { .. }), away == 0);
    let expected = match answer {
        Answer::Plan { .. } => Verdict::Accepted { cost },
        _ => Verdict::Refused { number: 19, step: 0 },
    };
    assert_eq!(check(0, &cluster, &out[..length]), expected);
    assert_eq!(check(0, &cluster, &plan_bytes(&bare(&written))), expected);
    pack_answer(answer);
    answer
}

/// Each move names the place that its VM has when its step starts: where its last move before
/// this step went, else where the record has it.
fn sources_are_places(room: &Room, steps: &[Step]) {
    for (i, step) in steps.iter().enumerate() {
        for m in step {
            let earlier = steps[..i].iter().flatten().rev().find(|other| other.vm == m.vm);
            let place = earlier.map_or(room.vms[m.vm].current, |other| other.to);
            assert_eq!(m.from, Some(place), "step {}, VM {}", i + 1, m.vm);
        }
    }
}

/// The cost once more, move by move from the start.
fn cost_again(room: &Room, steps: &[Step]) -> u64 {
    let memory = |m: &Move| if m.to == 255 { 0 } else { room.vms[m.vm].memory };
    let largest = |step: &Step| step.iter().map(memory).max().unwrap();
    let mut cost = 0;
    for (i, step) in steps.iter().enumerate() {
        let before: u64 = steps[..i].iter().map(largest).sum();
        cost += step.iter().map(|m| memory(m) + before).sum::<u64>();
    }
    cost
}

/// Nobody is shut down but who should end so, nobody that is on no node goes elsewhere than to its
/// target, and who should end on no node goes nowhere else.
fn launches_and_shutdowns_are_direct(room: &Room, steps: &[Step]) {
    for m in steps.iter().flatten() {
        let target = room.vms[m.vm].target;
        let is_direct = m.to == target;
        assert!(is_direct || (m.from != Some(255) && m.to != 255 && target != 255), "{m:?}");
    }
}

/// Counts of plan, blocked, plans with a pivot, blocked after some steps, and plans with launches and
/// with shutdowns.
#[derive(Debug, Default)]
struct Seen {
    plans: usize,
    blocked: usize,
    pivoted: usize,
    blocked_late: usize,
    launched: usize,
    shut_down: usize,
}

type Make = fn(&mut Rng, Size) -> Room;

fn hold_many(seed: u64, make: Make, size: Size, how_many: usize) -> Seen {
    let mut rng = Rng::new(seed);
    let mut seen = Seen::default();
    for i in 0..how_many {
        let room = make(&mut rng, size);
        let away = room.vms.iter().filter(|vm| vm.current != vm.target).count();
        match hold(&room, i % 3) {
            Answer::Plan { moves, .. } => {
                seen.plans += 1;
                seen.pivoted += usize::from(usize::from(moves) > away);
                let count = |holds: fn(&Vm) -> bool| usize::from(room.vms.iter().any(holds));
                seen.launched += count(|vm| vm.current == 255 && vm.target != 255);
                seen.shut_down += count(|vm| vm.current != 255 && vm.target == 255);
            }
            Answer::Blocked { steps, .. } => {
                seen.blocked += 1;
                seen.blocked_late += usize::from(steps > 0);
            }
            Answer::Refused { .. } => unreachable!(),
        }
    }
    println!("{size:?}: {seen:?}");
    seen
}

#[test]
fn small_clusters() {
    for size in [Size::Tiny, Size::Small] {
        let seen = hold_many(10, room, size, 20_000);
        assert!(seen.plans > 1_000 && seen.blocked > 1_000);
        assert!(seen.launched > 1_000 && seen.shut_down > 1_000);
        assert!(seen.pivoted > 100 && seen.blocked_late > 100, "{seen:?}");
    }
}

#[test]
fn knots() {
    for (size, how_many) in [(Size::Tiny, 10_000), (Size::Small, 10_000), (Size::Medium, 500)] {
        let seen = hold_many(15, knot, size, how_many);
        let some = how_many / 25;
        assert!(seen.pivoted > some && seen.blocked > some, "{seen:?}");
        assert!(seen.launched > some && seen.shut_down > some, "{seen:?}");
    }
}

#[test]
fn clusters_that_spread() {
    for (size, how_many) in [(Size::Tiny, 10_000), (Size::Small, 10_000), (Size::Medium, 500)] {
        let seen = hold_many(16, apart, size, how_many);
        assert!(seen.pivoted > 10 && seen.blocked > 10, "{seen:?}");
    }
}

#[test]
fn clusters_that_wait() {
    for (size, how_many) in [(Size::Tiny, 10_000), (Size::Small, 10_000), (Size::Medium, 500)] {
        let seen = hold_many(20, waiting, size, how_many);
        let some = how_many / 25;
        assert!(seen.plans > 10 * some && seen.blocked > some, "{seen:?}");
        assert!(seen.launched > some && seen.shut_down > some, "{seen:?}");
    }
}

/// The puzzles have one size.
fn any_puzzle(rng: &mut Rng, _: Size) -> Room {
    puzzle(rng)
}

#[test]
fn puzzles() {
    let seen = hold_many(18, any_puzzle, Size::Small, 20_000);
    assert!(seen.pivoted > 1_000 && seen.blocked > 1_000 && seen.blocked_late > 100, "{seen:?}");
}

#[test]
fn medium_clusters() {
    let seen = hold_many(11, room, Size::Medium, 2_000);
    assert!(seen.plans > 100 && seen.blocked > 100 && seen.pivoted > 20, "{seen:?}");
}

#[test]
fn large_clusters() {
    let seen = hold_many(12, room, Size::Large, 150);
    assert!(seen.plans > 10 && seen.blocked > 10, "{seen:?}");
}

#[test]
fn rings_open_with_one_pivot() {
    let mut rng = Rng::new(13);
    for n in 3..=64 {
        let (steps, moves) = (n as u16, n as u16);
        match hold(&ring(&mut rng, n), 0) {
            Answer::Plan { steps: s, moves: m, .. } => assert_eq!((s, m), (steps, moves)),
            other => panic!("{other:?}"),
        }
    }
}

#[test]
fn relays_begin_with_a_shutdown_and_end_with_a_launch() {
    let mut rng = Rng::new(19);
    for n in 1..=64 {
        let room = relay(&mut rng, n);
        let (steps, moves) = (n as u16 + 1, n as u16 + 1);
        match hold(&room, 0) {
            Answer::Plan { steps: s, moves: m, .. } => assert_eq!((s, m), (steps, moves)),
            other => panic!("{other:?}"),
        }
        let made = make_steps(&room).0;
        assert_eq!((made[0][0].to, made[n][0].to), (255, 0));
        assert_eq!(room.vms[made[n][0].vm].current, 255);
    }
}

#[test]
fn swaps_take_three_steps_a_pair() {
    for pairs in [1, 2, 3, 64, 127, 128] {
        let three = 3 * pairs as u16;
        match hold(&swaps(pairs), 0) {
            Answer::Plan { steps, moves, .. } => assert_eq!((steps, moves), (three, three)),
            other => panic!("{other:?}"),
        }
    }
}

// ---------------------------------------------------------------- a second planner

/// Whether a step is sound, from the meaning of its orders.
fn sound(room: &Room, place: &[usize], step: &[Move]) -> bool {
    let rises = step.windows(2).all(|pair| pair[0].vm < pair[1].vm);
    rises
        && step.iter().all(|m| m.to != place[m.vm] && may_go(room, m.vm, m.to))
        && step.iter().all(|m| m.to < room.nodes.len() || room.vms[m.vm].target == m.to)
        && explore(room, place, step) == Found::default()
}

fn home(room: &Room, vm: usize) -> Move {
    Move::bare(vm, room.vms[vm].target)
}

fn away(room: &Room, place: &[usize]) -> Vec<usize> {
    (0..place.len()).filter(|&vm| place[vm] != room.vms[vm].target).collect()
}

fn moved(place: &[usize], step: &[Move]) -> Vec<usize> {
    let mut next = place.to_vec();
    step.iter().for_each(|m| next[m.vm] = m.to);
    next
}

fn next_step(room: &Room, place: &[usize]) -> Option<Step> {
    let mut step = Vec::new();
    for vm in away(room, place) {
        let longer = [step.clone(), vec![home(room, vm)]].concat();
        if sound(room, place, &longer) {
            step = longer;
        }
    }
    if !step.is_empty() {
        return Some(step);
    }
    let pairs = away(room, place)
        .into_iter()
        .filter(|&vm| place[vm] != 255)
        .flat_map(|vm| (0..room.nodes.len()).map(move |to| Move::bare(vm, to)));
    pairs.into_iter().find(|m| useful(room, place, *m)).map(|m| vec![m])
}

fn useful(room: &Room, place: &[usize], m: Move) -> bool {
    let then = moved(place, &[m]);
    m.to != room.vms[m.vm].target
        && sound(room, place, &[m])
        && away(room, &then).iter().any(|&o| o != m.vm && sound(room, &then, &[home(room, o)]))
}

/// The longest step whose orders are listed one by one: 2,520 of them.
const LISTED: usize = 4;

#[test]
fn no_order_of_a_built_step_meets_a_fault() {
    let mut rng = Rng::new(17);
    let orders: Vec<_> = (0..=LISTED).map(every_order).collect();
    let mut wide = 0;
    for i in 0..3_000 {
        let make: Make = [any_puzzle, room, apart, waiting][i % 4];
        let room = make(&mut rng, Size::Tiny);
        let mut place: Vec<usize> = room.vms.iter().map(|vm| vm.current).collect();
        for step in make_steps(&room).0 {
            assert!(step.iter().all(|m| may_go(&room, m.vm, m.to)), "{room:?}");
            for order in orders.get(step.len()).into_iter().flatten() {
                assert_eq!(follow(&room, &place, &step, order), Found::default(), "{room:?}");
            }
            wide += usize::from((2..=LISTED).contains(&step.len()));
            place = moved(&place, &step);
        }
    }
    assert!(wide > 500, "{wide}");
}

#[test]
fn the_planner_agrees_with_one_built_on_orders() {
    let mut rng = Rng::new(14);
    let mut steps_seen = 0;
    for i in 0..10_000 {
        let size = if i % 5 == 0 { Size::Small } else { Size::Tiny };
        let make: Make = [room, knot, apart, any_puzzle, waiting, waiting][i % 6];
        let room = make(&mut rng, size);
        if away(&room, &room.vms.iter().map(|vm| vm.current).collect::<Vec<_>>()).len() > 5 {
            continue;
        }
        let mut place: Vec<usize> = room.vms.iter().map(|vm| vm.current).collect();
        let mut steps = Vec::new();
        while let Some(step) = next_step(&room, &place) {
            place = moved(&place, &step);
            steps.push(step);
        }
        let all_home = away(&room, &place).is_empty();
        assert_eq!(make_steps(&room), (steps.clone(), all_home), "{room:?}");
        if !all_home {
            assert!(away(&room, &place).len() >= 2);
        }
        steps_seen += steps.len();
    }
    assert!(steps_seen > 2_000);
}

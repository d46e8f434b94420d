//! Plans that name their sources: with right ones they are what they are without any, and a wrong
//! one is refused with 27 at its step, behind 15 and before everything else.

mod common;

use common::{number_of, refused, NUMBERS};
use kobdrieft_model::edges::{cluster_a, edges, node, room as made, steps, vm};
use kobdrieft_model::gen::{
    apart, knot, one_wrong, other_file, plan, room, swaps, waiting, Rng, Size,
};
use kobdrieft_model::orders::{explore, Found};
use kobdrieft_model::planner::make_steps;
use kobdrieft_model::rules::may_go;
use kobdrieft_model::*;

/// A room of one kind or another.
fn some_room(rng: &mut Rng, turn: usize) -> Room {
    let size = match turn % 40 {
        0 => Size::Medium,
        1..=9 => Size::Small,
        _ => Size::Tiny,
    };
    [room, knot, apart, waiting][turn % 4](rng, size)
}

/// Steps as a plan of version 2 with every source right, whatever they named before.
fn named_anew(room: &Room, steps: &[Step]) -> Plan {
    named(room, &bare(steps).steps)
}

/// The first step in which some move of a VM that is there names another node than the VM's place:
/// where its last move before this step went, else where the record has it.
fn first_wrong(room: &Room, steps: &[Step]) -> Option<u16> {
    let mut place: Vec<usize> = room.vms.iter().map(|vm| vm.current).collect();
    for (step, number) in steps.iter().zip(1..) {
        let wrong = |m: &Move| place.get(m.vm).is_some_and(|&place| m.from != Some(place));
        if step.iter().any(wrong) {
            return Some(number);
        }
        for m in step.iter().filter(|m| m.vm < room.vms.len()) {
            place[m.vm] = m.to;
        }
    }
    None
}

/// What a plan with sources comes to, by what its steps come to without: the first step with a
/// wrong source is 27, unless an earlier step is at fault, or this one by 15.
fn expected(room: &Room, plan: &Plan, without: Verdict) -> Verdict {
    let Some(wrong) = first_wrong(room, &plan.steps) else { return without };
    match without {
        Verdict::Refused { step, .. } if 0 < step && step < wrong => without,
        Verdict::Refused { number: 15, step } if step == wrong => without,
        Verdict::Refused { number: ..=14 | 23, .. } => without,
        _ => refused(27, wrong),
    }
}

#[test]
fn verdicts_by_those_without_sources() {
    let mut rng = Rng::new(71);
    let (mut wrong, mut first, mut behind_15, mut before) = (0, 0, 0, [0; NUMBERS]);
    for turn in 0..40_000 {
        let room = some_room(&mut rng, turn);
        let (plan, _) = plan(&mut rng, &room);
        let cluster = cluster_bytes(&room);
        let without = check(0, &cluster, &plan_bytes(&bare(&plan.steps)));
        assert_eq!(check(0, &cluster, &plan_bytes(&named_anew(&room, &plan.steps))), without);
        let verdict = check(0, &cluster, &plan_bytes(&plan));
        if plan.version == Version::One {
            assert_eq!(verdict, without);
            continue;
        }
        assert_eq!(verdict, expected(&room, &plan, without), "{room:?} {plan:?}");
        if let Verdict::Refused { number: 27, step } = verdict {
            wrong += 1;
            first += usize::from(step == 1);
            before[number_of(without)] += 1;
        } else if let Verdict::Refused { number: 15, step } = verdict {
            behind_15 += usize::from(first_wrong(&room, &plan.steps) == Some(step));
        }
    }
    println!("27: {wrong}, in the first step {first}; 15 before 27: {behind_15}");
    println!("27 where it would else be accepted, then by number: {before:?}");
    assert!(first > 500 && wrong - first > 500 && behind_15 > 200);
    for number in [0, 16, 17, 18, 19, 33] {
        assert!(before[number] > 20, "{number}: {before:?}");
    }
}

/// Whether a plan is accepted, from the meaning of its steps' orders; and whether all its sources
/// are right, as far as its steps are sound.
fn by_orders(room: &Room, steps: &[Step]) -> (bool, bool) {
    let mut place: Vec<usize> = room.vms.iter().map(|vm| vm.current).collect();
    let mut right = true;
    for step in steps {
        let rises = step.windows(2).all(|pair| pair[0].vm < pair[1].vm);
        let ends = |m: &Move| m.to == 255 && room.vms[m.vm].target == 255;
        let known = |m: &Move| m.vm < room.vms.len() && (m.to < room.nodes.len() || ends(m));
        let moves = |m: &Move| known(m) && m.to != place[m.vm] && may_go(room, m.vm, m.to);
        if !rises || !step.iter().all(moves) || explore(room, &place, step) != Found::default() {
            return (false, right);
        }
        right &= step.iter().all(|m| m.from.is_none_or(|from| from == place[m.vm]));
        step.iter().for_each(|m| place[m.vm] = m.to);
    }
    (room.vms.iter().zip(place).all(|(vm, place)| vm.target == place), right)
}

/// The moves of a step whose orders are gone through: 3 to this power states.
const MOST_MOVES: usize = 5;

#[test]
fn accepted_exactly_if_all_orders_are_sound_and_sources_right() {
    let mut rng = Rng::new(74);
    let mut seen = [0; 3];
    for turn in 0..20_000 {
        let room = [room, knot, apart][turn % 3](&mut rng, Size::Tiny);
        let (plan, _) = plan(&mut rng, &room);
        if plan.steps.len() > 12 || plan.steps.iter().any(|step| step.len() > MOST_MOVES) {
            continue;
        }
        let verdict = check(0, &cluster_bytes(&room), &plan_bytes(&plan));
        let accepted = matches!(verdict, Verdict::Accepted { .. });
        let (sound, right) = by_orders(&room, &plan.steps);
        assert_eq!(accepted, sound && right, "{room:?} {plan:?}");
        seen[if accepted { 0 } else { 1 + usize::from(sound) }] += 1;
    }
    println!("accepted, refused, refused for its sources alone: {seen:?}");
    assert!(seen[0] > 2_000 && seen[1] > 2_000 && seen[2] > 200, "{seen:?}");
}

#[test]
fn hand_set_plans_in_the_other_version() {
    let mut turned = [0; 2];
    for edge in edges() {
        let (Ok(room), Ok(plan)) = (parse_cluster(&edge.cluster), parse_plan(&edge.plan)) else {
            continue;
        };
        let verdict_on = |plan: &[u8]| check(edge.reserve, &edge.cluster, plan);
        let without = verdict_on(&plan_bytes(&bare(&plan.steps)));
        let right = plan_bytes(&named_anew(&room, &plan.steps));
        assert_eq!(verdict_on(&right), without, "{}", edge.name);
        if plan.version == Version::Two {
            let verdict = verdict_on(&edge.plan);
            assert_eq!(verdict, expected(&room, &plan, without), "{}", edge.name);
        }
        turned[plan.version as usize - 1] += 1;
    }
    println!("hand-set plans of version 1 and 2: {turned:?}");
    assert!(turned.iter().all(|&count| count > 100), "{turned:?}");
}

#[test]
fn one_wrong_source_is_never_accepted() {
    let mut rng = Rng::new(72);
    let mut seen = 0;
    for turn in 0..10_000 {
        let room = some_room(&mut rng, turn);
        let own = named(&room, &make_steps(&room).0);
        if own.steps.is_empty() {
            continue;
        }
        let plan = one_wrong(&mut rng, &room, own.clone());
        let pairs = own.steps.iter().flatten().zip(plan.steps.iter().flatten());
        assert_eq!(pairs.filter(|(a, b)| a != b).count(), 1);
        let at = first_wrong(&room, &plan.steps).unwrap();
        assert_eq!(check(0, &cluster_bytes(&room), &plan_bytes(&plan)), refused(27, at));
        seen += 1;
    }
    assert!(seen > 3_000);
}

/// Files that were swapped: without sources some plans of other clusters are accepted though VMs
/// stand elsewhere; with sources only those are that name this cluster's places.
#[test]
fn plans_of_other_clusters() {
    let mut rng = Rng::new(73);
    let (mut unnoticed, mut noticed, mut fits) = (0, 0, 0);
    for turn in 0..20_000 {
        let room = some_room(&mut rng, turn);
        let plan = other_file(&mut rng, &room);
        if plan.steps.is_empty() || plan.version == Version::One {
            continue;
        }
        let cluster = cluster_bytes(&room);
        let with = check(0, &cluster, &plan_bytes(&plan));
        let without = check(0, &cluster, &plan_bytes(&bare(&plan.steps)));
        noticed += usize::from(matches!(with, Verdict::Refused { number: 27, .. }));
        match (without, first_wrong(&room, &plan.steps)) {
            (Verdict::Accepted { .. }, Some(step)) => {
                assert_eq!(with, refused(27, step));
                unnoticed += 1;
            }
            (Verdict::Accepted { .. }, None) => {
                assert_eq!(with, without);
                fits += 1;
            }
            _ => {}
        }
    }
    println!("27: {noticed}, of them accepted without sources: {unnoticed}; accepted: {fits}");
    assert!(unnoticed > 100 && noticed > 500 && fits > 100);
}

/// The version tells the width of a move, and nothing else does.
#[test]
fn records_of_either_version() {
    let list = steps(&[&[(0, 2), (1, 2)], &[(0, 0)]]);
    let [pairs, triples] = [bare(&list), named(&cluster_a(), &list)].map(|plan| plan_bytes(&plan));
    assert_eq!(pairs, [1, 0, 0, 0, 17, 0, 2, 0, 2, 0, 2, 1, 2, 0, 1, 0, 0]);
    assert_eq!(triples, [2, 0, 0, 0, 20, 0, 2, 0, 2, 0, 0, 2, 1, 1, 2, 0, 1, 0, 2, 0]);
    assert_eq!(parse_plan(&pairs), Ok(bare(&list)));
    assert_eq!(parse_plan(&triples), Ok(named(&cluster_a(), &list)));
    for version in 0..=255 {
        let read = |record: &[u8]| {
            let mut record = record.to_vec();
            record[0] = version;
            parse_plan(&record).map(|plan| plan.version as u8)
        };
        let expected = match version {
            1 => [Ok(1), Err(14)],
            2 => [Err(14), Ok(2)],
            _ => [Err(12); 2],
        };
        assert_eq!([read(&pairs), read(&triples)], expected, "{version}");
    }
}

/// The planner's longest record among those tried, and the longest plans that may be checked.
#[test]
fn lengths() {
    let pairs = swaps(128);
    let mut out = [0; 2_562];
    let answer = build(0, &cluster_bytes(&pairs), &mut out);
    assert!(matches!(answer, Answer::Plan { steps: 384, moves: 384, .. }), "{answer:?}");
    assert_eq!(out[1..5], (7u32 + 384 * 5).to_be_bytes());
    let wide = made(&vec![node(9, 9); 2], &[vm(1, 1, 0, 0), vm(1, 1, 0, 0)], &[]);
    let list: Vec<Step> =
        (0..512).map(|i| [0, 1].map(|vm| Move::bare(vm, 1 - i % 2)).to_vec()).collect();
    let records = [bare(&list), named(&wide, &list)].map(|plan| plan_bytes(&plan));
    assert_eq!(records.clone().map(|record| record.len()), [3_079, 4_103]);
    let verdicts = records.map(|record| check(0, &cluster_bytes(&wide), &record));
    assert_eq!(verdicts[0], verdicts[1]);
    assert!(matches!(verdicts[0], Verdict::Accepted { .. }));
}

//! Plans divided into single moves: each refusal and their order, the record that is written, and its
//! cost. And that a plan which is accepted stays so, and gets no cheaper, however its steps are divided.

mod common;

use common::{all_of_the_checker, hex, in_both_versions, number_of, Seen, DOWN, NUMBERS};
use kobdrieft_model::edges::{cluster_a, edges, header, node, room, split_edges, steps, vm};
use kobdrieft_model::gen::{cases, either, knot, sized_case, some_place, waiting, Rng, Size};
use kobdrieft_model::orders::{every_order, follow, Event, Found};
use kobdrieft_model::pack::unpack_split;
use kobdrieft_model::puzzles::puzzle;
use kobdrieft_model::reserves::{raised, reserved, some_reserve};
use kobdrieft_model::rules::{cpu_within, mates, misnamed, plan_cost, usable_room, Placement};
use kobdrieft_model::split::{single_moves, BUFFER, MOST_STEPS};
use kobdrieft_model::splits::{division, every_division, many_moves, some_buffer, OF_VERSION_1};
use kobdrieft_model::text::divided;
use kobdrieft_model::*;
use std::collections::{BTreeMap, BTreeSet};

/// A with memory 5, and both its moves in one step, in either version.
const FIVE: &str = "01 00000028 0003 0002 0000 0000050064 0000050064 0000050064 0000030032 00 01 \
                    0000020032 01 00";
const BOTH: &str = "01 0000000d 0001 0002 00 01 01 00";
const BOTH_2: &str = "02 0000000f 0001 0002 00 00 01 01 01 00";

fn refused(number: u8, step: u16) -> Split {
    Split::Refused { number, step }
}

/// So many random bytes.
fn noise(length: usize) -> Vec<u8> {
    let mut rng = Rng::new(length as u64);
    (0..length).map(|_| rng.draw() as u8).collect()
}

/// What a split gives, with the buffer before and after it.
fn asked(reserve: u64, cluster: &[u8], plan: &[u8], buffer: usize) -> (Split, Vec<u8>, Vec<u8>) {
    let before = noise(buffer);
    let mut out = before.clone();
    let given = split(reserve, cluster, plan, &mut out);
    (given, before, out)
}

fn count(bytes: &[u8]) -> usize {
    bytes.iter().fold(0, |n, &b| n * 256 + usize::from(b))
}

/// The record of single moves, put together from the bytes of a plan's record.
fn by_bytes(plan: &[u8]) -> Vec<u8> {
    let Some(&version) = plan.first() else { return hex("02 00000007 0000") };
    let width = 1 + usize::from(version);
    let (mut rest, mut moves) = (&plan[7..], Vec::new());
    while !rest.is_empty() {
        let (its, behind) = rest[2..].split_at(width * count(&rest[..2]));
        moves.extend(its.chunks(width));
        rest = behind;
    }
    let body: Vec<u8> = moves.iter().flat_map(|m| [&[0, 1], *m].concat()).collect();
    let (length, steps) = (7 + body.len() as u32, moves.len() as u16);
    [&[version][..], &length.to_be_bytes(), &steps.to_be_bytes(), &body].concat()
}

/// What a record of single moves costs, by the bytes of both records: each move pays its own memory and
/// that of every move before it. A shutdown has none.
fn cost_by_bytes(cluster: &[u8], record: &[u8]) -> u64 {
    let rows = 11 + 5 * count(&cluster[5..7]);
    let memory = |m: &[u8]| match m.last() {
        Some(255) => 0,
        _ => count(&cluster[rows + 7 * usize::from(m[2])..][..3]) as u64,
    };
    let moves: Vec<u64> = record[7..].chunks(3 + usize::from(record[0])).map(memory).collect();
    (0..moves.len()).map(|i| moves[..=i].iter().sum::<u64>()).sum()
}

/// The cost of a plan that is accepted.
fn cost_of(reserve: u64, cluster: &[u8], plan: &[u8]) -> u64 {
    match check(reserve, cluster, plan) {
        Verdict::Accepted { cost } => cost,
        verdict => panic!("{verdict:?}"),
    }
}

/// Divides a plan that is accepted and can be divided; the record and its cost.
fn record_of(reserve: u64, cluster: &[u8], plan: &[u8]) -> (Vec<u8>, u64) {
    let (given, before, out) = asked(reserve, cluster, plan, BUFFER + 9);
    let Split::Done { steps, cost } = given else { panic!("{given:?}") };
    let length = count(&out[1..5]);
    assert_eq!(usize::from(steps), count(&out[5..7]));
    assert_eq!(out[length..], before[length..], "bytes behind it stay");
    (out[..length].to_vec(), cost)
}

// ---------------------------------------------------------------- by hand

#[test]
fn hand_set_splits_come_out_as_they_should() {
    let (mut done, mut numbers) = ([0; 2], [0; NUMBERS]);
    for edge in split_edges() {
        let (given, before, out) = asked(edge.reserve, &edge.cluster, &edge.plan, edge.buffer);
        match edge.ends {
            Ok((record, cost)) => {
                let steps = count(&record[5..7]) as u16;
                assert_eq!(given, Split::Done { steps, cost }, "{}", edge.name);
                assert_eq!(out, [&record[..], &before[record.len()..]].concat(), "{}", edge.name);
                done[usize::from(record[0]) - 1] += 1;
            }
            Err((number, step)) => {
                assert_eq!((given, out), (refused(number, step), before), "{}", edge.name);
                numbers[usize::from(number)] += 1;
            }
        }
    }
    println!("{done:?} done in either version, refused by number {numbers:?}");
    assert!(done.iter().all(|&count| count > 70), "{done:?}");
    let given = [1, 8, 10, 14, 15, 16, 17, 18, 19, 23, 33];
    assert!(given.iter().all(|&number| numbers[number] > 5) && numbers[27] > 0, "{numbers:?}");
}

#[test]
fn five_divided_byte_by_byte() {
    let five = hex(FIVE);
    let singles = "01 0000000f 0002 0001 00 01 0001 01 00";
    let singles_2 = "02 00000011 0002 0001 00 00 01 0001 01 01 00";
    for (plan, singles) in [(BOTH, singles), (BOTH_2, singles_2)] {
        let (plan, singles) = (hex(plan), hex(singles));
        assert_eq!(check(0, &five, &plan), common::accepted(5));
        let mut out = [7; BUFFER + 3];
        let given = split(0, &five, &plan, &mut out);
        assert_eq!(given, Split::Done { steps: 2, cost: 3 + 5 });
        assert_eq!(out[..singles.len()], singles);
        assert!(out[singles.len()..].iter().all(|&b| b == 7));
        assert_eq!(check(0, &five, &singles), common::accepted(8));
        assert_eq!(split(0, &five, &plan, &mut [7; BUFFER]), given);
        let mut out = [7; BUFFER - 1];
        assert_eq!(split(0, &five, &plan, &mut out), refused(10, 0));
        assert_eq!(out, [7; BUFFER - 1]);
        let mut out = [7; OF_VERSION_1];
        assert_eq!((split(0, &five, &plan, &mut out), out), (refused(10, 0), [7; OF_VERSION_1]));
        let single = record_of(0, &five, &singles);
        assert_eq!(single, (singles, 8), "divided already");
    }
}

#[test]
fn what_is_given_as_a_number() {
    let done = |steps, cost| Split::Done { steps, cost };
    assert_eq!(pack_split(done(0, 0)), 0);
    assert_eq!(pack_split(done(2, 8)), 2 << 44 | 8);
    assert_eq!(pack_split(done(511, 1)), 511 << 44 | 1);
    assert_eq!(pack_split(done(512, (1 << 44) - 1)), 1 << 53 | ((1 << 44) - 1));
    assert_eq!(pack_split(done(512, 0)) >> 54, 0, "bits 63 to 54 are 0");
    assert_eq!(pack_split(refused(10, 0)), 1 << 63 | 10 << 16);
    assert_eq!(pack_split(refused(14, 0)), 1 << 63 | 14 << 16);
    assert_eq!(pack_split(refused(33, 512)), 1 << 63 | 33 << 16 | 512);
    assert_eq!(pack_split(refused(23, 0)), pack_verdict(common::refused(23, 0)));
    for split in [done(0, 0), done(1, 7), done(512, 1 << 42), refused(10, 0), refused(17, 512)] {
        assert_eq!(unpack_split(pack_split(split)), Some(split));
    }
    for other in [1 << 54, 1 << 61, 1 << 62, 3 << 62, 1 << 63 | 1 << 24, 1 << 63 | 1 << 44] {
        assert_eq!(unpack_split(other), None, "{other:#x}");
    }
}

#[test]
fn lines_that_are_printed() {
    let five = hex(FIVE);
    let (line, record) = divided(0, &five, &hex(BOTH));
    assert_eq!(line, "divided steps 2 cost 8\n");
    assert_eq!(record, Some(hex("01 0000000f 0002 0001 00 01 0001 01 00")));
    let (line, record) = divided(0, &five, &hex(BOTH_2));
    assert_eq!((&line[..], record.unwrap().len()), ("divided steps 2 cost 8\n", 17));
    let home = cluster_bytes(&room(&[node(9, 9)], &[vm(1, 1, 0, 0)], &[]));
    for (plan, version) in [(vec![], 2), (header(Version::One), 1), (header(Version::Two), 2)] {
        let record = vec![version, 0, 0, 0, 7, 0, 0];
        let line = "divided steps 0 cost 0\n".to_string();
        assert_eq!(divided(0, &home, &plan), (line, Some(record)));
    }
    let a = cluster_bytes(&cluster_a());
    for (reserve, cluster, plan, line) in [
        (0, &a, hex(BOTH), "refused 17 step 1\n"),
        (0, &a, vec![], "refused 19 step 0\n"),
        (0, &a, vec![1], "refused 11 step 0\n"),
        (91, &five, hex(BOTH), "refused 23 step 0\n"),
        (20, &five, hex(BOTH), "refused 17 step 1\n"),
    ] {
        assert_eq!(divided(reserve, cluster, &plan), (line.to_string(), None));
    }
}

/// Whatever the buffer, what the checker refuses comes first and as the checker gives it.
#[test]
fn the_checkers_refusals_come_first() {
    let mut numbers = [0; NUMBERS];
    for edge in edges() {
        let verdict = check(edge.reserve, &edge.cluster, &edge.plan);
        let Verdict::Refused { number, step } = verdict else { continue };
        for buffer in [0, OF_VERSION_1, BUFFER - 1, BUFFER, BUFFER + 1] {
            let (given, before, out) = asked(edge.reserve, &edge.cluster, &edge.plan, buffer);
            assert_eq!((given, out), (refused(number, step), before), "{}", edge.name);
        }
        numbers[usize::from(number)] += 1;
    }
    all_of_the_checker(&numbers);
}

/// The plans that are accepted among the hand-set ones: 10 for a short buffer, then 14 for more than 512
/// moves, then the record.
#[test]
fn hand_set_plans_divided() {
    let (mut done, mut many) = (0, 0);
    for edge in edges() {
        let (reserve, cluster, plan) = (edge.reserve, &edge.cluster, &edge.plan);
        let Verdict::Accepted { cost: undivided } = check(reserve, cluster, plan) else { continue };
        let (given, before, out) = asked(reserve, cluster, plan, BUFFER - 1);
        assert_eq!((given, out), (refused(10, 0), before), "{}", edge.name);
        let record = by_bytes(plan);
        if record.len() > BUFFER || count(&record[5..7]) > MOST_STEPS {
            let (given, before, out) = asked(reserve, cluster, plan, BUFFER);
            assert_eq!((given, out), (refused(14, 0), before), "{}", edge.name);
            assert_eq!(check(reserve, cluster, &record), common::refused(14, 0));
            many += 1;
            continue;
        }
        let cost = cost_by_bytes(cluster, &record);
        assert_eq!(record_of(reserve, cluster, plan), (record.clone(), cost), "{}", edge.name);
        assert_eq!(check(reserve, cluster, &record), common::accepted(cost), "{}", edge.name);
        assert!(cost >= undivided, "{}", edge.name);
        done += 1;
    }
    println!("{done} divided, {many} with too many moves");
    assert!(done > 300 && many > 5);
}

// ---------------------------------------------------------------- generated splits

/// The refusal of a split, by one test behind the other.
fn refusal(reserve: u64, cluster: &[u8], plan: &[u8], buffer: usize) -> Option<(u8, u16)> {
    match check(reserve, cluster, plan) {
        Verdict::Refused { number, step } => Some((number, step)),
        _ if buffer < 2_567 => Some((10, 0)),
        _ if count(&by_bytes(plan)[5..7]) > 512 => Some((14, 0)),
        _ => None,
    }
}

#[test]
fn generated_splits_come_out_as_they_should() {
    let mut rng = Rng::new(31);
    let (mut done, mut numbers, mut dearer) = ([0; 3], [0; NUMBERS], 0);
    for (i, case) in cases(32, 40_000).enumerate() {
        let (cluster, plan) = match i % 40 {
            0 => {
                let (room, list) = many_moves(&mut rng);
                (cluster_bytes(&room), plan_bytes(&either(&mut rng, &room, &list)))
            }
            _ => (case.cluster, case.plan),
        };
        let (reserve, cluster) = match i % 3 {
            1 => reserved(&mut rng, &cluster),
            _ => (0, cluster),
        };
        let buffer = some_buffer(&mut rng);
        let (given, before, out) = asked(reserve, &cluster, &plan, buffer);
        if let Some((number, step)) = refusal(reserve, &cluster, &plan, buffer) {
            assert_eq!((given, out), (refused(number, step), before));
            numbers[usize::from(number)] += 1;
            continue;
        }
        let record = by_bytes(&plan);
        let cost = cost_by_bytes(&cluster, &record);
        assert_eq!(given, Split::Done { steps: count(&record[5..7]) as u16, cost });
        assert_eq!(out, [&record[..], &before[record.len()..]].concat());
        assert_eq!(check(reserve, &cluster, &record), common::accepted(cost));
        let undivided = cost_of(reserve, &cluster, &plan);
        assert!(cost >= undivided);
        dearer += usize::from(cost > undivided);
        done[usize::from(plan.first().copied().unwrap_or(0))] += 1;
    }
    println!("{done:?} done: no bytes, version 1, version 2; {dearer} of them dearer");
    println!("refused by number {numbers:?}");
    let given = (1..=19).chain([23, 27, 33]);
    assert!(given.into_iter().all(|number| numbers[number] > 20), "{numbers:?}");
    assert!(done.iter().all(|&count| count > 500) && dearer > 2_000, "{done:?} {dearer}");
}

/// Both versions of a plan have one outcome, and the records differ by the sources.
#[test]
fn both_plan_versions_are_divided_alike() {
    let mut rng = Rng::new(33);
    let mut done = 0;
    for case in cases(34, 12_000) {
        let Some((room, [one, two])) = in_both_versions(&case) else { continue };
        let buffer = some_buffer(&mut rng);
        let [(given, _, first), (same, _, second)] =
            [one, two].map(|plan| asked(0, &case.cluster, &plan, buffer));
        assert_eq!(given, same);
        if let Split::Done { .. } = given {
            let [first, second] =
                [first, second].map(|out| parse_plan(&out[..count(&out[1..5])]).unwrap());
            assert_eq!((first.version, second.version), (Version::One, Version::Two));
            assert_eq!(named(&room, &first.steps), second, "the sources are right");
            done += 1;
        }
    }
    assert!(done > 2_000, "{done}");
}

/// What was divided once is divided no further.
#[test]
fn a_divided_plan_stays() {
    let mut rng = Rng::new(35);
    for _ in 0..1_500 {
        let (reserve, cluster, plan) = accepted_plan(&mut rng);
        let divided = record_of(reserve, &cluster, &plan);
        assert_eq!(record_of(reserve, &cluster, &divided.0), divided);
    }
}

// ---------------------------------------------------------------- however divided

/// A plan that is accepted at its reserve, of at most 512 moves, in a room that may be on the edge at it.
/// Most have a step of several moves.
fn accepted_plan(rng: &mut Rng) -> (u64, Vec<u8>, Vec<u8>) {
    loop {
        let size = rng.pick(&[Size::Tiny, Size::Tiny, Size::Small, Size::Medium]);
        let (cluster, plan) = match rng.below(10) {
            0 => {
                let room = puzzle(rng);
                let (steps, _) = common::steps_for(&room);
                (cluster_bytes(&room), plan_bytes(&either(rng, &room, &steps)))
            }
            1 => {
                let room = waiting(rng, size);
                let (steps, _) = common::steps_for(&room);
                (cluster_bytes(&room), plan_bytes(&either(rng, &room, &steps)))
            }
            _ => {
                let case = sized_case(rng, size);
                (case.cluster, case.plan)
            }
        };
        let (reserve, cluster) = match (rng.below(5), parse_cluster(&cluster)) {
            (0, _) => reserved(rng, &cluster),
            (1, Ok(room)) => {
                let reserve = some_reserve(rng);
                (reserve, cluster_bytes(&raised(reserve, &room)))
            }
            _ => (0, cluster),
        };
        if number_of(check(reserve, &cluster, &plan)) != 0 {
            continue;
        }
        let moves: Vec<usize> = parse_plan(&plan).unwrap().steps.iter().map(Vec::len).collect();
        let some = moves.iter().any(|&count| count > 1) || rng.chance(10);
        if some && moves.iter().sum::<usize>() <= MOST_STEPS {
            return (reserve, cluster, plan);
        }
    }
}

#[test]
fn how_many_divisions_a_step_has() {
    let moves: Vec<Move> = (0..5).map(|vm| Move::bare(3 * vm, vm)).collect();
    for (length, wanted) in [(0, 1), (1, 1), (2, 3), (3, 13), (4, 75), (5, 541)] {
        let all = every_division(&moves[..length]);
        let distinct: BTreeSet<String> = all.iter().map(|pieces| format!("{pieces:?}")).collect();
        assert_eq!((all.len(), distinct.len()), (wanted, wanted));
        assert!(all.iter().all(|pieces| divides(&[moves[..length].to_vec()][..], pieces)));
    }
}

/// Whether steps are others divided: each of these is what some in a row have together, none of which is
/// empty, and the VMs of each rise.
fn divides(whole: &[Step], pieces: &[Step]) -> bool {
    let rises = |step: &Step| step.windows(2).all(|pair| pair[0].vm < pair[1].vm);
    let mut rest = pieces.iter();
    for step in whole {
        let mut found = Step::new();
        while found.len() < step.len() {
            let Some(piece) = rest.next() else { return false };
            found.extend(piece);
            if piece.is_empty() || !rises(piece) {
                return false;
            }
        }
        found.sort_by_key(|m| m.vm);
        if found != *step {
            return false;
        }
    }
    rest.next().is_none()
}

#[test]
fn what_is_a_division() {
    let whole = steps(&[&[(0, 1), (1, 0)], &[(0, 0)]]);
    for (pieces, is_one) in [
        (steps(&[&[(0, 1), (1, 0)], &[(0, 0)]]), true),
        (steps(&[&[(0, 1)], &[(1, 0)], &[(0, 0)]]), true),
        (steps(&[&[(1, 0)], &[(0, 1)], &[(0, 0)]]), true),
        (steps(&[&[(0, 1)], &[(0, 0)], &[(1, 0)]]), false),
        (steps(&[&[(0, 1)], &[], &[(1, 0)], &[(0, 0)]]), false),
        (steps(&[&[(1, 0), (0, 1)], &[(0, 0)]]), false),
        (steps(&[&[(0, 1)], &[(0, 0), (1, 0)]]), false),
        (steps(&[&[(0, 1)], &[(1, 0)]]), false),
        (steps(&[&[(0, 1)], &[(1, 0)], &[(0, 0)], &[(0, 1)]]), false),
    ] {
        assert_eq!(divides(&whole, &pieces), is_one, "{pieces:?}");
    }
}

/// All divisions of all steps of small plans, at once if they are few, else a step at a time: each is
/// accepted, and none is cheaper.
#[test]
fn small_plans_divided_in_every_way() {
    let mut rng = Rng::new(36);
    let (mut divisions, mut at_once, mut dearer) = (0, 0, 0);
    for _ in 0..3_000 {
        let (reserve, cluster, bytes) = accepted_plan(&mut rng);
        let plan = parse_plan(&bytes).unwrap();
        let cost = cost_of(reserve, &cluster, &bytes);
        let ways = plan.steps.iter().map(|step| match step.len() {
            0..=4 => every_division(step),
            _ => vec![vec![step.clone()]],
        });
        let ways: Vec<Vec<Vec<Step>>> = ways.collect();
        let product = ways.iter().try_fold(1usize, |n, way| n.checked_mul(way.len()));
        let all = match product.filter(|&n| n <= 600) {
            Some(n) => {
                at_once += usize::from(ways.iter().filter(|way| way.len() > 1).count() > 1);
                (0..n).map(|n| nth(&ways, n)).collect()
            }
            None => one_at_a_time(&plan.steps, &ways),
        };
        for steps in all {
            assert!(divides(&plan.steps, &steps));
            let record = plan_bytes(&Plan { steps, ..plan });
            let other = cost_of(reserve, &cluster, &record);
            assert!(other >= cost, "{other} for {cost}");
            dearer += usize::from(other > cost);
            divisions += 1;
        }
    }
    println!("{divisions} divisions, {dearer} dearer, of {at_once} plans several steps at once");
    assert!(divisions > 20_000 && dearer > 10_000 && at_once > 200);
}

/// One choice of all, by number.
fn nth(ways: &[Vec<Vec<Step>>], mut n: usize) -> Vec<Step> {
    let mut steps = Vec::new();
    for way in ways {
        steps.extend(way[n % way.len()].clone());
        n /= way.len();
    }
    steps
}

/// Every step divided in each way, while the others are whole.
fn one_at_a_time(whole: &[Step], ways: &[Vec<Vec<Step>>]) -> Vec<Vec<Step>> {
    let mut all = Vec::new();
    for (i, way) in ways.iter().enumerate() {
        for pieces in way {
            let mut steps = whole.to_vec();
            steps.splice(i..=i, pieces.clone());
            all.push(steps);
        }
    }
    all.retain(|steps| steps.len() <= MOST_STEPS);
    all
}

/// Divisions drawn at random, of small plans and of long ones: all are accepted and none is cheaper.
#[test]
fn plans_divided_at_random() {
    let mut rng = Rng::new(37);
    let mut seen = Seen::default();
    for i in 0..6_000 {
        let (reserve, cluster, bytes) = match i % 20 {
            0 => {
                let (room, list) = many_moves(&mut rng);
                let plan = plan_bytes(&either(&mut rng, &room, &list));
                (0, cluster_bytes(&room), plan)
            }
            _ => accepted_plan(&mut rng),
        };
        let plan = parse_plan(&bytes).unwrap();
        let cost = cost_of(reserve, &cluster, &bytes);
        let usable = usable_room(reserve, &parse_cluster(&cluster).unwrap());
        for _ in 0..3 {
            let pieces = division(&mut rng, &plan.steps);
            assert!(divides(&plan.steps, &pieces) && pieces.len() <= MOST_STEPS);
            let record = plan_bytes(&Plan { steps: pieces.clone(), ..plan });
            let other = cost_of(reserve, &cluster, &record);
            assert!(other >= cost, "{other} for {cost}");
            tell(&mut seen, reserve, &usable, &plan, &pieces, other > cost);
        }
    }
    seen.all_often();
}

/// Notes what there is to tell of a division.
fn tell(seen: &mut Seen, reserve: u64, room: &Room, plan: &Plan, pieces: &[Step], dearer: bool) {
    let more = pieces.len() - plan.steps.len();
    seen.note("nothing divided", more == 0);
    seen.note("as dear", more > 0 && !dearer);
    if more == 0 {
        return;
    }
    let first = |step: &Step| step[0].vm;
    let mut here = Placement::current(room);
    let mut rest = pieces.iter();
    let mut divided_steps = 0;
    for step in &plan.steps {
        let start = here.clone();
        let mut own: Vec<&Step> = Vec::new();
        while own.iter().map(|piece| piece.len()).sum::<usize>() < step.len() {
            own.push(rest.next().unwrap());
        }
        here = here.after(room, step);
        if own.len() < 2 {
            continue;
        }
        divided_steps += 1;
        let any = |holds: &dyn Fn(&Move) -> bool| step.iter().any(holds);
        let launch = |m: &Move| start.place[m.vm] == DOWN;
        let shutdown = |m: &Move| m.to == DOWN;
        seen.note("a launch", any(&launch));
        seen.note("a shutdown", any(&shutdown));
        seen.note("launch and shutdown", any(&launch) && any(&shutdown));
        seen.note("a pivot", any(&|m| m.to != DOWN && m.to != room.vms[m.vm].target));
        seen.note("one that waits", room.befores().any(|(_, vm)| any(&|m| m.vm == vm)));
        seen.note("one waited for", room.befores().any(|(vm, _)| any(&|m| m.vm == vm)));
        seen.note("two mates", any(&|m| mates(room, m.vm).iter().any(|&o| any(&|m| m.vm == o))));
        let busy = |m: &Move| m.to != DOWN && !cpu_within(room, m.to, start.sums[m.to]);
        seen.note("idle onto busy", any(&|m| room.vms[m.vm].is_idle() && busy(m)));
        let enters = |m: &Move| any(&|o| o.vm != m.vm && start.place[o.vm] == m.to);
        seen.note("one comes where one leaves", any(&|m| m.to != DOWN && enters(m)));
        seen.note("pieces that fall", own.windows(2).any(|two| first(two[0]) > first(two[1])));
        seen.note("pieces of several moves", own.iter().any(|piece| piece.len() > 1));
        seen.note("into two", own.len() == 2 && step.len() > 2);
        seen.note("into single moves", own.len() == step.len() && step.len() > 2);
        let one = own[0];
        let between = |m: &&Move| m.vm > first(one) && m.vm < one[one.len() - 1].vm;
        seen.note("cut crosswise", step.iter().filter(between).any(|m| !one.contains(m)));
    }
    seen.note("several steps at once", divided_steps > 1);
    seen.note("512 steps", pieces.len() == MOST_STEPS);
    seen.note("more than 512 moves", pieces.iter().map(Vec::len).sum::<usize>() > MOST_STEPS);
    seen.note("version 1", plan.version == Version::One);
    seen.note("version 2", plan.version == Version::Two);
    seen.note("at a reserve", reserve > 0);
    seen.note("dearer", dearer);
}

/// A run of the pieces, an order of each behind the other, is an order of the whole step, and its begins
/// find in it what they find there: that is why no division is refused. Steps here may be refused.
#[test]
fn a_run_of_the_pieces_is_an_order_of_the_step() {
    let mut rng = Rng::new(38);
    let (mut runs, mut found_some) = (0, [0; 3]);
    while runs < 60_000 {
        let room = knot(&mut rng, Size::Tiny);
        let here = Placement::current(&room);
        let mut vms: Vec<usize> = (0..room.vms.len()).collect();
        rng.shuffle(&mut vms);
        vms.truncate(3);
        vms.sort();
        let step: Step =
            vms.iter().map(|&vm| Move::bare(vm, some_place(&mut rng, &room, vm))).collect();
        if step.len() < 2 || misnamed(&room, &here, &step) {
            continue;
        }
        let orders = every_order(step.len());
        for pieces in every_division(&step) {
            for (order, found) in runs_of(&room, &here, &step, &pieces) {
                let whole = follow(&room, &here.place, &step, &order);
                assert!(orders.contains(&order));
                assert_eq!((found.misfit, found.mate), (whole.misfit, whole.mate));
                let kind = usize::from(found.misfit) + 2 * usize::from(found.mate);
                found_some[kind.min(2)] += 1;
                runs += 1;
            }
        }
    }
    println!("{runs} runs: nothing found, a misfit, a mate {found_some:?}");
    assert!(found_some.iter().all(|&count| count > 500), "{found_some:?}");
}

/// Every run of pieces, as an order of the whole step, with what its begins find.
fn runs_of(
    room: &Room,
    start: &Placement,
    step: &Step,
    pieces: &[Step],
) -> Vec<(Vec<Event>, Found)> {
    let mut runs = vec![(vec![], Found::default())];
    let mut here = start.clone();
    for piece in pieces {
        let of = |i: usize| step.iter().position(|m| m.vm == piece[i].vm).unwrap();
        let in_step = |event: &Event| match *event {
            Event::Begin(i) => Event::Begin(of(i)),
            Event::End(i) => Event::End(of(i)),
        };
        let mut longer = Vec::new();
        for order in every_order(piece.len()) {
            let here_found = follow(room, &here.place, piece, &order);
            for (before, found) in &runs {
                let mut found: Found = *found;
                found.add(here_found);
                let more: Vec<Event> = order.iter().map(in_step).collect();
                longer.push(([&before[..], &more].concat(), found));
            }
        }
        runs = longer;
        here = here.after(room, piece);
    }
    runs
}

// ---------------------------------------------------------------- limits

/// 512 steps may result, and 513 may not. The first moves of the first step stay together, all others are
/// single ones.
#[test]
fn divided_into_513_steps() {
    let room = room(&[node(600, 600), node(600, 600)], &vec![vm(1, 1, 0, 0); 256], &[]);
    let wide = |moves: usize, to: usize| (0..moves).map(|vm| Move::bare(vm, to)).collect::<Step>();
    let whole = [wide(256, 1), wide(256, 0), wide(1, 1), wide(1, 0)];
    for plan in [bare(&whole), named(&room, &whole)] {
        for (together, number) in [(1, 14), (2, 14), (3, 0), (4, 0), (256, 0)] {
            let singles = single_moves(&plan.steps);
            let front: Step = singles[..together].concat();
            let steps = [&[front], &singles[together..]].concat();
            assert!(divides(&plan.steps, &steps) && steps.len() == 515 - together);
            let record = plan_bytes(&Plan { steps, ..plan });
            assert_eq!(number_of(check(0, &cluster_bytes(&room), &record)), number);
        }
    }
}

#[test]
fn seeded_plans_of_many_moves() {
    let mut rng = Rng::new(39);
    let mut found: BTreeMap<usize, usize> = BTreeMap::new();
    for _ in 0..600 {
        let (room, list) = many_moves(&mut rng);
        let moves = list.iter().map(Vec::len).sum();
        *found.entry(moves).or_default() += 1;
        assert_eq!(number_of(common::steps_checked_at(0, &room, &list)), 0);
        let plan = plan_bytes(&either(&mut rng, &room, &list));
        let (given, ..) = asked(0, &cluster_bytes(&room), &plan, BUFFER);
        match moves {
            0..=512 => assert_eq!(given, {
                let cost = plan_cost(&room, &single_moves(&list));
                Split::Done { steps: moves as u16, cost }
            }),
            _ => assert_eq!(given, refused(14, 0)),
        }
    }
    println!("{found:?}");
    assert!([511, 512, 513, 514, 1_024].iter().all(|moves| found[moves] > 10), "{found:?}");
    let mut buffers: BTreeMap<usize, usize> = BTreeMap::new();
    (0..10_000).for_each(|_| *buffers.entry(some_buffer(&mut rng)).or_default() += 1);
    assert!([0, OF_VERSION_1, 2_562, 2_566, 2_567, 2_568].iter().all(|b| buffers[b] > 20));
}

// ---------------------------------------------------------------- what would be wrong

/// Ways to read the request that are wrong.
#[derive(Clone, Copy, Debug, PartialEq)]
enum Wrong {
    CostUndivided,
    StepsUndivided,
    FallingOrder,
    LastMoveDropped,
    OnlyFirstStep,
    VersionTwo,
    VersionOne,
    SourcesOfTheRecord,
    EmptyKept,
    EmptyVersionOne,
    ManyFirst,
    ManyWithStep,
    Takes513,
    Refuses512,
    OnlyStepsCounted,
    BufferFirst,
    BufferOfVersion,
    BufferOfRecord,
    BufferNotOfEmpty,
    BufferOfPlanner,
    StepLost,
    TailCleared,
    PackedAsBuilt,
}

const ALL_WRONG: [Wrong; 23] = [
    Wrong::CostUndivided,
    Wrong::StepsUndivided,
    Wrong::FallingOrder,
    Wrong::LastMoveDropped,
    Wrong::OnlyFirstStep,
    Wrong::VersionTwo,
    Wrong::VersionOne,
    Wrong::SourcesOfTheRecord,
    Wrong::EmptyKept,
    Wrong::EmptyVersionOne,
    Wrong::ManyFirst,
    Wrong::ManyWithStep,
    Wrong::Takes513,
    Wrong::Refuses512,
    Wrong::OnlyStepsCounted,
    Wrong::BufferFirst,
    Wrong::BufferOfVersion,
    Wrong::BufferOfRecord,
    Wrong::BufferNotOfEmpty,
    Wrong::BufferOfPlanner,
    Wrong::StepLost,
    Wrong::TailCleared,
    Wrong::PackedAsBuilt,
];

/// The packed answer of a split that gets one thing wrong, or none.
fn misread(wrong: Option<Wrong>, reserve: u64, cluster: &[u8], plan: &[u8], out: &mut [u8]) -> u64 {
    let is = |other: Wrong| wrong == Some(other);
    let refused = |number, step| pack_split(refused(number, step));
    let read = parse_plan(plan).unwrap_or(Plan::empty(Version::One));
    let moves: usize = read.steps.iter().map(Vec::len).sum();
    let needed = match read.version {
        _ if is(Wrong::BufferNotOfEmpty) && plan.is_empty() => 7,
        _ if is(Wrong::BufferOfRecord) => 7 + moves * (2 + read.version.width()),
        _ if is(Wrong::BufferOfPlanner) => 2_562,
        Version::One if is(Wrong::BufferOfVersion) && !plan.is_empty() => OF_VERSION_1,
        _ => 2_567,
    };
    let is_short = out.len() < needed;
    if is(Wrong::BufferFirst) && is_short {
        return refused(10, 0);
    }
    let undivided = match check(reserve, cluster, plan) {
        Verdict::Accepted { cost } => cost,
        Verdict::Refused { number, .. } if is(Wrong::StepLost) => return refused(number, 0),
        Verdict::Refused { number, step } => return refused(number, step),
    };
    let room = parse_cluster(cluster).unwrap();
    let version = match read.version {
        _ if is(Wrong::VersionTwo) => Version::Two,
        _ if is(Wrong::VersionOne) => Version::One,
        _ if plan.is_empty() && !is(Wrong::EmptyVersionOne) => Version::Two,
        version => version,
    };
    let pieces = |(i, step): (usize, &Step)| {
        let mut pieces: Vec<Step> = step.iter().map(|&m| vec![m]).collect();
        if is(Wrong::FallingOrder) {
            pieces.reverse();
        }
        if is(Wrong::LastMoveDropped) && pieces.len() > 1 {
            pieces.pop();
        }
        match is(Wrong::OnlyFirstStep) && i > 0 {
            true => vec![step.clone()],
            false => pieces,
        }
    };
    let mut steps: Vec<Step> = read.steps.iter().enumerate().flat_map(pieces).collect();
    if is(Wrong::SourcesOfTheRecord) && version == Version::Two {
        let source = |m: &mut Move| m.from = Some(room.vms[m.vm].current);
        steps.iter_mut().flatten().for_each(source);
    }
    let most = match () {
        () if is(Wrong::Takes513) => 513,
        () if is(Wrong::Refuses512) => 511,
        () => 512,
    };
    let counted = if is(Wrong::OnlyStepsCounted) { read.steps.len() } else { steps.len() };
    let is_many = counted > most;
    if is(Wrong::ManyFirst) && is_many {
        return refused(14, 0);
    }
    if is_short {
        return refused(10, 0);
    }
    if is_many {
        return refused(14, if is(Wrong::ManyWithStep) { 513 } else { 0 });
    }
    let made = match version {
        Version::One => bare(&steps),
        Version::Two => named(&room, &steps),
    };
    let record = match plan.is_empty() && is(Wrong::EmptyKept) {
        true => vec![],
        false => plan_bytes(&made),
    };
    if is(Wrong::TailCleared) {
        out.fill(0);
    }
    let length = record.len().min(out.len());
    out[..length].copy_from_slice(&record[..length]);
    let cost = match is(Wrong::CostUndivided) {
        true => undivided,
        false => plan_cost(&room, &steps),
    };
    let count = if is(Wrong::StepsUndivided) { read.steps.len() } else { steps.len() } as u64;
    match is(Wrong::PackedAsBuilt) {
        true => count << 53 | (moves as u64) << 44 | cost,
        false => count << 44 | cost,
    }
}

/// Each wrong reading comes out otherwise on some hand-set split, and the right one on none.
#[test]
fn wrong_readings_are_told() {
    let edges = split_edges();
    let otherwise = |wrong: Option<Wrong>| {
        let differs = |buffer: usize, reserve, cluster: &[u8], plan: &[u8]| {
            let (given, before, out) = asked(reserve, cluster, plan, buffer);
            let mut other = before;
            let packed = misread(wrong, reserve, cluster, plan, &mut other);
            (packed, other) != (pack_split(given), out)
        };
        edges.iter().filter(|e| differs(e.buffer, e.reserve, &e.cluster, &e.plan)).count()
    };
    assert_eq!(otherwise(None), 0);
    for wrong in ALL_WRONG {
        let told = otherwise(Some(wrong));
        println!("{wrong:?} is told by {told} hand-set splits");
        assert!(told > 0, "{wrong:?}");
    }
}

/// The moves of one step may go to several in a row, but not past another step: there they may be refused.
#[test]
fn pieces_stay_in_a_row() {
    let room = room(
        &[node(9, 9), node(2, 9), node(9, 9)],
        &[vm(2, 1, 0, 1), vm(1, 1, 0, 2), vm(2, 1, 1, 2)],
        &[],
    );
    let cost = |rows: common::Rows| common::checked(&room, rows);
    assert_eq!(cost(&[&[(1, 2), (2, 2)], &[(0, 1)]]), common::accepted(3 + 4));
    assert_eq!(cost(&[&[(2, 2)], &[(1, 2)], &[(0, 1)]]), common::accepted(2 + 3 + 5));
    assert_eq!(cost(&[&[(1, 2)], &[(2, 2)], &[(0, 1)]]), common::accepted(1 + 3 + 5));
    assert_eq!(cost(&[&[(2, 2)], &[(0, 1)], &[(1, 2)]]), common::accepted(2 + 4 + 5));
    assert_eq!(cost(&[&[(1, 2)], &[(0, 1)], &[(2, 2)]]), common::refused(17, 2));
}

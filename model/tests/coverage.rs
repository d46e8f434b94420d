//! The generators reach every refusal and every answer, and the hand-set cases come out as
//! document 01, as amended, says.

mod common;

use common::{is_given, number_of, NUMBERS};
use kobdrieft_model::edges::{edges, Edge};
use kobdrieft_model::gen::{cases, Case, Origin};
use kobdrieft_model::rules::accepted_cluster;
use kobdrieft_model::*;

/// Builds into a buffer of the case's length; a refusal must leave every byte.
fn built(cluster: &[u8], buffer: usize) -> Answer {
    built_at(0, cluster, buffer)
}

/// The same at a reserve.
fn built_at(reserve: u64, cluster: &[u8], buffer: usize) -> Answer {
    let mut out = vec![0x5A; buffer];
    let answer = build(reserve, cluster, &mut out);
    if let Answer::Refused { .. } = answer {
        assert!(out.iter().all(|&b| b == 0x5A));
    }
    answer
}

#[test]
fn hand_set_cases() {
    let list = edges();
    println!("{} hand-set cases", list.len());
    for edge in list {
        let check = match check(edge.reserve, &edge.cluster, &edge.plan) {
            Verdict::Accepted { .. } => None,
            Verdict::Refused { number, step } => Some((number, step)),
        };
        assert_eq!(check, edge.check, "check: {}", edge.name);
        let build = match built_at(edge.reserve, &edge.cluster, edge.buffer) {
            Answer::Refused { number, step } => {
                assert_eq!(step, 0);
                Some(number)
            }
            _ => None,
        };
        assert_eq!(build, edge.build, "build: {}", edge.name);
    }
}

#[test]
fn hand_set_cases_reach_every_number() {
    let list = edges();
    for number in (1..=9).chain(11..=19).chain([23, 27, 33]) {
        assert!(list.iter().any(|e| e.check.is_some_and(|(n, _)| n == number)), "{number}");
    }
    for version in Version::ALL {
        for number in (0..=9).chain(13..=19).chain([33]) {
            let hits = |e: &&Edge| e.check.map_or(0, |(n, _)| n) == number;
            let of_version = |e: &&Edge| e.plan.first() == Some(&(version as u8));
            assert!(list.iter().filter(hits).any(|e| of_version(&e)), "{version:?} {number}");
        }
    }
    for number in (1..=10).chain([23]) {
        assert!(list.iter().any(|e| e.build == Some(number)), "{number}");
    }
}

#[test]
fn random_cases_reach_everything() {
    let mut checks = [0; NUMBERS];
    let mut builds = [0; 12];
    for Case { cluster, plan, buffer, .. } in cases(20, 40_000) {
        match check(0, &cluster, &plan) {
            Verdict::Accepted { .. } => checks[0] += 1,
            Verdict::Refused { number, step } => {
                assert_eq!(step > 0, matches!(number, 15..=18 | 27 | 33));
                checks[usize::from(number)] += 1;
            }
        }
        match built(&cluster, buffer) {
            Answer::Plan { .. } => builds[0] += 1,
            Answer::Refused { number, .. } => builds[usize::from(number)] += 1,
            Answer::Blocked { .. } => builds[11] += 1,
        }
    }
    println!("check, accepted then by number: {checks:?}");
    println!("build, plan, by number, blocked: {builds:?}");
    for (number, &count) in checks.iter().enumerate() {
        assert!(if is_given(number) { count >= 50 } else { count == 0 }, "check {number}: {count}");
    }
    assert!(builds.iter().all(|&count| count >= 50), "{builds:?}");
}

/// Plans of either version come to every outcome that they can have, and only version 2 to 27.
#[test]
fn random_plans_of_either_version_reach_everything() {
    let mut seen = [[0; NUMBERS]; 2];
    for Case { cluster, plan, .. } in cases(23, 20_000) {
        let Some(version) = plan.first().and_then(|&byte| Version::of(byte)) else { continue };
        seen[version as usize - 1][number_of(check(0, &cluster, &plan))] += 1;
    }
    println!("version 1, accepted then by number: {:?}", seen[0]);
    println!("version 2, accepted then by number: {:?}", seen[1]);
    for number in (0..=9).chain(13..=19).chain([33]) {
        assert!(seen[0][number] >= 20 && seen[1][number] >= 20, "{number}: {seen:?}");
    }
    assert!(seen[0][27] == 0 && seen[1][27] > 500, "{seen:?}");
}

/// Clusters of either version come to every outcome of checking and building.
#[test]
fn random_clusters_of_either_version_reach_everything() {
    let (mut checks, mut builds) = ([[0; NUMBERS]; 2], [[0; 12]; 2]);
    for Case { cluster, plan, buffer, .. } in cases(25, 40_000) {
        let Some(version) = cluster.first().and_then(|&byte| Version::of(byte)) else { continue };
        checks[version as usize - 1][number_of(check(0, &cluster, &plan))] += 1;
        builds[version as usize - 1][match built(&cluster, buffer) {
            Answer::Plan { .. } => 0,
            Answer::Refused { number, .. } => usize::from(number),
            Answer::Blocked { .. } => 11,
        }] += 1;
    }
    println!("check, accepted then by number: {checks:?}");
    println!("build, plan, by number, blocked: {builds:?}");
    for number in [0].into_iter().chain(3..=9).chain(11..=19).chain([27, 33]) {
        assert!(checks.iter().all(|counts| counts[number] >= 20), "check {number}: {checks:?}");
    }
    for number in [0].into_iter().chain(3..=11) {
        assert!(builds.iter().all(|counts| counts[number] >= 20), "build {number}: {builds:?}");
    }
}

/// Launches and shutdowns in plans that are accepted, and what they are refused with.
#[test]
fn random_launches_and_shutdowns() {
    let (mut launches, mut shutdowns) = ([0; NUMBERS], [0; NUMBERS]);
    for Case { cluster, plan, .. } in cases(26, 40_000) {
        let (Ok(room), Ok(plan)) = (accepted_cluster(0, &cluster), parse_plan(&plan)) else {
            continue;
        };
        let (number, at) = match rules::check_steps(&room, &plan.steps) {
            Verdict::Accepted { .. } => (0, plan.steps.len()),
            Verdict::Refused { number, step } => (usize::from(number), usize::from(step)),
        };
        // The moves of the step at fault, or of all steps.
        let from = if number > 0 && at > 0 { at - 1 } else { 0 };
        let mut here = rules::Placement::current(&room);
        plan.steps[..from].iter().for_each(|step| here = here.after(&room, step));
        let place = |m: &Move| here.place.get(m.vm).copied();
        let moves = || plan.steps[from..at].iter().flatten();
        launches[number] += usize::from(moves().any(|m| place(m) == Some(NOWHERE)));
        shutdowns[number] += usize::from(moves().any(|m| m.to == NOWHERE));
    }
    println!("launches, accepted then by number: {launches:?}");
    println!("shutdowns, accepted then by number: {shutdowns:?}");
    for number in [0, 15, 16, 17, 18, 27, 33] {
        assert!(launches[number] >= 10 && shutdowns[number] >= 3, "{number}");
    }
}

/// What plans of each origin come to on whole clusters: accepted, 15, 27, anything else.
#[test]
fn random_plans_of_every_origin() {
    let mut seen = [[[0; 4]; 2]; Origin::ALL.len()];
    for Case { cluster, plan, origin, .. } in cases(24, 30_000) {
        let Ok(Plan { version, steps }) = parse_plan(&plan) else { continue };
        let (Some(origin), true) = (origin, accepted_cluster(0, &cluster).is_ok()) else {
            continue;
        };
        let outcome = match check(0, &cluster, &plan) {
            Verdict::Accepted { .. } => 0,
            Verdict::Refused { number: 15, .. } => 1,
            Verdict::Refused { number: 27, .. } => 2,
            Verdict::Refused { .. } => 3,
        };
        seen[origin as usize][version as usize - 1][outcome] += usize::from(!steps.is_empty());
    }
    for origin in Origin::ALL {
        println!("{origin:?}, by version: accepted, 15, 27, other: {:?}", seen[origin as usize]);
    }
    let [planner, spoilt, stale, one_wrong, turned, other] = seen;
    for outcomes in [planner, spoilt, other].as_flattened() {
        assert!(outcomes[0] > 50 && outcomes[3] > 50, "{seen:?}");
    }
    assert!(one_wrong[1][2] > 500 && other[1][2] > 50 && stale[1][2] > 10, "{seen:?}");
    assert!(turned[1][1] > 200, "{seen:?}");
    assert_eq!(one_wrong[1][0] + turned[1][0], 0, "{seen:?}");
}

/// Every length from 0 to 6 bytes comes up, beside clusters that are taken and that are not.
#[test]
fn random_plans_of_no_bytes_and_of_too_few() {
    let mut no_bytes = [0; 20];
    let mut too_few = [0; 7];
    for Case { cluster, plan, .. } in cases(22, 40_000) {
        match check(0, &cluster, &plan) {
            Verdict::Accepted { cost } if plan.is_empty() => {
                assert_eq!(cost, 0);
                no_bytes[0] += 1;
            }
            Verdict::Refused { number, .. } if plan.is_empty() => {
                no_bytes[usize::from(number)] += 1;
            }
            Verdict::Refused { number: 11, .. } => too_few[plan.len()] += 1,
            _ => assert!(plan.len() >= 7 || accepted_cluster(0, &cluster).is_err()),
        }
    }
    println!("no bytes, accepted then by number: {no_bytes:?}");
    println!("11, by length: {too_few:?}");
    for (number, &count) in no_bytes.iter().enumerate() {
        assert_eq!(count > 0, number < 10 || number == 19, "{number}: {no_bytes:?}");
    }
    assert!(no_bytes[0] >= 200 && no_bytes[19] >= 200, "{no_bytes:?}");
    assert!(no_bytes[1..10].iter().sum::<usize>() >= 200, "{no_bytes:?}");
    assert!(too_few[0] == 0 && too_few[1..].iter().all(|&count| count >= 10), "{too_few:?}");
}

#[test]
fn generators_repeat_themselves() {
    for (x, y) in cases(7, 200).zip(cases(7, 200)) {
        assert_eq!((x.cluster, x.plan, x.buffer), (y.cluster, y.plan, y.buffer));
    }
}

#[test]
fn records_survive_writing_and_reading() {
    for Case { cluster, plan, .. } in cases(21, 3_000) {
        if let Ok(room) = parse_cluster(&cluster) {
            assert_eq!(cluster_bytes(&room), cluster);
        }
        if let (Ok(read), false) = (parse_plan(&plan), plan.is_empty()) {
            assert_eq!(plan_bytes(&read), plan);
        }
    }
}

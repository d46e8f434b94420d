//! A plan of no bytes and the header of a plan of no steps in either version: one verdict for all
//! three on every cluster, whole or damaged.

use kobdrieft_model::edges::{cluster_a, edges, node, room as made, room_2, steps, vm};
use kobdrieft_model::gen::{apart, cases, knot, ring, room, swaps, Case, Rng, Size};
use kobdrieft_model::planner::BUFFER;
use kobdrieft_model::puzzles::puzzle;
use kobdrieft_model::rules::accepted_cluster;
use kobdrieft_model::*;

const HEADERS: [[u8; 7]; 2] = [[1, 0, 0, 0, 7, 0, 0], [2, 0, 0, 0, 7, 0, 0]];

/// How often the three came out accepted, then by number.
type Seen = [usize; 20];

/// The one verdict on all three plans. What it must be is worked out here from the cluster alone:
/// its own refusal, then 19 if some VM is not on its target, else accepted at cost 0.
fn all_three(seen: &mut Seen, cluster: &[u8]) {
    let verdict = check(0, cluster, &[]);
    for header in HEADERS {
        assert_eq!(verdict, check(0, cluster, &header), "{cluster:02x?}");
    }
    let number = match accepted_cluster(0, cluster) {
        Err(number) => number,
        Ok(room) if room.vms.iter().any(|vm| vm.current != vm.target) => 19,
        Ok(_) => 0,
    };
    let expected = match number {
        0 => Verdict::Accepted { cost: 0 },
        _ => Verdict::Refused { number, step: 0 },
    };
    assert_eq!(verdict, expected, "{cluster:02x?}");
    seen[usize::from(number)] += 1;
}

/// Accepted, 1 to 9 and 19 all came at least so often; nothing else did.
fn reached(seen: &Seen, least: usize) {
    println!("accepted, then by number: {seen:?}");
    for (number, &count) in seen.iter().enumerate() {
        let possible = number < 10 || number == 19;
        assert!(if possible { count >= least } else { count == 0 }, "{number}: {seen:?}");
    }
}

#[test]
fn generated_clusters_whole_and_damaged() {
    let mut seen = [0; 20];
    for Case { cluster, .. } in cases(61, 60_000) {
        all_three(&mut seen, &cluster);
    }
    reached(&seen, 200);
}

#[test]
fn hand_set_clusters() {
    let mut seen = [0; 20];
    edges().iter().for_each(|edge| all_three(&mut seen, &edge.cluster));
    reached(&seen, 5);
}

#[test]
fn whole_clusters_of_all_sizes() {
    let mut rng = Rng::new(62);
    let mut seen = [0; 20];
    let sizes = [(Size::Tiny, 2_000), (Size::Small, 2_000), (Size::Medium, 400), (Size::Large, 40)];
    for (size, how_many) in sizes {
        for make in [room, knot, apart] {
            for _ in 0..how_many {
                all_three(&mut seen, &cluster_bytes(&make(&mut rng, size)));
            }
        }
    }
    for _ in 0..5_000 {
        all_three(&mut seen, &cluster_bytes(&puzzle(&mut rng)));
    }
    all_three(&mut seen, &cluster_bytes(&ring(&mut rng, 64)));
    all_three(&mut seen, &cluster_bytes(&swaps(128)));
    println!("accepted {}, refused with 19 {}", seen[0], seen[19]);
    assert!(seen[0] > 500 && seen[19] > 5_000);
    assert_eq!(seen[0] + seen[19], seen.iter().sum());
}

/// Two VMs on three nodes with a constraint of each kind.
fn with_every_kind(current: [usize; 2]) -> Room {
    let vms = current.map(|current| vm(2, 1, current, current % 2));
    let (all, nodes) = (vec![0, 1], vec![0, 1]);
    let constraints = [
        Constraint::Ban { vms: all.clone(), nodes: vec![2] },
        Constraint::Fence { vms: all.clone(), nodes: nodes.clone() },
        Constraint::Spread { vms: all.clone() },
        Constraint::Latency { vms: all, groups: vec![nodes, vec![2]] },
        Constraint::Before { first: 0, second: 1 },
    ];
    made(&[node(2, 1), node(2, 1), node(2, 1)], &vms, &constraints)
}

/// Three VMs of which one is down for good, one to be launched and one to be shut down, with
/// constraints of each kind that it keeps for being down.
fn with_some_down() -> Room {
    let vms = [vm(9, 9, 255, 255), vm(2, 1, 255, 0), vm(2, 1, 0, 255)];
    let (down, all) = (vec![0, 2], vec![0, 1, 2]);
    let constraints = [
        Constraint::Ban { vms: down.clone(), nodes: vec![0, 1] },
        Constraint::Fence { vms: down.clone(), nodes: vec![] },
        Constraint::Spread { vms: all.clone() },
        Constraint::Latency { vms: all, groups: vec![vec![0]] },
        Constraint::Latency { vms: down, groups: vec![] },
        Constraint::Before { first: 2, second: 0 },
    ];
    room_2(&[node(2, 1), node(2, 1)], &vms, &constraints)
}

/// Every byte of these records takes every value, with and without the length stated anew; every
/// front of them is tried, and bytes behind them.
#[test]
fn every_damage_of_one_byte() {
    let mut seen = [0; 20];
    let mut down = with_some_down();
    let rooms = [cluster_a(), with_every_kind([0, 1]), with_every_kind([2, 1]), down.clone()];
    down.vms.truncate(1);
    down.constraints.clear();
    for room in rooms.into_iter().chain([down]) {
        let good = cluster_bytes(&room);
        all_three(&mut seen, &good);
        for length in 0..good.len() {
            let mut front = good[..length].to_vec();
            all_three(&mut seen, &front);
            if length >= 5 {
                records::state_length(&mut front);
                all_three(&mut seen, &front);
            }
            for value in 0..=255 {
                let mut changed = good.clone();
                changed[length] = value;
                all_three(&mut seen, &changed);
            }
        }
        for value in 0..=255 {
            let mut longer = [&good[..], &[value]].concat();
            all_three(&mut seen, &longer);
            records::state_length(&mut longer);
            all_three(&mut seen, &longer);
        }
    }
    reached(&seen, 10);
}

#[test]
fn a_without_bytes() {
    let a = cluster_bytes(&cluster_a());
    assert_eq!(check(0, &a, &[]), Verdict::Refused { number: 19, step: 0 });
    let mut home = cluster_a();
    home.vms.iter_mut().for_each(|vm| vm.current = vm.target);
    assert_eq!(check(0, &cluster_bytes(&home), &[]), Verdict::Accepted { cost: 0 });
    let none = cluster_bytes(&made(&[node(4, 100)], &[], &[]));
    assert_eq!(check(0, &none, &[]), Verdict::Accepted { cost: 0 });
}

#[test]
fn what_plan_bytes_are_read_as() {
    assert_eq!(parse_plan(&[]), Ok(Plan::empty(Version::One)));
    for (version, header) in Version::ALL.into_iter().zip(HEADERS) {
        assert_eq!(parse_plan(&header), Ok(Plan::empty(version)));
        assert_eq!(plan_bytes(&Plan::empty(version)), header);
    }
    let list = steps(&[&[(0, 2)], &[(0, 0)]]);
    for plan in [bare(&list), named(&cluster_a(), &list)] {
        let header = plan_bytes(&Plan::empty(plan.version));
        let plan = plan_bytes(&plan);
        for length in 1..7 {
            for bytes in [&[0; 6], &[255; 6], &header[..6], &plan[..6]] {
                assert_eq!(parse_plan(&bytes[..length]), Err(11));
            }
        }
        assert_eq!(parse_plan(&plan[..7]), Err(13));
    }
    assert_eq!(parse_plan(&[0; 7]), Err(12));
    assert_eq!(parse_plan(&[3, 0, 0, 0, 7, 0, 0]), Err(12));
}

/// Where a plan has no steps, blocked or not, the record written is the header of version 2.
#[test]
fn the_planner_writes_its_header() {
    let mut rng = Rng::new(63);
    let (mut plans, mut blocked) = (0, 0);
    for i in 0..6_000 {
        let room = if i % 2 == 0 { room(&mut rng, Size::Tiny) } else { puzzle(&mut rng) };
        let cluster = cluster_bytes(&room);
        let mut out = [0xAA; BUFFER];
        let answer = build(0, &cluster, &mut out);
        let verdict = check(0, &cluster, &[]);
        match answer {
            Answer::Plan { steps: 0, moves: 0, cost: 0 } => {
                assert_eq!(verdict, Verdict::Accepted { cost: 0 });
                plans += 1;
            }
            Answer::Blocked { steps: 0, moves: 0, cost: 0 } => {
                assert_eq!(verdict, Verdict::Refused { number: 19, step: 0 });
                blocked += 1;
            }
            _ => continue,
        }
        assert_eq!(out[..7], HEADERS[1]);
        assert!(out[7..].iter().all(|&b| b == 0xAA));
    }
    println!("{plans} plans of no steps, {blocked} blocked before the first");
    assert!(plans > 200 && blocked > 200);
}

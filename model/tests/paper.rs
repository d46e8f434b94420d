//! The cases of document 01's "Placements on paper", with its bytes for hand-made plans and with
//! three-byte moves for what the planner writes.

mod common;

use common::{checked, hex, refused};
use kobdrieft_model::edges::{cluster_a, node, room, sourced, steps, vm};
use kobdrieft_model::*;

fn a_bytes() -> Vec<u8> {
    hex("01 00000028 0003 0002 0000 0000040064 0000040064 0000040064 \
         0000030032 00 01 0000020032 01 00")
}

/// Builds for a room, which must write this record; checks it, and its steps in version 1 too.
fn planned(room: &Room, record: &str) -> Answer {
    let (cluster, record) = (cluster_bytes(room), hex(record));
    let mut out = vec![0xAA; 2_562];
    let answer = build(0, &cluster, &mut out);
    assert_eq!(out[..record.len()], record);
    assert!(out[record.len()..].iter().all(|&b| b == 0xAA));
    let expected = match answer {
        Answer::Plan { cost, .. } => Verdict::Accepted { cost },
        Answer::Blocked { .. } => refused(19, 0),
        Answer::Refused { .. } => panic!("refused"),
    };
    assert_eq!(check(0, &cluster, &record), expected);
    let plan = parse_plan(&record).unwrap();
    assert_eq!(check(0, &cluster, &plan_bytes(&bare(&plan.steps))), expected);
    answer
}

fn with_memories(memories: [u64; 3]) -> Room {
    let mut room = cluster_a();
    for (node, memory) in room.nodes.iter_mut().zip(memories) {
        node.memory = memory;
    }
    room
}

#[test]
fn a_has_the_bytes_of_the_paper() {
    assert_eq!(cluster_bytes(&cluster_a()), a_bytes());
    assert_eq!(parse_cluster(&a_bytes()), Ok(cluster_a()));
}

const A_PLANNED: &str = "02 00000016 0003 0001 00 00 02 0001 01 01 00 0001 00 02 01";
const NO_STEPS: &str = "02 00000007 0000";

#[test]
fn a_planned() {
    let answer = planned(&cluster_a(), A_PLANNED);
    assert_eq!(answer, Answer::Plan { steps: 3, moves: 3, cost: 16 });
    let pairs = hex("01 00000013 0003 0001 00 02 0001 01 00 0001 00 01");
    assert_eq!(check(0, &a_bytes(), &pairs), Verdict::Accepted { cost: 16 });
    let list = steps(&[&[(0, 2)], &[(1, 0)], &[(0, 1)]]);
    assert_eq!(plan_bytes(&bare(&list)), pairs);
    assert_eq!(plan_bytes(&named(&cluster_a(), &list)), hex(A_PLANNED));
    let rows = sourced(&[&[(0, 0, 2)], &[(1, 1, 0)], &[(0, 2, 1)]]);
    assert_eq!(parse_plan(&hex(A_PLANNED)), Ok(rows));
}

/// Every byte of A's plan that names a source, with every value: right, or 27 at its step.
#[test]
fn a_with_other_sources() {
    let record = hex(A_PLANNED);
    for (step, at) in [(1, 10), (2, 15), (3, 20)] {
        for source in 0..=255 {
            let mut changed = record.clone();
            changed[at] = source;
            let right = source == record[at];
            let expected = if right { Verdict::Accepted { cost: 16 } } else { refused(27, step) };
            assert_eq!(check(0, &a_bytes(), &changed), expected, "step {step}, source {source}");
        }
    }
}

/// Where a move goes to its VM's place it is 15, whatever its source; else a source that is not
/// that place is 27.
#[test]
fn fifteen_goes_by_the_place() {
    for from in 0..=255 {
        for to in 0..=255 {
            let plan = plan_bytes(&sourced(&[&[(0, from, to)]]));
            let expected = match (from, to) {
                (_, 0 | 3..) => refused(15, 1),
                (1.., _) => refused(27, 1),
                (_, 1) => refused(17, 1),
                _ => refused(19, 0),
            };
            assert_eq!(check(0, &a_bytes(), &plan), expected, "from {from} to {to}");
        }
    }
}

#[test]
fn a_with_zero_steps_and_with_both_at_once() {
    assert_eq!(checked(&cluster_a(), &[]), refused(19, 0));
    assert_eq!(checked(&cluster_a(), &[&[(0, 1), (1, 0)]]), refused(17, 1));
}

#[test]
fn capacities_5() {
    let record = "02 0000000f 0001 0002 00 00 01 01 01 00";
    let answer = planned(&with_memories([5, 5, 5]), record);
    assert_eq!(answer, Answer::Plan { steps: 1, moves: 2, cost: 5 });
}

#[test]
fn node_2_of_memory_2_and_the_ban() {
    let record = "02 00000016 0003 0001 01 01 02 0001 00 00 01 0001 01 02 00";
    let fourteen = Answer::Plan { steps: 3, moves: 3, cost: 14 };
    assert_eq!(planned(&with_memories([4, 4, 2]), record), fourteen);
    let mut banned = cluster_a();
    banned.constraints.push(Constraint::Ban { vms: vec![0], nodes: vec![2] });
    assert_eq!(planned(&banned, record), fourteen);
}

#[test]
fn node_2_of_memory_1() {
    let answer = planned(&with_memories([4, 4, 1]), NO_STEPS);
    assert_eq!(answer, Answer::Blocked { steps: 0, moves: 0, cost: 0 });
}

#[test]
fn capacities_9_with_a_spread() {
    let mut room = with_memories([9, 9, 9]);
    room.constraints.push(Constraint::Spread { vms: vec![0, 1] });
    assert_eq!(checked(&room, &[&[(0, 1), (1, 0)]]), refused(18, 1));
    let answer = planned(&room, A_PLANNED);
    assert_eq!(answer, Answer::Plan { steps: 3, moves: 3, cost: 16 });
}

#[test]
fn no_vms() {
    let answer = planned(&room(&[node(4, 100)], &[], &[]), NO_STEPS);
    assert_eq!(answer, Answer::Plan { steps: 0, moves: 0, cost: 0 });
}

#[test]
fn blocked_although_a_plan_exists() {
    let room = room(
        &[node(4, 100), node(2, 100), node(1, 100)],
        &[vm(2, 10, 2, 0), vm(2, 10, 1, 0), vm(2, 10, 0, 1)],
        &[],
    );
    let answer = planned(&room, "02 0000000c 0001 0001 00 02 00");
    assert_eq!(answer, Answer::Blocked { steps: 1, moves: 1, cost: 2 });
    let by_hand = checked(&room, &[&[(1, 0)], &[(2, 1)], &[(0, 0)]]);
    assert_eq!(by_hand, Verdict::Accepted { cost: 12 });
}

#[test]
fn small_limits() {
    assert_eq!(checked(&cluster_a(), &[&[(0, 0)]]), refused(15, 1));
    let with = |n: usize| cluster_bytes(&room(&vec![node(4, 100); n], &[], &[]));
    for version in Version::ALL {
        let nothing = plan_bytes(&Plan::empty(version));
        assert_eq!(check(0, &with(64), &nothing), Verdict::Accepted { cost: 0 });
        assert_eq!(check(0, &with(65), &nothing), refused(4, 0));
    }
    let mut out = vec![0xAA; 2_561];
    assert_eq!(build(0, &a_bytes(), &mut out), Answer::Refused { number: 10, step: 0 });
    assert!(out.iter().all(|&b| b == 0xAA));
    let mut out = vec![0xAA; 2_562];
    assert!(matches!(build(0, &a_bytes(), &mut out), Answer::Plan { .. }));
}

#[test]
fn packed_numbers() {
    assert_eq!(pack_verdict(Verdict::Accepted { cost: 16 }), 16);
    assert_eq!(pack_verdict(refused(17, 1)), 0x8000_0000_0011_0001);
    assert_eq!(pack_verdict(refused(27, 512)), 0x8000_0000_001B_0200);
    assert_eq!(
        pack_answer(Answer::Plan { steps: 3, moves: 3, cost: 16 }),
        (3 << 53) | (3 << 44) | 16
    );
    assert_eq!(
        pack_answer(Answer::Blocked { steps: 1, moves: 1, cost: 2 }),
        (1 << 62) | (1 << 53) | (1 << 44) | 2
    );
    assert_eq!(pack_answer(Answer::Refused { number: 10, step: 0 }), (2 << 62) | (10 << 16));
    let most = Answer::Blocked { steps: 511, moves: 511, cost: (1 << 44) - 1 };
    assert_eq!(pack_answer(most), (1 << 63) - 1);
}

#[test]
fn a_printed() {
    let lines = "plan steps 3 moves 3 cost 16\n1 0 0 2\n2 1 1 0\n3 0 2 1\n";
    assert_eq!(text::plan_text(0, &a_bytes()), lines);
    assert_eq!(text::plan_text(0, &[]), "refused 1 step 0\n");
    let blocked = cluster_bytes(&with_memories([4, 4, 1]));
    assert_eq!(text::plan_text(0, &blocked), "blocked steps 0 moves 0 cost 0\n");
}

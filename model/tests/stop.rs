//! Plans stopped in the middle: each refusal and their order, the record that is written, and what a
//! stop at any moment of a run leaves.

mod common;

use common::{all_of_the_checker, hex, in_both_versions, number_of, Seen, DOWN, NUMBERS};
use kobdrieft_model::edges::{
    a_with, cluster_a, edges, header, node, over_usable, room, room_2, steps, stop_edges, vm,
};
use kobdrieft_model::gen::{cases, sized_case, Rng, Size};
use kobdrieft_model::moments::{every_moment, Places};
use kobdrieft_model::orders::{every_state, Phase};
use kobdrieft_model::planner::BUFFER;
use kobdrieft_model::puzzles::{missed, puzzle};
use kobdrieft_model::reserves::reserved;
use kobdrieft_model::rules::{accepted_cluster, mates, usable_room, Placement};
use kobdrieft_model::stops::{right_stop, some_stop, Ask, CUT_OFF};
use kobdrieft_model::text::{read_marks, read_number, stopped};
use kobdrieft_model::*;
use std::collections::{BTreeMap, BTreeSet};

/// A's cluster and plan, as the bytes of document 01.
const A: &str = "01 00000028 0003 0002 0000 0000040064 0000040064 0000040064 0000030032 00 01 \
                 0000020032 01 00";
const A_PLAN: &str = "01 00000013 0003 0001 00 02 0001 01 00 0001 00 01";
const A_PLAN_2: &str = "02 00000016 0003 0001 00 00 02 0001 01 01 00 0001 00 02 01";

fn refused(number: u8, step: u16) -> Stop {
    Stop::Refused { number, step }
}

/// What a stop gives, with the buffer after it. At first the buffer has random bytes.
fn asked(reserve: u64, cluster: &[u8], plan: &[u8], ask: &Ask) -> (Stop, Vec<u8>, Vec<u8>) {
    let mut rng = Rng::new(ask.step ^ ask.buffer as u64);
    let before: Vec<u8> = (0..ask.buffer).map(|_| rng.draw() as u8).collect();
    let mut out = before.clone();
    let given = stop(reserve, cluster, plan, ask.step, &ask.marks, &mut out);
    (given, before, out)
}

/// The current places that a record states, read at their bytes.
fn places(cluster: &[u8]) -> Vec<usize> {
    let count = |at: usize| usize::from(cluster[at]) * 256 + usize::from(cluster[at + 1]);
    let first = 11 + 5 * count(5) + 5;
    (0..count(7)).map(|vm| usize::from(cluster[first + 7 * vm])).collect()
}

/// A record with other current places, put in at their bytes.
fn with_places(cluster: &[u8], places: &[usize]) -> Vec<u8> {
    let mut record = cluster.to_vec();
    let first = 11 + 5 * (usize::from(record[5]) * 256 + usize::from(record[6])) + 5;
    for (vm, &place) in places.iter().enumerate() {
        record[first + 7 * vm] = place as u8;
    }
    record
}

/// Stops a plan that is accepted, and gives the record.
fn record_at(reserve: u64, cluster: &[u8], plan: &[u8], step: u64, marks: &[u8]) -> Vec<u8> {
    let ask = Ask { step, marks: marks.to_vec(), buffer: cluster.len() };
    let (given, _, out) = asked(reserve, cluster, plan, &ask);
    assert_eq!(given, Stop::Done { length: cluster.len() });
    out
}

// ---------------------------------------------------------------- by hand

#[test]
fn hand_set_stops_come_out_as_they_should() {
    let (mut done, mut numbers) = (0, [0; NUMBERS]);
    for edge in stop_edges() {
        let (given, before, out) = asked(edge.reserve, &edge.cluster, &edge.plan, &edge.ask);
        match edge.ends {
            Ok(places) => {
                let record = with_places(&edge.cluster, &places);
                assert_eq!(given, Stop::Done { length: record.len() }, "{}", edge.name);
                assert_eq!(out, [&record[..], &before[record.len()..]].concat(), "{}", edge.name);
                done += 1;
            }
            Err((number, step)) => {
                assert_eq!((given, out), (refused(number, step), before), "{}", edge.name);
                numbers[usize::from(number)] += 1;
            }
        }
    }
    println!("{done} done, refused by number {numbers:?}");
    assert!(done > 300 && [15, 16, 17, 18, 19, 20, 21, 22, 23, 33].iter().all(|&n| numbers[n] > 5));
}

#[test]
fn a_stopped_byte_by_byte() {
    let (a, one, two) = (hex(A), hex(A_PLAN), hex(A_PLAN_2));
    assert_eq!((a.len(), one.len(), two.len()), (40, 19, 22));
    for plan in [&one, &two] {
        let mut out = [7; 45];
        assert_eq!(stop(0, &a, plan, 2, &[1], &mut out), Stop::Done { length: 40 });
        let after = "01 00000028 0003 0002 0000 0000040064 0000040064 0000040064 0000030032 02 01 \
                     0000020032 00 00 07 07 07 07 07";
        assert_eq!(out[..], hex(after));
        let mut out = [7; 40];
        assert_eq!(stop(0, &a, plan, 1, &[0], &mut out), Stop::Done { length: 40 });
        assert_eq!(out[..], a, "nothing has moved");
        let mut out = [7; 39];
        assert_eq!(stop(0, &a, plan, 1, &[0], &mut out), refused(22, 0));
        assert_eq!(out, [7; 39]);
    }
}

#[test]
fn what_is_given_as_a_number() {
    assert_eq!(pack_stop(Stop::Done { length: 40 }), 40);
    assert_eq!(pack_stop(Stop::Done { length: 65_535 }), 65_535);
    assert_eq!(pack_stop(refused(20, 0)), 1 << 63 | 20 << 16);
    assert_eq!(pack_stop(refused(17, 512)), 1 << 63 | 17 << 16 | 512);
    assert_eq!(pack_stop(refused(23, 0)), pack_verdict(common::refused(23, 0)));
}

#[test]
fn words_and_lines() {
    assert_eq!(read_marks(""), Some(vec![]));
    assert_eq!(read_marks("0110"), Some(vec![0, 1, 1, 0]));
    assert_eq!(read_marks("29"), Some(vec![2, 9]));
    for other in ["x", "1 0", "-1", "1,0", "+", "0x1", "\u{661}", "1\n"] {
        assert_eq!(read_marks(other), None, "{other:?}");
        assert_eq!(read_number(other), None, "{other:?}");
    }
    assert_eq!((read_number(""), read_number("007")), (None, Some(7)));
    let long = "9".repeat(30);
    let (a, plan) = (hex(A), hex(A_PLAN));
    let said = |step: &str, marks: &str| {
        stopped(0, &a, &plan, read_number(step).unwrap(), &read_marks(marks).unwrap())
    };
    let (line, record) = said("1", "1");
    assert_eq!((&line[..], places(&record.unwrap())), ("stopped length 40\n", vec![2, 1]));
    for (step, marks, line) in [
        ("0", "1", "refused 20 step 0\n"),
        (&long, "1", "refused 20 step 0\n"),
        ("18446744073709551617", "1", "refused 20 step 0\n"),
        ("1", "", "refused 20 step 0\n"),
        ("1", "2", "refused 21 step 0\n"),
    ] {
        assert_eq!(said(step, marks), (line.to_string(), None));
    }
    assert_eq!(stopped(0, &a, &[1], 1, &[1]), ("refused 11 step 0\n".to_string(), None));
}

/// However wrong a stop is, what the checker refuses comes first and as the checker gives it.
#[test]
fn the_checkers_refusals_come_first() {
    let mut numbers = [0; NUMBERS];
    for edge in edges() {
        let verdict = check(edge.reserve, &edge.cluster, &edge.plan);
        let Verdict::Refused { number, step } = verdict else { continue };
        let length = edge.cluster.len();
        let one = parse_plan(&edge.plan).ok().and_then(|plan| plan.steps.first().map(Vec::len));
        let asks = [
            (1, vec![1; one.unwrap_or(1)], length),
            (0, vec![], length),
            (1, vec![2; one.unwrap_or(1)], length),
            (1, vec![0; one.unwrap_or(1)], 0),
            (u64::MAX, vec![255; 300], 0),
        ];
        for (step_asked, marks, buffer) in asks {
            let ask = Ask { step: step_asked, marks, buffer };
            let (given, before, out) = asked(edge.reserve, &edge.cluster, &edge.plan, &ask);
            assert_eq!((given, out), (refused(number, step), before), "{}", edge.name);
        }
        numbers[usize::from(number)] += 1;
    }
    all_of_the_checker(&numbers);
}

/// Every step of every plan that is accepted here, with bits added that a shorter number would lose.
#[test]
fn a_step_is_not_cut() {
    let mut cut = 0;
    for edge in edges() {
        let Verdict::Accepted { .. } = check(edge.reserve, &edge.cluster, &edge.plan) else {
            continue;
        };
        let plan = parse_plan(&edge.plan).unwrap();
        let count = plan.steps.len() as u64;
        for (i, step) in plan.steps.iter().enumerate().take(2) {
            for more in CUT_OFF {
                let at = i as u64 + 1 + more;
                let ask = Ask { step: at, marks: vec![1; step.len()], buffer: edge.cluster.len() };
                let (given, before, out) = asked(edge.reserve, &edge.cluster, &edge.plan, &ask);
                if at > count {
                    assert_eq!((given, out), (refused(20, 0), before), "{}", edge.name);
                    cut += 1;
                }
            }
        }
    }
    assert!(cut > 500, "{cut}");
}

/// A plan of no steps, as a file of 0 bytes or as a header, has no step to be stopped in.
#[test]
fn no_steps_cannot_be_stopped() {
    let home = cluster_bytes(&room(&[node(9, 9)], &[vm(1, 1, 0, 0)], &[]));
    for plan in [vec![], header(Version::One), header(Version::Two)] {
        assert_eq!(check(0, &home, &plan), common::accepted(0));
        for step in [0, 1, 2, 65_537, u64::MAX] {
            for marks in [&[][..], &[0], &[1], &[2]] {
                let ask = Ask { step, marks: marks.to_vec(), buffer: home.len() };
                assert_eq!(asked(0, &home, &plan, &ask).0, refused(20, 0));
            }
        }
    }
    let a = cluster_bytes(&cluster_a());
    let ask = Ask { step: 1, marks: vec![], buffer: 0 };
    assert_eq!(asked(0, &a, &[], &ask).0, refused(19, 0));
}

/// A node that is over what is usable of it stays so while its VM is called back, and both records are
/// taken again, at this reserve and with none.
#[test]
fn stopped_at_a_reserve() {
    let room = over_usable(true, 1, 1);
    let cluster = cluster_bytes(&room);
    let list = steps(&[&[(0, 1)], &[(2, 0)]]);
    for plan in [bare(&list), named(&room, &list)].map(|plan| plan_bytes(&plan)) {
        for (mark, place) in [(0, 0), (1, 1)] {
            let after = record_at(20, &cluster, &plan, 1, &[mark]);
            assert_eq!(places(&after), [place, 0, 2]);
            for reserve in [0, 20] {
                assert!(accepted_cluster(reserve, &after).is_ok());
            }
            assert_eq!(record_at(0, &cluster, &plan, 1, &[mark]), after);
        }
        let ask = Ask { step: 1, marks: vec![1], buffer: cluster.len() };
        assert_eq!(asked(91, &cluster, &plan, &ask).0, refused(23, 0));
        assert_eq!(asked(60, &cluster, &plan, &ask).0, refused(8, 0));
    }
}

/// Going on from where a plan was stopped: with the whole step ended the rest of the plan is accepted,
/// and behind the last step there is nothing left to do.
#[test]
fn what_is_left_of_a_plan() {
    let mut rng = Rng::new(11);
    let (mut rests, mut homes) = (0, 0);
    while rests < 3_000 {
        let case = sized_case(&mut rng, Size::Tiny);
        let Verdict::Accepted { .. } = check(0, &case.cluster, &case.plan) else { continue };
        let plan = parse_plan(&case.plan).unwrap();
        for (i, step) in plan.steps.iter().enumerate() {
            let at = i as u64 + 1;
            let all = record_at(0, &case.cluster, &case.plan, at, &vec![1; step.len()]);
            let rest = Plan { steps: plan.steps[i + 1..].to_vec(), ..plan };
            let accepted = |cluster: &[u8], plan: &Plan| {
                assert!(matches!(check(0, cluster, &plan_bytes(plan)), Verdict::Accepted { .. }));
            };
            accepted(&all, &rest);
            let none = record_at(0, &case.cluster, &case.plan, at, &vec![0; step.len()]);
            accepted(&none, &Plan { steps: plan.steps[i..].to_vec(), ..plan });
            if rest.steps.is_empty() {
                let verdict = check(0, &all, &[]);
                assert_eq!(verdict, common::accepted(0));
                homes += 1;
            }
            rests += 1;
        }
    }
    assert!(homes > 500, "{homes}");
}

/// Stopped before anything has ended, a plan that the planner would have missed leaves a room that is
/// taken and blocked; once the planner can go on from there it does.
#[test]
fn stopped_where_the_planner_gets_stuck() {
    let mut rng = Rng::new(19);
    let mut answers = [0; 3];
    for _ in 0..500 {
        let (room, list) = missed(&mut rng);
        let cluster = cluster_bytes(&room);
        for plan in [bare(&list), named(&room, &list)].map(|plan| plan_bytes(&plan)) {
            assert_eq!(number_of(check(0, &cluster, &plan)), 0);
            let ask = right_stop(&mut rng, &cluster, &plan);
            let record = record_at(0, &cluster, &plan, ask.step, &ask.marks);
            let unchanged = record == cluster;
            match build(0, &record, &mut [0; BUFFER]) {
                Answer::Plan { .. } => answers[0] += 1,
                Answer::Blocked { steps, .. } => answers[1 + usize::from(steps > 0)] += 1,
                Answer::Refused { number, .. } => panic!("refused with {number}"),
            }
            let answer = build(0, &cluster, &mut [0; BUFFER]);
            assert!(matches!(answer, Answer::Blocked { .. }), "{answer:?}");
            assert!(!unchanged || build(0, &record, &mut [0; BUFFER]) == answer);
        }
    }
    println!("plan, blocked at once, blocked late: {answers:?}");
    assert!(answers.iter().all(|&count| count > 50), "{answers:?}");
}

// ---------------------------------------------------------------- generated stops

/// Whether a plan has this step with so many moves.
fn has_step(plan: &[u8], step: u64, moves: usize) -> bool {
    let steps = parse_plan(plan).unwrap().steps;
    let mut numbered = (1u64..).zip(&steps);
    numbered.any(|(number, of)| number == step && of.len() == moves)
}

/// The refusal of a stop, by one test behind the other.
fn refusal(reserve: u64, cluster: &[u8], plan: &[u8], ask: &Ask) -> Option<(u8, u16)> {
    match check(reserve, cluster, plan) {
        Verdict::Refused { number, step } => Some((number, step)),
        _ if !has_step(plan, ask.step, ask.marks.len()) => Some((20, 0)),
        _ if ask.marks.iter().any(|mark| ![0, 1].contains(mark)) => Some((21, 0)),
        _ if ask.buffer < cluster.len() => Some((22, 0)),
        _ => None,
    }
}

/// Where VMs are with all steps before one made, and of that one the moves that are marked.
fn rest(room: &Room, plan: &Plan, step: u64, marks: &[u8]) -> Vec<usize> {
    let (before, from) = plan.steps.split_at(step as usize - 1);
    let mut places = Places::current(room).after(before);
    for (m, _) in from[0].iter().zip(marks).filter(|(_, &mark)| mark == 1) {
        places.begin(m);
        places.end(m);
    }
    places.at_rest()
}

#[test]
fn generated_stops_come_out_as_they_should() {
    let mut rng = Rng::new(12);
    let (mut done, mut numbers) = (0, [0; NUMBERS]);
    for (i, case) in cases(13, 60_000).enumerate() {
        let (reserve, cluster) = match i % 3 {
            0 => reserved(&mut rng, &case.cluster),
            _ => (0, case.cluster),
        };
        let ask = some_stop(&mut rng, &cluster, &case.plan);
        let (given, before, out) = asked(reserve, &cluster, &case.plan, &ask);
        if let Some((number, step)) = refusal(reserve, &cluster, &case.plan, &ask) {
            assert_eq!((given, out), (refused(number, step), before));
            numbers[usize::from(number)] += 1;
            continue;
        }
        let (room, plan) = (parse_cluster(&cluster).unwrap(), parse_plan(&case.plan).unwrap());
        let places = rest(&room, &plan, ask.step, &ask.marks);
        let record = with_places(&cluster, &places);
        assert_eq!(given, Stop::Done { length: cluster.len() });
        assert_eq!(out, [&record[..], &before[record.len()..]].concat());
        assert_eq!(record[0], cluster[0], "the version");
        assert!(accepted_cluster(reserve, &record).is_ok());
        let answer = build(reserve, &record, &mut [0; BUFFER]);
        assert!(!matches!(answer, Answer::Refused { .. }));
        done += 1;
    }
    println!("{done} done, refused by number {numbers:?}");
    let given = (1..=9).chain(11..=23).chain([27, 33]);
    assert!(given.into_iter().all(|number| numbers[number] > 20), "{numbers:?}");
    assert!(done > 5_000, "{done}");
}

/// The numbers of a plan's refusals are no matter of its version, if all sources are right.
#[test]
fn both_plan_versions_are_stopped_alike() {
    let mut rng = Rng::new(14);
    let mut done = 0;
    for case in cases(15, 20_000) {
        let Some((_, [one, two])) = in_both_versions(&case) else { continue };
        let ask = some_stop(&mut rng, &case.cluster, &one);
        let by = [one, two].map(|plan| asked(0, &case.cluster, &plan, &ask));
        assert_eq!(by[0], by[1]);
        done += usize::from(matches!(by[0].0, Stop::Done { .. }));
    }
    assert!(done > 2_000, "{done}");
}

// ---------------------------------------------------------------- every moment

#[test]
fn marks_agree_with_a_moment() {
    let step = steps(&[&[(0, 2), (1, 0)]]).remove(0);
    let start = Places::current(&cluster_a());
    let mut seen = BTreeMap::new();
    every_moment(&start, &step, |moment| {
        seen.insert(format!("{:?}", moment.phases), moment.marks());
    });
    assert_eq!(seen.len(), 9);
    assert_eq!(seen["[Waiting, Waiting]"], [[0, 0]]);
    assert_eq!(seen["[Running, Waiting]"], [[0, 0], [1, 0]]);
    assert_eq!(seen["[Running, Ended]"], [[0, 1], [1, 1]]);
    assert_eq!(seen["[Running, Running]"].len(), 4);
    assert_eq!(seen["[Ended, Waiting]"], [[1, 0]]);
}

/// Orders reach the states that are gone through for longer steps.
#[test]
fn moments_are_all_states() {
    let room = room(&vec![node(9, 9); 4], &vec![vm(1, 1, 0, 1); 4], &[]);
    for moves in 0..=4 {
        let step: Step = (0..moves).map(|vm| Move::bare(vm, 1)).collect();
        let (mut moments, mut states) = (BTreeSet::new(), BTreeSet::new());
        let words = |phases: &[Phase]| format!("{phases:?}");
        every_moment(&Places::current(&room), &step, |at| {
            moments.insert(words(&at.phases));
        });
        every_state(moves, |phases| {
            states.insert(words(phases));
        });
        assert_eq!(moments, states);
        assert_eq!(moments.len(), 3usize.pow(moves as u32));
    }
}

/// What a stop must keep, told by the records before the plan and after the stop alone.
struct Kept {
    before: Room,
    start: Placement,
}

impl Kept {
    fn of(reserve: u64, cluster: &[u8]) -> Kept {
        let before = usable_room(reserve, &parse_cluster(cluster).unwrap());
        Kept { start: Placement::current(&before), before }
    }

    /// What is broken: a node that was within its usable memory or CPU and no longer is, or was over and
    /// holds more than it did; mates that were apart and are not; a VM that should run and is down.
    fn broken(&self, after: &Room) -> Option<String> {
        let end = Placement::current(after);
        for (node, (was, is)) in self.start.sums.iter().zip(&end.sums).enumerate() {
            let has = &self.before.nodes[node];
            if is.memory > has.memory.max(was.memory) || is.cpu > has.cpu.max(was.cpu) {
                return Some(format!("node {node}"));
            }
        }
        let apart = |here: &Placement, a: usize, b: usize| {
            here.place[a] == DOWN || here.place[a] != here.place[b]
        };
        for (a, vm) in self.before.vms.iter().enumerate() {
            let met = |&b: &usize| apart(&self.start, a, b) && !apart(&end, a, b);
            if let Some(b) = mates(&self.before, a).into_iter().find(met) {
                return Some(format!("VMs {a} and {b}"));
            }
            if vm.target != DOWN && self.start.place[a] != DOWN && end.place[a] == DOWN {
                return Some(format!("VM {a}"));
            }
        }
        None
    }
}

/// A small plan that is accepted at its reserve, in a room that may be on the edge at it.
fn small_plan(rng: &mut Rng) -> (u64, Vec<u8>, Vec<u8>) {
    loop {
        let (cluster, plan) = if rng.chance(70) {
            let case = sized_case(rng, Size::Tiny);
            (case.cluster, case.plan)
        } else {
            let room = puzzle(rng);
            let steps = planner::make_steps(&room).0;
            let plan = if rng.chance(50) { bare(&steps) } else { named(&room, &steps) };
            (cluster_bytes(&room), plan_bytes(&plan))
        };
        let (reserve, cluster) = match rng.chance(40) {
            true => reserved(rng, &cluster),
            false => (0, cluster),
        };
        if let Verdict::Accepted { .. } = check(reserve, &cluster, &plan) {
            return (reserve, cluster, plan);
        }
    }
}

/// At every moment of every order, whatever the hypervisor does with the moves that run: the VMs are
/// where the record says, and that record keeps what it must and is taken for planning again.
#[test]
fn a_stop_at_any_moment() {
    let mut rng = Rng::new(16);
    let mut seen = Seen::default();
    for _ in 0..6_000 {
        let (reserve, cluster, bytes) = small_plan(&mut rng);
        let (room, plan) = (parse_cluster(&cluster).unwrap(), parse_plan(&bytes).unwrap());
        let kept = Kept::of(reserve, &cluster);
        let mut start = Places::current(&room);
        for (i, step) in plan.steps.iter().enumerate() {
            if step.len() > 6 {
                break;
            }
            let here = Placement::of(&kept.before, start.at_rest());
            let mut records = BTreeMap::new();
            every_moment(&start, step, |moment| {
                for marks in moment.marks() {
                    let at = i as u64 + 1;
                    let stopped = || record_at(reserve, &cluster, &bytes, at, &marks);
                    let record = records.entry(marks.clone()).or_insert_with(stopped);
                    assert_eq!(places(record), moment.stopped(&marks));
                }
                let runs = moment.phases.iter().filter(|&&p| p == Phase::Running).count();
                seen.note("a moment with three moves running", runs >= 3);
            });
            assert_eq!(records.len(), 1 << step.len(), "with all moves running all marks agree");
            for (marks, record) in &records {
                let after = accepted_cluster(reserve, record).expect("taken again");
                assert_eq!(with_places(&cluster, &places(record)), *record, "all else stays");
                assert_eq!(kept.broken(&after), None);
                tell(&mut seen, &kept, &here, &plan, (i, step), marks, &after);
            }
            seen.note("at a reserve", reserve > 0);
            start = start.after(std::slice::from_ref(step));
        }
    }
    seen.all_often();
}

/// Notes what there is to tell of a stop.
fn tell(
    seen: &mut Seen,
    kept: &Kept,
    here: &Placement,
    plan: &Plan,
    (at, step): (usize, &Step),
    marks: &[u8],
    after: &Room,
) {
    let ended = |m: &Move| {
        let (i, _) = step.iter().enumerate().find(|(_, other)| other.vm == m.vm).unwrap();
        marks[i] == 1
    };
    let any = |holds: &dyn Fn(&Move) -> bool| step.iter().any(holds);
    let launch = |m: &Move| here.place[m.vm] == DOWN;
    let shutdown = |m: &Move| m.to == DOWN;
    let pivot = |m: &Move| !shutdown(m) && m.to != kept.before.vms[m.vm].target;
    seen.note("a launch ended", any(&|m| launch(m) && ended(m)));
    seen.note("a launch called back", any(&|m| launch(m) && !ended(m)));
    seen.note("a shutdown ended", any(&|m| shutdown(m) && ended(m)));
    seen.note("a shutdown called back", any(&|m| shutdown(m) && !ended(m)));
    seen.note("a pivot ended", any(&|m| pivot(m) && ended(m)));
    seen.note("a pivot called back", any(&|m| pivot(m) && !ended(m)));
    seen.note("some ended and some not", any(&|m| ended(m)) && any(&|m| !ended(m)));
    seen.note("in the first step of some", at == 0 && plan.steps.len() > 1);
    seen.note("in the middle", at > 0 && at + 1 < plan.steps.len());
    seen.note("in the last step of some", at > 0 && at + 1 == plan.steps.len());
    seen.note("cluster version 1", after.version == Version::One);
    seen.note("cluster version 2", after.version == Version::Two);
    seen.note("plan version 1", plan.version == Version::One);
    seen.note("plan version 2", plan.version == Version::Two);
    let over = |room: &Room| {
        let sums = Placement::current(room).sums;
        let mut both = sums.iter().zip(&room.nodes);
        both.any(|(sum, node)| sum.memory > node.memory || sum.cpu > node.cpu)
    };
    seen.note("a node over at first", over(&kept.before));
    seen.note("a node over still", over(after));
    seen.note("a node over no longer", over(&kept.before) && !over(after));
    let busy = |m: &Move| here.sums[m.to].cpu > kept.before.nodes[m.to].cpu;
    let idle = |m: &Move| kept.before.vms[m.vm].is_idle() && m.to != DOWN && busy(m);
    seen.note("an idle VM came to a busy node", any(&|m| idle(m) && ended(m)));
    let mut waits = kept.before.befores();
    seen.note("one that waited is moved", waits.any(|(_, vm)| any(&|m| m.vm == vm && ended(m))));
    let mates_moved = |m: &Move| !mates(&kept.before, m.vm).is_empty();
    seen.note("one with mates is moved", any(&|m| mates_moved(m) && ended(m)));
    seen.note("all are home", Placement::current(after).out_of_place(after).is_empty());
}

/// Steps of many moves, with any marks.
#[test]
fn a_wide_step_stopped_at_random() {
    let mut rng = Rng::new(17);
    let mut moves = 0;
    for _ in 0..60 {
        let case = sized_case(&mut rng, Size::Large);
        let Verdict::Accepted { .. } = check(0, &case.cluster, &case.plan) else { continue };
        let kept = Kept::of(0, &case.cluster);
        for _ in 0..10 {
            let ask = right_stop(&mut rng, &case.cluster, &case.plan);
            if !ask.marks.is_empty() {
                let after = record_at(0, &case.cluster, &case.plan, ask.step, &ask.marks);
                let after = accepted_cluster(0, &after).expect("taken again");
                assert_eq!(kept.broken(&after), None);
                moves += ask.marks.len();
            }
        }
    }
    assert!(moves > 1_000, "{moves}");
}

// ---------------------------------------------------------------- what would be wrong

/// A stop in which a departure paid for an arrival would overfill: such a step is refused at once.
#[test]
fn what_cannot_be_stopped_was_never_accepted() {
    let a = cluster_bytes(&cluster_a());
    let both = plan_bytes(&bare(&steps(&[&[(0, 1), (1, 0)]])));
    let ask = Ask { step: 1, marks: vec![1, 0], buffer: a.len() };
    assert_eq!(asked(0, &a, &both, &ask).0, refused(17, 1));
    let five = cluster_bytes(&a_with(5, 5));
    assert_eq!(places(&record_at(0, &five, &both, 1, &[1, 0])), [1, 1]);
    let vms = [vm(3, 50, 0, DOWN), vm(2, 50, DOWN, 0)];
    let turn = cluster_bytes(&room_2(&[node(4, 100)], &vms, &[]));
    let both = plan_bytes(&bare(&steps(&[&[(0, DOWN), (1, 0)]])));
    let ask = Ask { step: 1, marks: vec![0, 1], buffer: turn.len() };
    assert_eq!(asked(0, &turn, &both, &ask).0, refused(17, 1));
}

/// A first step that does not fit, or in which mates meet, could be stopped so that this shows in the
/// record; only mates that are together at first may end so. That is why it is refused.
#[test]
fn refused_steps_would_leave_what_is_wrong() {
    let mut rng = Rng::new(20);
    let mut found = [0; 3];
    for _ in 0..60_000 {
        let case = sized_case(&mut rng, Size::Tiny);
        let (number, met) = match check(0, &case.cluster, &case.plan) {
            Verdict::Refused { number: 17, step: 1 } => (17, false),
            Verdict::Refused { number: 18, step: 1 } => (18, true),
            _ => continue,
        };
        let room = parse_cluster(&case.cluster).unwrap();
        let steps = parse_plan(&case.plan).unwrap().steps;
        if steps[0].len() > 6 {
            continue;
        }
        let kept = Kept::of(0, &case.cluster);
        let moment = |marks: Vec<u8>| stop::stopped(room.clone(), &steps, 1, &marks).unwrap();
        let mut broken = false;
        for bits in 0..1 << steps[0].len() {
            let marks = (0..steps[0].len()).map(|i| (bits >> i & 1) as u8).collect();
            broken |= kept.broken(&moment(marks)).is_some();
        }
        assert!(broken || met, "refused with {number}");
        found[usize::from(met) + usize::from(met && !broken)] += 1;
    }
    println!("17, 18, and 18 of mates that were together: {found:?}");
    assert!(found[0] > 1_000 && found[1] > 100, "{found:?}");
}

/// The numbers of `some_stop` alone: right and wrong ones come, and steps that a cut would make right.
#[test]
fn seeded_stops_are_of_every_kind() {
    let plan = hex(A_PLAN);
    let a = hex(A);
    let mut rng = Rng::new(18);
    let (mut numbers, mut cut, mut ways) = ([0; NUMBERS], 0, BTreeSet::new());
    for _ in 0..20_000 {
        let ask = some_stop(&mut rng, &a, &plan);
        let number = refusal(0, &a, &plan, &ask).map_or(0, |(number, _)| usize::from(number));
        numbers[number] += 1;
        let low = |bits: u32| ask.step & ((1 << bits) - 1);
        cut +=
            usize::from(number == 20 && [16, 32].iter().any(|&bits| (1..4).contains(&low(bits))));
        if number == 0 {
            ways.insert((ask.step, ask.marks));
        }
    }
    assert!(numbers[0] > 10_000 && [20, 21, 22].iter().all(|&n| numbers[n] > 500), "{numbers:?}");
    assert!(cut > 500 && ways.len() == 6, "{cut} {ways:?}");
    assert_eq!(number_of(check(0, &a, &plan)), 0);
}

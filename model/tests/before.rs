//! VMs that wait for others: the record, what it asks of every step, the number 33 and its place among
//! the others, the planner, the text and the page.

mod common;

use common::{accepted, checked, has, hex, number_of, refused, steps_for, Rows, DOWN, NUMBERS};
use kobdrieft_model::draw::{page, Whose};
use kobdrieft_model::edges::{before, node, room as made, room_2, sourced, steps, vm};
use kobdrieft_model::form::{read_cluster, write_cluster};
use kobdrieft_model::gen::{apart, busy, cases, knot, plan, room, waiting, Case, Rng, Size};
use kobdrieft_model::orders::{every_order, explore, follow};
use kobdrieft_model::planner::make_steps;
use kobdrieft_model::puzzles::puzzle;
use kobdrieft_model::reasons::reason;
use kobdrieft_model::records::cluster_bytes_with;
use kobdrieft_model::rules::{accepted_cluster, check_steps, step_fault, Book, Placement};
use kobdrieft_model::text::plan_text;
use kobdrieft_model::*;

/// Roomy nodes, and VMs with these places and targets, of memory 2, 3 and so on.
fn roomy(nodes: usize, places: &[(usize, usize)], list: &[Constraint]) -> Room {
    let row =
        |(i, &(current, target)): (usize, &(usize, usize))| vm(2 + i as u64, 1, current, target);
    let vms: Vec<Vm> = places.iter().enumerate().map(row).collect();
    let down = vms.iter().any(|vm| vm.current == DOWN || vm.target == DOWN);
    let room = made(&vec![node(99, 99); nodes], &vms, list);
    Room { version: if down { Version::Two } else { Version::One }, ..room }
}

/// VM 0 goes from node 0 to 1, VM 1 from node 1 to 2 once VM 0 is home.
fn pair() -> Room {
    roomy(3, &[(0, 1), (1, 2)], &[before(0, 1)])
}

fn without_befores(room: &Room) -> Room {
    let mut other = room.clone();
    other.constraints.retain(|constraint| !matches!(constraint, Constraint::Before { .. }));
    other
}

// ---------------------------------------------------------------- the record

#[test]
fn five_bytes_of_a_record() {
    let rows = "0003 0002 0001 0000630063 0000630063 0000630063 0000020001 00 01 0000030001 01 02";
    let record = hex(&format!("01 0000002d {rows} 0003 05 00 01"));
    assert_eq!(cluster_bytes(&pair()), record);
    assert_eq!(parse_cluster(&record), Ok(pair()));
    let two = [&[2], &record[1..]].concat();
    assert_eq!(parse_cluster(&two), Ok(Room { version: Version::Two, ..pair() }));
}

/// Every first and second, in either version: taken if both are there and they differ.
#[test]
fn every_first_and_second() {
    for version in Version::ALL {
        for vms in [0, 1, 2, 3, 255, 256] {
            let all = made(&[node(300, 300)], &vec![vm(1, 1, 0, 0); vms], &[]);
            let all = Room { version, ..all };
            for first in [0, 1, 2, 3, 127, 128, 253, 254, 255] {
                for second in [0, 1, 2, 3, 127, 128, 253, 254, 255] {
                    let record = cluster_bytes_with(&all, &[vec![5, first, second]]);
                    let (first, second) = (usize::from(first), usize::from(second));
                    let whole = first < vms && second < vms && first != second;
                    let expected = match whole {
                        true => {
                            Ok(Room { constraints: vec![before(first, second)], ..all.clone() })
                        }
                        false => Err(7),
                    };
                    assert_eq!(parse_cluster(&record), expected, "{vms}: {first} {second}");
                    let verdict = if whole { accepted(0) } else { refused(7, 0) };
                    assert_eq!(check(0, &record, &[]), verdict);
                    let built = build(0, &record, &mut [0; 2_562]);
                    assert_eq!(matches!(built, Answer::Refused { number: 7, step: 0 }), !whole);
                }
            }
        }
    }
}

/// Its stated length is 3, and no other kind is read so.
#[test]
fn every_length_and_kind() {
    let all = made(&[node(9, 9)], &vec![vm(1, 1, 0, 0); 3], &[]);
    let number = |body: &[u8]| match parse_cluster(&cluster_bytes_with(&all, &[body.to_vec()])) {
        Ok(_) => 0,
        Err(number) => number,
    };
    for length in 0..=300 {
        let body: Vec<u8> = [5, 0, 1].into_iter().chain([0; 300]).take(length).collect();
        assert_eq!(number(&body), if length == 3 { 0 } else { 7 }, "{length}");
    }
    for kind in 0..=255 {
        // An empty list of VMs is a spread.
        assert_eq!(number(&[kind, 0, 1]), if kind == 5 { 0 } else { 7 }, "{kind}");
        assert_eq!(number(&[kind, 0, 0]), if kind == 3 { 0 } else { 7 }, "{kind}");
    }
}

/// Nothing is asked of the target: rooms are accepted with as many of them as there may be, and those
/// that bind each other are no fault.
#[test]
fn never_nine() {
    let mut rng = Rng::new(111);
    let mut bound = 0;
    for turn in 0..2_000 {
        let size = if turn % 20 == 0 { Size::Medium } else { Size::Tiny };
        let mut room = room(&mut rng, size);
        let v = room.vms.len();
        if v < 2 {
            continue;
        }
        while room.constraints.len() < 128 {
            let first = rng.below(v);
            room.constraints.push(before(first, (first + rng.range(1, v - 1)) % v));
        }
        assert_eq!(accepted_cluster(0, &cluster_bytes(&room)), Ok(room.clone()));
        let pairs: Vec<(usize, usize)> = room.befores().collect();
        bound += usize::from(pairs.iter().any(|&(a, b)| pairs.contains(&(b, a))));
    }
    assert!(bound > 500, "{bound}");
}

// ---------------------------------------------------------------- the checker

/// Both of two conditions: the first is home when the step starts, and the step does not move it.
#[test]
fn both_conditions() {
    let room = pair();
    assert_eq!(checked(&room, &[&[(0, 1)], &[(1, 2)]]), accepted(2 + (3 + 2)));
    assert_eq!(checked(&room, &[&[(1, 2)], &[(0, 1)]]), refused(33, 1));
    assert_eq!(checked(&room, &[&[(0, 1), (1, 2)]]), refused(33, 1), "the step brings it home");
    assert_eq!(checked(&room, &[&[(0, 2), (1, 2)]]), refused(33, 1), "the step sends it elsewhere");
    let leaves: Rows = &[&[(0, 1)], &[(0, 0), (1, 2)], &[(0, 1)]];
    assert_eq!(checked(&room, leaves), refused(33, 2), "the step takes it away");
    let gone: Rows = &[&[(0, 1)], &[(0, 0)], &[(1, 2)], &[(0, 1)]];
    assert_eq!(checked(&room, gone), refused(33, 3), "it was home and has left");
    let later: Rows = &[&[(0, 1)], &[(1, 2)], &[(0, 0)], &[(0, 1)]];
    assert_eq!(checked(&room, later), accepted(2 + (3 + 2) + (2 + 5) + (2 + 7)));
    assert_eq!(checked(&without_befores(&room), &[&[(0, 1), (1, 2)]]), accepted(2 + 3));
}

/// A move aside waits as one home does, and so does a move of a second that is home.
#[test]
fn every_move_of_the_second() {
    let room = pair();
    for to in [0, 2] {
        assert_eq!(checked(&room, &[&[(1, to)]]), refused(33, 1), "{to}");
        assert_eq!(checked(&room, &[&[(0, 1), (1, to)]]), refused(33, 1), "{to}");
    }
    let stop: Rows = &[&[(0, 1)], &[(1, 0)], &[(1, 2)]];
    assert_eq!(checked(&room, stop), accepted(2 + (3 + 2) + (3 + 5)));
    let home = roomy(3, &[(0, 1), (2, 2)], &[before(0, 1)]);
    assert_eq!(checked(&home, &[&[(0, 1)]]), accepted(2));
    assert_eq!(checked(&home, &[&[(1, 0)], &[(0, 1)], &[(1, 2)]]), refused(33, 1));
}

/// A first at home that stays there delays nobody, whatever its number.
#[test]
fn a_first_at_home() {
    for (places, first, second) in [([(1, 1), (1, 2)], 0, 1), ([(1, 2), (1, 1)], 1, 0)] {
        let room = roomy(3, &places, &[before(first, second)]);
        let cost = 2 + second as u64;
        assert_eq!(checked(&room, &[&[(second, 2)]]), accepted(cost));
        let mut both = [(first, 0), (second, 2)];
        both.sort();
        assert_eq!(checked(&room, &[&both]), refused(33, 1));
        assert_eq!(checked(&room, &[&[(first, 0)], &[(second, 2)]]), refused(33, 2));
    }
}

#[test]
fn rows_rings_and_many() {
    let row = roomy(3, &[(0, 1), (1, 2), (2, 0)], &[before(0, 1), before(1, 2)]);
    assert_eq!(checked(&row, &[&[(0, 1)], &[(1, 2)], &[(2, 0)]]), accepted(2 + (3 + 2) + (4 + 5)));
    assert_eq!(checked(&row, &[&[(0, 1)], &[(1, 2), (2, 0)]]), refused(33, 2));
    assert_eq!(checked(&row, &[&[(0, 1), (2, 0)]]), refused(33, 1));
    // VM 2 waits for VM 1 and not for VM 0.
    let home = roomy(3, &[(0, 1), (2, 2), (2, 0)], &[before(0, 1), before(1, 2)]);
    assert_eq!(checked(&home, &[&[(0, 1), (2, 0)]]), accepted(2 + 4));
    let ring = [before(0, 1), before(1, 2), before(2, 0)];
    let ring = roomy(3, &[(0, 1), (1, 2), (2, 0)], &ring);
    for step in [&[(0, 1)][..], &[(1, 2)], &[(2, 0)], &[(0, 1), (1, 2), (2, 0)]] {
        assert_eq!(checked(&ring, &[step]), refused(33, 1));
    }
    assert_eq!(checked(&ring, &[]), refused(19, 0));
    let many = roomy(3, &[(0, 1), (1, 0), (2, 0)], &[before(0, 2), before(1, 2)]);
    assert_eq!(checked(&many, &[&[(0, 1), (1, 0)], &[(2, 0)]]), accepted(2 + 3 + (4 + 3)));
    assert_eq!(checked(&many, &[&[(0, 1)], &[(2, 0)], &[(1, 0)]]), refused(33, 2));
    assert_eq!(checked(&many, &[&[(0, 1)], &[(1, 0), (2, 0)]]), refused(33, 2));
}

/// On no node is home for a VM that should be there and for no other; launches and shutdowns wait.
#[test]
fn on_no_node() {
    let with =
        |first: (usize, usize), second: (usize, usize)| roomy(3, &[first, second], &[before(0, 1)]);
    let down = with((DOWN, DOWN), (1, 2));
    assert_eq!(checked(&down, &[&[(1, 2)]]), accepted(3));
    assert_eq!(checked(&down, &[&[(0, 0), (1, 2)], &[(0, DOWN)]]), refused(33, 1));
    let waits = with((DOWN, 0), (1, 2));
    assert_eq!(checked(&waits, &[&[(1, 2)], &[(0, 0)]]), refused(33, 1));
    assert_eq!(checked(&waits, &[&[(0, 0), (1, 2)]]), refused(33, 1));
    assert_eq!(checked(&waits, &[&[(0, 0)], &[(1, 2)]]), accepted(2 + (3 + 2)));
    let ends = with((0, DOWN), (1, 2));
    assert_eq!(checked(&ends, &[&[(1, 2)], &[(0, DOWN)]]), refused(33, 1));
    assert_eq!(checked(&ends, &[&[(0, DOWN)], &[(1, 2)]]), accepted(3));
    for (second, to, cost) in [((DOWN, 2), 2, 3), ((2, DOWN), DOWN, 0)] {
        let room = with((0, 1), second);
        assert_eq!(checked(&room, &[&[(1, to)], &[(0, 1)]]), refused(33, 1), "{second:?}");
        assert_eq!(checked(&room, &[&[(0, 1), (1, to)]]), refused(33, 1), "{second:?}");
        assert_eq!(checked(&room, &[&[(0, 1)], &[(1, to)]]), accepted(2 + (cost + 2)));
    }
    let guest = with((0, 1), (DOWN, DOWN));
    assert_eq!(checked(&guest, &[&[(0, 1)]]), accepted(2));
    assert_eq!(checked(&guest, &[&[(1, 0)], &[(1, DOWN)], &[(0, 1)]]), refused(33, 1));
}

/// Each number of a step comes before 33, and 33 before 19.
#[test]
fn the_place_of_thirty_three() {
    let with = |more: &[Constraint]| {
        let list = [&[before(0, 1)], more].concat();
        roomy(3, &[(0, 1), (1, 2)], &list)
    };
    assert_eq!(checked(&with(&[]), &[&[(0, 0), (1, 2)]]), refused(15, 1));
    assert_eq!(checked(&with(&[]), &[&[(1, 2), (2, 0)]]), refused(15, 1));
    let cluster = cluster_bytes(&with(&[]));
    let wrong = plan_bytes(&sourced(&[&[(1, 0, 2)]]));
    assert_eq!(check(0, &cluster, &wrong), refused(27, 1));
    let ban = Constraint::Ban { vms: vec![1], nodes: vec![0] };
    assert_eq!(checked(&with(&[ban]), &[&[(1, 0)]]), refused(16, 1));
    let mut small = with(&[]);
    small.nodes[0].memory = 4;
    assert_eq!(checked(&small, &[&[(1, 0)]]), refused(17, 1));
    let mates = Constraint::Spread { vms: vec![0, 1] };
    assert_eq!(checked(&with(&[mates]), &[&[(1, 0)]]), refused(18, 1));
    assert_eq!(checked(&with(&[]), &[&[(1, 0)]]), refused(33, 1));
    assert_eq!(checked(&without_befores(&with(&[])), &[&[(1, 0)]]), refused(19, 0));
    assert_eq!(pack_verdict(refused(33, 512)), 2 << 62 | 33 << 16 | 512);
}

/// The first step of a plan that breaks some constraint, by the words of the rule, from 1; none has
/// fault 15.
fn first_breach(room: &Room, steps: &[Step]) -> Option<u16> {
    let mut place: Vec<usize> = room.vms.iter().map(|vm| vm.current).collect();
    for (i, step) in steps.iter().enumerate() {
        let moves = |vm: usize| step.iter().any(|m| m.vm == vm);
        for (first, second) in room.befores() {
            if moves(second) && (place[first] != room.vms[first].target || moves(first)) {
                return Some(i as u16 + 1);
            }
        }
        step.iter().for_each(|m| place[m.vm] = m.to);
    }
    None
}

/// What a plan comes to, by what it comes to with nobody waiting: 33 at the first step that breaks it,
/// unless that step or one before it is at fault already.
#[test]
fn verdicts_by_those_without() {
    let mut rng = Rng::new(112);
    let (mut instead_of, mut behind) = ([0; NUMBERS], [0; NUMBERS]);
    for turn in 0..60_000 {
        let size = if turn % 30 == 0 { Size::Medium } else { Size::Tiny };
        let room = match turn % 6 {
            0 => knot(&mut rng, size),
            1 => apart(&mut rng, size),
            2 => busy(&mut rng, size),
            3 => puzzle(&mut rng),
            _ => waiting(&mut rng, size),
        };
        let steps = plan(&mut rng, &room).0.steps;
        let other = without_befores(&room);
        let (verdict, without) = (check_steps(&room, &steps), check_steps(&other, &steps));
        let (number, at) = match without {
            Verdict::Accepted { .. } => (0, u16::MAX),
            Verdict::Refused { number, step: 0 } => (number, u16::MAX),
            Verdict::Refused { number, step } => (number, step),
        };
        // Up to the step at fault all are free of 15, and so they can be followed.
        let sound = steps.len().min(usize::from(at) - usize::from(number == 15));
        let expected = match first_breach(&room, &steps[..sound]) {
            Some(step) if step < at => refused(33, step),
            _ => without,
        };
        assert_eq!(verdict, expected, "{room:?} {steps:?}");
        if verdict == without {
            let breach = number != 15 && first_breach(&room, &steps[..sound]) == Some(at);
            behind[usize::from(number)] += usize::from(breach);
        } else {
            instead_of[usize::from(number)] += 1;
        }
    }
    println!("33 where it would else be accepted, then by number: {instead_of:?}");
    println!("33 behind another number in its step: {behind:?}");
    for number in [0, 15, 16, 17, 18, 19, 27] {
        assert!(instead_of[number] > 4, "{number}: {instead_of:?}");
    }
    for number in [16, 17, 18, 27] {
        assert!(behind[number] > 20, "{number}: {behind:?}");
    }
}

/// 33 shows in every order of a step, or in none.
#[test]
fn orders_do_not_matter() {
    let room = pair();
    for (step, soon) in
        [(&[(0, 1)][..], false), (&[(1, 2)], true), (&[(0, 1), (1, 2)], true), (&[], false)]
    {
        let step = &steps(&[step])[0];
        for order in every_order(step.len()) {
            assert_eq!(follow(&room, &[0, 1], step, &order).soon, soon, "{order:?}");
        }
        assert_eq!(explore(&room, &[0, 1], step).soon, soon);
    }
    // The first is home: its own move is what refuses the step.
    let both = &steps(&[&[(0, 2), (1, 2)]])[0];
    for order in every_order(2) {
        assert!(follow(&room, &[1, 1], both, &order).soon);
    }
    assert!(!explore(&room, &[1, 1], &both[1..]).soon);
    assert!(!explore(&room, &[1, 1], &both[..1]).soon);
    // A shutdown waits as well.
    let down = roomy(2, &[(0, 1), (1, DOWN)], &[before(0, 1)]);
    let off = &steps(&[&[(1, DOWN)]])[0];
    assert!(explore(&down, &[0, 1], off).soon && !explore(&down, &[1, 1], off).soon);
}

// ---------------------------------------------------------------- the planner

#[test]
fn the_second_waits_a_step() {
    let text = |room: &Room| plan_text(0, &cluster_bytes(room));
    assert_eq!(text(&pair()), "plan steps 2 moves 2 cost 7\n1 0 0 1\n2 1 1 2\n");
    let free = "plan steps 1 moves 2 cost 5\n1 0 0 1\n1 1 1 2\n";
    assert_eq!(text(&without_befores(&pair())), free);
    let turned = roomy(3, &[(0, 1), (1, 2)], &[before(1, 0)]);
    assert_eq!(text(&turned), "plan steps 2 moves 2 cost 8\n1 1 1 2\n2 0 0 1\n");
    let row = roomy(3, &[(0, 1), (1, 2), (2, 0)], &[before(2, 1), before(1, 0)]);
    assert_eq!(steps_for(&row), (steps(&[&[(2, 0)], &[(1, 2)], &[(0, 1)]]), true));
    let fan = roomy(3, &[(0, 1), (1, 2), (2, 0)], &[before(1, 0), before(1, 2)]);
    assert_eq!(steps_for(&fan), (steps(&[&[(1, 2)], &[(0, 1), (2, 0)]]), true));
    let many = roomy(3, &[(0, 1), (1, 2), (2, 0)], &[before(0, 1), before(2, 1)]);
    assert_eq!(steps_for(&many), (steps(&[&[(0, 1), (2, 0)], &[(1, 2)]]), true));
}

#[test]
fn those_that_bind_each_other_block() {
    let mutual = [before(0, 1), before(1, 0)];
    let away = roomy(3, &[(0, 1), (1, 2)], &mutual);
    assert_eq!(steps_for(&away), (vec![], false));
    assert_eq!(plan_text(0, &cluster_bytes(&away)), "blocked steps 0 moves 0 cost 0\n");
    assert_eq!(steps_for(&without_befores(&away)).1, true);
    // A third goes home, and nobody steps aside.
    let beside = roomy(3, &[(0, 1), (1, 2), (0, 2)], &mutual);
    assert_eq!(steps_for(&beside), (steps(&[&[(2, 2)]]), false));
    // One of them is home: the other waits for nothing.
    let home = roomy(3, &[(1, 1), (1, 2)], &mutual);
    assert_eq!(steps_for(&home), (steps(&[&[(1, 2)]]), true));
    let ring = [before(0, 1), before(1, 2), before(2, 0)];
    assert_eq!(steps_for(&roomy(3, &[(0, 1), (1, 2), (2, 0)], &ring)), (vec![], false));
    let open = steps(&[&[(0, 1)], &[(1, 2)]]);
    assert_eq!(steps_for(&roomy(3, &[(0, 1), (1, 2), (2, 2)], &ring)), (open, true));
}

/// VMs 0 and 1 change places over node 2, which takes either of them.
#[test]
fn pivots_wait() {
    let swap = |list: &[Constraint]| {
        made(&[node(4, 9), node(4, 9), node(4, 9)], &[vm(3, 1, 0, 1), vm(2, 1, 1, 0)], list)
    };
    let lower = steps(&[&[(0, 2)], &[(1, 0)], &[(0, 1)]]);
    assert_eq!(steps_for(&swap(&[])), (lower.clone(), true));
    // Whoever steps aside, the other may not go home before it is.
    for list in [[before(0, 1)], [before(1, 0)]] {
        assert_eq!(steps_for(&swap(&list)), (vec![], false), "{list:?}");
    }
    // VM 0 waits for VM 2, which is home.
    let mut third = swap(&[before(2, 0)]);
    third.vms.push(vm(1, 1, 2, 2));
    assert_eq!(steps_for(&third), (lower, true));
    // VMs 2 and 3 change places, too. If VM 0 waits for VM 2, those go first.
    let pairs = |list: &[Constraint]| {
        let vms = [vm(3, 1, 0, 1), vm(3, 1, 1, 0), vm(3, 1, 2, 3), vm(3, 1, 3, 2)];
        made(&vec![node(3, 9); 5], &vms, list)
    };
    let [low, high]: [Rows; 2] =
        [&[&[(0, 4)], &[(1, 0)], &[(0, 1)]], &[&[(2, 4)], &[(3, 2)], &[(2, 3)]]];
    assert_eq!(steps_for(&pairs(&[])), (steps(&[low, high].concat()), true));
    assert_eq!(steps_for(&pairs(&[before(2, 0)])), (steps(&[high, low].concat()), true));
    assert_eq!(checked(&pairs(&[before(2, 0)]), low), refused(33, 1));
    assert_eq!(checked(&pairs(&[before(2, 0)]), &[high, &low[1..]].concat()), refused(17, 4));
}

#[test]
fn launches_and_shutdowns_wait() {
    let turn = |list: &[Constraint], memory| {
        room_2(&[node(memory, 9)], &[vm(3, 1, 0, DOWN), vm(2, 1, DOWN, 0)], list)
    };
    assert_eq!(steps_for(&turn(&[], 9)), (steps(&[&[(0, DOWN), (1, 0)]]), true));
    let off_first = steps(&[&[(0, DOWN)], &[(1, 0)]]);
    assert_eq!(steps_for(&turn(&[before(0, 1)], 9)), (off_first.clone(), true));
    assert_eq!(steps_for(&turn(&[before(0, 1)], 4)), (off_first, true));
    let on_first = steps(&[&[(1, 0)], &[(0, DOWN)]]);
    assert_eq!(steps_for(&turn(&[before(1, 0)], 9)), (on_first, true));
    assert_eq!(steps_for(&turn(&[before(1, 0)], 4)), (vec![], false));
    let down = roomy(2, &[(DOWN, DOWN), (0, 1)], &[before(0, 1)]);
    assert_eq!(steps_for(&down), (steps(&[&[(1, 1)]]), true));
    let waits = roomy(2, &[(DOWN, 0), (0, 1)], &[before(0, 1)]);
    assert_eq!(steps_for(&waits), (steps(&[&[(0, 0)], &[(1, 1)]]), true));
}

/// A room of one kind or another.
fn some_room(rng: &mut Rng, turn: usize) -> Room {
    match turn % 5 {
        0 => puzzle(rng),
        1 => knot(rng, Size::Tiny),
        2 => apart(rng, Size::Small),
        _ => waiting(rng, Size::Tiny),
    }
}

/// Where every first is home already, the planner makes the steps that it makes with nobody waiting; and
/// what it makes where they are not has them home first. It is blocked only if nobody left has a sound
/// direct move.
#[test]
fn rooms_planned() {
    let mut rng = Rng::new(113);
    let (mut same, mut waited, mut blocked) = (0, 0, [0; 2]);
    for turn in 0..20_000 {
        let room = some_room(&mut rng, turn);
        if room.befores().next().is_none() {
            continue;
        }
        let ((steps, all_home), other) = (steps_for(&room), without_befores(&room));
        assert_eq!(first_breach(&room, &steps), None);
        let away = |vm: usize| room.vms[vm].current != room.vms[vm].target;
        if room.befores().all(|(first, _)| !away(first)) {
            assert_eq!(make_steps(&other), (steps, all_home), "{room:?}");
            same += 1;
            continue;
        }
        let step_of = |vm: usize| steps.iter().rposition(|step| step.iter().any(|m| m.vm == vm));
        for (first, second) in room.befores().filter(|&(a, b)| away(a) && away(b) && all_home) {
            let begins = steps.iter().position(|step| step.iter().any(|m| m.vm == second));
            assert!(step_of(first) < begins, "{room:?}");
            waited += 1;
        }
        if !all_home {
            blocked[usize::from(make_steps(&other).1)] += 1;
            let start = Placement::current(&room);
            let end = steps.iter().fold(start, |here, step| here.after(&room, step));
            let book = Book::of(&room);
            let left = end.out_of_place(&room);
            assert!(left.len() >= 2);
            for vm in left {
                let home = [Move::bare(vm, room.vms[vm].target)];
                assert!(step_fault(&room, &book, &end, &home).is_some(), "VM {vm} {room:?}");
            }
        }
    }
    println!("{same} with all firsts home, {waited} waits; blocked without befores too, or not:");
    println!("{blocked:?}");
    assert!(same > 500 && waited > 1_000 && blocked.iter().all(|&count| count > 200));
}

/// One constraint fewer takes nothing from what is accepted, and one more allows nothing.
#[test]
fn more_of_them_is_stricter() {
    let mut rng = Rng::new(114);
    let (mut kept, mut lost) = (0, 0);
    for turn in 0..20_000 {
        let room = some_room(&mut rng, turn);
        let steps = plan(&mut rng, &room).0.steps;
        let befores: Vec<(usize, usize)> = room.befores().collect();
        if befores.is_empty() {
            continue;
        }
        let (first, second) = rng.pick(&befores);
        let mut fewer = room.clone();
        fewer.constraints.retain(|constraint| *constraint != before(first, second));
        let (verdict, without) = (check_steps(&room, &steps), check_steps(&fewer, &steps));
        match number_of(verdict) {
            0 => assert_eq!(without, verdict),
            33 if without != verdict => lost += 1,
            _ => assert_eq!(without, verdict, "{room:?} {steps:?}"),
        }
        kept += usize::from(number_of(verdict) == 0 && !steps.is_empty());
    }
    println!("{kept} accepted, {lost} refused with 33 for the one");
    assert!(kept > 1_000 && lost > 500);
}

/// Generated inputs have such constraints in rooms of both versions, and every way to break one.
#[test]
fn random_cases_wait() {
    let (mut rooms, mut ways, mut seconds) = ([0; 2], [0; 4], [0; 4]);
    for Case { cluster, plan, .. } in cases(115, 20_000) {
        let (Ok(room), Ok(plan)) = (accepted_cluster(0, &cluster), parse_plan(&plan)) else {
            continue;
        };
        rooms[room.version as usize - 1] += usize::from(room.befores().next().is_some());
        let Verdict::Refused { number: 33, step } = check_steps(&room, &plan.steps) else {
            continue;
        };
        let (done, at) = plan.steps.split_at(usize::from(step) - 1);
        let start = Placement::current(&room);
        let here = done.iter().fold(start, |here, step| here.after(&room, step));
        for (first, second) in room.befores() {
            let find = |vm: usize| at[0].iter().find(|m| m.vm == vm);
            let Some(m) = find(second) else { continue };
            let target = room.vms[first].target;
            match (here.place[first] == target, find(first)) {
                (true, None) => continue,
                (false, None) => ways[0] += 1,
                (false, Some(m)) => ways[1 + usize::from(m.to != target)] += 1,
                (true, Some(_)) => ways[3] += 1,
            }
            seconds[match (here.place[second], m.to) {
                (DOWN, _) => 0,
                (_, DOWN) => 1,
                (_, to) if to == room.vms[second].target => 2,
                _ => 3,
            }] += 1;
        }
    }
    println!(
        "rooms by version: {rooms:?}; not home, comes home, goes elsewhere, leaves: {ways:?};"
    );
    println!("launch, shutdown, home, aside: {seconds:?}");
    assert!(rooms.iter().all(|&count| count > 1_000), "{rooms:?}");
    assert!(ways.iter().chain(&seconds).all(|&count| count > 20), "{ways:?} {seconds:?}");
}

// ---------------------------------------------------------------- the text

#[test]
fn as_text() {
    let text = write_cluster(&pair());
    let line = "before 0 1                      # VM 0 is on its target before VM 1 moves";
    assert_eq!(text.lines().last(), Some(line));
    assert_eq!(read_cluster(text.as_bytes()), Ok(pair()));
    let rows = "node 99 99 x3\nvm 2 1 from 0 to 1\nvm 3 1 from 1 to 2\n";
    assert_eq!(read_cluster(format!("{rows}before 0 1").as_bytes()), Ok(pair()));
    assert_eq!(read_cluster(format!("before  00 01#so\n{rows}").as_bytes()), Ok(pair()));
    let table = [
        ("before", "the line ends where the first VM should stand"),
        ("before 0", "the line ends where the second VM should stand"),
        ("before 0 1 2", "'2' stands where the line should end"),
        ("before 0 to 1", "'to' stands where the second VM should, a number"),
        ("before vms 0 1", "'vms' stands where the first VM should, a number"),
        ("before 0-1", "'0-1' stands where the first VM should, a number"),
        ("before 0, 1", "',' stands where the second VM should, a number"),
        ("before 2 0", "VM 2 is not there (this cluster has VMs 0 to 1)"),
        ("before 0 256", "VM 256 is not there (this cluster has VMs 0 to 1)"),
        ("before 1 1", "VM 1 cannot wait for itself"),
    ];
    for (line, reason) in table {
        let fault = read_cluster(format!("{rows}{line}").as_bytes()).unwrap_err();
        assert_eq!((fault.line, fault.reason.as_str()), (4, reason), "{line}");
    }
}

// ---------------------------------------------------------------- the page

/// Three nodes of memory 9, on which every VM has words in its block.
fn small(places: &[(usize, usize)], list: &[Constraint]) -> Room {
    Room { nodes: vec![node(9, 9); 3], ..roomy(3, places, list) }
}

fn drawn(room: &Room, rows: Rows) -> String {
    page(0, room, &bare(&steps(rows)), Whose::Model).expect("a plan that fits")
}

/// How often each of these stands on a page.
fn counts<const N: usize>(page: &str, words: [&str; N]) -> [usize; N] {
    words.map(|words| page.matches(words).count())
}

const BLAMED: [&str; 3] = ["class=\"blamed\"", "class=\"blamed-vm\"", ">waited for</text>"];
const READ_SO: &str =
    "a step moves VM 1 only if VM 0 is on its target when it starts, and stays there.";

#[test]
fn who_waits_is_told() {
    let page = drawn(&pair(), &[&[(0, 1)], &[(1, 2)]]);
    has(&page, &["<h2>Start</h2>\n<p>2 VMs off target.</p>\n<p>VM 0 before VM 1.</p>", READ_SO]);
    has(&page, &["<li>before 0 1</li>", "accepted cost 7"]);
    assert_eq!(counts(&page, BLAMED), [0; 3]);
    assert_eq!(counts(&page, ["VM 0 before VM 1."]), [1]);
    let free = drawn(&without_befores(&pair()), &[&[(0, 1)], &[(1, 2)]]);
    assert!(!free.contains("before"));
    let places: Vec<(usize, usize)> = (0..16).map(|_| (0, 1)).collect();
    let row: Vec<Constraint> = (0..15).map(|vm| before(vm, vm + 1)).collect();
    let page = drawn(&roomy(2, &places, &row), &[&[(0, 1)]]);
    has(&page, &["VM 11 before VM 12, and 3 more.</p>"]);
    assert!(!page.contains("VM 12 before VM 13"));
}

#[test]
fn why_a_step_is_too_soon() {
    let refusal = format!("<b>refused 33 step 1</b>. {}</p>", reason(33));
    let told = |page: &str, why: &str| {
        has(page, &[&refusal, &format!("<p>Refused with number 33.</p>\n<p>{why}</p>")]);
        has(page, &["Broken red lines are around what refuses a step."]);
    };
    let away = "VM 1 waits for VM 0, which is not on its target, node 1, when the step starts";
    let both_away = small(&[(0, 1), (1, 2)], &[before(0, 1)]);
    let first = drawn(&both_away, &[&[(1, 2)], &[(0, 1)]]);
    told(&first, &format!("{away}."));
    has(&first, &["<p>The step behind it is not drawn.</p>"]);
    // The node of the first, the first there, and the second on its own.
    assert_eq!(counts(&first, BLAMED), [1, 2, 1]);
    let both = drawn(&both_away, &[&[(0, 1), (1, 2)]]);
    told(&both, &format!("{away}, and moves in the same step."));
    assert_eq!(counts(&both, BLAMED), [1, 2, 1]);
    let leaves = drawn(&roomy(3, &[(1, 1), (1, 2)], &[before(0, 1)]), &[&[(0, 0), (1, 2)]]);
    told(&leaves, "VM 1 waits for VM 0, which moves in the same step.");
    let twice = roomy(3, &[(0, 1), (1, 2)], &[before(0, 1), before(0, 1)]);
    assert_eq!(counts(&drawn(&twice, &[&[(1, 2)]]), [away]), [1]);
    let many: Vec<Constraint> = (0..5).map(|vm| before(vm, 5)).collect();
    let many = drawn(&roomy(3, &[(0, 1); 6], &many), &[&[(5, 2)]]);
    has(&many, &["VM 5 waits for VM 2, which", "<p>And 2 more like this.</p>"]);
    assert_eq!(counts(&many, ["VM 5 waits for", BLAMED[0], BLAMED[2]]), [3, 1, 1]);
}

/// A first on no node is marked on the shelf.
#[test]
fn a_first_on_the_shelf() {
    let room = small(&[(DOWN, 0), (1, 2)], &[before(0, 1)]);
    let page = drawn(&room, &[&[(1, 2)]]);
    has(&page, &["waits for VM 0, which is not on its target, node 0, when the step starts.</p>"]);
    assert_eq!(counts(&page, BLAMED), [1, 2, 1]);
    let ends = roomy(3, &[(0, DOWN), (1, 2)], &[before(0, 1)]);
    let page = drawn(&ends, &[&[(1, 2)]]);
    has(&page, &["waits for VM 0, which is not on its target, no node, when the step starts.</p>"]);
    let large = roomy(20, &[(7, 8), (1, 2)], &[before(0, 1)]);
    let page = drawn(&large, &[&[(1, 2)]]);
    let refused = page.split("<figure").last().unwrap();
    has(refused, &[">node 1</text>", ">node 2</text>", ">node 7</text>"]);
    assert_eq!(counts(refused, ["class=\"name\""]), [3]);
}

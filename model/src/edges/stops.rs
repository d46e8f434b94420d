//! Hand-set stops: every way in which a small plan can be stopped, and what is refused of them.

use super::{
    a_with, ban, before, cluster_a, fence, header, latency, node, over_usable, room, room_2,
};
use super::{spread, steps, to_and_fro, vm};
use crate::records::{cluster_bytes, plan_bytes, Room, Step, Version, NOWHERE};
use crate::reserves::TOO_HIGH;
use crate::sources::{bare, named};
use crate::stops::{Ask, CUT_OFF, NO_MARKS};

/// One stop with its expected outcome: where the VMs then are, or number and step of the refusal.
#[derive(Clone, Debug)]
pub struct StopEdge {
    pub name: String,
    pub reserve: u64,
    pub cluster: Vec<u8>,
    pub plan: Vec<u8>,
    pub ask: Ask,
    pub ends: Result<Vec<usize>, (u8, u16)>,
}

/// Steps as rows of VM and destination.
type Rows<'a> = &'a [&'a [(usize, usize)]];

/// A stop in a step, its marks, and where VMs then are.
type Row<'a> = (u64, &'a [u8], &'a [usize]);

/// The stops gathered so far, with ways to add one.
#[derive(Default)]
struct Stops(Vec<StopEdge>);

impl Stops {
    /// A stop of steps in each plan version.
    fn both(
        &mut self,
        name: &str,
        reserve: u64,
        room: &Room,
        list: &[Step],
        ask: &Ask,
        ends: Result<Vec<usize>, (u8, u16)>,
    ) {
        for plan in [bare(list), named(room, list)] {
            self.0.push(StopEdge {
                name: name.to_string(),
                reserve,
                cluster: cluster_bytes(room),
                plan: plan_bytes(&plan),
                ask: ask.clone(),
                ends: ends.clone(),
            });
        }
    }

    /// Stops that are done, with a buffer for just the record and with longer ones.
    fn done(&mut self, name: &str, reserve: u64, room: &Room, list: &[Step], rows: &[Row]) {
        let length = cluster_bytes(room).len();
        for &(step, marks, places) in rows {
            for buffer in [length, length + 1, length + 300] {
                let ask = Ask { step, marks: marks.to_vec(), buffer };
                let name = format!("{name}, step {step}, marks {marks:?}, buffer {buffer}");
                self.both(&name, reserve, room, list, &ask, Ok(places.to_vec()));
            }
        }
    }

    /// As `done`, with no reserve and from rows of VM and destination.
    fn rows(&mut self, name: &str, room: &Room, list: Rows, rows: &[Row]) {
        self.done(name, 0, room, &steps(list), rows);
    }

    /// A stop refused with 20 to 22, in a buffer that is so much shorter than the record.
    fn refused(
        &mut self,
        room: &Room,
        list: &[Step],
        step: u64,
        marks: &[u8],
        short: usize,
        number: u8,
    ) {
        let buffer = cluster_bytes(room).len() - short;
        let ask = Ask { step, marks: marks.to_vec(), buffer };
        let name = format!("{number}, step {step}, {} marks, {short} bytes short", marks.len());
        self.both(&name, 0, room, list, &ask, Err((number, 0)));
    }
}

/// All hand-set stops.
pub fn stop_edges() -> Vec<StopEdge> {
    let mut stops = Stops::default();
    small_plans(&mut stops);
    launches_and_shutdowns(&mut stops);
    many_moves(&mut stops);
    at_reserves(&mut stops);
    no_such_step(&mut stops);
    no_such_marks(&mut stops);
    short_buffers(&mut stops);
    plans_of_no_steps(&mut stops);
    refused_plans(&mut stops);
    stops.0
}

/// A's plan: VM 0 steps aside, VM 1 goes home, VM 0 follows.
pub(super) const ASIDE: Rows<'static> = &[&[(0, 2)], &[(1, 0)], &[(0, 1)]];

/// Both VMs of A in one step.
pub(super) const BOTH: Rows<'static> = &[&[(0, 1), (1, 0)]];

/// Six VMs on four roomy nodes with a constraint of each kind, and steps of two moves, one and three.
pub(super) fn uneven() -> (Room, Vec<Step>) {
    let places = [(0, 2), (1, 3), (2, 1), (3, 3), (0, 1), (1, 1)];
    let vms = places.map(|(current, target)| vm(2, 3, current, target));
    let list = [
        ban(&[1, 3], &[0]),
        fence(&[4], &[0, 1, 2]),
        spread(&[0, 1]),
        latency(&[2, 4, 5], &[&[1], &[0, 2]]),
        before(0, 4),
    ];
    let list = room(&vec![node(99, 99); 4], &vms, &list);
    (list, steps(&[&[(0, 2), (2, 0)], &[(1, 3)], &[(2, 1), (3, 2), (4, 1)], &[(3, 3)]]))
}

/// Every step and all marks.
fn small_plans(s: &mut Stops) {
    let a = [cluster_a(), Room { version: Version::Two, ..cluster_a() }];
    for room in &a {
        s.rows(
            "A",
            room,
            ASIDE,
            &[
                (1, &[0], &[0, 1]),
                (1, &[1], &[2, 1]),
                (2, &[0], &[2, 1]),
                (2, &[1], &[2, 0]),
                (3, &[0], &[2, 0]),
                (3, &[1], &[1, 0]),
            ],
        );
    }
    s.rows(
        "A, memory 5",
        &a_with(5, 5),
        BOTH,
        &[
            (1, &[0, 0], &[0, 1]),
            (1, &[1, 0], &[1, 1]),
            (1, &[0, 1], &[0, 0]),
            (1, &[1, 1], &[1, 0]),
        ],
    );
    let (room, list) = uneven();
    s.done(
        "all kinds of constraint",
        0,
        &room,
        &list,
        &[
            (1, &[0, 0], &[0, 1, 2, 3, 0, 1]),
            (1, &[1, 0], &[2, 1, 2, 3, 0, 1]),
            (1, &[0, 1], &[0, 1, 0, 3, 0, 1]),
            (2, &[0], &[2, 1, 0, 3, 0, 1]),
            (2, &[1], &[2, 3, 0, 3, 0, 1]),
            (3, &[0, 0, 0], &[2, 3, 0, 3, 0, 1]),
            (3, &[1, 0, 0], &[2, 3, 1, 3, 0, 1]),
            (3, &[0, 1, 0], &[2, 3, 0, 2, 0, 1]),
            (3, &[0, 0, 1], &[2, 3, 0, 3, 1, 1]),
            (3, &[1, 1, 1], &[2, 3, 1, 2, 1, 1]),
            (4, &[0], &[2, 3, 1, 2, 1, 1]),
            (4, &[1], &[2, 3, 1, 3, 1, 1]),
        ],
    );
}

/// A launch that is called back leaves its VM on no node, a shutdown that has ended does too.
fn launches_and_shutdowns(s: &mut Stops) {
    const DOWN: usize = NOWHERE;
    let vms = [vm(3, 1, DOWN, 1), vm(2, 4, 1, DOWN), vm(1, 1, 0, 1), vm(1, 1, DOWN, DOWN)];
    let room = room_2(&[node(9, 9), node(9, 9)], &vms, &[]);
    let all: Rows = &[&[(0, 1), (1, DOWN), (2, 1)]];
    s.rows(
        "a launch, a shutdown and a move",
        &room,
        all,
        &[
            (1, &[0, 0, 0], &[DOWN, 1, 0, DOWN]),
            (1, &[0, 0, 1], &[DOWN, 1, 1, DOWN]),
            (1, &[0, 1, 0], &[DOWN, DOWN, 0, DOWN]),
            (1, &[0, 1, 1], &[DOWN, DOWN, 1, DOWN]),
            (1, &[1, 0, 0], &[1, 1, 0, DOWN]),
            (1, &[1, 0, 1], &[1, 1, 1, DOWN]),
            (1, &[1, 1, 0], &[1, DOWN, 0, DOWN]),
            (1, &[1, 1, 1], &[1, DOWN, 1, DOWN]),
        ],
    );
    let room = room_2(&[node(1, 1), node(1, 1)], &[vm(1, 1, DOWN, DOWN)], &[]);
    s.rows(
        "up, on and down again",
        &room,
        &[&[(0, 0)], &[(0, 1)], &[(0, DOWN)]],
        &[
            (1, &[0], &[DOWN]),
            (1, &[1], &[0]),
            (2, &[0], &[0]),
            (2, &[1], &[1]),
            (3, &[0], &[1]),
            (3, &[1], &[DOWN]),
        ],
    );
}

/// 256 moves in a step, and 512 steps.
fn many_moves(s: &mut Stops) {
    let wide = room(&vec![node(16_777_215, 65_535); 2], &vec![vm(1, 1, 0, 0); 256], &[]);
    let marks =
        |holds: fn(usize) -> bool| -> Vec<u8> { (0..256).map(|vm| u8::from(holds(vm))).collect() };
    let list = to_and_fro(&[256, 256]);
    for holds in [|vm| vm == 255, |vm| vm == 0, |vm| vm % 3 == 1, |vm| vm < 128] {
        let marks = marks(holds);
        let there: Vec<usize> = marks.iter().map(|&mark| usize::from(mark)).collect();
        let back: Vec<usize> = marks.iter().map(|&mark| 1 - usize::from(mark)).collect();
        s.done("256 moves", 0, &wide, &list, &[(1, &marks, &there), (2, &marks, &back)]);
    }
    let (home, away) = (vec![0; 256], [vec![1], vec![0; 255]].concat());
    let list = to_and_fro(&[1; 512]);
    for step in [1, 255, 257, 511] {
        let rows: [Row; 2] = [(step, &[0], &home), (step, &[1], &away)];
        s.done("512 steps", 0, &wide, &list, &rows);
        let rows: [Row; 2] = [(step + 1, &[0], &away), (step + 1, &[1], &home)];
        s.done("512 steps", 0, &wide, &list, &rows);
    }
    for step in [0, 513, 1 << 16, (1 << 16) + 512, (1 << 32) + 512] {
        s.refused(&wide, &list, step, &[1], 0, 20);
    }
}

/// At reserve 20 node 0 is over what is usable of it until VM 0 has left.
fn at_reserves(s: &mut Stops) {
    let list = steps(&[&[(0, 1)], &[(2, 0)]]);
    for (by_memory, reserve) in [(true, 0), (true, 20), (false, 0), (false, 20)] {
        let room = over_usable(by_memory, 1, 1);
        let rows: [Row; 4] = [
            (1, &[0], &[0, 0, 2]),
            (1, &[1], &[1, 0, 2]),
            (2, &[0], &[1, 0, 2]),
            (2, &[1], &[1, 0, 0]),
        ];
        s.done("over usable", reserve, &room, &list, &rows);
    }
    let most = room(&[node(10, 10), node(10, 10)], &[vm(1, 1, 0, 1)], &[]);
    s.done("reserve 90", 90, &most, &steps(&[&[(0, 1)]]), &[(1, &[0], &[0]), (1, &[1], &[1])]);
}

fn no_such_step(s: &mut Stops) {
    let (a, list) = (cluster_a(), steps(ASIDE));
    for step in [0, 4, 5, 255, 256, 512, 513, u64::MAX - 1, u64::MAX] {
        for marks in [&[][..], &[0], &[1], &[1, 0]] {
            s.refused(&a, &list, step, marks, 0, 20);
        }
    }
    for more in CUT_OFF {
        for step in 0..4 {
            s.refused(&a, &list, more + step, &[1], 0, 20);
        }
    }
}

fn no_such_marks(s: &mut Stops) {
    let (room, list) = uneven();
    for (step, moves) in [(1, 2), (2, 1), (3, 3)] {
        for count in [0, 1, 2, 3, 4, 6, moves + 256] {
            if count != moves {
                s.refused(&room, &list, step, &vec![1; count], 0, 20);
                s.refused(&room, &list, step, &vec![2; count], 0, 20);
            }
        }
    }
    for mark in NO_MARKS {
        for at in 0..3 {
            let mut marks = [1, 0, 1];
            marks[at] = mark;
            s.refused(&room, &list, 3, &marks, 0, 21);
            s.refused(&room, &list, 3, &marks, 1, 21);
            s.refused(&room, &list, 5, &marks, 0, 20);
            s.refused(&room, &list, 2, &marks, 0, 20);
        }
        s.refused(&room, &list, 3, &[mark; 3], 0, 21);
    }
}

/// 20 and 21 come before 22.
fn short_buffers(s: &mut Stops) {
    let (room, list) = uneven();
    let length = cluster_bytes(&room).len();
    for short in [1, 2, 7, length - 11, length - 1, length] {
        s.refused(&room, &list, 3, &[0, 1, 1], short, 22);
        s.refused(&room, &list, 3, &[0, 0, 0], short, 22);
        s.refused(&room, &list, 3, &[0, 2, 1], short, 21);
        s.refused(&room, &list, 3, &[0, 1], short, 20);
        s.refused(&room, &list, 0, &[0, 1, 1], short, 20);
        s.refused(&room, &list, 9, &[2], short, 20);
    }
}

/// They have no step to be stopped in.
fn plans_of_no_steps(s: &mut Stops) {
    let home = room(&[node(9, 9)], &[vm(1, 1, 0, 0)], &[]);
    let nobody = room(&[node(9, 9)], &[], &[]);
    for room in [&home, &nobody] {
        let cluster = cluster_bytes(room);
        for plan in [vec![], header(Version::One), header(Version::Two)] {
            for (step, marks) in
                [(0, &[][..]), (1, &[]), (1, &[0]), (1, &[2]), (2, &[]), (65_537, &[])]
            {
                for buffer in [0, cluster.len()] {
                    let ask = Ask { step, marks: marks.to_vec(), buffer };
                    let (name, cluster) = ("no steps".to_string(), cluster.clone());
                    let (plan, ends) = (plan.clone(), Err((20, 0)));
                    s.0.push(StopEdge { name, reserve: 0, cluster, plan, ask, ends });
                }
            }
        }
    }
}

/// What is wrong with the reserve, the cluster or the plan comes before what is wrong with the stop.
fn refused_plans(s: &mut Stops) {
    let a = cluster_a();
    let mut add = |reserve: u64, room: &Room, list: Rows, ends: (u8, u16)| {
        let length = cluster_bytes(room).len();
        let stops: [(u64, &[u8], usize); 6] = [
            (1, &[1, 1], length),
            (1, &[0], length),
            (0, &[], length),
            (1, &[2, 9], length),
            (1, &[1, 1], 0),
            (9, &[2], 0),
        ];
        for (step, marks, buffer) in stops {
            let ask = Ask { step, marks: marks.to_vec(), buffer };
            s.both("a plan that is refused", reserve, room, &steps(list), &ask, Err(ends));
        }
    };
    add(0, &a, BOTH, (17, 1));
    add(0, &a, &[&[(0, 2)]], (19, 0));
    add(0, &a, &[&[(0, 2)], &[(1, 0)], &[(0, 2)]], (15, 3));
    add(26, &a, ASIDE, (8, 0));
    add(20, &a_with(5, 5), BOTH, (17, 1));
    add(0, &Room { constraints: vec![ban(&[0], &[2])], ..a.clone() }, ASIDE, (16, 1));
    add(0, &Room { constraints: vec![spread(&[0, 1])], ..a_with(9, 9) }, BOTH, (18, 1));
    add(0, &Room { constraints: vec![before(0, 1)], ..a_with(9, 9) }, BOTH, (33, 1));
    for reserve in TOO_HIGH {
        add(reserve, &a, ASIDE, (23, 0));
    }
}

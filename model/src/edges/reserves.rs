//! Hand-set inputs at reserves: too high, with amounts on both sides of what is usable, and with nodes
//! that are within their capacity but over what is usable of it.

use super::{before, cluster_a, node, room, room_2, vm, Edge, Edges};
use crate::gen::{MOST_CPU, MOST_MEMORY};
use crate::records::{cluster_bytes, Room, Version, NOWHERE};
use crate::reserves::TOO_HIGH;
use std::collections::BTreeSet;

/// Steps as rows of VM and destination.
type Rows<'a> = &'a [&'a [(usize, usize)]];

/// A reserve, a capacity, and what is usable of it.
const USABLE: [(u64, u64, u64); 31] = [
    (1, 0, 0),
    (1, 1, 0),
    (1, 2, 1),
    (1, 99, 98),
    (1, 100, 99),
    (1, 101, 99),
    (1, 102, 100),
    (9, 11, 10),
    (10, 1, 0),
    (10, 4, 3),
    (10, 9, 8),
    (10, 10, 9),
    (10, 11, 9),
    (10, 12, 10),
    (10, 101, 90),
    (11, 11, 9),
    (33, 3, 2),
    (33, 4, 2),
    (33, 5, 3),
    (49, 2, 1),
    (50, 2, 1),
    (50, 3, 1),
    (50, 4, 2),
    (51, 2, 0),
    (89, 9, 0),
    (89, 10, 1),
    (90, 9, 0),
    (90, 10, 1),
    (90, 19, 1),
    (90, 20, 2),
    (90, 999, 99),
];

/// The same of the largest capacities, of memory and of CPU.
const OF_THE_LARGEST: [(u64, u64, u64); 4] = [
    (1, 16_609_442, 64_879),
    (10, 15_099_493, 58_981),
    (50, 8_388_607, 32_767),
    (90, 1_677_721, 6_553),
];

impl Edges {
    /// What this adds is called at a reserve.
    fn reserved(&mut self, reserve: u64, add: impl FnOnce(&mut Edges)) {
        let first = self.0.len();
        add(self);
        for edge in &mut self.0[first..] {
            edge.reserve = reserve;
            edge.name += &format!(", reserve {reserve}");
        }
    }

    /// Steps for a room at a reserve, and with none, with an outcome each.
    fn at_and_without(
        &mut self,
        reserve: u64,
        name: &str,
        room: &Room,
        list: Rows,
        checks: [Option<(u8, u16)>; 2],
    ) {
        self.reserved(reserve, |e| e.steps(name, room, list, checks[0]));
        self.steps(name, room, list, checks[1]);
    }

    /// As `no_steps`, at a reserve.
    fn no_steps_at(&mut self, reserve: u64, name: &str, room: &Room, number: u8) {
        self.reserved(reserve, |e| e.no_steps(name, &cluster_bytes(room), number));
    }
}

/// One of the inputs so far for each outcome of both calls, with a reserve that is too high: 23 comes
/// before all that is wrong with it.
pub(super) fn too_high(e: &mut Edges) {
    let mut outcomes = BTreeSet::new();
    let is_first = |edge: &&Edge| outcomes.insert((edge.check.map(|(n, _)| n), edge.build));
    let firsts: Vec<Edge> = e.0.iter().filter(is_first).cloned().collect();
    for edge in firsts {
        for reserve in TOO_HIGH {
            let name = format!("23, else {}, reserve {reserve}", edge.name);
            let (check, build) = (Some((23, 0)), Some(23));
            e.0.push(Edge { name, reserve, check, build, ..edge.clone() });
        }
    }
    // Beside a reserve that is taken each has its own number, and where nothing is on a node nothing
    // can be wrong.
    let down = room_2(&[node(1, 1)], &[vm(9, 9, NOWHERE, NOWHERE)], &[]);
    for reserve in [1, 10, 89, 90] {
        e.reserved(reserve, |e| {
            e.cluster("no bytes", vec![], 1);
            e.room("no nodes", &room(&[], &[], &[]), 4);
            e.room("memory 0", &room(&[node(9, 9)], &[vm(0, 1, 0, 0)], &[]), 6);
            e.room("no VMs", &room(&[node(9, 9)], &[], &[]), 0);
            e.no_steps("one down", &cluster_bytes(&down), 0);
        });
    }
}

/// Amounts that are just usable and one over, as a target and for a step: memory and CPU, each apart.
pub(super) fn usable(e: &mut Edges) {
    for (reserve, capacity, usable) in USABLE {
        for (amount, number, check) in [(usable, 0, None), (usable + 1, 8, Some((17, 1)))] {
            let with = |small, memory, cpu, home| {
                room(&[small, node(MOST_MEMORY, MOST_CPU)], &[vm(memory, cpu, home, home)], &[])
            };
            let memory = |home| with(node(capacity, MOST_CPU), amount, 0, home);
            let cpu = |home| with(node(MOST_MEMORY, capacity), 1, amount, home);
            let there: Rows = &[&[(0, 0)], &[(0, 1)]];
            e.reserved(reserve, |e| {
                if amount > 0 {
                    let name = format!("memory {amount} of {capacity}");
                    e.room(&name, &memory(0), number);
                    e.steps(&name, &memory(1), there, check);
                }
                let name = format!("CPU {amount} of {capacity}");
                e.room(&name, &cpu(0), number);
                e.steps(&name, &cpu(1), there, check);
            });
        }
    }
    for (reserve, memory, cpu) in OF_THE_LARGEST {
        for (more, number) in [([0, 0], 0), ([1, 0], 8), ([0, 1], 8)] {
            let row = vm(memory + more[0], cpu + more[1], 0, 0);
            let room = room(&[node(MOST_MEMORY, MOST_CPU)], &[row], &[]);
            e.reserved(reserve, |e| e.room(&format!("the largest, {more:?} over"), &room, number));
        }
    }
    // At reserve 10 a node of memory 4 and CPU 101 has 3 and 90.
    for (memory, cpu, number) in [(3, 90, 0), (4, 90, 8), (3, 91, 8), (4, 101, 8)] {
        let room = room(&[node(4, 101)], &[vm(memory, cpu, 0, 0)], &[]);
        let name = format!("memory {memory} of 4, CPU {cpu} of 101");
        e.no_steps_at(10, &name, &room, number);
        e.no_steps(&name, &cluster_bytes(&room), 0);
    }
}

/// Node 0 has memory 9 and CPU 20 on it, or memory 2 and CPU 90, until VM 0 leaves for node 1. At
/// reserve 20 memory 8 and CPU 80 are usable of 10 and 100. VM 2, of this memory and CPU, is wanted
/// there.
pub fn over_usable(by_memory: bool, memory: u64, cpu: u64) -> Room {
    let [leaver, stays] = match by_memory {
        true => [vm(5, 10, 0, 1), vm(4, 10, 0, 0)],
        false => [vm(1, 50, 0, 1), vm(1, 40, 0, 0)],
    };
    room(&vec![node(10, 100); 3], &[leaver, stays, vm(memory, cpu, 2, 0)], &[])
}

/// Nodes over what is usable and within their capacity, at reserve 20; with none they are within.
pub(super) fn over(e: &mut Edges) {
    let at = |step: u16| Some((17, step));
    let first: Rows = &[&[(2, 0)], &[(0, 1)]];
    let together: Rows = &[&[(0, 1), (2, 0)]];
    let last: Rows = &[&[(0, 1)], &[(2, 0)]];
    for (by_memory, cpu, check) in
        [(true, 0, at(1)), (true, 1, at(1)), (false, 0, None), (false, 1, at(1))]
    {
        let what = if by_memory { "memory" } else { "CPU" };
        let mut add = |name: &str, list: Rows, check| {
            let name = format!("over usable {what}, CPU {cpu} comes {name}");
            e.at_and_without(20, &name, &over_usable(by_memory, 1, cpu), list, [check, None]);
        };
        add("first", first, check);
        add("as one leaves", together, check);
        add("when one has left", last, None);
    }
    for by_memory in [true, false] {
        let mut room = over_usable(by_memory, 1, 1);
        room.vms.truncate(2);
        e.at_and_without(20, "left while over usable", &room, &[&[(0, 1)]], [None, None]);
        room.vms[0].target = 0;
        e.no_steps_at(20, "a target over usable", &room, 8);
        e.no_steps("a target over usable", &cluster_bytes(&room), 0);
    }
    let full = over_usable(false, 7, 0);
    e.at_and_without(20, "CPU 0, one over usable memory", &full, first, [at(1), None]);
    let just = over_usable(false, 6, 0);
    e.at_and_without(20, "CPU 0, memory just usable", &just, first, [None, None]);
    let launch = |cpu| {
        let mut room = Room { version: Version::Two, ..over_usable(false, 1, cpu) };
        room.vms[2].current = NOWHERE;
        room
    };
    e.at_and_without(20, "CPU 0 launched", &launch(0), first, [None, None]);
    e.at_and_without(20, "CPU 1 launched", &launch(1), first, [at(1), None]);
    let turn = [vm(9, 90, 0, NOWHERE), vm(1, 10, NOWHERE, 0)];
    let turn = room_2(&[node(10, 100)], &turn, &[]);
    let (off, on) = ([(0, NOWHERE)], [(1, 0)]);
    e.at_and_without(20, "shut down while over usable", &turn, &[&off, &on], [None, None]);
    e.at_and_without(20, "launched while over usable", &turn, &[&on, &off], [at(1), None]);
}

/// Cluster A with this memory on nodes 0 and 1, and on node 2.
pub fn a_with(memory: u64, spare: u64) -> Room {
    let mut room = cluster_a();
    [memory, memory, spare].into_iter().zip(&mut room.nodes).for_each(|(m, n)| n.memory = m);
    room
}

/// Rooms that are planned otherwise at a reserve, or are blocked there.
pub(super) fn planned(e: &mut Edges) {
    let both: Rows = &[&[(0, 1), (1, 0)]];
    let aside: Rows = &[&[(0, 2)], &[(1, 0)], &[(0, 1)]];
    for reserve in [1, 20, 25] {
        let refused = Some((17, 1));
        e.at_and_without(reserve, "A, memory 5, both", &a_with(5, 5), both, [refused, None]);
        e.at_and_without(reserve, "A, memory 5, aside", &a_with(5, 5), aside, [None, None]);
        e.no_steps_at(reserve, "A, memory 5, node 2 too small", &a_with(5, 2), 19);
    }
    for reserve in [0, 1, 10, 25, 26] {
        let number = if reserve > 25 { 8 } else { 19 };
        e.no_steps_at(reserve, "A", &cluster_a(), number);
        e.no_steps_at(reserve, "A, node 2 one less", &a_with(4, 3), number);
    }
    let mut busy = over_usable(false, 1, 0);
    busy.vms.push(vm(1, 1, 2, 0));
    e.no_steps_at(20, "an idle VM goes first, an active one waits", &busy, 19);
    e.no_steps("neither waits", &cluster_bytes(&busy), 19);
}

/// VM 2 waits for VM 0, which makes node 0 be over what is usable of it at reserve 20 until it has left:
/// 17 comes before 33 there, and where VM 2 is idle 33 is what refuses it.
pub(super) fn befores(e: &mut Edges) {
    let waits = |by_memory, cpu| {
        let room = over_usable(by_memory, 1, cpu);
        Room { constraints: vec![before(0, 2)], ..room }
    };
    let (full, too_soon) = (Some((17, 1)), Some((33, 1)));
    let first: Rows = &[&[(2, 0)], &[(0, 1)]];
    let together: Rows = &[&[(0, 1), (2, 0)]];
    for (by_memory, cpu, check) in
        [(true, 0, full), (true, 1, full), (false, 0, too_soon), (false, 1, full)]
    {
        let room = waits(by_memory, cpu);
        let name = |what: &str| format!("over usable, {by_memory} {cpu}, the second {what}");
        e.at_and_without(20, &name("first"), &room, first, [check, too_soon]);
        e.at_and_without(20, &name("at once"), &room, together, [check, too_soon]);
        e.at_and_without(20, &name("last"), &room, &[&[(0, 1)], &[(2, 0)]], [None, None]);
        e.no_steps_at(20, &name("is planned"), &room, 19);
    }
}

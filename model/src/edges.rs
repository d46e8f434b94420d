//! Inputs set by hand on both sides of every limit, each with the outcome that document 01, as
//! amended, gives it.

mod befores;
mod reserves;
mod splits;
mod stops;

use crate::planner::BUFFER;
use crate::records::{
    cluster_bytes, cluster_bytes_with, plan_bytes, state_length, Constraint, Move, Node, Plan,
    Room, Step, Version, Vm, NOWHERE, PLAN_HEADER,
};
use crate::sources::{bare, named};

pub use reserves::{a_with, over_usable};
pub use splits::{split_edges, SplitEdge};
pub use stops::{stop_edges, StopEdge};

/// One input with its expected outcome. `check` is `None` for accepted, else number and step;
/// `build` is `None` for plan or blocked, else the number.
#[derive(Clone, Debug)]
pub struct Edge {
    pub name: String,
    pub reserve: u64,
    pub cluster: Vec<u8>,
    pub plan: Vec<u8>,
    pub buffer: usize,
    pub check: Option<(u8, u16)>,
    pub build: Option<u8>,
}

// ---------------------------------------------------------------- short hands

pub fn node(memory: u64, cpu: u64) -> Node {
    Node { memory, cpu }
}

pub fn vm(memory: u64, cpu: u64, current: usize, target: usize) -> Vm {
    Vm { memory, cpu, current, target }
}

/// A room of version 1.
pub fn room(nodes: &[Node], vms: &[Vm], constraints: &[Constraint]) -> Room {
    let (nodes, vms, constraints) = (nodes.to_vec(), vms.to_vec(), constraints.to_vec());
    Room { version: Version::One, nodes, vms, constraints }
}

/// A room of version 2.
pub fn room_2(nodes: &[Node], vms: &[Vm], constraints: &[Constraint]) -> Room {
    Room { version: Version::Two, ..room(nodes, vms, constraints) }
}

/// Steps from pairs of VM and destination.
pub fn steps(steps: &[&[(usize, usize)]]) -> Vec<Step> {
    steps.iter().map(|s| s.iter().map(|&(vm, to)| Move::bare(vm, to)).collect()).collect()
}

/// A plan of version 2 from rows of VM, source and destination.
pub fn sourced(steps: &[&[(usize, usize, usize)]]) -> Plan {
    let named = |&(vm, from, to): &(usize, usize, usize)| Move { vm, from: Some(from), to };
    let steps = steps.iter().map(|s| s.iter().map(named).collect()).collect();
    Plan { version: Version::Two, steps }
}

/// The record of a plan of no steps.
pub fn header(version: Version) -> Vec<u8> {
    plan_bytes(&Plan::empty(version))
}

/// Document 01's cluster A.
pub fn cluster_a() -> Room {
    room(&[node(4, 100), node(4, 100), node(4, 100)], &[vm(3, 50, 0, 1), vm(2, 50, 1, 0)], &[])
}

/// Three roomy nodes and two VMs at home, for tests of shape.
fn at_home() -> Room {
    room(&[node(9, 9), node(9, 9), node(9, 9)], &[vm(1, 1, 0, 0), vm(1, 1, 1, 1)], &[])
}

fn ban(vms: &[usize], nodes: &[usize]) -> Constraint {
    Constraint::Ban { vms: vms.to_vec(), nodes: nodes.to_vec() }
}

fn fence(vms: &[usize], nodes: &[usize]) -> Constraint {
    Constraint::Fence { vms: vms.to_vec(), nodes: nodes.to_vec() }
}

fn spread(vms: &[usize]) -> Constraint {
    Constraint::Spread { vms: vms.to_vec() }
}

/// VM `second` waits for VM `first`.
pub fn before(first: usize, second: usize) -> Constraint {
    Constraint::Before { first, second }
}

fn latency(vms: &[usize], groups: &[&[usize]]) -> Constraint {
    let groups = groups.iter().map(|group| group.to_vec()).collect();
    Constraint::Latency { vms: vms.to_vec(), groups }
}

/// The cases gathered so far, with ways to add one.
#[derive(Default)]
struct Edges(Vec<Edge>);

impl Edges {
    /// A cluster's bytes beside a plan of no steps; `number` 0 means taken by both calls.
    fn cluster(&mut self, name: &str, cluster: Vec<u8>, number: u8) {
        let refusal = (number != 0).then_some(number);
        self.0.push(Edge {
            name: name.to_string(),
            reserve: 0,
            cluster,
            plan: header(Version::One),
            buffer: BUFFER,
            check: refusal.map(|number| (number, 0)),
            build: refusal,
        });
    }

    /// As `cluster`, from a room.
    fn room(&mut self, name: &str, room: &Room, number: u8) {
        self.cluster(name, cluster_bytes(room), number);
    }

    /// As `cluster`, from the room at home with raw constraints, in either version.
    fn bodies(&mut self, name: &str, bodies: &[&[u8]], number: u8) {
        let bodies: Vec<Vec<u8>> = bodies.iter().map(|body| body.to_vec()).collect();
        for version in Version::ALL {
            let home = Room { version, ..at_home() };
            self.cluster(name, cluster_bytes_with(&home, &bodies), number);
        }
    }

    /// A plan's bytes for a room that has none of the faults 1 to 9.
    fn plan(&mut self, name: &str, room: &Room, plan: Vec<u8>, check: Option<(u8, u16)>) {
        let cluster = cluster_bytes(room);
        let name = name.to_string();
        self.0.push(Edge { name, reserve: 0, cluster, plan, buffer: BUFFER, check, build: None });
    }

    /// A cluster's bytes beside no plan bytes, and beside the header of a plan of no steps in each
    /// version: one outcome for all, 0 for accepted. Then beside 6 bytes of either header, which
    /// are 11 unless the cluster itself is refused.
    fn no_steps(&mut self, name: &str, cluster: &[u8], number: u8) {
        let cut = if matches!(number, 0 | 19) { 11 } else { number };
        let mut add = |kind: &str, plan: &[u8], number: u8| {
            self.0.push(Edge {
                name: format!("{name}, {kind}"),
                reserve: 0,
                cluster: cluster.to_vec(),
                plan: plan.to_vec(),
                buffer: BUFFER,
                check: (number != 0).then_some((number, 0)),
                build: (1..=9).contains(&number).then_some(number),
            });
        };
        add("no plan bytes", &[], number);
        for version in Version::ALL {
            let header = header(version);
            add(&format!("header {}", version as u8), &header, number);
            add(&format!("6 bytes of header {}", version as u8), &header[..6], cut);
        }
    }

    /// As `plan`, from steps in each version, with sources that are right in version 2: one
    /// outcome for both.
    fn both(&mut self, name: &str, room: &Room, list: &[Step], check: Option<(u8, u16)>) {
        self.plan(name, room, plan_bytes(&bare(list)), check);
        let with_sources = plan_bytes(&named(room, list));
        self.plan(&format!("{name}, sources named"), room, with_sources, check);
    }

    /// As `both`, from pairs of VM and destination.
    fn steps(
        &mut self,
        name: &str,
        room: &Room,
        list: &[&[(usize, usize)]],
        check: Option<(u8, u16)>,
    ) {
        self.both(name, room, &steps(list), check);
    }

    /// As `plan`, from rows of VM, source and destination.
    fn sourced(
        &mut self,
        name: &str,
        room: &Room,
        list: &[&[(usize, usize, usize)]],
        check: Option<(u8, u16)>,
    ) {
        self.plan(name, room, plan_bytes(&sourced(list)), check);
    }
}

/// All hand-set cases.
pub fn edges() -> Vec<Edge> {
    let mut edges = Edges::default();
    cluster_headers(&mut edges);
    cluster_counts(&mut edges);
    cluster_fill(&mut edges);
    vm_rows(&mut edges);
    rows_on_no_node(&mut edges);
    constraint_shapes(&mut edges);
    latency_shapes(&mut edges);
    target_sums(&mut edges);
    target_constraints(&mut edges);
    targets_on_no_node(&mut edges);
    buffers(&mut edges);
    plans_of_no_steps(&mut edges);
    whole_clusters_without_steps(&mut edges);
    short_plans(&mut edges);
    plan_headers(&mut edges);
    plan_versions(&mut edges);
    plan_counts(&mut edges);
    move_names(&mut edges);
    sources(&mut edges);
    sources_before_other_faults(&mut edges);
    sources_step_by_step(&mut edges);
    sources_on_no_node(&mut edges);
    shutdown_names(&mut edges);
    closed_nodes(&mut edges);
    fits(&mut edges);
    idle_fits(&mut edges);
    idle_beside_active(&mut edges);
    spreads(&mut edges);
    launches_and_shutdowns_fit(&mut edges);
    launches_and_shutdowns_meet(&mut edges);
    ends(&mut edges);
    ends_on_no_node(&mut edges);
    launches_and_shutdowns_planned(&mut edges);
    idle_planned(&mut edges);
    befores::shapes(&mut edges);
    befores::targets(&mut edges);
    befores::steps(&mut edges);
    befores::on_no_node(&mut edges);
    befores::among_other_faults(&mut edges);
    befores::planned(&mut edges);
    reserves::usable(&mut edges);
    reserves::over(&mut edges);
    reserves::planned(&mut edges);
    reserves::befores(&mut edges);
    reserves::too_high(&mut edges);
    edges.0
}

/// Changes a good record's bytes.
fn changed(bytes: &[u8], change: impl Fn(&mut Vec<u8>)) -> Vec<u8> {
    let mut bytes = bytes.to_vec();
    change(&mut bytes);
    bytes
}

/// Takes the last byte off.
fn cut(bytes: &mut Vec<u8>) {
    bytes.pop();
}

/// As `changed`, with the length stated anew.
fn restated(bytes: &[u8], change: impl Fn(&mut Vec<u8>)) -> Vec<u8> {
    let mut bytes = changed(bytes, change);
    state_length(&mut bytes);
    bytes
}

// ---------------------------------------------------------------- 1 to 3

fn cluster_headers(e: &mut Edges) {
    let good = cluster_bytes(&at_home());
    e.cluster("whole", good.clone(), 0);
    e.cluster("no bytes", vec![], 1);
    e.cluster("10 bytes", good[..10].to_vec(), 1);
    e.cluster("10 bytes, version 2", changed(&good[..10], |b| b[0] = 2), 1);
    e.cluster("11 bytes, version 0", changed(&good[..11], |b| b[0] = 0), 2);
    e.cluster("11 bytes, length of the whole", good[..11].to_vec(), 3);
    e.cluster("11 bytes that state so, rows missing", restated(&good[..11], |_| ()), 5);
    e.cluster("version 2", changed(&good, |b| b[0] = 2), 0);
    e.cluster("11 bytes, version 2", changed(&good[..11], |b| b[0] = 2), 3);
    e.cluster("11 bytes, version 3", changed(&good[..11], |b| b[0] = 3), 2);
    for version in [0, 3, 4, 127, 128, 129, 130, 254, 255] {
        e.cluster(&format!("version {version}"), changed(&good, |b| b[0] = version), 2);
    }
    e.cluster("version and length", changed(&good, |b| (b[0], b[4]) = (3, 0)), 2);
    e.cluster("version 2 and length", changed(&good, |b| (b[0], b[4]) = (2, 0)), 3);
    e.cluster("length one more", changed(&good, |b| b[4] += 1), 3);
    e.cluster("length one less", changed(&good, |b| b[4] -= 1), 3);
    e.cluster("length wrong in the highest byte", changed(&good, |b| b[1] = 1), 3);
    e.cluster("length wrong in the second byte", changed(&good, |b| b[2] = 1), 3);
    e.cluster("length wrong in the third byte", changed(&good, |b| b[3] = 1), 3);
    e.cluster("one byte more lent than stated", changed(&good, |b| b.push(0)), 3);
    e.cluster("one byte less lent than stated", changed(&good, cut), 3);
    e.cluster("length and N", changed(&good, |b| (b[4], b[6]) = (0, 0)), 3);
    for (size, left_over, one_constraint) in [(65_535, 5, 7), (65_536, 3, 3), (131_071, 3, 3)] {
        e.cluster("long, bytes left over", restated(&good, |b| b.resize(size, 0)), left_over);
        e.cluster("long, one big constraint", long_constraint(size), one_constraint);
    }
    let one_over = changed(&cluster_bytes(&at_home()), |b| {
        b.resize(65_536, 0);
        b[1..5].copy_from_slice(&[0, 0, 0xFF, 0xFF]);
    });
    e.cluster("65,536 bytes that state 65,535", one_over, 3);
}

/// A record of this size with one constraint that takes all the rest, as far as its own length
/// field reaches. It fills the record only up to 65,535 bytes.
fn long_constraint(size: usize) -> Vec<u8> {
    let good = cluster_bytes(&at_home());
    let body = size - good.len() - 2;
    restated(&good, |b| {
        b[10] = 1;
        b.extend((body as u16).to_be_bytes());
        b.push(3);
        b.resize(size, 0);
    })
}

// ---------------------------------------------------------------- 4

fn cluster_counts(e: &mut Edges) {
    let nodes = |n: usize| vec![node(300, 300); n];
    let vms = |v: usize| vec![vm(1, 1, 0, 0); v];
    let empties = |c: usize| vec![spread(&[]); c];
    for (n, number) in [(0, 4), (1, 0), (2, 0), (63, 0), (64, 0), (65, 4), (256, 4), (257, 4)] {
        e.room(&format!("N {n}"), &room(&nodes(n), &[], &[]), number);
    }
    for (v, number) in [(0, 0), (1, 0), (255, 0), (256, 0), (257, 4), (512, 4)] {
        e.room(&format!("V {v}"), &room(&nodes(1), &vms(v), &[]), number);
    }
    for (c, number) in [(0, 0), (1, 0), (127, 0), (128, 0), (129, 4), (256, 4), (257, 4)] {
        e.room(&format!("C {c}"), &room(&nodes(1), &[], &empties(c)), number);
    }
    e.room("all at their most", &room(&nodes(64), &vms(256), &empties(128)), 0);
    let bare = |n: u16, v: u16, c: u16| {
        let counts = [n.to_be_bytes(), v.to_be_bytes(), c.to_be_bytes()].concat();
        [vec![1, 0, 0, 0, 11], counts].concat()
    };
    e.cluster("11 bytes, N 0", bare(0, 0, 0), 4);
    e.cluster("11 bytes, N 1", bare(1, 0, 0), 5);
    e.cluster("11 bytes, N 64", bare(64, 0, 0), 5);
    e.cluster("11 bytes, N 65", bare(65, 0, 0), 4);
    e.cluster("11 bytes, V 256", bare(1, 256, 0), 5);
    e.cluster("11 bytes, V 257", bare(1, 257, 0), 4);
    e.cluster("11 bytes, C 128", bare(1, 0, 128), 5);
    e.cluster("11 bytes, C 129", bare(1, 0, 129), 4);
    e.cluster("11 bytes, all too large", bare(65_535, 65_535, 65_535), 4);
}

// ---------------------------------------------------------------- 5

fn cluster_fill(e: &mut Edges) {
    let good = cluster_bytes(&at_home());
    let two =
        cluster_bytes(&room(&at_home().nodes, &at_home().vms, &[ban(&[0], &[2]), spread(&[0, 1])]));
    let rows = good.len();
    e.cluster("two constraints", two.clone(), 0);
    e.cluster("one byte over", restated(&good, |b| b.push(0)), 5);
    e.cluster("one byte short", restated(&good, cut), 5);
    e.cluster("one byte over behind constraints", restated(&two, |b| b.push(0)), 5);
    e.cluster("one byte short in a constraint", restated(&two, cut), 5);
    e.cluster("rows cut in the nodes", restated(&good, |b| b.truncate(13)), 5);
    e.cluster("one constraint more than there is", changed(&two, |b| b[10] = 3), 5);
    e.cluster("one constraint less than there is", changed(&two, |b| b[10] = 1), 5);
    e.cluster("one VM more than there is", changed(&good, |b| b[8] = 3), 5);
    e.cluster("one VM less than there is", changed(&good, |b| b[8] = 1), 5);
    e.cluster(
        "half a constraint length",
        restated(&changed(&good, |b| b[10] = 1), |b| b.push(0)),
        5,
    );
    e.cluster("last length one more", changed(&two, |b| b[rows + 2 + 6 + 1] += 1), 5);
    e.cluster("last length one less", changed(&two, |b| b[rows + 2 + 6 + 1] -= 1), 5);
    e.cluster("length with its high byte set", changed(&two, |b| b[rows] = 1), 5);
    // Two neighbours whose lengths are both off by one, so that they still fill the record.
    let shifted = cluster_bytes_with(&at_home(), &[vec![3, 0, 0, 0], vec![3, 0]]);
    e.cluster("lengths that fill it together, lists that do not", shifted, 7);
    let mut bad_row = at_home();
    bad_row.vms[0].memory = 0;
    let bad_row = cluster_bytes(&bad_row);
    e.cluster("a bad row", bad_row.clone(), 6);
    e.cluster("a bad row and one byte over", restated(&bad_row, |b| b.push(0)), 5);
}

// ---------------------------------------------------------------- 6

fn vm_rows(e: &mut Edges) {
    let with = |row: Vm| room(&at_home().nodes, &[vm(1, 1, 0, 0), row], &[]);
    e.room("memory 0", &with(vm(0, 1, 1, 1)), 6);
    e.room("memory 1", &with(vm(1, 1, 1, 1)), 0);
    e.room("memory and CPU 0", &with(vm(0, 0, 1, 1)), 6);
    e.room("CPU 0", &with(vm(1, 0, 1, 1)), 0);
    e.room("current N - 1, target N - 1", &with(vm(1, 1, 2, 2)), 0);
    e.room("current N", &with(vm(1, 1, 3, 1)), 6);
    e.room("target N", &with(vm(1, 1, 1, 3)), 6);
    e.room("current 255", &with(vm(1, 1, 255, 1)), 6);
    e.room("target 255", &with(vm(1, 1, 1, 255)), 6);
    let mut both = with(vm(0, 1, 1, 1));
    both.constraints.push(spread(&[2]));
    e.room("a bad row beside a bad constraint", &both, 6);
    let most = room(&[node(16_777_215, 65_535)], &[vm(16_777_215, 65_535, 0, 0)], &[]);
    e.room("the largest VM on the largest node", &most, 0);
}

/// 255 is a place in version 2, as current or as target; no other number that is not below N is.
fn rows_on_no_node(e: &mut Edges) {
    let nodes = vec![node(9, 9); 3];
    let with = |version: Version, row: Vm| {
        let room = room(&nodes, &[vm(1, 1, 0, 0), row], &[]);
        cluster_bytes(&Room { version, ..room })
    };
    for (current, target) in [(NOWHERE, 1), (1, NOWHERE), (NOWHERE, NOWHERE)] {
        let (row, name) = (vm(1, 1, current, target), format!("from {current} to {target}"));
        e.no_steps(&format!("version 1, {name}"), &with(Version::One, row.clone()), 6);
        let number = if current == target { 0 } else { 19 };
        e.no_steps(&format!("version 2, {name}"), &with(Version::Two, row), number);
    }
    for other in [3, 63, 64, 127, 254] {
        for row in [vm(1, 1, other, 1), vm(1, 1, 1, other), vm(1, 1, other, NOWHERE)] {
            let name = format!("version 2, from {} to {}", row.current, row.target);
            e.cluster(&name, with(Version::Two, row), 6);
        }
    }
    let no_memory = vm(0, 1, NOWHERE, NOWHERE);
    e.cluster("memory 0 on no node", with(Version::Two, no_memory), 6);
    let most = vm(16_777_215, 65_535, NOWHERE, NOWHERE);
    e.cluster("the largest VM stays on no node", with(Version::Two, most), 0);
    e.cluster("version 2, all on nodes", with(Version::Two, vm(1, 1, 2, 2)), 0);
    let all = room_2(&[node(0, 0)], &vec![vm(9, 9, NOWHERE, NOWHERE); 256], &[]);
    e.room("256 VMs stay on no node", &all, 0);
    let mut wide = room_2(&vec![node(9, 9); 64], &[vm(1, 1, 63, 63)], &[]);
    e.room("version 2, node 63 of 64", &wide, 0);
    wide.vms[0].target = 64;
    e.room("version 2, node 64 of 64", &wide, 6);
    let over = restated(&with(Version::One, vm(1, 1, NOWHERE, 1)), |b| b.push(0));
    e.cluster("version 1 with 255, and one byte over", over, 5);
    let mut both = room(&nodes, &[vm(1, 1, NOWHERE, 1)], &[spread(&[2])]);
    e.room("version 1 with 255 beside a bad constraint", &both, 6);
    both.version = Version::Two;
    e.room("version 2 with 255 beside a bad constraint", &both, 7);
}

// ---------------------------------------------------------------- 7

fn constraint_shapes(e: &mut Edges) {
    e.bodies(
        "empty lists of each kind that has lists",
        &[&[1, 0, 0, 0], &[2, 0, 0, 0], &[3, 0, 0], &[4, 0, 0, 0]],
        0,
    );
    e.bodies("stated length 0", &[&[]], 7);
    e.bodies("stated length 0 between good ones", &[&[3, 0, 0], &[], &[3, 0, 0]], 7);
    for kind in 1..=4 {
        e.bodies("a kind and nothing else", &[&[kind]], 7);
        e.bodies("half a VM count", &[&[kind, 0]], 7);
    }
    for kind in [0, 6, 7, 255] {
        e.bodies("unknown kind", &[&[kind, 0, 0, 0]], 7);
        e.bodies("unknown kind alone", &[&[kind]], 7);
    }
    e.bodies("spread with a byte over", &[&[3, 0, 0, 0]], 7);
    e.bodies("spread one VM short", &[&[3, 0, 2, 0]], 7);
    e.bodies("spread of both", &[&[3, 0, 2, 0, 1]], 0);
    e.bodies("VM count wrong in its high byte", &[&[3, 1, 2, 0, 1]], 7);
    e.bodies("VMs equal", &[&[3, 0, 2, 1, 1]], 7);
    e.bodies("VMs fall", &[&[3, 0, 2, 1, 0]], 7);
    e.bodies("VM V - 1", &[&[3, 0, 1, 1]], 0);
    e.bodies("VM V", &[&[3, 0, 1, 2]], 7);
    e.bodies("VM 255", &[&[3, 0, 1, 255]], 7);
    for kind in [1, 2] {
        e.bodies("no node list", &[&[kind, 0, 0]], 7);
        e.bodies("node list one short", &[&[kind, 0, 0, 1]], 7);
        e.bodies("node list with a byte over", &[&[kind, 0, 0, 0, 0]], 7);
        e.bodies("node N - 1", &[&[kind, 0, 0, 1, 2]], 0);
        e.bodies("node N", &[&[kind, 0, 0, 1, 3]], 7);
        e.bodies("node 255", &[&[kind, 0, 0, 1, 255]], 7);
        e.bodies("nodes rise to 255", &[&[kind, 0, 0, 4, 0, 1, 2, 255]], 7);
        e.bodies("nodes equal", &[&[kind, 0, 0, 2, 1, 1]], 7);
        e.bodies("nodes fall", &[&[kind, 0, 0, 2, 1, 0]], 7);
        e.bodies("nodes rise", &[&[kind, 0, 0, 3, 0, 1, 2]], 0);
        e.bodies("node count too wide", &[&[kind, 0, 0, 0, 1, 2]], 7);
        e.bodies("bad VM, good nodes", &[&[kind, 0, 1, 2, 0]], 7);
    }
    e.bodies("the second is bad", &[&[3, 0, 0], &[3, 0, 1, 2]], 7);
    e.bodies("bad, and the target breaks another", &[&[1, 0, 1, 0, 1, 0], &[3, 0, 1, 2]], 7);
    let mut too_much = cluster_bytes_with(&at_home(), &[vec![9]]);
    too_much[11..14].copy_from_slice(&[0, 0, 0]);
    e.cluster("a bad constraint beside an overfull target", too_much, 7);
    let all: Vec<usize> = (0..256).collect();
    let full = room(&[node(256, 0)], &vec![vm(1, 0, 0, 0); 256], &[fence(&all, &[0])]);
    e.room("a list of 256 VMs", &full, 0);
    let body: Vec<u8> = [vec![3, 1, 1], (0..=255).collect(), vec![255]].concat();
    let room = room(&[node(256, 0)], &vec![vm(1, 0, 0, 0); 256], &[]);
    e.cluster("a list of 257 VMs", cluster_bytes_with(&room, &[body]), 7);
}

fn latency_shapes(e: &mut Edges) {
    let empty_groups = |count: u8| [vec![4, 0, 0, count], vec![0; usize::from(count)]].concat();
    for (count, number) in [(0, 0), (1, 0), (63, 0), (64, 0), (65, 7), (255, 7)] {
        e.bodies(&format!("{count} empty groups"), &[&empty_groups(count)], number);
    }
    e.bodies("no group count", &[&[4, 0, 0]], 7);
    e.bodies("one group less than counted", &[&[4, 0, 0, 2, 0]], 7);
    e.bodies("one group more than counted", &[&[4, 0, 0, 1, 0, 0]], 7);
    e.bodies("two groups", &[&[4, 0, 0, 2, 1, 0, 2, 1, 2]], 0);
    e.bodies("two groups, the higher first", &[&[4, 0, 0, 2, 2, 1, 2, 1, 0]], 0);
    e.bodies("a node in two groups, no VMs", &[&[4, 0, 0, 2, 2, 0, 1, 2, 1, 2]], 7);
    e.bodies("a node in groups 1 and 3", &[&[4, 0, 0, 3, 1, 0, 1, 1, 1, 0]], 7);
    e.bodies("a node in two groups, with a VM", &[&[4, 0, 1, 0, 2, 1, 0, 1, 0]], 7);
    e.bodies("group nodes equal", &[&[4, 0, 0, 1, 2, 1, 1]], 7);
    e.bodies("group nodes fall", &[&[4, 0, 0, 1, 2, 1, 0]], 7);
    e.bodies("group node N", &[&[4, 0, 0, 1, 1, 3]], 7);
    e.bodies("group node 255", &[&[4, 0, 0, 1, 1, 255]], 7);
    e.bodies("255 in two groups", &[&[4, 0, 0, 2, 1, 255, 1, 255]], 7);
    e.bodies("the last group cut", &[&[4, 0, 0, 2, 1, 0, 2, 1]], 7);
    let singles: Vec<Vec<usize>> = (0..64).map(|n| vec![n]).collect();
    let latency = Constraint::Latency { vms: vec![0], groups: singles };
    let wide = room(&vec![node(1, 1); 64], &[vm(1, 1, 0, 63)], &[latency]);
    e.0.push(Edge {
        name: "64 groups of one node".to_string(),
        reserve: 0,
        cluster: cluster_bytes(&wide),
        plan: plan_bytes(&named(&wide, &steps(&[&[(0, 63)]]))),
        buffer: BUFFER,
        check: None,
        build: None,
    });
}

// ---------------------------------------------------------------- 8 and 9

fn target_sums(e: &mut Edges) {
    let two = |memory, cpu| {
        room(&[node(memory, cpu), node(0, 0)], &[vm(3, 5, 0, 0), vm(4, 6, 0, 0)], &[])
    };
    e.room("target memory just fits", &two(7, 11), 0);
    e.room("target memory one over", &two(6, 11), 8);
    e.room("target CPU just fits", &two(100, 11), 0);
    e.room("target CPU one over", &two(100, 10), 8);
    e.room("both one over", &two(6, 10), 8);
    e.room("nothing on a node of nothing", &room(&[node(0, 0)], &[], &[]), 0);
    e.room("memory 1 on memory 0", &room(&[node(0, 9)], &[vm(1, 0, 0, 0)], &[]), 8);
    e.room("CPU 0 on CPU 0", &room(&[node(1, 0)], &[vm(1, 0, 0, 0)], &[]), 0);
    e.room("CPU 1 on CPU 0", &room(&[node(1, 0)], &[vm(1, 1, 0, 0)], &[]), 8);
    // Node 0 has CPU 3 on it for good, and VM 1, which is idle, is wanted there.
    let busy = |cpu| room(&[node(9, cpu), node(9, 9)], &[vm(1, 3, 0, 0), vm(1, 0, 1, 0)], &[]);
    e.no_steps("CPU 0 wanted where CPU just fits", &cluster_bytes(&busy(3)), 19);
    e.no_steps("CPU 0 wanted where CPU is over for good", &cluster_bytes(&busy(2)), 8);
    let launched = |cpu| {
        let mut room = Room { version: Version::Two, ..busy(cpu) };
        room.vms[1].current = NOWHERE;
        cluster_bytes(&room)
    };
    e.no_steps("CPU 0 to be launched where CPU just fits", &launched(3), 19);
    e.no_steps("CPU 0 to be launched where CPU is over for good", &launched(2), 8);
    let idle = room(&[node(1, 0), node(9, 0)], &[vm(1, 0, 0, 0), vm(1, 0, 1, 0)], &[]);
    e.no_steps("CPU 0 wanted where memory is full", &cluster_bytes(&idle), 8);
    let wide = |count| room(&[node(16_777_215, 65_535)], &vec![vm(65_536, 256, 0, 0); count], &[]);
    e.room("255 large VMs on one node", &wide(255), 0);
    e.room("256 large VMs on one node, sums that wrap their fields", &wide(256), 8);
    let huge = room(&[node(16_777_215, 65_535)], &vec![vm(16_777_215, 65_535, 0, 0); 256], &[]);
    e.room("256 of the largest VMs", &huge, 8);
    let last = room(&[node(9, 9), node(1, 1)], &[vm(1, 1, 0, 0), vm(2, 1, 0, 1)], &[]);
    e.room("too much on the last node", &last, 8);
    let mut both = two(6, 11);
    both.constraints.push(ban(&[0], &[0]));
    e.room("too much, and a constraint broken", &both, 8);
}

fn target_constraints(e: &mut Edges) {
    let with = |list: &[Constraint]| room(&at_home().nodes, &at_home().vms, list);
    e.room("ban elsewhere", &with(&[ban(&[0], &[1, 2])]), 0);
    e.room("ban where it stays", &with(&[ban(&[0], &[0])]), 9);
    e.room("ban of the other's node", &with(&[ban(&[0, 1], &[0])]), 9);
    e.room("ban of no VM", &with(&[ban(&[], &[0, 1, 2])]), 0);
    e.room("ban from no node", &with(&[ban(&[0, 1], &[])]), 0);
    e.room("fence around", &with(&[fence(&[0, 1], &[0, 1])]), 0);
    e.room("fence elsewhere", &with(&[fence(&[0], &[1, 2])]), 9);
    e.room("fence of no node", &with(&[fence(&[0], &[])]), 9);
    e.room("fence of no VM and no node", &with(&[fence(&[], &[])]), 0);
    e.room("two fences that meet", &with(&[fence(&[0], &[0, 1]), fence(&[0], &[0, 2])]), 0);
    e.room("fence, then ban inside it", &with(&[fence(&[0], &[0, 1]), ban(&[0], &[0])]), 9);
    e.room("spread of both", &with(&[spread(&[0, 1])]), 0);
    let together = room(&at_home().nodes, &[vm(1, 1, 0, 2), vm(1, 1, 1, 2)], &[spread(&[0, 1])]);
    e.room("spread on one target", &together, 9);
    let chain = room(
        &at_home().nodes,
        &[vm(1, 1, 0, 0), vm(1, 1, 1, 1), vm(1, 1, 0, 0)],
        &[spread(&[0, 1]), spread(&[1, 2])],
    );
    e.room("two spreads that share a VM do not merge", &chain, 0);
    e.room("latency in one group", &with(&[latency(&[0, 1], &[&[2], &[0, 1]])]), 0);
    e.room("latency in two groups", &with(&[latency(&[0, 1], &[&[0, 2], &[1]])]), 9);
    e.room("latency, one in no group", &with(&[latency(&[0, 1], &[&[0, 2]])]), 9);
    e.room("latency, both in no group", &with(&[latency(&[0, 1], &[&[2]])]), 9);
    e.room("latency of no group", &with(&[latency(&[0], &[])]), 9);
    e.room("latency of no VM and no group", &with(&[latency(&[], &[])]), 0);
    e.room("latency of no VM", &with(&[latency(&[], &[&[2], &[]])]), 0);
    e.room("the last constraint is broken", &with(&[spread(&[]), ban(&[1], &[1])]), 9);
    let banned = cluster_bytes(&with(&[ban(&[0], &[0])]));
    let mut edge = |name: &str, plan: Vec<u8>, buffer| {
        let (name, cluster) = (name.to_string(), banned.clone());
        let (check, build) = (Some((9, 0)), Some(9));
        e.0.push(Edge { name, reserve: 0, cluster, plan, buffer, check, build });
    };
    edge("9 before 10", header(Version::One), 0);
    edge("9 before 11", header(Version::One)[..6].to_vec(), BUFFER);
    edge("9 before 12", changed(&header(Version::One), |b| b[0] = 3), BUFFER);
    edge("9 before 27", plan_bytes(&sourced(&[&[(0, 1, 2)]])), BUFFER);
}

/// A VM that ends on no node takes nothing and keeps every constraint, and drops out of a latency's
/// list; all others are bound as ever.
fn targets_on_no_node(e: &mut Edges) {
    let ends = |memory, target| vm(memory, 9, NOWHERE, target);
    let sums = |vms: &[Vm]| room_2(&[node(3, 9), node(0, 0)], vms, &[]);
    let stays = || vm(3, 9, NOWHERE, NOWHERE);
    e.room("no node has memory for one that stays down", &sums(&[stays(), stays()]), 0);
    let no_steps = |e: &mut Edges, name: &str, room: &Room, number: u8| {
        e.no_steps(name, &cluster_bytes(room), number);
    };
    no_steps(e, "launched where it just fits", &sums(&[stays(), ends(3, 0)]), 19);
    no_steps(e, "launched where it does not fit", &sums(&[stays(), ends(4, 0)]), 8);
    no_steps(e, "two launched where one fits", &sums(&[ends(2, 0), ends(2, 0)]), 8);
    no_steps(e, "launched on a node of nothing", &sums(&[ends(1, 1)]), 8);
    let full = [vm(3, 9, 0, NOWHERE), vm(3, 9, NOWHERE, 0)];
    no_steps(e, "shut down where another is launched", &sums(&full), 19);
    let heap = [vm(9, 9, 0, NOWHERE), vm(9, 9, 1, NOWHERE)];
    no_steps(e, "an overfull start that is shut down", &sums(&heap), 19);

    // VMs 0 and 1 end on no node, VM 2 on node 0.
    let down = |list: &[Constraint]| {
        let vms = [vm(1, 1, NOWHERE, NOWHERE), vm(1, 1, NOWHERE, NOWHERE), vm(1, 1, 0, 0)];
        room_2(&vec![node(9, 9); 3], &vms, list)
    };
    e.room("banned from all nodes, down", &down(&[ban(&[0, 1], &[0, 1, 2])]), 0);
    e.room("banned beside one on a node", &down(&[ban(&[0, 1, 2], &[0])]), 9);
    e.room("fenced on no node, down", &down(&[fence(&[0, 1], &[])]), 0);
    e.room("fenced on no node, one not down", &down(&[fence(&[0, 1, 2], &[])]), 9);
    e.room("fenced with one on a node", &down(&[fence(&[0, 1, 2], &[0])]), 0);
    e.room("fenced elsewhere, down", &down(&[fence(&[0], &[2])]), 0);
    e.room("two mates down", &down(&[spread(&[0, 1])]), 0);
    e.room("two mates down, one not", &down(&[spread(&[0, 1, 2])]), 0);
    e.room("latency, all down, no group", &down(&[latency(&[0, 1], &[])]), 0);
    e.room("latency, all down, an empty group", &down(&[latency(&[0, 1], &[&[]])]), 0);
    e.room("latency, all down, a group", &down(&[latency(&[0], &[&[2]])]), 0);
    e.room("latency, one not down", &down(&[latency(&[0, 1, 2], &[&[0], &[1, 2]])]), 0);
    e.room("latency, one not down, no group", &down(&[latency(&[0, 1, 2], &[])]), 9);
    e.room("latency, one not down, in no group", &down(&[latency(&[0, 1, 2], &[&[1, 2]])]), 9);
    let two = |list: &[Constraint]| {
        let vms = [vm(1, 1, NOWHERE, NOWHERE), vm(1, 1, 0, 0), vm(1, 1, 1, 1)];
        room_2(&vec![node(9, 9); 3], &vms, list)
    };
    e.room("latency, one down, two in a group", &two(&[latency(&[0, 1, 2], &[&[0, 1]])]), 0);
    e.room("latency, one down, two groups", &two(&[latency(&[0, 1, 2], &[&[0, 2], &[1]])]), 9);
    e.room("mates apart beside one down", &two(&[spread(&[0, 1, 2])]), 0);

    // Where they are at the start does not count.
    let launched = |list: &[Constraint]| {
        let vms = [vm(1, 1, NOWHERE, 0), vm(1, 1, NOWHERE, 0), vm(1, 1, 2, NOWHERE)];
        room_2(&vec![node(9, 9); 3], &vms, list)
    };
    no_steps(e, "launched where banned", &launched(&[ban(&[0], &[0])]), 9);
    no_steps(e, "launched out of a fence", &launched(&[fence(&[1], &[1, 2])]), 9);
    no_steps(e, "mates launched on one node", &launched(&[spread(&[0, 1])]), 9);
    no_steps(e, "launched into no group", &launched(&[latency(&[0, 2], &[&[1], &[2]])]), 9);
    let kept = [
        ban(&[0, 1, 2], &[1, 2]),
        fence(&[0, 1, 2], &[0]),
        spread(&[0, 2]),
        latency(&[0, 1, 2], &[&[0]]),
        before(2, 0),
    ];
    no_steps(e, "every kind kept, one shut down", &launched(&kept), 19);
}

// ---------------------------------------------------------------- 10

fn buffers(e: &mut Edges) {
    let too_short = [0, 7, 2_047, 2_048, 2_050, 2_051, 2_052, 2_560, 2_561].map(|b| (b, Some(10)));
    let enough = [2_562, 2_563, 4_103, 4_104].map(|buffer| (buffer, None));
    for (buffer, build) in too_short.into_iter().chain(enough) {
        e.0.push(Edge {
            name: format!("buffer {buffer}"),
            reserve: 0,
            cluster: cluster_bytes(&at_home()),
            plan: header(Version::Two),
            buffer,
            check: None,
            build,
        });
    }
}

// ---------------------------------------------------------------- no steps

/// A cluster with everybody at home and cluster A, each whole and damaged in every way. What is
/// wrong with the cluster comes first, then 19 if somebody is off target.
fn plans_of_no_steps(e: &mut Edges) {
    for (whose, room, whole) in [("home", at_home(), 0), ("A", cluster_a(), 19)] {
        let good = cluster_bytes(&room);
        let mut add = |name: &str, cluster: Vec<u8>, number| {
            e.no_steps(&format!("{whose}, {name}"), &cluster, number);
        };
        add("whole", good.clone(), whole);
        add("no cluster bytes", vec![], 1);
        add("1 byte", good[..1].to_vec(), 1);
        add("10 bytes", good[..10].to_vec(), 1);
        add("version 0", changed(&good, |b| b[0] = 0), 2);
        add("version 2", changed(&good, |b| b[0] = 2), whole);
        add("version 3", changed(&good, |b| b[0] = 3), 2);
        add("length one more", changed(&good, |b| b[4] += 1), 3);
        add("the last byte cut", changed(&good, cut), 3);
        add("65,536 bytes", restated(&good, |b| b.resize(65_536, 0)), 3);
        add("N 0", changed(&good, |b| b[6] = 0), 4);
        add("N 65", changed(&good, |b| b[6] = 65), 4);
        add("V 257", changed(&good, |b| (b[7], b[8]) = (1, 1)), 4);
        add("C 129", changed(&good, |b| b[10] = 129), 4);
        add("one byte over", restated(&good, |b| b.push(0)), 5);
        add("one VM more than there is", changed(&good, |b| b[8] += 1), 5);
        add("one constraint more than there is", changed(&good, |b| b[10] += 1), 5);
        let vm_at = good.len() - 2 * 7;
        add("memory 0", changed(&good, |b| b[vm_at..vm_at + 3].fill(0)), 6);
        add("current N", changed(&good, |b| b[vm_at + 5] = 3), 6);
        add("target N", changed(&good, |b| b[vm_at + 6] = 3), 6);
        add("current 255", changed(&good, |b| b[vm_at + 5] = 255), 6);
        add("target 255", changed(&good, |b| b[vm_at + 6] = 255), 6);
        add("current 255, version 2", changed(&good, |b| (b[0], b[vm_at + 5]) = (2, 255)), 19);
        add("target 255, version 2", changed(&good, |b| (b[0], b[vm_at + 6]) = (2, 255)), 19);
        let stays = |b: &mut Vec<u8>| {
            b[0] = 2;
            b[vm_at + 5..vm_at + 7].fill(255);
        };
        add("both 255, version 2", changed(&good, stays), whole);
        add("a constraint of length 0", cluster_bytes_with(&room, &[vec![]]), 7);
        add("unknown kind", cluster_bytes_with(&room, &[vec![6, 0, 1]]), 7);
        add("one that waits for itself", cluster_bytes_with(&room, &[vec![5, 1, 1]]), 7);
        let twice = vec![4, 0, 0, 2, 1, 0, 1, 0];
        add("a node in two groups", cluster_bytes_with(&room, &[twice]), 7);
        let mut full = room.clone();
        full.nodes[0].memory = 0;
        add("target memory over", cluster_bytes(&full), 8);
        let mut full = room.clone();
        full.nodes[1].cpu = 0;
        add("target CPU over", cluster_bytes(&full), 8);
        let mut broken = |name: &str, constraint: Constraint| {
            add(name, cluster_bytes(&Room { constraints: vec![constraint], ..room.clone() }), 9);
        };
        broken("target banned", ban(&[0], &[room.vms[0].target]));
        broken("target out of a fence", fence(&[1], &[room.vms[0].target]));
        broken("targets in two groups", latency(&[0, 1], &[&[0, 2], &[1]]));
    }
    let together = room(&at_home().nodes, &[vm(1, 1, 0, 0), vm(1, 1, 0, 0)], &[spread(&[0, 1])]);
    e.no_steps("mates at home on one node", &cluster_bytes(&together), 9);
}

/// Clusters with none of the faults 1 to 9: accepted with everybody at home, else 19.
fn whole_clusters_without_steps(e: &mut Edges) {
    let mut add = |name: &str, room: &Room, number| e.no_steps(name, &cluster_bytes(room), number);
    add("no VMs", &room(&[node(0, 0)], &[], &[]), 0);
    add("no VMs on 64 nodes", &room(&vec![node(0, 0); 64], &[], &[]), 0);
    let kept = [
        ban(&[0], &[1, 2]),
        fence(&[0, 1], &[0, 1]),
        spread(&[0, 1]),
        latency(&[0, 1], &[&[0, 1]]),
        before(0, 1),
    ];
    add("every kind kept", &room(&at_home().nodes, &at_home().vms, &kept), 0);
    add("a full node", &room(&[node(3, 2)], &[vm(1, 1, 0, 0), vm(2, 1, 0, 0)], &[]), 0);
    let many = |away: Option<usize>| {
        let mut room = room(&vec![node(256, 0); 2], &vec![vm(1, 0, 0, 0); 256], &[]);
        away.into_iter().for_each(|vm| room.vms[vm].current = 1);
        room
    };
    add("256 VMs at home", &many(None), 0);
    add("the first of 256 off target", &many(Some(0)), 19);
    add("the last of 256 off target", &many(Some(255)), 19);
    let mut stuck = cluster_a();
    stuck.nodes[2].memory = 1;
    add("blocked", &stuck, 19);
    let heap = room(&[node(1, 9), node(9, 9)], &[vm(1, 1, 0, 0), vm(4, 1, 0, 1)], &[]);
    add("an overfull start", &heap, 19);
    let from_banned = room(&at_home().nodes, &[vm(1, 1, 2, 0)], &[ban(&[0], &[2])]);
    add("a start on a banned node", &from_banned, 19);
}

// ---------------------------------------------------------------- 11 to 14

/// Every length from 1 byte to the header's, for clusters at home and not.
fn short_plans(e: &mut Edges) {
    for version in Version::ALL {
        let (good, header) = (away_and_back(version), header(version));
        for room in [at_home(), cluster_a()] {
            for length in 1..PLAN_HEADER {
                let states_itself = [version as u8, 0, 0, 0, length as u8, 0];
                let mut short = |name: &str, bytes: &[u8]| {
                    let plan = bytes[..length].to_vec();
                    e.plan(&format!("{length} bytes {name}"), &room, plan, Some((11, 0)));
                };
                short("of zeros", &[0; 6]);
                short("of 255", &[255; 6]);
                short("of a header", &header);
                short("of a plan", &good);
                short("that state so", &states_itself);
            }
            e.plan("7 bytes of zeros", &room, vec![0; 7], Some((12, 0)));
            e.plan("7 bytes that state 6", &room, changed(&header, |b| b[4] = 6), Some((13, 0)));
            e.plan("7 bytes that state 0", &room, changed(&header, |b| b[4] = 0), Some((13, 0)));
        }
    }
}

/// A plan for the VMs at home: VM 0 goes to node 2, then back.
fn away_and_back(version: Version) -> Vec<u8> {
    let list = steps(&[&[(0, 2)], &[(0, 0)]]);
    plan_bytes(&match version {
        Version::One => bare(&list),
        Version::Two => named(&at_home(), &list),
    })
}

fn plan_headers(e: &mut Edges) {
    let home = at_home();
    let at = |number: u8| Some((number, 0));
    for version in Version::ALL {
        let good = away_and_back(version);
        let mut plan = |name: &str, bytes: Vec<u8>, check| {
            e.plan(&format!("plan version {}, {name}", version as u8), &home, bytes, check);
        };
        plan("away and back", good.clone(), None);
        plan("7 bytes, length of the whole", good[..7].to_vec(), at(13));
        plan("7 bytes, two steps counted", restated(&good[..7], |_| ()), at(14));
        plan("7 bytes, no steps", header(version), None);
        plan("length one more", changed(&good, |b| b[4] += 1), at(13));
        plan("length one less", changed(&good, |b| b[4] -= 1), at(13));
        for byte in 1..4 {
            plan("length, a high byte", changed(&good, |b| b[byte] = 1), at(13));
        }
        plan("one byte more lent", changed(&good, |b| b.push(0)), at(13));
        plan("one byte less lent", changed(&good, cut), at(13));
        plan("length and step count", changed(&good, |b| (b[4], b[5]) = (0, 255)), at(13));
        plan("one byte over", restated(&good, |b| b.push(0)), at(14));
        plan("one byte short", restated(&good, cut), at(14));
        plan("a step short", changed(&good, |b| b[6] = 3), at(14));
        plan("a step over", changed(&good, |b| b[6] = 1), at(14));
        plan("no steps counted", changed(&good, |b| b[6] = 0), at(14));
        plan("half a move count", restated(&good[..8], |b| b[6] = 1), at(14));
        for length in 9..9 + version.width() {
            plan("a move cut", restated(&good[..length], |b| b[6] = 1), at(14));
        }
        let one_step = restated(&good[..9 + version.width()], |b| b[6] = 1);
        plan("one whole move", one_step, at(19));
        plan("65,536 bytes", restated(&good, |b| b.resize(65_536, 0)), at(14));
        plan("70,000 bytes", restated(&good, |b| b.resize(70_000, 0)), at(14));
    }
}

/// Every version number, and the bytes of one version read as the other.
fn plan_versions(e: &mut Edges) {
    let home = at_home();
    let at = |number: u8| Some((number, 0));
    let [first, second] = Version::ALL.map(away_and_back);
    for good in [&first, &second, &header(Version::One)] {
        for version in [0, 3, 4, 127, 128, 129, 130, 254, 255] {
            let with = |length: usize| changed(&good[..length], |b| b[0] = version);
            e.plan(&format!("plan version {version}"), &home, with(good.len()), at(12));
            e.plan(&format!("7 bytes, version {version}"), &home, with(7), at(12));
            e.plan(&format!("6 bytes, version {version}"), &home, with(6), at(11));
        }
        let both = changed(good, |b| (b[0], b[4]) = (0, 0));
        e.plan("plan version and length", &home, both, at(12));
        let both = changed(good, |b| (b[0], b[5]) = (3, 255));
        e.plan("plan version and step count", &home, both, at(12));
    }
    let a = cluster_a();
    let list = steps(&[&[(0, 2)], &[(1, 0)], &[(0, 1)]]);
    e.plan("the cluster record as the plan", &a, cluster_bytes(&a), at(14));
    e.cluster("a plan of version 1 as the cluster", plan_bytes(&bare(&list)), 5);
    e.cluster("a plan of version 2 as the cluster", plan_bytes(&named(&a, &list)), 5);
    e.plan("version 1 read as version 2", &home, changed(&first, |b| b[0] = 2), at(14));
    e.plan("version 2 read as version 1", &home, changed(&second, |b| b[0] = 1), at(14));
    let (short, long) = (first[4], second[4]);
    e.plan("version 1, length of version 2", &home, changed(&first, |b| b[4] = long), at(13));
    e.plan("version 2, length of version 1", &home, changed(&second, |b| b[4] = short), at(13));
    let grown = restated(&first, |b| b.resize(usize::from(long), 0));
    e.plan("version 1, as long as version 2", &home, grown, at(14));
    let cut_short = restated(&second, |b| b.truncate(usize::from(short)));
    e.plan("version 2, as long as version 1", &home, cut_short, at(14));

    // Bytes that fill the record in either width. In version 1 they are 2 and 4 moves, in version
    // 2 they are 2 and 2.
    let of = |version: u8, rest: [u8; 16]| {
        let header = vec![version, 0, 0, 0, 23, 0, 2];
        [header, rest.to_vec()].concat()
    };
    let roomy = |places: [(usize, usize); 4]| {
        let vms = places.map(|(current, target)| vm(1, 1, current, target));
        room(&vec![node(9, 9); 5], &vms, &[])
    };
    let pairs = [0, 2, 0, 1, 1, 3, 0, 4, 0, 2, 1, 0, 2, 1, 3, 2];
    let cluster = roomy([(0, 2), (0, 0), (0, 1), (0, 2)]);
    e.plan("either width, right in version 1", &cluster, of(1, pairs), None);
    e.plan("the same as version 2", &cluster, of(2, pairs), Some((27, 1)));
    let triples = [0, 2, 0, 0, 1, 3, 0, 4, 0, 2, 1, 0, 2, 2, 0, 3];
    let cluster = roomy([(0, 1), (0, 2), (0, 3), (0, 4)]);
    e.plan("either width, right in version 2", &cluster, of(2, triples), None);
    e.plan("the same as version 1", &cluster, of(1, triples), Some((15, 1)));
}

/// A plan whose first two VMs go to and fro between two nodes each, one row of counts per step.
fn to_and_fro(moves: &[usize]) -> Vec<Step> {
    moves
        .iter()
        .enumerate()
        .map(|(i, &count)| (0..count).map(|vm| Move::bare(vm, 1 - i % 2)).collect())
        .collect()
}

fn plan_counts(e: &mut Edges) {
    let at = |number: u8| Some((number, 0));
    let wide = room(&vec![node(16_777_215, 65_535); 2], &vec![vm(1, 1, 0, 0); 256], &[]);
    let mut plan = |name: &str, moves: &[usize], check| {
        e.both(name, &wide, &to_and_fro(moves), check);
    };
    plan("512 steps", &[1; 512], None);
    plan("513 steps", &[1; 513], at(14));
    plan("514 steps", &[1; 514], at(14));
    plan("a step of 256 moves", &[256, 256], None);
    plan("a step of 257 moves", &[257, 257], at(14));
    plan("257 moves in a later step", &[256, 257], at(14));
    plan("a step of no moves", &[0], at(14));
    plan("a step of no moves in the middle", &[1, 0, 1], at(14));
    plan("a step of one move", &[1, 1], None);
    plan("1,024 moves in 4 steps", &[256; 4], None);
    plan("1,025 moves in 5 steps", &[256, 256, 256, 256, 1], at(14));
    plan("1,024 moves in 512 steps", &[2; 512], None);
    let mut more = [2; 512];
    more[511] = 3;
    plan("1,025 moves in 512 steps", &more, at(14));
    plan("1,026 moves in 6 steps", &[256, 256, 256, 256, 1, 1], at(14));

    let home = at_home();
    let one = |list: &[&[(usize, usize)]]| [bare(&steps(list)), named(&home, &steps(list))];
    for plan in one(&[&[(0, 1)]]) {
        let good = plan_bytes(&plan);
        e.plan("move count 0 before a move", &home, changed(&good, |b| b[8] = 0), at(14));
        e.plan("move count 257, one move there", &home, changed(&good, |b| b[7] = 1), at(14));
    }
    for plan in one(&[&[(9, 9)]]) {
        let faulty = restated(&plan_bytes(&plan), |b| b.push(0));
        e.plan("a byte over behind a faulty step", &home, faulty, at(14));
    }
    e.steps("an empty step behind a faulty step", &home, &[&[(9, 9)], &[]], at(14));
    let mut long = to_and_fro(&[256, 256, 256, 256, 1]);
    long[0][0].to = 9;
    e.both("1,025 moves, the first of them faulty", &wide, &long, at(14));
    for version in Version::ALL {
        let many = changed(&header(version), |b| b[5] = 2);
        e.plan("512 steps counted, none there", &home, many, at(14));
    }

    // The longest plans there are, and a byte more.
    let longest = to_and_fro(&[2; 512]);
    for (plan, length) in [(bare(&longest), 3_079), (named(&wide, &longest), 4_103)] {
        let bytes = plan_bytes(&plan);
        assert_eq!(bytes.len(), length);
        e.plan(&format!("{length} bytes"), &wide, bytes.clone(), None);
        let over = restated(&bytes, |b| b.push(0));
        e.plan(&format!("{length} bytes and one more"), &wide, over, at(14));
        let short = restated(&bytes, cut);
        e.plan(&format!("{length} bytes less one"), &wide, short, at(14));
    }

    // The longest and dearest kind of plan: the largest VMs on nodes that hold just one.
    let big = room(
        &vec![node(16_777_215, 65_535); 4],
        &[vm(16_777_215, 65_535, 0, 0), vm(16_777_215, 65_535, 1, 1)],
        &[],
    );
    let sway = |i: usize| steps(&[&[(0, 2 - 2 * (i % 2)), (1, 3 - 2 * (i % 2))]]).remove(0);
    let dear: Vec<Step> = (0..512).map(sway).collect();
    e.both("1,024 moves of the largest VMs", &big, &dear, None);
}

// ---------------------------------------------------------------- 15

fn move_names(e: &mut Edges) {
    let home = at_home();
    let at = |step: u16| Some((15, step));
    e.steps("VM V", &home, &[&[(2, 0)]], at(1));
    e.steps("VM 255", &home, &[&[(255, 0)]], at(1));
    e.steps("VM V in step 2", &home, &[&[(0, 2)], &[(2, 0)]], at(2));
    e.steps("a VM twice", &home, &[&[(0, 1), (0, 2)]], at(1));
    e.steps("VMs fall", &home, &[&[(1, 0), (0, 1)]], at(1));
    e.steps("VMs start anew in each step", &home, &[&[(1, 2)], &[(0, 2)], &[(0, 0), (1, 1)]], None);
    e.steps("to node N", &home, &[&[(0, 3)]], at(1));
    e.steps("to node 255", &home, &[&[(0, 255)]], at(1));
    e.steps("to where it is", &home, &[&[(0, 0)]], at(1));
    e.steps("back to the record's node", &home, &[&[(0, 1)], &[(0, 0)]], None);
    e.steps("to where step 1 left it", &home, &[&[(0, 1)], &[(0, 1)], &[(0, 0)]], at(2));
    e.steps("the second move stays", &home, &[&[(0, 2), (1, 1)]], at(1));
    e.steps("the last of three steps", &home, &[&[(0, 2)], &[(0, 0)], &[(9, 0)]], at(3));
    let none = room(&[node(1, 1)], &[], &[]);
    e.steps("no VMs", &none, &[&[(0, 0)]], at(1));
    let full = room(&[node(300, 0), node(300, 0)], &vec![vm(1, 0, 0, 0); 256], &[]);
    e.steps("VM 255 of 256", &full, &[&[(255, 1)], &[(255, 0)]], None);
}

// ---------------------------------------------------------------- 27

/// Sources that are right, wrong, or no node; and where 15 comes first.
fn sources(e: &mut Edges) {
    let home = at_home();
    let at = |number: u8| Some((number, 1));
    e.sourced("source, away and back", &home, &[&[(0, 0, 2)], &[(0, 2, 0)]], None);
    e.sourced("source another node", &home, &[&[(0, 1, 2)], &[(0, 2, 0)]], at(27));
    e.sourced("source N - 1", &home, &[&[(0, 2, 1)], &[(0, 1, 0)]], at(27));
    for source in [3, 63, 64, 254, 255] {
        e.sourced(&format!("source {source}"), &home, &[&[(0, source, 2)]], at(27));
        let stays = format!("source {source}, to where it is");
        e.sourced(&stays, &home, &[&[(0, source, 0)]], at(15));
    }
    e.sourced("source is the destination", &home, &[&[(0, 2, 2)]], at(27));
    e.sourced("source and destination are the place", &home, &[&[(0, 0, 0)]], at(15));
    e.sourced("to where it is, from elsewhere", &home, &[&[(0, 2, 0)]], at(15));
    e.sourced("source wrong, to node N", &home, &[&[(0, 1, 3)]], at(15));
    e.sourced("source wrong, VM V", &home, &[&[(2, 1, 0)]], at(15));
    e.sourced("source wrong, VM 255", &home, &[&[(255, 1, 0)]], at(15));
    e.sourced("source wrong, a VM twice", &home, &[&[(0, 1, 2), (0, 0, 2)]], at(15));
    e.sourced("source wrong, VMs fall", &home, &[&[(1, 0, 2), (0, 0, 2)]], at(15));
    e.sourced("source wrong, then one stays", &home, &[&[(0, 1, 2), (1, 1, 1)]], at(15));
    e.sourced("one stays, then source wrong", &home, &[&[(0, 0, 0), (1, 0, 2)]], at(15));
    e.sourced("the second source wrong", &home, &[&[(0, 0, 2), (1, 0, 2)]], at(27));
    e.sourced("both sources wrong", &home, &[&[(0, 1, 2), (1, 0, 2)]], at(27));
    e.sourced("source and destination change places", &home, &[&[(0, 2, 0), (1, 2, 1)]], at(15));
    e.sourced("source wrong, nobody home", &home, &[&[(0, 1, 2)]], at(27));
    let none = room(&[node(1, 1)], &[], &[]);
    e.sourced("source, no VMs", &none, &[&[(0, 0, 0)]], at(15));

    let wide = room(&vec![node(9, 9); 64], &[vm(1, 1, 63, 62)], &[]);
    e.sourced("source 63 of 64 nodes", &wide, &[&[(0, 63, 62)]], None);
    e.sourced("source 64 of 64 nodes", &wide, &[&[(0, 64, 62)]], at(27));
    let full = room(&vec![node(300, 300); 2], &vec![vm(1, 1, 0, 1); 256], &[]);
    let all = |wrong: Option<usize>| {
        let mut plan = named(&full, &[(0..256).map(|vm| Move::bare(vm, 1)).collect()]);
        wrong.into_iter().for_each(|vm| plan.steps[0][vm].from = Some(1));
        plan_bytes(&plan)
    };
    e.plan("256 sources", &full, all(None), None);
    e.plan("256 sources, the first wrong", &full, all(Some(0)), at(27));
    e.plan("256 sources, the last wrong", &full, all(Some(255)), at(27));
}

/// In one step 27 comes before 16, 17 and 18, and behind it the other faults come as they do
/// without sources. 14 comes before all of them.
fn sources_before_other_faults(e: &mut Edges) {
    let closed = |list: &[Constraint]| room(&at_home().nodes, &at_home().vms, list);
    let at = |number: u8, step: u16| Some((number, step));
    let banned = closed(&[ban(&[0], &[2])]);
    e.sourced("16, source right", &banned, &[&[(0, 0, 2)]], at(16, 1));
    e.sourced("27 before 16", &banned, &[&[(0, 1, 2)]], at(27, 1));
    e.sourced("27 at a later move before 16", &banned, &[&[(0, 0, 2), (1, 0, 2)]], at(27, 1));
    e.sourced("the banned node as the source", &banned, &[&[(0, 2, 1)]], at(27, 1));
    let fenced = closed(&[fence(&[0], &[0, 1])]);
    e.sourced("27 before 16, out of a fence", &fenced, &[&[(0, 1, 2)]], at(27, 1));
    let small = room(&[node(9, 9), node(1, 9), node(9, 9)], &[vm(1, 1, 0, 0), vm(1, 1, 1, 1)], &[]);
    e.sourced("17, source right", &small, &[&[(0, 0, 1)]], at(17, 1));
    e.sourced("27 before 17", &small, &[&[(0, 2, 1)]], at(27, 1));
    e.sourced("27 at a later move before 17", &small, &[&[(0, 0, 1), (1, 0, 2)]], at(27, 1));
    let apart = closed(&[spread(&[0, 1])]);
    e.sourced("18, source right", &apart, &[&[(0, 0, 1)]], at(18, 1));
    e.sourced("27 before 18", &apart, &[&[(0, 2, 1)]], at(27, 1));
    e.sourced("27 at a later move before 18", &apart, &[&[(0, 0, 1), (1, 0, 2)]], at(27, 1));
    let tight = room(
        &[node(1, 1), node(1, 1), node(1, 1)],
        &[vm(1, 1, 0, 0), vm(1, 1, 1, 1)],
        &[ban(&[1], &[2]), spread(&[0, 1])],
    );
    e.sourced("27 before 16, 17 and 18", &tight, &[&[(0, 2, 1), (1, 1, 2)]], at(27, 1));
    e.sourced("the same, sources right", &tight, &[&[(0, 0, 1), (1, 1, 2)]], at(16, 1));
    e.sourced("15 before 27 and all those", &tight, &[&[(0, 2, 1), (1, 1, 1)]], at(15, 1));

    let wrong = plan_bytes(&sourced(&[&[(0, 1, 2)]]));
    let home = at_home();
    e.plan("14 before 27", &home, restated(&wrong, |b| b.push(0)), at(14, 0));
    e.plan("13 before 27", &home, changed(&wrong, |b| b[4] -= 1), at(13, 0));
    e.plan("12 before 27", &home, changed(&wrong, |b| b[0] = 3), at(12, 0));
    let empty_behind = plan_bytes(&sourced(&[&[(0, 1, 2)], &[]]));
    e.plan("an empty step behind a wrong source", &home, empty_behind, at(14, 0));
}

/// The source is the place when the step starts, which is no longer the record's once the VM has
/// moved; and the first step at fault decides.
fn sources_step_by_step(e: &mut Edges) {
    let at = |number: u8, step: u16| Some((number, step));
    let home = at_home();
    e.sourced("where step 1 left it", &home, &[&[(0, 0, 1)], &[(0, 1, 2)], &[(0, 2, 0)]], None);
    e.sourced("the record's node in step 2", &home, &[&[(0, 0, 1)], &[(0, 0, 2)]], at(27, 2));
    e.sourced(
        "the record's node once it is back there",
        &home,
        &[&[(0, 0, 1)], &[(0, 1, 0)], &[(0, 0, 2)], &[(0, 2, 0)]],
        None,
    );
    e.sourced(
        "where step 1 left it, in step 3",
        &home,
        &[&[(0, 0, 1)], &[(0, 1, 2)], &[(0, 1, 0)]],
        at(27, 3),
    );
    e.sourced("where an earlier move goes", &home, &[&[(0, 0, 2), (1, 2, 0)]], at(27, 1));
    e.sourced("where a later move goes", &home, &[&[(0, 2, 1), (1, 1, 2)]], at(27, 1));
    e.sourced("where another VM's step went", &home, &[&[(0, 0, 2)], &[(1, 2, 0)]], at(27, 2));
    let swap = room(&at_home().nodes, &[vm(1, 1, 0, 1), vm(1, 1, 1, 0)], &[]);
    e.sourced("both change places at once", &swap, &[&[(0, 0, 1), (1, 1, 0)]], None);
    e.sourced("the same, sources after the step", &swap, &[&[(0, 1, 1), (1, 0, 0)]], at(27, 1));
    e.sourced("the same, sources changed over", &swap, &[&[(0, 1, 1), (1, 1, 0)]], at(27, 1));

    e.sourced("27 in step 1, 15 in step 2", &home, &[&[(0, 1, 2)], &[(9, 9, 9)]], at(27, 1));
    e.sourced("15 in step 1, 27 in step 2", &home, &[&[(0, 0, 0)], &[(1, 0, 2)]], at(15, 1));
    let banned = room(&at_home().nodes, &at_home().vms, &[ban(&[0], &[2])]);
    e.sourced("16 in step 1, 27 in step 2", &banned, &[&[(0, 0, 2)], &[(1, 0, 2)]], at(16, 1));
    e.sourced("27 in step 1, 16 in step 2", &banned, &[&[(1, 0, 2)], &[(0, 0, 2)]], at(27, 1));
    let apart = room(&at_home().nodes, &at_home().vms, &[spread(&[0, 1])]);
    e.sourced("18 in step 1, 27 in step 2", &apart, &[&[(0, 0, 1)], &[(1, 0, 2)]], at(18, 1));

    let a = cluster_a();
    e.sourced("A planned", &a, &[&[(0, 0, 2)], &[(1, 1, 0)], &[(0, 2, 1)]], None);
    let stale: &[&[(usize, usize, usize)]] = &[&[(0, 0, 2)], &[(1, 1, 0)], &[(0, 0, 1)]];
    e.sourced("A planned, the record's node in step 3", &a, stale, at(27, 3));
    e.sourced("A, both at once, one source wrong", &a, &[&[(0, 2, 1), (1, 1, 0)]], at(27, 1));
    e.sourced("A, both at once, sources right", &a, &[&[(0, 0, 1), (1, 1, 0)]], at(17, 1));

    let wide = room(&vec![node(9, 9); 2], &[vm(1, 1, 0, 0), vm(1, 1, 0, 0)], &[]);
    let longest = |wrong: Option<(usize, usize)>| {
        let mut plan = named(&wide, &to_and_fro(&[2; 512]));
        let m = wrong.map(|(step, vm)| &mut plan.steps[step - 1][vm]);
        m.into_iter().for_each(|m| m.from = Some(m.to));
        plan_bytes(&plan)
    };
    e.plan("512 steps with sources", &wide, longest(None), None);
    for (step, vm) in [(1, 0), (1, 1), (2, 0), (256, 1), (511, 0), (512, 0), (512, 1)] {
        let name = format!("512 steps, the source of VM {vm} wrong in step {step}");
        e.plan(&name, &wide, longest(Some((step, vm))), at(27, step as u16));
    }
}

/// A VM down, one to be launched, one to be shut down and one at home, on roomy nodes.
fn comings_and_goings(list: &[Constraint]) -> Room {
    let vms =
        [vm(1, 1, NOWHERE, NOWHERE), vm(1, 1, NOWHERE, 1), vm(1, 1, 2, NOWHERE), vm(1, 1, 0, 0)];
    room_2(&vec![node(9, 9); 3], &vms, list)
}

/// 255 is the right source exactly for a VM on no node.
fn sources_on_no_node(e: &mut Edges) {
    let room = comings_and_goings(&[]);
    let at = |number: u8, step: u16| Some((number, step));
    let rest: &[(usize, usize, usize)] = &[(2, 2, NOWHERE)];
    e.sourced("launched from 255", &room, &[&[(1, NOWHERE, 1)], rest], None);
    for source in [0, 1, 2, 3, 64, 254] {
        let name = format!("launched from {source}");
        e.sourced(&name, &room, &[&[(1, source, 1)], rest], at(27, 1));
    }
    e.sourced("both, sources right", &room, &[&[(1, NOWHERE, 1), (2, 2, NOWHERE)]], None);
    let launched: &[(usize, usize, usize)] = &[(1, NOWHERE, 1)];
    for source in [0, 1, 3, 64, 254, NOWHERE] {
        let name = format!("shut down from {source}");
        e.sourced(&name, &room, &[launched, &[(2, source, NOWHERE)]], at(27, 2));
    }
    e.sourced("moved from 255", &room, &[&[(3, NOWHERE, 1)]], at(27, 1));
    e.sourced("255 once it is launched", &room, &[launched, &[(1, NOWHERE, 2)]], at(27, 2));
    let there_and_back: &[&[(usize, usize, usize)]] =
        &[&[(0, NOWHERE, 1)], &[(0, 1, 2)], &[(0, 2, NOWHERE)], &[(0, NOWHERE, 0)]];
    e.sourced("launched, moved, shut down, launched", &room, there_and_back, at(19, 0));
    e.sourced("a node once it is shut down", &room, &[&[(2, 2, NOWHERE)], &[(2, 2, 1)]], at(27, 2));
    e.sourced("down, shut down from a node", &room, &[&[(0, 1, NOWHERE)]], at(15, 1));
    e.sourced("down, shut down from 255", &room, &[&[(0, NOWHERE, NOWHERE)]], at(15, 1));
    e.sourced("at home, shut down from 255", &room, &[&[(3, NOWHERE, NOWHERE)]], at(15, 1));
    e.sourced("15 before 27, a shutdown", &room, &[&[(1, 0, 1), (3, 0, NOWHERE)]], at(15, 1));
    e.sourced("27, a shutdown beside it", &room, &[&[(1, 0, 1), (2, 2, NOWHERE)]], at(27, 1));
    let banned = comings_and_goings(&[ban(&[1], &[2])]);
    e.sourced("27 before 16, a launch", &banned, &[&[(1, 0, 2)]], at(27, 1));
    e.sourced("16, a launch", &banned, &[&[(1, NOWHERE, 2)]], at(16, 1));
}

// ---------------------------------------------------------------- 15, shutdowns

/// Destination 255 is for a VM that should end there and is not there, in either plan version.
fn shutdown_names(e: &mut Edges) {
    let home = at_home();
    let at = |step: u16| Some((15, step));
    e.steps("version 1, shut down", &home, &[&[(0, NOWHERE)]], at(1));
    e.steps("version 1, shut down in step 2", &home, &[&[(0, 2)], &[(0, NOWHERE)]], at(2));
    let two = Room { version: Version::Two, ..at_home() };
    e.steps("version 2, nobody is to be shut down", &two, &[&[(0, NOWHERE)]], at(1));
    let room = comings_and_goings(&[]);
    let done: &[(usize, usize)] = &[(1, 1), (2, NOWHERE)];
    e.steps("launched and shut down", &room, &[done], None);
    e.steps("one that is down already", &room, &[&[(0, NOWHERE)], done], at(1));
    e.steps("one that is to be launched", &room, &[&[(1, NOWHERE)]], at(1));
    e.steps("one that was launched", &room, &[&[(1, 1)], &[(1, NOWHERE)]], at(2));
    e.steps("one that is at home", &room, &[&[(3, NOWHERE)]], at(1));
    e.steps("the last move of a step", &room, &[&[(1, 1), (2, NOWHERE), (3, NOWHERE)]], at(1));
    e.steps("twice", &room, &[done, &[(2, NOWHERE)]], at(2));
    e.steps("moved first, then shut down", &room, &[&[(2, 0)], &[(1, 1), (2, NOWHERE)]], None);
    e.steps("shut down, launched, shut down", &room, &[done, &[(2, 0)], &[(2, NOWHERE)]], None);
    let guest: &[&[(usize, usize)]] =
        &[&[(0, 2)], &[(0, 1)], &[(0, NOWHERE), (1, 1), (2, NOWHERE)]];
    e.steps("launched though it stays down, and shut down", &room, guest, None);
    e.steps("launched though it stays down", &room, &[&[(0, 2)], done], Some((19, 0)));
    e.steps("launched elsewhere, then home", &room, &[&[(1, 2)], done], None);
    e.steps("launched elsewhere", &room, &[&[(1, 2), (2, NOWHERE)]], Some((19, 0)));
    for to in [3, 63, 64, 254] {
        e.steps(&format!("a VM to be shut down to {to}"), &room, &[&[(2, to)]], at(1));
        e.steps(&format!("a launch to {to}"), &room, &[&[(1, to)]], at(1));
    }
    e.steps("an unknown VM shut down", &room, &[&[(4, NOWHERE)]], at(1));
    e.steps("VM 255 shut down", &room, &[&[(255, NOWHERE)]], at(1));
    e.steps("shut down twice in a step", &room, &[&[(2, NOWHERE), (2, NOWHERE)]], at(1));
    e.steps("shutdowns fall", &room, &[&[(2, NOWHERE), (1, 1)]], at(1));
    let wide = room_2(&vec![node(9, 9); 64], &[vm(1, 1, 63, NOWHERE)], &[]);
    e.steps("shut down on node 63", &wide, &[&[(0, NOWHERE)]], None);
    e.steps("to node 64 of 64", &wide, &[&[(0, 64)]], at(1));
    let all = room_2(&[node(300, 300)], &vec![vm(1, 1, 0, NOWHERE); 256], &[]);
    let every: Vec<(usize, usize)> = (0..256).map(|vm| (vm, NOWHERE)).collect();
    e.steps("256 shut down at once", &all, &[&every], None);
    let all = room_2(&[node(300, 300)], &vec![vm(1, 1, NOWHERE, 0); 256], &[]);
    let every: Vec<(usize, usize)> = (0..256).map(|vm| (vm, 0)).collect();
    e.steps("256 launched at once", &all, &[&every], None);
}

// ---------------------------------------------------------------- 16

fn closed_nodes(e: &mut Edges) {
    let closed = |list: &[Constraint]| room(&at_home().nodes, &at_home().vms, list);
    let at = |number: u8, step: u16| Some((number, step));
    let banned = closed(&[ban(&[0], &[2])]);
    e.steps("to a banned node", &banned, &[&[(0, 2)], &[(0, 0)]], at(16, 1));
    e.steps("the other VM to that node", &banned, &[&[(1, 2)], &[(1, 1)]], None);
    e.steps("to an open node", &banned, &[&[(0, 1)], &[(0, 0)]], None);
    let fenced = closed(&[fence(&[0], &[0, 1])]);
    e.steps("out of a fence", &fenced, &[&[(0, 2)], &[(0, 0)]], at(16, 1));
    e.steps("within a fence", &fenced, &[&[(0, 1)], &[(0, 0)]], None);
    let two = closed(&[fence(&[0], &[0, 1]), fence(&[0], &[0, 2])]);
    e.steps("within one of two fences", &two, &[&[(0, 1)], &[(0, 0)]], at(16, 1));
    e.steps("15 at a later move comes before 16", &banned, &[&[(0, 2), (1, 1)]], at(15, 1));
    e.steps("16 in step 1, 15 in step 2", &banned, &[&[(0, 2)], &[(9, 9)]], at(16, 1));
    let grouped = closed(&[latency(&[0, 1], &[&[0, 1], &[2]])]);
    e.steps("out of a latency group on the way", &grouped, &[&[(0, 2)], &[(0, 0)]], None);
    let from_banned = room(&at_home().nodes, &[vm(1, 1, 2, 0)], &[ban(&[0], &[2])]);
    e.steps("away from a banned node", &from_banned, &[&[(0, 0)]], None);
    let tight = room(
        &[node(1, 1), node(1, 1), node(1, 1)],
        &[vm(1, 1, 0, 0), vm(1, 1, 1, 1)],
        &[ban(&[1], &[2]), spread(&[0, 1])],
    );
    e.steps("16 before 17", &tight, &[&[(0, 1), (1, 2)]], at(16, 1));
    e.steps("17 before 18", &tight, &[&[(0, 1)]], at(17, 1));
    e.steps("16 in step 2", &tight, &[&[(0, 2)], &[(1, 2)]], at(16, 2));

    let goings = |list: &[Constraint]| comings_and_goings(list);
    let done: &[(usize, usize)] = &[(1, 1), (2, NOWHERE)];
    let fenced = goings(&[fence(&[2], &[2])]);
    e.steps("shut down out of a fence", &fenced, &[done], None);
    e.steps("out of a fence to a node first", &fenced, &[&[(2, 0)], done], at(16, 1));
    e.steps("shut down, fenced on no node", &goings(&[fence(&[2], &[])]), &[done], None);
    let banned = goings(&[ban(&[0, 1, 2], &[2]), fence(&[1, 2], &[0, 1])]);
    e.steps("shut down on a banned node", &banned, &[done], None);
    e.steps("launched on an open node", &banned, &[&[(0, 0)], &[(0, NOWHERE)], done], None);
    e.steps("launched on a banned node", &banned, &[&[(0, 2)], &[(0, NOWHERE)], done], at(16, 1));
    e.steps("launched on a banned node on the way", &banned, &[&[(1, 2)], done], at(16, 1));
    let fenced = goings(&[fence(&[0, 1], &[1])]);
    e.steps("launched out of a fence", &fenced, &[&[(1, 0)], done], at(16, 1));
    e.steps("launched out of a fence, stays down", &fenced, &[&[(0, 0)]], at(16, 1));
    e.steps("15 before 16, a shutdown", &fenced, &[&[(1, 0), (3, NOWHERE)]], at(15, 1));
    let grouped = goings(&[latency(&[0, 1, 2], &[&[1], &[0, 2]])]);
    e.steps("launched out of a group on the way", &grouped, &[&[(0, 2), (1, 0)]], at(19, 0));
}

// ---------------------------------------------------------------- 17

fn fits(e: &mut Edges) {
    let at = |step: u16| Some((17, step));
    let onto = |memory, cpu| {
        room(&[node(9, 9), node(memory, cpu)], &[vm(3, 4, 0, 0), vm(2, 2, 1, 1)], &[])
    };
    let there: &[&[(usize, usize)]] = &[&[(0, 1)], &[(0, 0)]];
    e.steps("memory just fits", &onto(5, 9), there, None);
    e.steps("memory one over", &onto(4, 9), there, at(1));
    e.steps("CPU just fits", &onto(9, 6), there, None);
    e.steps("CPU one over", &onto(9, 5), there, at(1));
    let swap =
        |memory| room(&[node(memory, 9), node(memory, 9)], &[vm(3, 1, 0, 1), vm(2, 1, 1, 0)], &[]);
    e.steps("swap with room for both", &swap(5), &[&[(0, 1), (1, 0)]], None);
    e.steps("a departure does not pay", &swap(4), &[&[(0, 1), (1, 0)]], at(1));
    let three =
        |memory| room(&[node(9, 9), node(memory, 9)], &[vm(2, 1, 0, 1), vm(2, 1, 0, 1)], &[]);
    e.steps("two arrivals that fit together", &three(4), &[&[(0, 1), (1, 1)]], None);
    let pair = room(&[node(9, 9), node(3, 9), node(9, 9)], &[vm(2, 1, 0, 0), vm(2, 1, 0, 0)], &[]);
    e.steps("two arrivals that fit alone", &pair, &[&[(0, 1), (1, 1)]], at(1));
    e.steps(
        "one after the other",
        &pair,
        &[&[(0, 1)], &[(0, 2)], &[(1, 1)], &[(0, 0), (1, 0)]],
        None,
    );
    e.steps("the second still there", &pair, &[&[(0, 1)], &[(1, 1)]], at(2));
    let heap = room(
        &[node(1, 9), node(9, 9), node(9, 9)],
        &[vm(1, 1, 0, 0), vm(4, 1, 0, 1), vm(4, 1, 0, 2)],
        &[],
    );
    e.steps("an overfull start with no arrival", &heap, &[&[(1, 1), (2, 2)]], None);
    e.steps("one leaves at a time", &heap, &[&[(1, 1)], &[(2, 2)]], None);
    let zero = room(&[node(9, 9), node(0, 0)], &[vm(1, 0, 0, 0)], &[]);
    e.steps("onto a node of nothing", &zero, &[&[(0, 1)], &[(0, 0)]], at(1));
    let big = room(
        &[node(16_777_215, 65_535), node(16_777_215, 65_535)],
        &[vm(16_777_215, 65_535, 0, 0), vm(1, 1, 1, 1)],
        &[],
    );
    e.steps("one more than the most", &big, &[&[(0, 1)], &[(0, 0)]], at(1));
    let wrap = room(
        &[node(16_777_215, 65_535), node(16_777_215, 65_535)],
        &vec![vm(65_536, 256, 0, 1); 255],
        &[],
    );
    let all: Vec<(usize, usize)> = (0..255).map(|vm| (vm, 1)).collect();
    e.steps("255 arrivals that just fit", &wrap, &[&all], None);
    let mut heavy = vec![vm(65_536, 256, 0, 0); 256];
    heavy[255].current = 1;
    heavy[255].target = 1;
    let wrap = room(&[node(16_777_215, 65_535), node(16_777_215, 65_535)], &heavy, &[]);
    e.steps("255 arrivals that would wrap", &wrap, &[&all], at(1));
    e.steps("17 at a later destination", &onto(4, 9), &[&[(1, 0)], &[(0, 1), (1, 1)]], at(2));
}

/// Node 1 starts over its CPU, with CPU 6 of 5, until VM 2 leaves. VM 0 has this CPU.
fn over_cpu(memory: u64, cpu: u64) -> Room {
    room(
        &[node(9, 9), node(memory, 5), node(9, 9)],
        &[vm(1, cpu, 0, 1), vm(1, 3, 1, 1), vm(1, 3, 1, 2)],
        &[],
    )
}

/// An idle VM is tested for memory alone when it begins, any other for both.
fn idle_fits(e: &mut Edges) {
    let at = |step: u16| Some((17, step));
    for (cpu, check) in [(0, None), (1, at(1)), (2, at(1))] {
        let mut add = |name: &str, list: &[&[(usize, usize)]], check| {
            e.steps(&format!("CPU {cpu} {name}"), &over_cpu(9, cpu), list, check);
        };
        add("onto a node over its CPU", &[&[(0, 1)], &[(2, 2)]], check);
        add("beside the VM that leaves", &[&[(0, 1), (2, 2)]], check);
        add("once it is within", &[&[(2, 2)], &[(0, 1)]], None);
        add("there by a stop", &[&[(0, 2)], &[(0, 1)], &[(2, 2)]], check.map(|_| (17, 2)));
        add("there, away and there", &[&[(0, 1)], &[(0, 0)], &[(0, 1), (2, 2)]], check);
    }
    let there: &[&[(usize, usize)]] = &[&[(0, 1)], &[(2, 2)]];
    e.steps("over its CPU, memory just fits", &over_cpu(3, 0), there, None);
    e.steps("over its CPU, memory one over", &over_cpu(2, 0), there, at(1));
    e.steps("over its CPU, once there is memory", &over_cpu(2, 0), &[&[(2, 2)], &[(0, 1)]], None);
    // Node 1 starts over its memory, and over both.
    for cpu in [5, 9] {
        let heap = room(
            &[node(9, 9), node(3, cpu), node(9, 9)],
            &[vm(1, 0, 0, 1), vm(2, 3, 1, 1), vm(2, 3, 1, 2)],
            &[],
        );
        let name = format!("CPU 0 onto a node over its memory, CPU 6 of {cpu}");
        e.steps(&name, &heap, there, at(1));
        e.steps(&format!("{name}, as one leaves"), &heap, &[&[(0, 1), (2, 2)]], at(1));
        e.steps(&format!("{name}, once it is within"), &heap, &[&[(2, 2)], &[(0, 1)]], None);
    }
    let onto = |memory, cpu| room(&[node(9, 9), node(memory, 0)], &[vm(1, cpu, 0, 0)], &[]);
    let back: &[&[(usize, usize)]] = &[&[(0, 1)], &[(0, 0)]];
    e.steps("CPU 0 onto a node of CPU 0", &onto(1, 0), back, None);
    e.steps("CPU 1 onto a node of CPU 0", &onto(1, 1), back, at(1));
    e.steps("CPU 0 onto a node of memory 0", &onto(0, 0), back, at(1));
    let heavy = vm(1, 65_535, 1, 0);
    let mut vms = vec![vm(1, 0, 0, 1); 256];
    vms[254..].fill(heavy);
    let many =
        |memory| room(&[node(300, 65_535), node(memory, 65_535), node(9, 65_535)], &vms, &[]);
    let mut many = [many(256), many(255)];
    many.iter_mut().for_each(|room| room.vms[255].target = 2);
    let all: Vec<(usize, usize)> = (0..254).map(|vm| (vm, 1)).collect();
    let home: &[(usize, usize)] = &[(254, 0), (255, 2)];
    e.steps("254 of CPU 0 onto a node over its CPU", &many[0], &[&all, home], None);
    e.steps("the same, memory one over", &many[1], &[&all, home], at(1));
    let closed = |cpu, list: &[Constraint]| Room { constraints: list.into(), ..over_cpu(9, cpu) };
    let mates = [spread(&[0, 2])];
    e.steps("CPU 0 meets a mate there", &closed(0, &mates), there, Some((18, 1)));
    e.steps("CPU 1 does not fit beside a mate there", &closed(1, &mates), there, at(1));
    let fenced = [fence(&[0], &[0, 1])];
    e.steps("CPU 0 out of a fence", &closed(0, &fenced), &[&[(0, 2)]], Some((16, 1)));
    e.steps("CPU 0 there, within a fence", &closed(0, &fenced), there, None);
    e.sourced("CPU 0 there, source wrong", &over_cpu(9, 0), &[&[(0, 2, 1)]], Some((27, 1)));
}

/// Idle and active VMs that arrive at one node: each is tested for itself, with all the others counted.
fn idle_beside_active(e: &mut Edges) {
    let at = |step: u16| Some((17, step));
    // VMs 0 and 1 are wanted on node 1, where VM 2 leaves behind it room for both. One of them has
    // CPU 2, the other none.
    let pair = |memory: u64, most: u64, cpus: [u64; 2]| {
        room(
            &[node(9, 9), node(memory, most), node(9, 9)],
            &[vm(2, cpus[0], 0, 1), vm(3, cpus[1], 0, 1), vm(1, 4, 1, 2)],
            &[],
        )
    };
    for cpus in [[0, 2], [2, 0]] {
        let (idle, active) = if cpus[0] == 0 { (0, 1) } else { (1, 0) };
        let mut add = |name: &str, memory, most, list: &[&[(usize, usize)]], check| {
            let name = format!("CPU {} and {}, {name}", cpus[0], cpus[1]);
            e.steps(&name, &pair(memory, most, cpus), list, check);
        };
        let (both, out): (&[(usize, usize)], &[(usize, usize)]) = (&[(0, 1), (1, 1)], &[(2, 2)]);
        let (one, other, one_out) = ([(idle, 1)], [(active, 1)], [(idle, 1), (2, 2)]);
        add("both just fit", 6, 6, &[both, out], None);
        add("CPU one over", 6, 5, &[both, out], at(1));
        add("CPU one over, the idle one alone", 6, 5, &[&one, out, &other], None);
        add("CPU one over, the active one alone", 6, 5, &[&other, out, &one], at(1));
        add("over already", 6, 3, &[both, out], at(1));
        add("over already, as one leaves", 6, 3, &[&[(0, 1), (1, 1), (2, 2)]], at(1));
        add("over already, the idle one alone", 6, 3, &[&one, out, &other], None);
        add("over already, the idle one as one leaves", 6, 3, &[&one_out, &other], None);
        add("over already, the active one next", 6, 3, &[&one, &other, out], at(2));
        add("memory one over", 5, 9, &[both, out], at(1));
        add("memory one over, the idle one alone", 5, 9, &[&one, out, &other], None);
        add("memory one over, the active one alone", 5, 9, &[&other, out, &one], None);
        add("once one has left", 5, 2, &[out, both], None);
    }
    // Two nodes: one is over its CPU and takes the idle VM, the other the active one.
    let two = room(
        &[node(9, 9), node(9, 1), node(9, 2)],
        &[vm(1, 0, 0, 1), vm(1, 2, 0, 2), vm(1, 2, 1, 0)],
        &[],
    );
    e.steps("an idle and an active one to two nodes", &two, &[&[(0, 1), (1, 2)], &[(2, 0)]], None);
    e.steps("changed over", &two, &[&[(0, 2), (1, 1)]], at(1));
}

/// A launch counts on its destination from its begin on, a shutdown on its source until it ends.
fn launches_and_shutdowns_fit(e: &mut Edges) {
    let at = |step: u16| Some((17, step));
    let one = |memory, cpu| {
        let vms = [vm(3, 4, 0, NOWHERE), vm(2, 3, NOWHERE, 0)];
        room_2(&[node(memory, cpu), node(9, 9)], &vms, &[])
    };
    let (off, on) = ([(0, NOWHERE)], [(1, 0)]);
    let both: &[(usize, usize)] = &[(0, NOWHERE), (1, 0)];
    e.steps("a shutdown, then a launch", &one(3, 4), &[&off, &on], None);
    e.steps("a launch, then a shutdown", &one(4, 9), &[&on, &off], at(1));
    e.steps("a shutdown does not pay, memory", &one(4, 9), &[both], at(1));
    e.steps("a shutdown does not pay, CPU", &one(9, 6), &[both], at(1));
    e.steps("room for both", &one(5, 7), &[both], None);
    e.steps("a launch beside what is shut down later", &one(5, 7), &[&on, &off], None);
    e.steps("launched elsewhere first", &one(3, 4), &[&[(1, 1)], &off, &on], None);
    e.steps("launched elsewhere in one step", &one(3, 4), &[&[(0, NOWHERE), (1, 1)], &on], None);
    let two = |memory, cpu| {
        let vms = [vm(2, 2, NOWHERE, 1), vm(2, 2, NOWHERE, 0), vm(2, 2, 1, 0)];
        room_2(&[node(memory, cpu), node(4, 4)], &vms, &[])
    };
    e.steps("a launch and a move, just fit", &two(4, 4), &[&[(0, 1), (1, 0), (2, 0)]], None);
    let less =
        room_2(&[node(9, 9), node(3, 9)], &[vm(2, 1, NOWHERE, 0), vm(2, 1, NOWHERE, 0)], &[]);
    e.steps("two launches that fit alone", &less, &[&[(0, 1), (1, 1)]], at(1));
    e.steps("one launch there", &less, &[&[(0, 1), (1, 0)], &[(0, 0)]], None);
    e.steps("the second launch later", &less, &[&[(0, 1)], &[(1, 1)]], at(2));
    let chain = room_2(&[node(2, 9), node(2, 9)], &[vm(2, 1, 0, 1), vm(2, 1, NOWHERE, 0)], &[]);
    e.steps("a launch behind a move", &chain, &[&[(0, 1)], &[(1, 0)]], None);
    e.steps("a departure does not pay for a launch", &chain, &[&[(0, 1), (1, 0)]], at(1));
    let after = room_2(&[node(2, 9), node(2, 9)], &[vm(2, 1, 0, NOWHERE), vm(2, 1, 1, 0)], &[]);
    e.steps("a move behind a shutdown", &after, &[&[(0, NOWHERE)], &[(1, 0)]], None);
    e.steps("a shutdown does not pay for a move", &after, &[&[(0, NOWHERE), (1, 0)]], at(1));
    // Node 0 starts over its memory.
    let heap = room_2(
        &[node(3, 9), node(9, 9)],
        &[vm(2, 1, 0, NOWHERE), vm(2, 1, 0, 0), vm(1, 1, NOWHERE, 0)],
        &[],
    );
    e.steps("shut down on an overfull node", &heap, &[&[(0, NOWHERE)], &[(2, 0)]], None);
    e.steps("launched on an overfull node", &heap, &[&[(2, 0)], &[(0, NOWHERE)]], at(1));
    e.steps("both there", &heap, &[&[(0, NOWHERE), (2, 0)]], at(1));
    let busy = |cpu| room_2(&[node(2, 1)], &[vm(1, 2, 0, NOWHERE), vm(1, cpu, NOWHERE, 0)], &[]);
    e.steps("CPU 0 launched on a node over its CPU", &busy(0), &[&on, &off], None);
    e.steps("as another is shut down there", &busy(0), &[both], None);
    e.steps("CPU 1 launched on a node over its CPU", &busy(1), &[&on, &off], at(1));
    e.steps("as another is shut down there, CPU 1", &busy(1), &[both], at(1));
    e.steps("once it is within", &busy(1), &[&off, &on], None);
    let full = Room { nodes: vec![node(1, 1)], ..busy(0) };
    e.steps("CPU 0 launched where memory is full", &full, &[&on, &off], at(1));
    e.steps("once there is memory", &full, &[&off, &on], None);
    let large = vm(16_777_215, 65_535, NOWHERE, NOWHERE);
    let guest = room_2(&[node(16_777_215, 65_535), node(1, 1)], &[large, vm(1, 1, 1, 1)], &[]);
    e.steps("the largest launched and shut down", &guest, &[&[(0, 0)], &[(0, NOWHERE)]], None);
    e.steps("the largest where it does not fit", &guest, &[&[(0, 1)], &[(0, NOWHERE)]], at(1));
}

/// On no node nobody meets a mate; a launch may meet one, and one that is being shut down is met.
fn launches_and_shutdowns_meet(e: &mut Edges) {
    let at = |step: u16| Some((18, step));
    let nodes = vec![node(9, 9); 3];
    let with = |vms: &[Vm], mates: &[usize]| room_2(&nodes, vms, &[spread(mates)]);
    let turn = with(&[vm(1, 1, 0, NOWHERE), vm(1, 1, NOWHERE, 0)], &[0, 1]);
    let (off, on) = ([(0, NOWHERE)], [(1, 0)]);
    e.steps("a mate shut down, then a launch", &turn, &[&off, &on], None);
    e.steps("a mate still being shut down", &turn, &[&[(0, NOWHERE), (1, 0)]], at(1));
    e.steps("launched where a mate is", &turn, &[&on, &off], at(1));
    e.steps("launched elsewhere beside it", &turn, &[&[(0, NOWHERE), (1, 1)], &on], None);
    let down = with(&[vm(1, 1, 0, NOWHERE), vm(1, 1, 1, NOWHERE)], &[0, 1]);
    e.steps("two mates shut down at once", &down, &[&[(0, NOWHERE), (1, NOWHERE)]], None);
    e.steps("one after the other", &down, &[&[(0, NOWHERE)], &[(1, NOWHERE)]], None);
    e.steps("to the mate's node first", &down, &[&[(0, 1)]], at(1));
    let near = with(&[vm(1, 1, 0, NOWHERE), vm(1, 1, 0, NOWHERE)], &[0, 1]);
    e.steps("mates on one node shut down", &near, &[&[(0, NOWHERE), (1, NOWHERE)]], None);
    let up = with(&[vm(1, 1, NOWHERE, 0), vm(1, 1, NOWHERE, 1)], &[0, 1]);
    e.steps("two mates launched apart", &up, &[&[(0, 0), (1, 1)]], None);
    e.steps("two mates launched together", &up, &[&[(0, 2), (1, 2)]], at(1));
    e.steps("one after the other, together", &up, &[&[(0, 2)], &[(1, 2)]], at(2));
    let stays = with(&[vm(1, 1, NOWHERE, NOWHERE), vm(1, 1, 1, 2)], &[0, 1]);
    e.steps("a mate that stays down", &stays, &[&[(1, 2)]], None);
    e.steps("a mate launched where one starts", &stays, &[&[(0, 1), (1, 2)]], at(1));
    let go = &[&[(0, 1)][..], &[(0, NOWHERE), (1, 2)]];
    e.steps("a mate launched there before", &stays, go, at(1));
    let trio =
        with(&[vm(1, 1, NOWHERE, NOWHERE), vm(1, 1, NOWHERE, 1), vm(1, 1, 1, NOWHERE)], &[0, 1, 2]);
    e.steps("three mates, one stays down", &trio, &[&[(2, NOWHERE)], &[(1, 1)]], None);
    e.steps("three mates, a launch at once", &trio, &[&[(1, 1), (2, NOWHERE)]], at(1));
    let tight = room_2(
        &[node(1, 1), node(9, 9)],
        &[vm(1, 1, 0, NOWHERE), vm(1, 1, NOWHERE, 0)],
        &[spread(&[0, 1])],
    );
    e.steps("17 before 18, a launch", &tight, &[&[(0, NOWHERE), (1, 0)]], Some((17, 1)));
}

// ---------------------------------------------------------------- 18 and 19

fn spreads(e: &mut Edges) {
    let at = |step: u16| Some((18, step));
    let apart = room(&at_home().nodes, &at_home().vms, &[spread(&[0, 1])]);
    e.steps("onto a mate that stays", &apart, &[&[(0, 1)], &[(0, 0)]], at(1));
    e.steps("onto a mate that leaves", &apart, &[&[(0, 1), (1, 2)]], at(1));
    e.steps("mates arrive together", &apart, &[&[(0, 2), (1, 2)]], at(1));
    e.steps("mates change places", &apart, &[&[(0, 1), (1, 0)]], at(1));
    e.steps("a mate gone before", &apart, &[&[(1, 2)], &[(0, 1)], &[(0, 0)], &[(1, 1)]], None);
    e.steps("a mate in the way in step 3", &apart, &[&[(1, 2)], &[(0, 1)], &[(1, 1)]], at(3));
    let met = room(&at_home().nodes, &[vm(1, 1, 0, 0), vm(1, 1, 0, 1)], &[spread(&[0, 1])]);
    e.steps("mates that start together, one leaves", &met, &[&[(1, 1)]], None);
    let both = room(&at_home().nodes, &[vm(1, 1, 0, 1), vm(1, 1, 0, 2)], &[spread(&[0, 1])]);
    e.steps("mates that start together, both leave", &both, &[&[(0, 1), (1, 2)]], None);
    let chain = room(
        &at_home().nodes,
        &[vm(1, 1, 0, 2), vm(1, 1, 1, 1), vm(1, 1, 0, 2)],
        &[spread(&[0, 1]), spread(&[1, 2])],
    );
    e.steps("no mates through a third", &chain, &[&[(0, 2), (2, 2)]], None);
    e.steps("a mate of the second spread", &chain, &[&[(2, 1)]], at(1));
    let follow = room(&at_home().nodes, &[vm(1, 1, 0, 1), vm(1, 1, 1, 2)], &[spread(&[0, 1])]);
    e.steps("into a leaving mate's node", &follow, &[&[(0, 1), (1, 2)]], at(1));
    e.steps("the mate first", &follow, &[&[(1, 2)], &[(0, 1)]], None);
}

fn ends(e: &mut Edges) {
    let a = cluster_a();
    let at = Some((19, 0));
    e.steps("no steps, two out of place", &a, &[], at);
    e.steps("the planner's steps", &a, &[&[(0, 2)], &[(1, 0)], &[(0, 1)]], None);
    e.steps("all but the last", &a, &[&[(0, 2)], &[(1, 0)]], at);
    e.steps("one more behind the last", &a, &[&[(0, 2)], &[(1, 0)], &[(0, 1)], &[(1, 2)]], at);
    e.steps("a fault before the end", &a, &[&[(0, 2)], &[(0, 0)], &[(1, 0)]], Some((17, 3)));
    let home = at_home();
    e.steps("home already", &home, &[], None);
    e.steps("home, and one sent away", &home, &[&[(0, 2)]], at);
}

/// A VM must end where it should: on its node, or on none.
fn ends_on_no_node(e: &mut Edges) {
    let room = comings_and_goings(&[]);
    let at = Some((19, 0));
    e.steps("nobody launched or shut down", &room, &[], at);
    e.steps("one still to be launched", &room, &[&[(2, NOWHERE)]], at);
    e.steps("one still to be shut down", &room, &[&[(1, 1)]], at);
    e.steps("launched on another node", &room, &[&[(1, 0), (2, NOWHERE)]], at);
    e.steps("moved and not shut down", &room, &[&[(1, 1), (2, 0)]], at);
    e.steps("the home of another", &room, &[&[(1, 1), (2, NOWHERE), (3, 1)]], at);
    let down = room_2(&[node(1, 1)], &[vm(9, 9, NOWHERE, NOWHERE)], &[]);
    e.steps("down all the time", &down, &[], None);
    let many =
        |current, target| room_2(&[node(300, 300)], &vec![vm(1, 1, current, target); 256], &[]);
    let all_but_last = |to: usize| (0..255).map(|vm| (vm, to)).collect::<Vec<_>>();
    e.steps("all shut down but the last", &many(0, NOWHERE), &[&all_but_last(NOWHERE)], at);
    e.steps("all launched but the last", &many(NOWHERE, 0), &[&all_but_last(0)], at);
}

/// Rooms in which a launch or a shutdown tells how the planner goes on.
fn launches_and_shutdowns_planned(e: &mut Edges) {
    let mut add = |name: &str, room: &Room| e.no_steps(name, &cluster_bytes(room), 19);
    let one =
        |memory| room_2(&[node(memory, 9)], &[vm(3, 1, 0, NOWHERE), vm(2, 1, NOWHERE, 0)], &[]);
    add("a launch that waits for a shutdown", &one(4));
    add("a launch that need not wait", &one(5));
    let mates = Room { constraints: vec![spread(&[0, 1])], ..one(9) };
    add("a launch that waits for a mate", &mates);
    let aside = [
        vm(2, 1, 0, 1),
        vm(3, 1, 0, 1),
        vm(1, 1, NOWHERE, 0),
        vm(4, 1, 1, 0),
        vm(9, 1, NOWHERE, NOWHERE),
    ];
    add("a pivot that lets one be launched", &room_2(&vec![node(5, 9); 3], &aside, &[]));
    let stuck = [vm(3, 1, 0, 1), vm(2, 1, 1, 0), vm(2, 1, NOWHERE, 0), vm(1, 1, 1, NOWHERE)];
    add("blocked after a shutdown", &room_2(&vec![node(4, 9); 2], &stuck, &[]));
    let banned =
        Room { constraints: vec![ban(&[0], &[2])], ..room_2(&vec![node(5, 9); 3], &aside, &[]) };
    add("a pivot that is banned, beside a launch", &banned);
    let fenced = [vm(2, 1, 0, NOWHERE), vm(2, 1, 1, 0), vm(2, 1, NOWHERE, 1)];
    let fences = [fence(&[0], &[0]), fence(&[2], &[1])];
    add("a shutdown, a move and a launch in turn", &room_2(&vec![node(2, 9); 2], &fenced, &fences));
}

/// Rooms in which idle VMs tell how the planner goes on.
fn idle_planned(e: &mut Edges) {
    let mut add = |name: &str, room: &Room| e.no_steps(name, &cluster_bytes(room), 19);
    add("an idle VM that need not wait", &over_cpu(9, 0));
    add("an active VM that waits", &over_cpu(9, 1));
    add("an idle VM that waits for memory", &over_cpu(2, 0));
    let launch = |cpu| {
        let mut room = Room { version: Version::Two, ..over_cpu(9, cpu) };
        room.vms[0].current = NOWHERE;
        room
    };
    add("an idle launch that need not wait", &launch(0));
    add("an active launch that waits", &launch(1));
    let mut both = over_cpu(9, 1);
    both.vms.push(vm(1, 0, 2, 1));
    add("an idle VM goes first, an active one waits", &both);
    let turn = |cpus: [u64; 2], memory| {
        let vms = [vm(3, cpus[0], 0, 1), vm(2, cpus[1], 1, 0), vm(2, 2, 2, 0)];
        room(&[node(4, 9), node(4, 9), node(memory, 1)], &vms, &[])
    };
    add("an idle pivot onto a node over its CPU", &turn([0, 0], 5));
    add("the lowest VM is active, the next pivots", &turn([1, 0], 5));
    add("the lowest VM has no memory there, the next pivots", &turn([0, 0], 4));
    add("active VMs cannot pivot there", &turn([1, 1], 5));
    add("no memory to pivot there", &turn([0, 0], 3));
}

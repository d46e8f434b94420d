//! The two records: their layout, and the faults 1 to 7 and 11 to 14 in checking order.

/// What a node has to give.
#[derive(Clone, Debug, PartialEq, Eq)]
pub struct Node {
    pub memory: u64,
    pub cpu: u64,
}

/// The place of a VM that is on no node, as current or target of a row and in moves. No node has
/// this number.
pub const NOWHERE: usize = 255;

/// Whether a place is a node.
pub fn on_a_node(place: usize) -> bool {
    place != NOWHERE
}

/// What a VM needs, where the record says it is, and where it should end: a node, or nowhere.
#[derive(Clone, Debug, PartialEq, Eq)]
pub struct Vm {
    pub memory: u64,
    pub cpu: u64,
    pub current: usize,
    pub target: usize,
}

impl Vm {
    /// Whether the VM needs no CPU. Then none is asked for when it arrives.
    pub fn is_idle(&self) -> bool {
        self.cpu == 0
    }
}

/// The five kinds of constraint. In the last the second VM waits for the first.
#[derive(Clone, Debug, PartialEq, Eq)]
pub enum Constraint {
    Ban { vms: Vec<usize>, nodes: Vec<usize> },
    Fence { vms: Vec<usize>, nodes: Vec<usize> },
    Spread { vms: Vec<usize> },
    Latency { vms: Vec<usize>, groups: Vec<Vec<usize>> },
    Before { first: usize, second: usize },
}

/// A cluster record, read. In version 1 every VM is on a node and goes to one.
#[derive(Clone, Debug, PartialEq, Eq)]
pub struct Room {
    pub version: Version,
    pub nodes: Vec<Node>,
    pub vms: Vec<Vm>,
    pub constraints: Vec<Constraint>,
}

impl Room {
    /// Whether some VM is on no node, or should end there.
    pub fn has_nowhere(&self) -> bool {
        self.vms.iter().any(|vm| !on_a_node(vm.current) || !on_a_node(vm.target))
    }

    /// First and second of each constraint that has a VM wait for another.
    pub fn befores(&self) -> impl Iterator<Item = (usize, usize)> + '_ {
        self.constraints.iter().filter_map(|constraint| match *constraint {
            Constraint::Before { first, second } => Some((first, second)),
            _ => None,
        })
    }
}

/// One move of a plan: which VM, the source that it names if it names one, and where it goes. From
/// nowhere it is a launch, to there a shutdown.
#[derive(Clone, Copy, Debug, PartialEq, Eq)]
pub struct Move {
    pub vm: usize,
    pub from: Option<usize>,
    pub to: usize,
}

impl Move {
    /// A move that names no source.
    pub fn bare(vm: usize, to: usize) -> Move {
        Move { vm, from: None, to }
    }
}

/// One step of a plan.
pub type Step = Vec<Move>;

/// The versions of a record. In a cluster of version 2 a VM may be on no node. In a plan a move is
/// VM and destination in version 1, and VM, source and destination in version 2. A cluster and a
/// plan for it need not be of one version.
#[derive(Clone, Copy, Debug, PartialEq, Eq)]
pub enum Version {
    One = 1,
    Two = 2,
}

impl Version {
    pub const ALL: [Version; 2] = [Version::One, Version::Two];

    /// The version with this number.
    pub fn of(number: u8) -> Option<Version> {
        Version::ALL.into_iter().find(|&version| version as u8 == number)
    }

    /// The version of a plan with such a move in it.
    pub fn of_move(m: &Move) -> Version {
        if m.from.is_some() {
            Version::Two
        } else {
            Version::One
        }
    }

    /// How many bytes a move has.
    pub fn width(self) -> usize {
        match self {
            Version::One => 2,
            Version::Two => 3,
        }
    }
}

/// A plan record, read. In version 2 every move names a source, in version 1 none does.
#[derive(Clone, Debug, PartialEq, Eq)]
pub struct Plan {
    pub version: Version,
    pub steps: Vec<Step>,
}

impl Plan {
    /// The plan of this version that has no steps.
    pub fn empty(version: Version) -> Plan {
        Plan { version, steps: Vec::new() }
    }
}

pub const CLUSTER_HEADER: usize = 11;
pub const PLAN_HEADER: usize = 7;
pub const NODE_ROW: usize = 5;
pub const VM_ROW: usize = 7;

// ---------------------------------------------------------------- reading

/// A big-endian number of up to four bytes.
fn number(bytes: &[u8]) -> u64 {
    bytes.iter().fold(0, |n, &b| n * 256 + u64::from(b))
}

/// A big-endian number used as a count or a length.
fn count(bytes: &[u8]) -> usize {
    number(bytes) as usize
}

/// Reads a cluster record; the error is the refusal number, 1 to 7.
pub fn parse_cluster(bytes: &[u8]) -> Result<Room, u8> {
    if bytes.len() < CLUSTER_HEADER {
        return Err(1);
    }
    let version = Version::of(bytes[0]).ok_or(2)?;
    let stated = count(&bytes[1..5]);
    if stated != bytes.len() || stated > 65_535 {
        return Err(3);
    }
    let n = count(&bytes[5..7]);
    let v = count(&bytes[7..9]);
    let c = count(&bytes[9..11]);
    if !(1..=64).contains(&n) || v > 256 || c > 128 {
        return Err(4);
    }
    let vms_at = CLUSTER_HEADER + NODE_ROW * n;
    let constraints_at = vms_at + VM_ROW * v;
    let bodies = split_constraints(bytes, constraints_at, c).ok_or(5)?;

    let nodes = bytes[CLUSTER_HEADER..vms_at].chunks(NODE_ROW).map(read_node);
    let vms: Vec<Vm> = bytes[vms_at..constraints_at].chunks(VM_ROW).map(read_vm).collect();
    let known = |place: usize| place < n || (version == Version::Two && !on_a_node(place));
    if vms.iter().any(|vm| vm.memory == 0 || !known(vm.current) || !known(vm.target)) {
        return Err(6);
    }
    let constraints: Option<Vec<Constraint>> =
        bodies.iter().map(|body| read_constraint(body, v, n)).collect();
    Ok(Room { version, nodes: nodes.collect(), vms, constraints: constraints.ok_or(7)? })
}

/// Cuts the constraints apart by their stated lengths alone. `None` if the rows or the
/// constraints pass the end, or leave bytes over (fault 5).
fn split_constraints(bytes: &[u8], start: usize, how_many: usize) -> Option<Vec<&[u8]>> {
    let mut rest = bytes.get(start..)?;
    let mut bodies = Vec::new();
    for _ in 0..how_many {
        let length = count(rest.get(..2)?);
        bodies.push(rest.get(2..2 + length)?);
        rest = &rest[2 + length..];
    }
    rest.is_empty().then_some(bodies)
}

fn read_node(row: &[u8]) -> Node {
    Node { memory: number(&row[0..3]), cpu: number(&row[3..5]) }
}

fn read_vm(row: &[u8]) -> Vm {
    Vm {
        memory: number(&row[0..3]),
        cpu: number(&row[3..5]),
        current: usize::from(row[5]),
        target: usize::from(row[6]),
    }
}

/// Reads one constraint within its own bytes. `None` is fault 7.
fn read_constraint(body: &[u8], v: usize, n: usize) -> Option<Constraint> {
    let mut rest = body;
    let constraint = match take(&mut rest, 1)?[0] {
        1 => Constraint::Ban { vms: vm_list(&mut rest, v)?, nodes: node_list(&mut rest, n)? },
        2 => Constraint::Fence { vms: vm_list(&mut rest, v)?, nodes: node_list(&mut rest, n)? },
        3 => Constraint::Spread { vms: vm_list(&mut rest, v)? },
        4 => Constraint::Latency { vms: vm_list(&mut rest, v)?, groups: groups(&mut rest, n)? },
        5 => two_vms(&mut rest, v)?,
        _ => return None,
    };
    rest.is_empty().then_some(constraint)
}

/// The next bytes of a constraint, if it has that many left.
fn take<'a>(rest: &mut &'a [u8], length: usize) -> Option<&'a [u8]> {
    if rest.len() < length {
        return None;
    }
    let (front, back) = rest.split_at(length);
    *rest = back;
    Some(front)
}

/// A VM list: a two-byte count, then VMs.
fn vm_list(rest: &mut &[u8], v: usize) -> Option<Vec<usize>> {
    let length = count(take(rest, 2)?);
    rising(take(rest, length)?, v)
}

/// A node list: a one-byte count, then nodes.
fn node_list(rest: &mut &[u8], n: usize) -> Option<Vec<usize>> {
    let length = count(take(rest, 1)?);
    rising(take(rest, length)?, n)
}

/// List entries, each below the limit and above the one before it.
fn rising(entries: &[u8], limit: usize) -> Option<Vec<usize>> {
    let list: Vec<usize> = entries.iter().map(|&e| usize::from(e)).collect();
    let rises = list.windows(2).all(|pair| pair[0] < pair[1]);
    let in_range = list.iter().all(|&e| e < limit);
    (rises && in_range).then_some(list)
}

/// The groups of a latency constraint: at most 64, and no node in two of them.
fn groups(rest: &mut &[u8], n: usize) -> Option<Vec<Vec<usize>>> {
    let how_many = count(take(rest, 1)?);
    if how_many > 64 {
        return None;
    }
    let mut taken = vec![false; n];
    let mut groups = Vec::new();
    for _ in 0..how_many {
        let group = node_list(rest, n)?;
        for &node in &group {
            if taken[node] {
                return None;
            }
            taken[node] = true;
        }
        groups.push(group);
    }
    Some(groups)
}

/// First and second, which are there and differ.
fn two_vms(rest: &mut &[u8], v: usize) -> Option<Constraint> {
    let pair = take(rest, 2)?;
    let (first, second) = (usize::from(pair[0]), usize::from(pair[1]));
    (first < v && second < v && first != second).then_some(Constraint::Before { first, second })
}

/// Reads a plan record; the error is the refusal number, 11 to 14. 0 bytes are a plan of no
/// steps, given as one of version 1, so 11 is for 1 to 6 bytes. This is shape only: whether VMs
/// and nodes exist, whether VMs rise (fault 15) and whether sources are right (fault 27) is left
/// to the rules.
pub fn parse_plan(bytes: &[u8]) -> Result<Plan, u8> {
    if bytes.is_empty() {
        return Ok(Plan::empty(Version::One));
    }
    if bytes.len() < PLAN_HEADER {
        return Err(11);
    }
    let version = Version::of(bytes[0]).ok_or(12)?;
    if count(&bytes[1..5]) != bytes.len() {
        return Err(13);
    }
    let steps = read_steps(&bytes[PLAN_HEADER..], count(&bytes[5..7]), version.width());
    Ok(Plan { version, steps: steps.ok_or(14)? })
}

/// All steps of a plan whose moves have `width` bytes. `None` is fault 14.
fn read_steps(mut rest: &[u8], how_many: usize, width: usize) -> Option<Vec<Step>> {
    if how_many > 512 {
        return None;
    }
    let mut steps = Vec::new();
    let mut moves_in_all = 0;
    for _ in 0..how_many {
        let moves = count(take(&mut rest, 2)?);
        if !(1..=256).contains(&moves) {
            return None;
        }
        moves_in_all += moves;
        if moves_in_all > 1_024 {
            return None;
        }
        steps.push(take(&mut rest, width * moves)?.chunks(width).map(read_move).collect());
    }
    rest.is_empty().then_some(steps)
}

/// A move's bytes: the VM first, the destination last, and a source between them if it is named.
fn read_move(row: &[u8]) -> Move {
    let byte = |at: usize| usize::from(row[at]);
    let last = row.len() - 1;
    Move { vm: byte(0), from: (last == 2).then(|| byte(1)), to: byte(last) }
}

// ---------------------------------------------------------------- writing

/// The low `width` bytes of a number, highest first.
fn put(bytes: &mut Vec<u8>, value: u64, width: usize) {
    bytes.extend_from_slice(&value.to_be_bytes()[8 - width..]);
}

/// Writes a plan record, its header also if there are no steps. It tests nothing but that the
/// moves are of the plan's version, so that generators may write faulty ones.
pub fn plan_bytes(plan: &Plan) -> Vec<u8> {
    let mut bytes = vec![plan.version as u8, 0, 0, 0, 0];
    put(&mut bytes, plan.steps.len() as u64, 2);
    for step in &plan.steps {
        put(&mut bytes, step.len() as u64, 2);
        for m in step {
            assert_eq!(Version::of_move(m), plan.version, "{m:?}");
            bytes.extend([Some(m.vm), m.from, Some(m.to)].iter().flatten().map(|&b| b as u8));
        }
    }
    state_length(&mut bytes);
    bytes
}

/// Writes a cluster record. It tests nothing, so that generators may write faulty ones.
pub fn cluster_bytes(room: &Room) -> Vec<u8> {
    let bodies: Vec<Vec<u8>> = room.constraints.iter().map(constraint_body).collect();
    cluster_bytes_with(room, &bodies)
}

/// As `cluster_bytes`, with the constraints given as raw bytes behind their length fields.
pub fn cluster_bytes_with(room: &Room, bodies: &[Vec<u8>]) -> Vec<u8> {
    let mut bytes = vec![room.version as u8, 0, 0, 0, 0];
    put(&mut bytes, room.nodes.len() as u64, 2);
    put(&mut bytes, room.vms.len() as u64, 2);
    put(&mut bytes, bodies.len() as u64, 2);
    for node in &room.nodes {
        put(&mut bytes, node.memory, 3);
        put(&mut bytes, node.cpu, 2);
    }
    for vm in &room.vms {
        put(&mut bytes, vm.memory, 3);
        put(&mut bytes, vm.cpu, 2);
        bytes.push(vm.current as u8);
        bytes.push(vm.target as u8);
    }
    for body in bodies {
        put(&mut bytes, body.len() as u64, 2);
        bytes.extend_from_slice(body);
    }
    state_length(&mut bytes);
    bytes
}

/// Sets a record's length field to the bytes it has.
pub fn state_length(record: &mut [u8]) {
    let length = (record.len() as u32).to_be_bytes();
    record[1..5].copy_from_slice(&length);
}

/// The bytes of a constraint behind its length field.
pub fn constraint_body(constraint: &Constraint) -> Vec<u8> {
    match constraint {
        Constraint::Ban { vms, nodes } => [vec![1], vm_bytes(vms), node_bytes(nodes)].concat(),
        Constraint::Fence { vms, nodes } => [vec![2], vm_bytes(vms), node_bytes(nodes)].concat(),
        Constraint::Spread { vms } => [vec![3], vm_bytes(vms)].concat(),
        Constraint::Latency { vms, groups } => {
            let mut body = [vec![4], vm_bytes(vms), vec![groups.len() as u8]].concat();
            groups.iter().for_each(|group| body.extend(node_bytes(group)));
            body
        }
        Constraint::Before { first, second } => vec![5, *first as u8, *second as u8],
    }
}

fn vm_bytes(vms: &[usize]) -> Vec<u8> {
    let mut bytes = Vec::new();
    put(&mut bytes, vms.len() as u64, 2);
    bytes.extend(vms.iter().map(|&vm| vm as u8));
    bytes
}

fn node_bytes(nodes: &[usize]) -> Vec<u8> {
    let mut bytes = vec![nodes.len() as u8];
    bytes.extend(nodes.iter().map(|&node| node as u8));
    bytes
}

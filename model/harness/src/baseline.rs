//! A simple checker of the same rules in plain Rust, and stops and splits by it, coded for speed
//! measurements.
//!
//! It reads the lent bytes in place and keeps a mask of open nodes for each VM, a mask of VMs for
//! each spread, and for each node its sums and a mask of the VMs on it. Of VMs on no node nothing is
//! kept but that they are. If some VM waits for another, there is a mask for each VM of those it waits
//! for, and one of those at home.

const ACCEPTED: u64 = 0;
const REFUSED: u64 = 2 << 62;

/// The place of a VM on no node.
const NOWHERE: u8 = 255;

/// A refusal's number and step.
type Fault = (u8, u16);

/// Checks a plan for a cluster at a reserve; the packed verdict.
pub fn check(reserve: u64, cluster: &[u8], plan: &[u8]) -> u64 {
    match verdict(reserve, cluster, plan) {
        Ok(cost) => ACCEPTED | cost,
        Err((number, step)) => REFUSED | u64::from(number) << 16 | u64::from(step),
    }
}

/// Stops a plan in a step at a reserve; the packed answer. The cluster record goes to the front of `out`.
pub fn stop(
    reserve: u64,
    cluster: &[u8],
    plan: &[u8],
    step: u64,
    marks: &[u8],
    out: &mut [u8],
) -> u64 {
    let checked = check(reserve, cluster, plan);
    if checked >> 62 != 0 {
        return checked;
    }
    match stop_sound(cluster, plan, step, marks, out) {
        Ok(()) => cluster.len() as u64,
        Err(number) => REFUSED | u64::from(number) << 16,
    }
}

/// Stops a plan that is accepted; the error is the refusal number, 20 to 22.
fn stop_sound(
    cluster: &[u8],
    plan: &[u8],
    step: u64,
    marks: &[u8],
    out: &mut [u8],
) -> Result<(), u8> {
    let width = if plan.first() == Some(&2) { 3 } else { 2 };
    let steps = plan.get(7..).unwrap_or(&[]);
    let before = steps.len() - from_step(steps, width, step).ok_or(20)?.len();
    let (earlier, stopped) = steps.split_at(before);
    if be16(stopped) != marks.len() {
        return Err(20);
    }
    if marks.iter().any(|&mark| mark > 1) {
        return Err(21);
    }
    let out = out.get_mut(..cluster.len()).ok_or(22)?;
    out.copy_from_slice(cluster);
    let places = &mut out[11 + 5 * be16(&cluster[5..])..];
    let mut rest = earlier;
    while !rest.is_empty() {
        let (moves, behind) = rest[2..].split_at(width * be16(rest));
        moves.chunks_exact(width).for_each(|m| put_at(places, m));
        rest = behind;
    }
    let ended = stopped[2..].chunks_exact(width).zip(marks).filter(|(_, &mark)| mark == 1);
    ended.for_each(|(m, _)| put_at(places, m));
    Ok(())
}

/// The bytes of a plan's steps from this one on, if there is such a step.
fn from_step(mut steps: &[u8], width: usize, step: u64) -> Option<&[u8]> {
    for _ in 1..step {
        let moves = be16(steps.get(..2)?);
        steps = &steps[2 + width * moves..];
    }
    (step > 0 && !steps.is_empty()).then_some(steps)
}

/// Puts the VM of a move on its destination, among the VM rows.
fn put_at(rows: &mut [u8], m: &[u8]) {
    rows[7 * usize::from(m[0]) + 5] = m[m.len() - 1];
}

/// Divides a plan into single moves at a reserve; the packed answer. The divided plan's record goes to the
/// front of `out`.
pub fn split(reserve: u64, cluster: &[u8], plan: &[u8], out: &mut [u8]) -> u64 {
    let checked = check(reserve, cluster, plan);
    if checked >> 62 != 0 {
        return checked;
    }
    match split_sound(cluster, plan, out) {
        Ok((steps, cost)) => (steps as u64) << 44 | cost,
        Err(number) => REFUSED | u64::from(number) << 16,
    }
}

/// Divides a plan that is accepted; its steps and its cost. The error is the refusal number, 10 or 14.
fn split_sound(cluster: &[u8], plan: &[u8], out: &mut [u8]) -> Result<(usize, u64), u8> {
    if out.len() < 2_567 {
        return Err(10);
    }
    let version = plan.first().copied().unwrap_or(2);
    let width = if version == 2 { 3 } else { 2 };
    let rows = &cluster[11 + 5 * be16(&cluster[5..])..];
    // The moves are counted first, as a refusal may write nothing.
    let (mut rest, mut steps) = (plan.get(7..).unwrap_or(&[]), 0);
    while !rest.is_empty() {
        steps += be16(rest);
        rest = &rest[2 + width * be16(rest)..];
    }
    if steps > 512 {
        return Err(14);
    }
    let length = 7 + (2 + width) * steps;
    let (header, body) = out[..length].split_at_mut(7);
    header[0] = version;
    header[1..5].copy_from_slice(&(length as u32).to_be_bytes());
    header[5..].copy_from_slice(&(steps as u16).to_be_bytes());
    let mut singles = body.chunks_exact_mut(2 + width);
    let (mut cost, mut earlier) = (0, 0);
    rest = plan.get(7..).unwrap_or(&[]);
    while !rest.is_empty() {
        let (moves, behind) = rest[2..].split_at(width * be16(rest));
        for (m, single) in moves.chunks_exact(width).zip(&mut singles) {
            single[..2].copy_from_slice(&[0, 1]);
            single[2..].copy_from_slice(m);
            if m[width - 1] != NOWHERE {
                earlier += be24(&rows[7 * usize::from(m[0])..]);
            }
            // A move pays its own memory and that of all before it, which are a step each.
            cost += earlier;
        }
        rest = behind;
    }
    Ok((steps, cost))
}

fn verdict(reserve: u64, cluster: &[u8], plan: &[u8]) -> Result<u64, Fault> {
    let shape = |number: u8| (number, 0);
    let room = read_room(reserve, cluster).map_err(shape)?;
    match plan.first() {
        None => run_any::<2>(&room, plan),
        Some(2) => run_any::<3>(&room, steps_of::<3>(plan).map_err(shape)?),
        Some(_) => run_any::<2>(&room, steps_of::<2>(plan).map_err(shape)?),
    }
}

// ---------------------------------------------------------------- the cluster record

/// A cluster record, read, with what is usable of each node. Arrays are as long as the largest room
/// needs.
struct Room {
    n: usize,
    v: usize,
    node_memory: [u64; 64],
    node_cpu: [u64; 64],
    memory: [u64; 256],
    cpu: [u64; 256],
    current: [u8; 256],
    target: [u8; 256],
    open: [u64; 256],
    spreads: Vec<VmMask>,
    /// For each VM those it waits for; empty if nobody waits.
    firsts: Vec<VmMask>,
    /// Whether the record may have VMs on no node.
    down: bool,
}

/// A set of VMs, a bit each.
type VmMask = [u64; 4];

fn put_in(mask: &mut VmMask, vm: u8) {
    mask[usize::from(vm / 64)] |= 1 << (vm % 64);
}

fn take_out(mask: &mut VmMask, vm: u8) {
    mask[usize::from(vm / 64)] &= !(1 << (vm % 64));
}

fn has(mask: &VmMask, vm: u8) -> bool {
    mask[usize::from(vm / 64)] >> (vm % 64) & 1 == 1
}

fn meet(a: &VmMask, b: &VmMask) -> bool {
    a.iter().zip(b).fold(0, |common, (x, y)| common | x & y) != 0
}

fn be16(b: &[u8]) -> usize {
    usize::from(b[0]) << 8 | usize::from(b[1])
}

fn be24(b: &[u8]) -> u64 {
    u64::from(b[0]) << 16 | u64::from(b[1]) << 8 | u64::from(b[2])
}

fn stated_length(b: &[u8]) -> usize {
    u32::from_be_bytes([b[1], b[2], b[3], b[4]]) as usize
}

/// Reads a cluster record; the error is the refusal number, 23 or 1 to 9.
fn read_room(reserve: u64, bytes: &[u8]) -> Result<Room, u8> {
    if reserve > 90 {
        return Err(23);
    }
    if bytes.len() < 11 {
        return Err(1);
    }
    if !(1..=2).contains(&bytes[0]) {
        return Err(2);
    }
    if stated_length(bytes) != bytes.len() || bytes.len() > 65_535 {
        return Err(3);
    }
    let (n, v, c) = (be16(&bytes[5..]), be16(&bytes[7..]), be16(&bytes[9..]));
    if n == 0 || n > 64 || v > 256 || c > 128 {
        return Err(4);
    }
    let vms_at = 11 + 5 * n;
    let constraints_at = vms_at + 7 * v;
    let constraints = bytes.get(constraints_at..).ok_or(5)?;
    if !constraints_fill(constraints, c) {
        return Err(5);
    }
    let mut room = empty_room(n, v, bytes[0] == 2);
    read_nodes(&mut room, &bytes[11..vms_at], 100 - reserve);
    read_vms(&mut room, &bytes[vms_at..constraints_at]).ok_or(6)?;
    let kept = read_constraints(&mut room, constraints).ok_or(7)?;
    target_fits(&room).ok_or(8)?;
    (kept && target_is_open(&room)).then_some(room).ok_or(9)
}

fn empty_room(n: usize, v: usize, down: bool) -> Room {
    Room {
        n,
        v,
        node_memory: [0; 64],
        node_cpu: [0; 64],
        memory: [0; 256],
        cpu: [0; 256],
        current: [0; 256],
        target: [0; 256],
        open: [u64::MAX; 256],
        spreads: Vec::new(),
        firsts: Vec::new(),
        down,
    }
}

/// Whether the constraints, by their stated lengths, fill these bytes.
fn constraints_fill(mut rest: &[u8], c: usize) -> bool {
    for _ in 0..c {
        if rest.len() < 2 || rest.len() - 2 < be16(rest) {
            return false;
        }
        rest = &rest[2 + be16(rest)..];
    }
    rest.is_empty()
}

/// Reads the node rows; so many percent of each are usable.
fn read_nodes(room: &mut Room, rows: &[u8], percent: u64) {
    for (i, row) in rows.chunks_exact(5).enumerate() {
        room.node_memory[i] = be24(row) * percent / 100;
        room.node_cpu[i] = be16(&row[3..]) as u64 * percent / 100;
    }
}

/// Reads the VM rows; `None` is fault 6.
fn read_vms(room: &mut Room, rows: &[u8]) -> Option<()> {
    let (n, down) = (room.n, room.down);
    let known = |place: u8| usize::from(place) < n || (down && place == NOWHERE);
    for (i, row) in rows.chunks_exact(7).enumerate() {
        room.memory[i] = be24(row);
        room.cpu[i] = be16(&row[3..]) as u64;
        room.current[i] = row[5];
        room.target[i] = row[6];
        if room.memory[i] == 0 || !known(row[5]) || !known(row[6]) {
            return None;
        }
    }
    Some(())
}

/// Reads all constraints; `None` is fault 7. Says whether the target keeps spreads and latencies.
fn read_constraints(room: &mut Room, mut rest: &[u8]) -> Option<bool> {
    let mut kept = true;
    while !rest.is_empty() {
        let (body, behind) = rest[2..].split_at(be16(rest));
        kept &= read_constraint(room, body)?;
        rest = behind;
    }
    Some(kept)
}

fn read_constraint(room: &mut Room, body: &[u8]) -> Option<bool> {
    let (&kind, mut rest) = body.split_first()?;
    if kind == 5 {
        return read_before(room, rest);
    }
    if !(1..=4).contains(&kind) {
        return None;
    }
    let vms = vm_list(&mut rest, room.v)?;
    let kept = match kind {
        1 => {
            let nodes = node_list(&mut rest, room.n)?;
            vms.iter().for_each(|&vm| room.open[usize::from(vm)] &= !nodes);
            true
        }
        2 => {
            let nodes = node_list(&mut rest, room.n)?;
            vms.iter().for_each(|&vm| room.open[usize::from(vm)] &= nodes);
            true
        }
        3 => read_spread(room, vms),
        _ => latency_kept(room, vms, &mut rest)?,
    };
    rest.is_empty().then_some(kept)
}

/// The VM list in front; `None` if it is cut short, does not rise or names an unknown VM.
fn vm_list<'a>(rest: &mut &'a [u8], v: usize) -> Option<&'a [u8]> {
    let length = be16(rest.get(..2)?);
    let list = rest.get(2..2 + length)?;
    *rest = &rest[2 + length..];
    rises_below(list, v).then_some(list)
}

/// The node list in front, as a mask.
fn node_list(rest: &mut &[u8], n: usize) -> Option<u64> {
    let length = usize::from(*rest.first()?);
    let list = rest.get(1..1 + length)?;
    *rest = &rest[1 + length..];
    rises_below(list, n).then(|| list.iter().fold(0, |mask, &node| mask | 1 << node))
}

fn rises_below(list: &[u8], limit: usize) -> bool {
    let rises = list.windows(2).all(|pair| pair[0] < pair[1]);
    rises && list.last().is_none_or(|&last| usize::from(last) < limit)
}

/// Keeps a spread of two or more for the steps, and says whether the target keeps it.
fn read_spread(room: &mut Room, vms: &[u8]) -> bool {
    let mut mask = VmMask::default();
    vms.iter().for_each(|&vm| put_in(&mut mask, vm));
    if vms.len() > 1 {
        room.spreads.push(mask);
    }
    let on_nodes = vms.iter().filter(|&&vm| room.target[usize::from(vm)] != NOWHERE).count();
    targets(room, vms).count_ones() as usize == on_nodes
}

/// Keeps who waits for whom for the steps; the target keeps it always.
fn read_before(room: &mut Room, pair: &[u8]) -> Option<bool> {
    let &[first, second] = pair else { return None };
    if usize::from(first) >= room.v || usize::from(second) >= room.v || first == second {
        return None;
    }
    if room.firsts.is_empty() {
        room.firsts = vec![VmMask::default(); room.v];
    }
    put_in(&mut room.firsts[usize::from(second)], first);
    Some(true)
}

/// The targets of some VMs, as a mask of nodes.
fn targets(room: &Room, vms: &[u8]) -> u64 {
    vms.iter().fold(0, |mask, &vm| mask | bit(room.target[usize::from(vm)]))
}

/// A node as a mask; that of no node is empty.
fn bit(place: u8) -> u64 {
    1u64.checked_shl(place.into()).unwrap_or(0)
}

/// Reads a latency's groups, and says whether one of them has all the targets.
fn latency_kept(room: &Room, vms: &[u8], rest: &mut &[u8]) -> Option<bool> {
    let (&groups, behind) = rest.split_first()?;
    *rest = behind;
    if groups > 64 {
        return None;
    }
    let targets = targets(room, vms);
    let mut kept = targets == 0;
    let mut taken = 0u64;
    for _ in 0..groups {
        let group = node_list(rest, room.n)?;
        if taken & group != 0 {
            return None;
        }
        taken |= group;
        kept |= targets & !group == 0;
    }
    Some(kept)
}

fn target_fits(room: &Room) -> Option<()> {
    let sums = Sums::of(room, &room.target);
    (0..room.n).all(|node| sums.fit(room, node)).then_some(())
}

/// Whether every VM's target is open to it: bans and fences.
fn target_is_open(room: &Room) -> bool {
    (0..room.v).all(|vm| bit(room.target[vm]) & !room.open[vm] == 0)
}

/// Memory and CPU counted on each node.
struct Sums {
    memory: [u64; 64],
    cpu: [u64; 64],
}

impl Sums {
    fn of(room: &Room, place: &[u8; 256]) -> Sums {
        let mut sums = Sums { memory: [0; 64], cpu: [0; 64] };
        for (vm, &node) in place[..room.v].iter().enumerate() {
            if node != NOWHERE {
                sums.add(room, vm, node);
            }
        }
        sums
    }

    fn add(&mut self, room: &Room, vm: usize, node: u8) {
        self.memory[usize::from(node)] += room.memory[vm];
        self.cpu[usize::from(node)] += room.cpu[vm];
    }

    fn take(&mut self, room: &Room, vm: usize, node: u8) {
        self.memory[usize::from(node)] -= room.memory[vm];
        self.cpu[usize::from(node)] -= room.cpu[vm];
    }

    fn fit(&self, room: &Room, node: usize) -> bool {
        self.memory[node] <= room.node_memory[node] && self.cpu[node] <= room.node_cpu[node]
    }

    /// Whether a VM that is counted on a node may be there: one without CPU needs only memory.
    fn take_in(&self, room: &Room, vm: usize, node: usize) -> bool {
        self.memory[node] <= room.node_memory[node]
            && (self.cpu[node] <= room.node_cpu[node] || room.cpu[vm] == 0)
    }
}

// ---------------------------------------------------------------- the plan record

// A move has WIDTH bytes: the VM first, the destination last, and in version 2 the source between.

/// The bytes of a plan's steps; the error is the fault of its shape, 11 to 14.
fn steps_of<const WIDTH: usize>(plan: &[u8]) -> Result<&[u8], u8> {
    if plan.len() < 7 {
        return Err(11);
    }
    if !(1..=2).contains(&plan[0]) {
        return Err(12);
    }
    if stated_length(plan) != plan.len() {
        return Err(13);
    }
    let (count, steps) = (be16(&plan[5..]), &plan[7..]);
    (count <= 512 && steps_fill::<WIDTH>(steps, count)).then_some(steps).ok_or(14)
}

fn steps_fill<const WIDTH: usize>(mut rest: &[u8], steps: usize) -> bool {
    let mut all = 0;
    for _ in 0..steps {
        if rest.len() < 2 {
            return false;
        }
        let moves = be16(rest);
        all += moves;
        if moves == 0 || moves > 256 || all > 1_024 || rest.len() < 2 + WIDTH * moves {
            return false;
        }
        rest = &rest[2 + WIDTH * moves..];
    }
    rest.is_empty()
}

// ---------------------------------------------------------------- the steps

// DOWN is whether some VM may be on no node, so that rooms without any need not ask.

/// Where VMs are between steps: each VM's place, what is on each node, and if some VM waits those at
/// home.
struct Here {
    place: [u8; 256],
    sums: Sums,
    vms_on: [VmMask; 64],
    home: VmMask,
}

fn start(room: &Room) -> Here {
    let mut vms_on = [VmMask::default(); 64];
    for (vm, &place) in room.current[..room.v].iter().enumerate() {
        if place != NOWHERE {
            put_in(&mut vms_on[usize::from(place)], vm as u8);
        }
    }
    let mut here = Here {
        place: room.current,
        sums: Sums::of(room, &room.current),
        vms_on,
        home: VmMask::default(),
    };
    if !room.firsts.is_empty() {
        (0..room.v).for_each(|vm| note_home(room, &mut here, vm as u8));
    }
    here
}

/// Notes whether a VM is at home.
fn note_home(room: &Room, here: &mut Here, vm: u8) {
    if here.place[usize::from(vm)] == room.target[usize::from(vm)] {
        put_in(&mut here.home, vm);
    } else {
        take_out(&mut here.home, vm);
    }
}

fn run_any<const WIDTH: usize>(room: &Room, steps: &[u8]) -> Result<u64, Fault> {
    if room.down {
        return run::<WIDTH, true>(room, steps);
    }
    run::<WIDTH, false>(room, steps)
}

/// Goes through the steps; the cost, or the first fault.
fn run<const WIDTH: usize, const DOWN: bool>(room: &Room, mut rest: &[u8]) -> Result<u64, Fault> {
    let mut here = start(room);
    let (mut cost, mut earlier, mut step) = (0, 0, 0);
    while !rest.is_empty() {
        let (moves, behind) = rest[2..].split_at(WIDTH * be16(rest));
        rest = behind;
        step += 1;
        let number = step_fault::<WIDTH, DOWN>(room, &mut here, moves);
        if number != 0 {
            return Err((number, step));
        }
        let mut largest = 0;
        for m in moves.chunks_exact(WIDTH) {
            let (vm, to) = (m[0], m[WIDTH - 1]);
            let memory = if DOWN && to == NOWHERE { 0 } else { room.memory[usize::from(vm)] };
            cost += memory + earlier;
            largest = largest.max(memory);
            end::<DOWN>(room, &mut here, vm, to);
        }
        earlier += largest;
    }
    if here.place[..room.v] != room.target[..room.v] {
        return Err((19, 0));
    }
    Ok(cost)
}

/// Ends a move: its VM leaves its source.
fn end<const DOWN: bool>(room: &Room, here: &mut Here, vm: u8, to: u8) {
    let from = std::mem::replace(&mut here.place[usize::from(vm)], to);
    if !DOWN || from != NOWHERE {
        here.sums.take(room, usize::from(vm), from);
        take_out(&mut here.vms_on[usize::from(from)], vm);
    }
    if !room.firsts.is_empty() {
        note_home(room, here, vm);
    }
}

/// The fault of a step, or 0. Counts the arrivals on their destinations; those who leave are
/// still on their sources.
fn step_fault<const WIDTH: usize, const DOWN: bool>(
    room: &Room,
    here: &mut Here,
    moves: &[u8],
) -> u8 {
    if !well_named::<WIDTH, DOWN>(room, &here.place, moves) {
        return 15;
    }
    if !sources_right::<WIDTH>(&here.place, moves) {
        return 27;
    }
    let all = moves.chunks_exact(WIDTH).map(|m| (m[0], m[WIDTH - 1]));
    let each = || all.clone().filter(|&(_, to)| !DOWN || to != NOWHERE);
    if !each().all(|(vm, to)| room.open[usize::from(vm)] >> to & 1 == 1) {
        return 16;
    }
    each().for_each(|(vm, to)| here.sums.add(room, usize::from(vm), to));
    if !each().all(|(vm, to)| here.sums.take_in(room, usize::from(vm), usize::from(to))) {
        return 17;
    }
    if each().any(|(vm, to)| meets_mate(room, &mut here.vms_on[usize::from(to)], vm)) {
        return 18;
    }
    if !room.firsts.is_empty() && comes_too_soon(room, here.home, || all.clone().map(|m| m.0)) {
        return 33;
    }
    0
}

/// Whether some VM of a step waits for one that is not at home, or is in the step too.
fn comes_too_soon<I: Iterator<Item = u8>>(
    room: &Room,
    mut ready: VmMask,
    moved: impl Fn() -> I,
) -> bool {
    moved().for_each(|vm| take_out(&mut ready, vm));
    let not_ready = ready.map(|vms| !vms);
    moved().any(|vm| meet(&room.firsts[usize::from(vm)], &not_ready))
}

fn well_named<const WIDTH: usize, const DOWN: bool>(
    room: &Room,
    place: &[u8; 256],
    moves: &[u8],
) -> bool {
    let mut least = 0;
    let may_end = |vm: usize, to: u8| DOWN && to == NOWHERE && room.target[vm] == NOWHERE;
    for m in moves.chunks_exact(WIDTH) {
        let (vm, to) = (usize::from(m[0]), m[WIDTH - 1]);
        let known = usize::from(to) < room.n || may_end(vm, to);
        if vm < least || vm >= room.v || !known || place[vm] == to {
            return false;
        }
        least = vm + 1;
    }
    true
}

/// Whether every source that is named is its VM's place.
fn sources_right<const WIDTH: usize>(place: &[u8; 256], moves: &[u8]) -> bool {
    WIDTH == 2 || moves.chunks_exact(WIDTH).all(|m| m[1] == place[usize::from(m[0])])
}

/// Whether a VM that arrives has a mate among those on the node; then it is one of them too.
fn meets_mate(room: &Room, there: &mut VmMask, vm: u8) -> bool {
    let met = room.spreads.iter().any(|spread| has(spread, vm) && meet(spread, there));
    put_in(there, vm);
    met
}

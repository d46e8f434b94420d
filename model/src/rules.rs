//! The rules: what a reserve leaves of each node, where VMs are, what nodes hold, what the target and
//! each step may not do, what a plan costs, and the checker that puts all of this together.

use crate::records::{on_a_node, parse_cluster, parse_plan};
use crate::records::{Constraint, Move, Node, Room, Step, Vm, NOWHERE};

/// What the checker says.
#[derive(Clone, Copy, Debug, PartialEq, Eq)]
pub enum Verdict {
    Accepted { cost: u64 },
    Refused { number: u8, step: u16 },
}

// ---------------------------------------------------------------- the reserve

/// The highest reserve, in percent, that is taken.
pub const MOST_RESERVE: u64 = 90;

/// Fault 23: a reserve that is too high. It is tested before everything else.
pub fn reserve_fault(reserve: u64) -> Option<u8> {
    (reserve > MOST_RESERVE).then_some(23)
}

/// A room as the rules see it at a reserve that is taken: what a node has is its usable memory and
/// CPU, each rounded down, and all else is as it was. Whatever is said below of what a node has, of
/// its capacity or of being over it, is said of these.
pub fn usable_room(reserve: u64, room: &Room) -> Room {
    let usable = |capacity: u64| capacity * (100 - reserve) / 100;
    let node = |node: &Node| Node { memory: usable(node.memory), cpu: usable(node.cpu) };
    Room { nodes: room.nodes.iter().map(node).collect(), ..room.clone() }
}

// ---------------------------------------------------------------- placements and sums

/// Memory and CPU summed over some VMs.
#[derive(Clone, Copy, Debug, PartialEq, Eq)]
pub struct Sum {
    pub memory: u64,
    pub cpu: u64,
}

impl Sum {
    pub const NOTHING: Sum = Sum { memory: 0, cpu: 0 };

    pub fn plus(self, vm: &Vm) -> Sum {
        Sum { memory: self.memory + vm.memory, cpu: self.cpu + vm.cpu }
    }

    pub fn minus(self, vm: &Vm) -> Sum {
        Sum { memory: self.memory - vm.memory, cpu: self.cpu - vm.cpu }
    }
}

/// Where each VM is between steps, with each node's sum kept beside it. On no node nothing counts.
#[derive(Clone, Debug, PartialEq, Eq)]
pub struct Placement {
    pub place: Vec<usize>,
    pub sums: Vec<Sum>,
}

impl Placement {
    /// A placement with its sums counted afresh.
    pub fn of(room: &Room, place: Vec<usize>) -> Placement {
        let mut sums = vec![Sum::NOTHING; room.nodes.len()];
        for (vm, &node) in room.vms.iter().zip(&place).filter(|(_, &node)| on_a_node(node)) {
            sums[node] = sums[node].plus(vm);
        }
        Placement { place, sums }
    }

    pub fn current(room: &Room) -> Placement {
        Placement::of(room, room.vms.iter().map(|vm| vm.current).collect())
    }

    pub fn target(room: &Room) -> Placement {
        Placement::of(room, room.vms.iter().map(|vm| vm.target).collect())
    }

    /// The placement a step leaves: its VMs at their destinations, all others where they were.
    pub fn after(&self, room: &Room, step: &[Move]) -> Placement {
        let mut next = self.clone();
        for m in step {
            let vm = &room.vms[m.vm];
            let from = next.place[m.vm];
            if on_a_node(from) {
                next.sums[from] = next.sums[from].minus(vm);
            }
            if on_a_node(m.to) {
                next.sums[m.to] = next.sums[m.to].plus(vm);
            }
            next.place[m.vm] = m.to;
        }
        next
    }

    /// The VMs not at their targets, by number.
    pub fn out_of_place(&self, room: &Room) -> Vec<usize> {
        (0..room.vms.len()).filter(|&vm| self.place[vm] != room.vms[vm].target).collect()
    }
}

/// Whether a node has the memory for a sum; just enough is enough.
pub fn memory_within(room: &Room, node: usize, sum: Sum) -> bool {
    sum.memory <= room.nodes[node].memory
}

/// Whether a node has the CPU for a sum; just enough is enough.
pub fn cpu_within(room: &Room, node: usize, sum: Sum) -> bool {
    sum.cpu <= room.nodes[node].cpu
}

/// Whether a node has enough of both for a sum.
pub fn within(room: &Room, node: usize, sum: Sum) -> bool {
    memory_within(room, node, sum) && cpu_within(room, node, sum)
}

/// Whether a VM may begin its move to a node that then has this sum, the VM included. An idle one
/// is tested for memory alone, so a node over its CPU may take it; any other is tested for both.
pub fn takes(room: &Room, node: usize, sum: Sum, vm: &Vm) -> bool {
    memory_within(room, node, sum) && (vm.is_idle() || cpu_within(room, node, sum))
}

// ---------------------------------------------------------------- constraints

/// What the constraints ask of steps, looked up once: the nodes each VM may go to, its mates, and the
/// VMs it waits for.
#[derive(Clone, Debug)]
pub struct Book {
    pub may_go: Vec<Vec<bool>>,
    pub mates: Vec<Vec<usize>>,
    pub firsts: Vec<Vec<usize>>,
}

impl Book {
    pub fn of(room: &Room) -> Book {
        let vms = 0..room.vms.len();
        let nodes = 0..room.nodes.len();
        Book {
            may_go: vms
                .clone()
                .map(|vm| nodes.clone().map(|node| may_go(room, vm, node)).collect())
                .collect(),
            mates: vms.clone().map(|vm| mates(room, vm)).collect(),
            firsts: vms.map(|vm| firsts(room, vm)).collect(),
        }
    }

    /// Whether ban and fence let a move's VM go to its destination. They ask nothing of a shutdown.
    fn lets(&self, m: &Move) -> bool {
        !on_a_node(m.to) || self.may_go[m.vm][m.to]
    }
}

/// Whether no ban on this VM names the place and every fence around it does. Nowhere is open to all.
pub fn may_go(room: &Room, vm: usize, place: usize) -> bool {
    room.constraints.iter().all(|constraint| allows(constraint, vm, place))
}

/// Whether a constraint lets this VM go to the place; only a ban or a fence ever does not.
#[inline(always)]
pub fn allows(constraint: &Constraint, vm: usize, place: usize) -> bool {
    match constraint {
        Constraint::Ban { vms, nodes } => !(vms.contains(&vm) && nodes.contains(&place)),
        Constraint::Fence { vms, nodes } => {
            !vms.contains(&vm) || nodes.contains(&place) || !on_a_node(place)
        }
        _ => true,
    }
}

/// The other VMs that stand with this one in some spread. Spreads do not merge.
pub fn mates(room: &Room, vm: usize) -> Vec<usize> {
    let mut is_mate = vec![false; room.vms.len()];
    for constraint in &room.constraints {
        if let Constraint::Spread { vms } = constraint {
            if vms.contains(&vm) {
                vms.iter().for_each(|&other| is_mate[other] = true);
            }
        }
    }
    (0..room.vms.len()).filter(|&other| other != vm && is_mate[other]).collect()
}

/// The VMs that this one waits for, by number.
pub fn firsts(room: &Room, vm: usize) -> Vec<usize> {
    let its = room.befores().filter(|(_, second)| *second == vm);
    let mut firsts: Vec<usize> = its.map(|(first, _)| first).collect();
    firsts.sort();
    firsts.dedup();
    firsts
}

/// Whether the targets keep one constraint. All listed VMs that end on a node count, moved or not;
/// those that end on none keep every constraint. That one waits for another asks nothing of a target.
fn target_keeps(room: &Room, constraint: &Constraint) -> bool {
    let target = |vm: &usize| room.vms[*vm].target;
    let on_nodes = |vms: &[usize]| -> Vec<usize> {
        vms.iter().copied().filter(|vm| on_a_node(target(vm))).collect()
    };
    match constraint {
        Constraint::Ban { vms, nodes } => {
            on_nodes(vms).iter().all(|vm| !nodes.contains(&target(vm)))
        }
        Constraint::Fence { vms, nodes } => {
            on_nodes(vms).iter().all(|vm| nodes.contains(&target(vm)))
        }
        Constraint::Spread { vms } => {
            let vms = on_nodes(vms);
            vms.iter().all(|a| vms.iter().all(|b| a == b || target(a) != target(b)))
        }
        Constraint::Latency { vms, groups } => {
            let vms = on_nodes(vms);
            vms.is_empty()
                || groups.iter().any(|group| vms.iter().all(|vm| group.contains(&target(vm))))
        }
        Constraint::Before { .. } => true,
    }
}

/// Faults 8 and 9, both about the target.
pub fn target_fault(room: &Room) -> Option<u8> {
    let sums = Placement::target(room).sums;
    if sums.iter().enumerate().any(|(node, &sum)| !within(room, node, sum)) {
        return Some(8);
    }
    if !room.constraints.iter().all(|constraint| target_keeps(room, constraint)) {
        return Some(9);
    }
    None
}

/// Tests the reserve, reads a cluster record and tests its target: faults 23 and 1 to 9. The room has
/// its usable amounts.
pub fn accepted_cluster(reserve: u64, bytes: &[u8]) -> Result<Room, u8> {
    if let Some(number) = reserve_fault(reserve) {
        return Err(number);
    }
    let room = usable_room(reserve, &parse_cluster(bytes)?);
    match target_fault(&room) {
        Some(number) => Err(number),
        None => Ok(room),
    }
}

// ---------------------------------------------------------------- steps

/// The fault of a step, if any. The number decides, not the move: each test runs over all the
/// moves before the next test starts.
pub fn step_fault(room: &Room, book: &Book, start: &Placement, step: &[Move]) -> Option<u8> {
    match step {
        _ if misnamed(room, start, step) => Some(15),
        _ if misplaced(start, step) => Some(27),
        _ if !step.iter().all(|m| book.lets(m)) => Some(16),
        _ if misfits(room, start, step) => Some(17),
        _ if meets_mate(book, start, step) => Some(18),
        _ if moves_too_soon(room, book, start, step) => Some(33),
        _ => None,
    }
}

/// Fault 15: an unknown VM or destination, VMs that do not rise, or a move to where the VM already
/// is. Nowhere is a destination only for a VM that should end there.
pub fn misnamed(room: &Room, start: &Placement, step: &[Move]) -> bool {
    let rises = step.windows(2).all(|pair| pair[0].vm < pair[1].vm);
    let may_end = |m: &Move| m.to == NOWHERE && room.vms[m.vm].target == NOWHERE;
    let known = |m: &Move| m.vm < room.vms.len() && (m.to < room.nodes.len() || may_end(m));
    !rises || !step.iter().all(|m| known(m) && m.to != start.place[m.vm])
}

/// Fault 27: a move names a source that is not its VM's place. It may be sound for all that.
pub fn misplaced(start: &Placement, step: &[Move]) -> bool {
    step.iter().any(|m| m.from.is_some_and(|from| from != start.place[m.vm]))
}

/// The moves of a step that go to a node. A shutdown needs no room, and meets nobody.
fn arrivals(step: &[Move]) -> impl Iterator<Item = &Move> {
    step.iter().filter(|m| on_a_node(m.to))
}

/// Fault 17 in closed form: the worst order begins all moves before any ends, so a destination
/// carries all it held at the start, shut down in the step or not, and all that arrive there in
/// the step, launched or not. So its CPU is tested if and only if some arrival there has CPU.
pub fn misfits(room: &Room, start: &Placement, step: &[Move]) -> bool {
    arrivals(step).any(|m| {
        let arrivals = step.iter().filter(|other| other.to == m.to);
        let worst = arrivals.fold(start.sums[m.to], |sum, other| sum.plus(&room.vms[other.vm]));
        !takes(room, m.to, worst, &room.vms[m.vm])
    })
}

/// Fault 18 in closed form: a mate is on the destination at the start, even if it leaves in this
/// step, or arrives there in this step.
pub fn meets_mate(book: &Book, start: &Placement, step: &[Move]) -> bool {
    arrivals(step).any(|m| {
        book.mates[m.vm].iter().any(|&mate| {
            start.place[mate] == m.to || step.iter().any(|o| o.vm == mate && o.to == m.to)
        })
    })
}

/// Fault 33: a move, launch or shutdown of a VM that waits for another which is off its target at the
/// start, or moves in the same step, whether it comes home by that or leaves.
pub fn moves_too_soon(room: &Room, book: &Book, start: &Placement, step: &[Move]) -> bool {
    step.iter().any(|m| {
        book.firsts[m.vm].iter().any(|&first| {
            start.place[first] != room.vms[first].target || step.iter().any(|o| o.vm == first)
        })
    })
}

// ---------------------------------------------------------------- cost

/// The memory that a move pays for: its VM's, and none for a shutdown.
fn memory_moved(room: &Room, m: &Move) -> u64 {
    if on_a_node(m.to) {
        room.vms[m.vm].memory
    } else {
        0
    }
}

/// What a step costs: the largest memory it moves.
pub fn step_cost(room: &Room, step: &[Move]) -> u64 {
    step.iter().map(|m| memory_moved(room, m)).max().unwrap_or(0)
}

/// What the moves of a step cost: each pays the memory it moves and the costs of the steps before.
pub fn step_sum(room: &Room, step: &[Move], before: u64) -> u64 {
    step.iter().map(|m| memory_moved(room, m) + before).sum()
}

/// What a plan costs, built up from its first step to its last. The loop has the shape and the
/// names of the library's own, to be followed in a debugger (`docs/COST.md`).
pub fn plan_cost(room: &Room, steps: &[Step]) -> u64 {
    // What the steps so far cost in all, and the running total.
    let mut steps_cost = 0;
    let mut total = 0;
    for step in steps {
        let most = step_cost(room, step);
        total += step_sum(room, step, steps_cost);
        steps_cost += most;
    }
    total
}

// ---------------------------------------------------------------- the checker

/// Checks a plan for a cluster at a reserve: 23, 1 to 9, then 11 to 14 over the whole plan, then each
/// step in turn by 15, 27, 16, 17, 18 and 33, then 19. A plan of 0 bytes has no steps: 23, 1 to 9,
/// then 19.
pub fn check(reserve: u64, cluster: &[u8], plan: &[u8]) -> Verdict {
    let room = match accepted_cluster(reserve, cluster) {
        Ok(room) => room,
        Err(number) => return Verdict::Refused { number, step: 0 },
    };
    match parse_plan(plan) {
        Ok(plan) => check_steps(&room, &plan.steps),
        Err(number) => Verdict::Refused { number, step: 0 },
    }
}

/// The part of the checker behind both records' shape.
pub fn check_steps(room: &Room, steps: &[Step]) -> Verdict {
    let book = Book::of(room);
    let mut here = Placement::current(room);
    for (i, step) in steps.iter().enumerate() {
        if let Some(number) = step_fault(room, &book, &here, step) {
            return Verdict::Refused { number, step: i as u16 + 1 };
        }
        here = here.after(room, step);
    }
    if !here.out_of_place(room).is_empty() {
        return Verdict::Refused { number: 19, step: 0 };
    }
    Verdict::Accepted { cost: plan_cost(room, steps) }
}

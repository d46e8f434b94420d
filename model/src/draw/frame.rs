//! What each frame of the page shows: which VMs stand on which node or on none, and how.

use super::blame::Blame;
use super::kept::Kept;
use super::words::{befores, behind, many, moves, stranger, Spent};
use crate::records::{on_a_node, Move, Room, Step, NOWHERE};
use crate::rules::{cpu_within, Placement, Sum, Verdict};

/// Up to this many nodes are all shown in every frame, unless the page would have more blocks
/// than this.
const MOST_NODES: usize = 16;
const MOST_BLOCKS: usize = 8_000;

/// How a VM stands on a node, or on the shelf.
#[derive(Clone, Copy, Debug, PartialEq, Eq)]
pub enum Role {
    Rests,
    Leaves { to: usize },
    Arrives { from: usize },
}

#[derive(Clone, Copy, Debug)]
pub struct Block {
    pub vm: usize,
    pub role: Role,
}

/// The VMs on no node, and how many more of them a brief frame leaves out.
#[derive(Clone, Debug, Default)]
pub struct Shelf {
    pub blocks: Vec<Block>,
    pub left_out: usize,
}

/// One picture: its words, the nodes it shows, the blocks of each node from the bottom up, and a
/// shelf if some VM of the cluster ever is on no node.
#[derive(Clone, Debug, Default)]
pub struct Frame {
    pub title: String,
    pub notes: Vec<String>,
    /// Between steps; such a frame names every VM, others at least those that move.
    pub still: bool,
    /// Shows only the nodes that its step touches, and those that refuse it.
    pub brief: bool,
    pub refused: bool,
    pub blame: Blame,
    pub shown: Vec<usize>,
    pub nodes: Vec<Vec<Block>>,
    pub shelf: Option<Shelf>,
}

impl Frame {
    /// The blocks at a place.
    pub fn blocks(&self, place: usize) -> &[Block] {
        match &self.shelf {
            _ if on_a_node(place) => &self.nodes[place],
            Some(shelf) => &shelf.blocks,
            None => &[],
        }
    }

    fn all_blocks(&self) -> impl Iterator<Item = &Block> {
        self.nodes.iter().flatten().chain(self.blocks(NOWHERE))
    }

    /// What stands on a node, with a running VM counted on both its nodes.
    pub fn sum(&self, room: &Room, node: usize) -> Sum {
        let vms = self.nodes[node].iter().map(|block| &room.vms[block.vm]);
        vms.fold(Sum::NOTHING, |sum, vm| sum.plus(vm))
    }

    /// Whether some idle VM arrives on a node that is over its CPU.
    pub fn has_idle_arrival_over_cpu(&self, room: &Room) -> bool {
        let arrives = |b: &Block| matches!(b.role, Role::Arrives { .. });
        let idle =
            |node: usize| self.nodes[node].iter().any(|b| arrives(b) && room.vms[b.vm].is_idle());
        let over = |node: usize| !cpu_within(room, node, self.sum(room, node));
        (0..self.nodes.len()).any(|node| idle(node) && over(node))
    }

    /// How many moves run.
    pub fn running(&self) -> usize {
        self.all_blocks().filter(|block| matches!(block.role, Role::Leaves { .. })).count()
    }

    /// How many VMs rest off their targets.
    pub fn astray(&self, room: &Room) -> usize {
        let off = |place: usize| {
            self.blocks(place).iter().filter(|block| room.vms[block.vm].target != place).count()
        };
        (0..self.nodes.len()).chain([NOWHERE]).map(off).sum()
    }

    /// Leaves only what the step touches or what refuses it.
    fn shorten(&mut self, here: &Placement, step: &[Move]) {
        let Frame { blame, shown, shelf, brief, .. } = self;
        *brief = true;
        shown.retain(|&node| touches(here, step, node) || blame.has_place(node));
        if let Some(Shelf { blocks, left_out }) = shelf {
            let all = blocks.len();
            blocks.retain(|b| b.role != Role::Rests || blame.has_vm(NOWHERE, b.vm));
            *left_out = all - blocks.len();
        }
    }

    fn refuse(&mut self, number: u8) {
        self.refused = true;
        self.title += ", refused";
        self.notes.push(format!("Refused with number {number}."));
    }
}

/// The start, each step with all its moves running, and the end. A refused step is the last.
pub fn frames(
    room: &Room,
    kept: &Kept,
    steps: &[Step],
    verdict: Verdict,
) -> Result<Vec<Frame>, String> {
    let (number, refused) = match verdict {
        Verdict::Accepted { .. } => (0, 0),
        Verdict::Refused { number, step } => (number, usize::from(step)),
    };
    let drawn = if refused > 0 { refused } else { steps.len() };
    let brief = room.nodes.len() > MOST_NODES || room.vms.len() * (drawn + 2) > MOST_BLOCKS;
    let mut here = Placement::current(room);
    let mut spent = Spent::default();
    let mut start = still(room, &here, "Start");
    start.notes.extend(befores(room));
    let mut frames = vec![start];
    for (i, step) in steps.iter().take(drawn).enumerate() {
        if let Some(why) = stranger(room, &here, step) {
            return Err(format!("this plan is not one for this cluster: in step {}, {why}", i + 1));
        }
        let mut frame = running(room, &here, step);
        frame.title = format!("Step {} of {}", i + 1, steps.len());
        frame.notes = vec![moves(room, &here, step)];
        if i + 1 == refused {
            frame.refuse(number);
            frame.blame = Blame::of(room, kept, &here, step, number);
            frame.notes.extend(frame.blame.notes());
            frame.notes.extend(behind(steps.len() - refused));
        } else {
            frame.notes.push(spent.step(room, step));
        }
        if brief {
            frame.shorten(&here, step);
        }
        frames.push(frame);
        here = here.after(room, step);
    }
    if refused == 0 {
        let mut end = still(room, &here, "End");
        if number == 19 {
            end.refuse(number);
        }
        frames.push(end);
    }
    Ok(frames)
}

/// A frame between steps.
fn still(room: &Room, here: &Placement, title: &str) -> Frame {
    let frame = Frame { title: title.into(), still: true, ..running(room, here, &[]) };
    let note = match frame.astray(room) {
        0 => "Every VM is on its target.".into(),
        n => format!("{} off target.", many(n, "VM")),
    };
    Frame { notes: vec![note], ..frame }
}

/// The blocks while these moves run: who was there by number, arrivals on top.
fn running(room: &Room, here: &Placement, step: &[Move]) -> Frame {
    let mut nodes = vec![Vec::new(); room.nodes.len()];
    let mut shelf = Shelf::default();
    let mut put = |place: usize, block: Block| match on_a_node(place) {
        true => nodes[place].push(block),
        false => shelf.blocks.push(block),
    };
    for (vm, &place) in here.place.iter().enumerate() {
        let leaves = step.iter().find(|m| m.vm == vm);
        let role = leaves.map_or(Role::Rests, |m| Role::Leaves { to: m.to });
        put(place, Block { vm, role });
    }
    for &Move { vm, to, .. } in step {
        put(to, Block { vm, role: Role::Arrives { from: here.place[vm] } });
    }
    let shelf = room.has_nowhere().then_some(shelf);
    Frame { shown: (0..nodes.len()).collect(), nodes, shelf, ..Frame::default() }
}

fn touches(here: &Placement, step: &[Move], node: usize) -> bool {
    step.iter().any(|m| m.to == node || here.place[m.vm] == node)
}

/// Whether a move goes to a place that is not its VM's target.
pub fn is_pivot(room: &Room, m: &Move) -> bool {
    room.vms[m.vm].target != m.to
}

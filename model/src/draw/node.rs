//! A frame's nodes: bars of memory with their VMs, narrow bars of CPU, capacity lines, words.

use super::arrows::arrows;
use super::frame::{Block, Frame, Role};
use super::kept::Kept;
use super::look::{Look, Scale, NARROW};
use super::picture::{Drawn, Picture};
use super::svg::{rect, text, Area};
use super::words::place_words;
use crate::form::number_list;
use crate::records::{Room, Vm};

/// With more moves, or in a wide frame, arrows would cover too much of what they cross.
const MOST_ARROWS: usize = 6;

/// The drawing of a frame, row by row, so that a tall one may go on on another sheet.
pub fn drawing(room: &Room, kept: &Kept, scale: &Scale, frame: &Frame) -> String {
    let look = &Look::of(frame.shown.len(), scale);
    let rows = frame.shown.chunks(look.per_row);
    rows.map(|row| Picture { room, kept, frame, row, scale, look }.drawing()).collect()
}

impl Picture<'_> {
    fn drawing(&self) -> String {
        let (width, height) = (self.width(), self.height());
        let (mut shapes, mut words) = self.shelf();
        for &node in self.row {
            shapes += &self.shapes(node);
            words += &self.labels(node);
            words += &self.words(node);
        }
        if self.frame.shown.len() <= NARROW && self.frame.running() <= MOST_ARROWS {
            shapes += &arrows(self);
        }
        format!(
            "<svg class=\"frame\" width=\"{width:.0}\" height=\"{height:.0}\" \
             viewBox=\"0 0 {width:.0} {height:.0}\">\n{shapes}{words}</svg>\n"
        )
    }

    /// What a node has, what stands on it, its limits, and marks of what refuses the step.
    fn shapes(&self, node: usize) -> String {
        let sum = self.frame.sum(self.room, node);
        let (memory, cpu) = (self.memory_bar(node), self.cpu_bar(node));
        let (blocks, tags) = (self.memory_blocks(node), self.tags(node));
        let mut out = String::new();
        if self.frame.blame.has_place(node) {
            out += &rect("blamed", self.around(node), "");
        }
        for bar in [&memory, &cpu] {
            out += &bar.ground();
        }
        out += &self.block_shapes(node, &blocks, |vms| tip(self.room, vms));
        out += &self.block_shapes(node, &self.stack(node, &cpu, |vm| vm.cpu), |_| String::new());
        for &(block, area) in &tags {
            out += &rect(class(self.room, node, block), area, "");
        }
        out += &memory.marks(sum.memory);
        out += &cpu.marks(sum.cpu);
        for &(_, area) in blocks.iter().chain(&tags).filter(|(b, _)| self.blames(node, *b)) {
            out += &rect("blamed-vm", area, "");
        }
        out
    }

    /// A node with its words and all that stands over and under it.
    fn around(&self, node: usize) -> Area {
        let (left, bottom) = self.foot(node);
        let depth = self.depth(node);
        let (side, above) = (4.0, self.look.above() - 1.0);
        Area {
            left: left - side,
            bottom: bottom + depth,
            width: self.look.both() + 2.0 * side,
            height: depth + self.look.height + above,
        }
    }

    /// A shape for each block; in a brief frame one for neighbours that rest and are too low for
    /// words.
    fn block_shapes(
        &self,
        node: usize,
        blocks: &[Drawn],
        inside: impl Fn(&[usize]) -> String,
    ) -> String {
        let plain = |(block, area): &Drawn| {
            block.role == Role::Rests
                && area.height < self.look.line()
                && !self.blames(node, *block)
        };
        let class_of = |(block, _): &Drawn| class(self.room, node, *block);
        let alike = |a: &Drawn, b: &Drawn| {
            self.frame.brief && plain(a) && plain(b) && class_of(a) == class_of(b)
        };
        let shape = |blocks: &[Drawn]| {
            let vms: Vec<usize> = blocks.iter().map(|(block, _)| block.vm).collect();
            let height = blocks.iter().map(|(_, area)| area.height).sum();
            let area = Area { height, ..blocks[0].1 };
            // A thin block has no edges, as they would cover it.
            let thin = if height < 3.5 { " thin" } else { "" };
            rect(&format!("{}{thin}", class_of(&blocks[0])), area, &inside(&vms))
        };
        blocks.chunk_by(alike).map(shape).collect()
    }

    /// The words in the blocks of a node and in its tags.
    fn labels(&self, node: usize) -> String {
        let mut out = String::new();
        for drawn in self.memory_blocks(node) {
            let label = self.label(node, drawn);
            out += &label.written(class(self.room, node, drawn.0), &label.lines());
        }
        for drawn in self.tags(node) {
            let label = self.label(node, drawn);
            out += &label.written(class(self.room, node, drawn.0), &[label.line()]);
        }
        out
    }

    /// The number of a node, what is on it and whether that is too much, and what is kept.
    fn words(&self, node: usize) -> String {
        let Look { font, column, nouns, .. } = *self.look;
        let (row, sum) = (&self.room.nodes[node], self.frame.sum(self.room, node));
        let amount = |noun: &str, held: u64, capacity: u64| {
            let class = if held > capacity { "overfull" } else { "within" };
            let noun = if nouns { noun } else { "" };
            (class, format!("{noun}{held} of {capacity}"))
        };
        let mut lines = vec![
            ("name", format!("node {node}")),
            amount("memory ", sum.memory, row.memory),
            amount("CPU ", sum.cpu, row.cpu),
        ];
        lines.extend(self.kept.line(node).map(|words| ("kept", words)));
        if self.frame.blame.has_place(node) {
            lines.push(("overfull", self.frame.blame.word.into()));
        }
        let (left, bottom) = self.foot(node);
        let x = left + self.look.both() / 2.0;
        let mut out = String::new();
        for (i, (class, words)) in lines.iter().enumerate() {
            let y = bottom + 1.4 * font + self.look.line() * i as f64;
            out += &text(class, (x, y), font, column - 6.0, words);
        }
        if sum.memory > row.memory || sum.cpu > row.cpu {
            let whole = row.memory + self.kept.node(node).memory;
            let bar = self.memory_bar(node).up_to(sum.memory.max(whole));
            let at = (bar.middle().0, bar.top() - 0.5 * font);
            out += &text("overfull", at, font, column - 6.0, "OVERFULL");
        }
        out
    }
}

pub fn class(room: &Room, place: usize, block: Block) -> &'static str {
    match block.role {
        Role::Leaves { .. } => "vm leaves",
        Role::Arrives { .. } => "vm arrives",
        Role::Rests if room.vms[block.vm].target == place => "vm home",
        Role::Rests => "vm astray",
    }
}

/// What a reader sees who rests the pointer on a block.
pub fn tip(room: &Room, vms: &[usize]) -> String {
    let words = match *vms {
        [vm] => {
            let Vm { memory, cpu, target, .. } = &room.vms[vm];
            format!("VM {vm}: memory {memory}, CPU {cpu}, target {}", place_words(*target))
        }
        _ => format!("VMs {}", number_list(vms, "")),
    };
    format!("<title>{words}</title>")
}

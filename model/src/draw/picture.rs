//! Where the bars, blocks and tags of a row of nodes stand.

use super::bar::Bar;
use super::frame::{Block, Frame, Role};
use super::kept::Kept;
use super::label::Label;
use super::look::{Look, Scale, LINES};
use super::svg::Area;
use crate::records::{on_a_node, Room, Vm};

/// A block and where it is drawn.
pub type Drawn = (Block, Area);

/// A row of a frame's nodes that is being drawn.
pub struct Picture<'a> {
    pub room: &'a Room,
    pub kept: &'a Kept,
    pub frame: &'a Frame,
    pub row: &'a [usize],
    pub scale: &'a Scale,
    pub look: &'a Look,
}

impl Picture<'_> {
    pub fn width(&self) -> f64 {
        self.columns() as f64 * self.look.column
    }

    pub fn height(&self) -> f64 {
        let depths = self.row.iter().map(|&node| self.depth(node));
        self.ground() + depths.fold(0.0, f64::max) + 0.3 * self.look.font
    }

    /// The line that the bars of this row stand on.
    fn ground(&self) -> f64 {
        self.shelf_height() + self.look.foot()
    }

    /// How deep a node's words and tags reach below its bars.
    pub fn depth(&self, node: usize) -> f64 {
        self.below_words(node) + self.look.tag() * self.tags(node).len() as f64
    }

    fn below_words(&self, node: usize) -> f64 {
        let more = [self.kept.is_some(), self.frame.blame.has_place(node)];
        self.look.below(LINES + more.into_iter().filter(|&more| more).count())
    }

    /// The left end of a node's bars and the line they stand on.
    pub fn foot(&self, node: usize) -> (f64, f64) {
        let place = self.row.iter().position(|&other| other == node);
        (self.look.left(place.expect("a node of this row")), self.ground())
    }

    pub fn memory_bar(&self, node: usize) -> Bar {
        let (left, bottom) = self.foot(node);
        let area = Area { left, bottom, width: self.look.bar, height: self.look.height };
        let (has, kept) = (&self.room.nodes[node], self.kept.node(node));
        Bar { area, most: self.scale.memory(), capacity: has.memory, kept: kept.memory }
    }

    pub fn cpu_bar(&self, node: usize) -> Bar {
        let (left, bottom) = self.foot(node);
        let left = left + self.look.bar + self.look.gap;
        let area = Area { left, bottom, width: self.look.cpu_bar, height: self.look.height };
        let (has, kept) = (&self.room.nodes[node], self.kept.node(node));
        Bar { area, most: self.scale.cpu(), capacity: has.cpu, kept: kept.cpu }
    }

    /// The blocks of a node one on the other, as high as the memory they take.
    pub fn memory_blocks(&self, node: usize) -> Vec<Drawn> {
        self.stack(node, &self.memory_bar(node), |vm| vm.memory)
    }

    /// The blocks of a node one on the other, as high as what they take.
    pub fn stack(&self, node: usize, bar: &Bar, amount: impl Fn(&Vm) -> u64) -> Vec<Drawn> {
        let mut below = 0;
        let place = |&block: &Block| {
            let amount = amount(&self.room.vms[block.vm]);
            let bottom = bar.area.bottom - bar.high(below);
            below += amount;
            (block, Area { bottom, height: bar.high(amount), ..bar.area })
        };
        self.frame.nodes[node].iter().map(place).collect()
    }

    /// Where the blocks at a place are drawn.
    pub fn drawn_at(&self, place: usize) -> Vec<Drawn> {
        if on_a_node(place) {
            return self.memory_blocks(place);
        }
        self.shelf_boxes()
    }

    pub fn label(&self, place: usize, (block, area): Drawn) -> Label<'_> {
        Label { room: self.room, place, block, area, font: self.look.font }
    }

    /// Tags: the blocks that must be named and are too low for it, shown again below their node.
    pub fn tags(&self, node: usize) -> Vec<Drawn> {
        let (left, bottom) = self.foot(node);
        let top = bottom + self.below_words(node);
        let mut drawn = self.memory_blocks(node);
        drawn.reverse();
        drawn.retain(|&(block, area)| {
            let named = self.frame.still || block.role != Role::Rests || self.blames(node, block);
            named && self.label(node, (block, area)).lines().is_empty()
        });
        let (width, height) = (self.look.both(), self.look.line());
        let tag = |(i, (block, _)): (usize, Drawn)| {
            let bottom = top + self.look.tag() * i as f64 + height;
            (block, Area { left, bottom, width, height })
        };
        drawn.into_iter().enumerate().map(tag).collect()
    }

    pub fn blames(&self, place: usize, block: Block) -> bool {
        self.frame.blame.has_vm(place, block.vm)
    }
}

//! Sizes of a frame, by how many nodes it shows, and what the bars of a page stand for.

use super::frame::Frame;
use super::svg::{line_height, width};
use crate::records::Room;
use crate::rules::Sum;

/// A frame with this many nodes or fewer is as wide as they need, others as wide as the page.
pub const NARROW: usize = 8;

/// The width of a frame that is as wide as the page.
const WIDE: f64 = 1360.0;

/// So many nodes at most stand in a row, with words in their blocks.
const MOST_ABREAST: usize = 13;

/// A frame with more nodes than this may need more than a sheet.
pub const TALL: usize = 2 * MOST_ABREAST;

/// The lines under each node: its number, its memory, its CPU.
pub const LINES: usize = 3;

/// Sizes in pixels.
#[derive(Clone, Debug)]
pub struct Look {
    pub per_row: usize,
    pub column: f64,
    pub bar: f64,
    pub cpu_bar: f64,
    pub gap: f64,
    pub height: f64,
    pub font: f64,
    /// Whether there is room for `memory` and `CPU` before the numbers under a node.
    pub nouns: bool,
}

impl Look {
    pub fn of(nodes: usize, scale: &Scale) -> Look {
        let rows = nodes.div_ceil(MOST_ABREAST).max(1);
        let per_row = nodes.div_ceil(rows).max(1);
        let wide = WIDE / per_row as f64;
        let [column, bar, cpu_bar, gap, height, font] = match nodes {
            0..=4 => [150.0, 100.0, 14.0, 8.0, 170.0, 12.0],
            5..=NARROW => [125.0, 94.0, 11.0, 6.0, 170.0, 12.0],
            9..=16 => [wide, 0.77 * wide, 0.08 * wide, 0.05 * wide, 170.0, 11.0],
            _ => [wide, 0.79 * wide, 0.08 * wide, 0.04 * wide, 130.0, 10.0],
        };
        let nouns = width(&scale.widest(), font) <= column - 6.0;
        Look { per_row, column, bar, cpu_bar, gap, height, font, nouns }
    }

    /// The height of a line of words.
    pub fn line(&self) -> f64 {
        line_height(self.font)
    }

    /// The height that a tag below a node takes.
    pub fn tag(&self) -> f64 {
        self.line() + 2.0
    }

    /// The width of both bars of a node.
    pub fn both(&self) -> f64 {
        self.bar + self.gap + self.cpu_bar
    }

    /// Space above a bar, for what stands over it.
    pub fn above(&self) -> f64 {
        1.8 * self.font
    }

    /// How deep so many lines of words reach below a bar.
    pub fn below(&self, lines: usize) -> f64 {
        0.7 * self.font + self.line() * lines as f64
    }

    /// The left end of the bars of a node by its place in a row.
    pub fn left(&self, place: usize) -> f64 {
        place as f64 * self.column + (self.column - self.both()) / 2.0
    }

    /// The lower edge of the bars of a row.
    pub fn foot(&self) -> f64 {
        self.above() + self.height
    }
}

/// The most that any node of a page holds, and the most that any has, usable or kept, of memory and CPU
/// each.
#[derive(Clone, Debug)]
pub struct Scale {
    held: Sum,
    has: Sum,
}

impl Scale {
    pub fn of(room: &Room, frames: &[Frame]) -> Scale {
        let nodes = 0..room.nodes.len();
        let sums = frames.iter().flat_map(|frame| nodes.clone().map(|node| frame.sum(room, node)));
        let capacities = room.nodes.iter().map(|node| Sum { memory: node.memory, cpu: node.cpu });
        Scale { held: most(sums), has: most(capacities) }
    }

    /// What the full height of a memory bar stands for.
    pub fn memory(&self) -> u64 {
        full(self.held.memory, self.has.memory)
    }

    /// What the full height of a CPU bar stands for.
    pub fn cpu(&self) -> u64 {
        full(self.held.cpu, self.has.cpu)
    }

    /// The widest words that can come under a node.
    fn widest(&self) -> String {
        format!("memory {} of {}", self.held.memory, self.has.memory)
    }
}

/// All that is ever held and all capacities, unless those are far above anything held.
fn full(held: u64, has: u64) -> u64 {
    let shown = if held == 0 { has } else { has.min(10 * held) };
    shown.max(held).max(1)
}

fn most(sums: impl Iterator<Item = Sum>) -> Sum {
    sums.fold(Sum::NOTHING, |most, sum| Sum {
        memory: most.memory.max(sum.memory),
        cpu: most.cpu.max(sum.cpu),
    })
}

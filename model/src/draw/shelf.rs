//! The shelf above a frame's nodes: a box for each VM on no node. It has no bars, as nothing counts
//! there.

use super::node::{class, tip};
use super::picture::{Drawn, Picture};
use super::svg::{rect, text, Area};
use crate::records::NOWHERE;

/// Space around the shelf, and between its boxes.
const EDGE: f64 = 3.0;

/// A frame of few nodes is made wide enough for this many boxes abreast.
const ABREAST: usize = 4;

impl Picture<'_> {
    /// Whether the shelf stands in this row: the first one has it.
    fn has_shelf(&self) -> bool {
        self.frame.shelf.is_some() && self.row.first() == self.frame.shown.first()
    }

    /// How many columns this row has, for its nodes and for boxes on the shelf.
    pub fn columns(&self) -> usize {
        let boxes = if self.has_shelf() { self.frame.blocks(NOWHERE).len() } else { 0 };
        self.row.len().max(boxes.min(ABREAST))
    }

    /// How much of the picture's height the shelf takes.
    pub fn shelf_height(&self) -> f64 {
        if self.has_shelf() {
            return self.shelf_area().bottom + EDGE;
        }
        0.0
    }

    /// The shelf, with one line of boxes at least.
    fn shelf_area(&self) -> Area {
        let lines = self.frame.blocks(NOWHERE).len().div_ceil(self.columns()).max(1);
        let height = self.heading_height() + self.pitch() * lines as f64 + EDGE;
        Area { left: EDGE, bottom: EDGE + height, width: self.width() - 2.0 * EDGE, height }
    }

    fn heading_height(&self) -> f64 {
        EDGE + self.look.line() * self.heading().len() as f64
    }

    /// The height that a line of boxes takes.
    fn pitch(&self) -> f64 {
        self.look.tag() + EDGE
    }

    /// The lines over the boxes: what the shelf is, what is left out, and whether it refuses.
    fn heading(&self) -> Vec<(&'static str, String)> {
        let mut lines = vec![("shelf", "on no node".into())];
        match self.frame.shelf.as_ref().map_or(0, |shelf| shelf.left_out) {
            0 => {}
            n => lines.push(("shelf", format!("and {n} more"))),
        }
        if self.frame.blame.has_place(NOWHERE) {
            lines.push(("overfull", self.frame.blame.word.into()));
        }
        lines
    }

    /// Where the boxes of the VMs on no node are drawn.
    pub fn shelf_boxes(&self) -> Vec<Drawn> {
        if !self.has_shelf() {
            return vec![];
        }
        let top = self.shelf_area().top() + self.heading_height();
        let height = self.look.tag();
        let place = |(i, &block)| {
            let (line, column) = (i / self.columns(), i % self.columns());
            let bottom = top + self.pitch() * line as f64 + height;
            let (left, width) = (self.look.left(column), self.look.both());
            (block, Area { left, bottom, width, height })
        };
        self.frame.blocks(NOWHERE).iter().enumerate().map(place).collect()
    }

    /// The shapes of the shelf, and its words.
    pub fn shelf(&self) -> (String, String) {
        let (mut shapes, mut words) = (String::new(), String::new());
        if !self.has_shelf() {
            return (shapes, words);
        }
        let area = self.shelf_area();
        let refuses = self.frame.blame.has_place(NOWHERE);
        shapes += &rect(if refuses { "blamed" } else { "shelf" }, area, "");
        for (i, (class, line)) in self.heading().iter().enumerate() {
            let x = self.look.left(0) + self.look.both() / 2.0;
            let y = area.top() + EDGE + self.look.line() * (i as f64 + 0.78);
            words += &text(class, (x, y), self.look.font, self.look.column - 6.0, line);
        }
        for (block, area) in self.shelf_boxes() {
            let class = class(self.room, NOWHERE, block);
            shapes += &rect(class, area, &tip(self.room, &[block.vm]));
            if self.blames(NOWHERE, block) {
                shapes += &rect("blamed-vm", area, "");
            }
            let label = self.label(NOWHERE, (block, area));
            words += &label.written(class, &label.lines());
        }
        (shapes, words)
    }
}

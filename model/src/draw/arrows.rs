//! An arrow for each running VM, from its block at the source to that at the destination. Either may
//! be the shelf.

use super::frame::Role;
use super::picture::Picture;
use super::svg::{arrow, bent, Area};
use crate::records::{on_a_node, NOWHERE};

/// How far an arrow to or from the shelf swings out beside a block.
const SWING: f64 = 18.0;

pub fn arrows(picture: &Picture) -> String {
    let mut out = String::new();
    for &place in picture.row.iter().chain([&NOWHERE]) {
        for (block, area) in picture.drawn_at(place) {
            if let Role::Leaves { to } = block.role {
                let there = arrival(picture, to, block.vm);
                out += &match (on_a_node(place), on_a_node(to)) {
                    (true, true) => between(area, there),
                    (true, false) => shutdown(area, there),
                    (false, _) => launch(area, there),
                };
            }
        }
    }
    out
}

/// Where an arriving VM is drawn.
fn arrival(picture: &Picture, place: usize, vm: usize) -> Area {
    let mut blocks = picture.drawn_at(place).into_iter();
    let found = blocks.find(|(b, _)| b.vm == vm && matches!(b.role, Role::Arrives { .. }));
    found.expect("a running VM is at both its places").1
}

/// An arrow from a box on the shelf to a block.
fn launch(shelf: Area, block: Area) -> String {
    let (beside, side) = facing(block, shelf);
    bent(below(shelf), beside, side)
}

/// An arrow from a block to a box on the shelf.
fn shutdown(block: Area, shelf: Area) -> String {
    let (beside, side) = facing(block, shelf);
    bent(side, beside, below(shelf))
}

/// The middle of a box's lower edge.
fn below(shelf: Area) -> (f64, f64) {
    (shelf.middle().0, shelf.bottom)
}

/// A point beside a block, where it faces a box of the shelf, and the middle of that side.
fn facing(block: Area, shelf: Area) -> ((f64, f64), (f64, f64)) {
    let y = block.middle().1;
    let left = shelf.left <= block.left;
    let x = if left { block.left - 1.0 } else { block.left + block.width + 1.0 };
    let beside = if left { x - SWING } else { x + SWING };
    ((beside, y), (x, y))
}

/// An arrow between the sides of two blocks that face each other.
fn between(from: Area, to: Area) -> String {
    let ((_, y1), (_, y2)) = (from.middle(), to.middle());
    if from.left < to.left {
        arrow((from.left + from.width, y1), (to.left - 1.0, y2))
    } else {
        arrow((from.left, y1), (to.left + to.width + 1.0, y2))
    }
}

//! What is written in the block of a VM.

use super::frame::{Block, Role};
use super::svg::{line_height, rect, text, width, Area};
use crate::records::{on_a_node, Room, NOWHERE};

/// A block that is to be written in: whose it is, on which node or on none, where it is drawn, and
/// how large the words.
pub struct Label<'a> {
    pub room: &'a Room,
    pub place: usize,
    pub block: Block,
    pub area: Area,
    pub font: f64,
}

impl Label<'_> {
    /// The fullest lines that the block has room for; none if it is lower than a line. The
    /// shortest are taken even if they must be pressed together.
    pub fn lines(&self) -> Vec<String> {
        let high = (self.area.height / line_height(self.font)) as usize;
        let mut ways = self.ways();
        ways.retain(|lines| lines.len() <= high);
        let fits = |lines: &Vec<String>| lines.iter().all(|words| self.fits(words));
        let found = ways.iter().position(fits).unwrap_or(ways.len().saturating_sub(1));
        ways.into_iter().nth(found).unwrap_or_default()
    }

    /// The shortest line.
    pub fn line(&self) -> String {
        self.ways().pop().unwrap_or_default().concat()
    }

    /// The width of the block within its edges.
    fn inner(&self) -> f64 {
        self.area.width - 4.0
    }

    fn fits(&self, words: &str) -> bool {
        width(words, self.font) <= self.inner()
    }

    /// What may be written, the fullest first, one short line last: the VM, and where it runs or
    /// should be unless it is at home.
    fn ways(&self) -> Vec<Vec<String>> {
        let Label { room, place, block: Block { vm, role }, .. } = *self;
        let (memory, target) = (room.vms[vm].memory, room.vms[vm].target);
        let (name, size) = (format!("VM {vm}"), format!("{memory} MiB"));
        let sized = format!("{name} \u{b7} {size}");
        let (long, sign, other, pivots) = match role {
            Role::Rests if target == place => {
                return vec![vec![sized], vec![name.clone(), size], vec![name]];
            }
            Role::Rests => (format!("target {}", brief(target)), ", target", target, false),
            Role::Leaves { to } => (leaving(to, to != target), " \u{2192}", to, to != target),
            Role::Arrives { from } => {
                (arriving(from, place != target), " \u{2190}", from, place != target)
            }
        };
        let remark = if pivots { " pivot" } else { "" };
        let short = |vm: usize, other: usize| format!("{vm}{sign} {}{remark}", brief(other));
        // The noun stands in all blocks of a kind or in none.
        let last = room.nodes.len() - 1;
        let widest = [last, if room.has_nowhere() { NOWHERE } else { last }];
        let fits = |other: usize| self.fits(&format!("VM {}", short(room.vms.len() - 1, other)));
        let noun = if widest.into_iter().all(fits) { "VM " } else { "" };
        let short = format!("{noun}{}", short(vm, other));
        vec![vec![sized, long.clone()], vec![name, long], vec![short]]
    }

    /// Lines in the middle of the block, on a plate that keeps them off the hatching.
    pub fn written(&self, class: &str, lines: &[String]) -> String {
        let (x, middle) = self.area.middle();
        let line = line_height(self.font);
        let high = line * lines.len() as f64;
        let widest = lines.iter().map(|words| width(words, self.font)).fold(0.0, f64::max);
        let wide = widest.min(self.inner());
        let plate = Area {
            left: x - wide / 2.0 - 1.0,
            bottom: middle + high / 2.0,
            width: wide + 2.0,
            height: high,
        };
        let mut out = String::new();
        if matches!(self.block.role, Role::Arrives { .. }) && !lines.is_empty() {
            out += &rect("plate", plate, "");
        }
        for (i, words) in lines.iter().enumerate() {
            let y = plate.top() + line * (i as f64 + 0.78);
            out += &text(class, (x, y), self.font, self.inner(), words);
        }
        out
    }
}

/// A place in a word.
fn brief(place: usize) -> String {
    if on_a_node(place) {
        return place.to_string();
    }
    "none".into()
}

/// What a running VM does, said at its source.
fn leaving(to: usize, pivots: bool) -> String {
    match on_a_node(to) {
        true if pivots => format!("pivot to {to}"),
        true => format!("runs to {to}"),
        false => "shuts down".into(),
    }
}

/// What a running VM does, said at its destination.
fn arriving(from: usize, pivots: bool) -> String {
    match on_a_node(from) {
        true if pivots => format!("pivot from {from}"),
        true => format!("runs from {from}"),
        false if pivots => "launch, pivot".into(),
        false => "launched".into(),
    }
}

//! A bar of memory or CPU.

use super::svg::{line, rect, Area};

/// A bar: where it stands, what its full height stands for, the capacity of its node, and what is kept
/// of that node above it.
pub struct Bar {
    pub area: Area,
    pub most: u64,
    pub capacity: u64,
    pub kept: u64,
}

impl Bar {
    pub fn high(&self, amount: u64) -> f64 {
        self.area.height * amount as f64 / self.most as f64
    }

    /// The bar as high as an amount, or whole if it is not high enough.
    pub fn up_to(&self, amount: u64) -> Area {
        Area { height: self.high(amount.min(self.most)), ..self.area }
    }

    /// What a node has: its capacity, and what is kept as far as the bar reaches.
    pub fn ground(&self) -> String {
        let usable = self.up_to(self.capacity);
        let whole = self.up_to(self.capacity + self.kept);
        let height = whole.height - usable.height;
        let mut out = rect("room", usable, "");
        if height > 0.0 {
            out += &rect("kept", Area { bottom: usable.top(), height, ..whole }, "");
        }
        out
    }

    /// The capacity line, and the mark of a bar that is overfull.
    pub fn marks(&self, held: u64) -> String {
        let full = self.up_to(self.capacity);
        let class = if self.capacity <= self.most { "capacity" } else { "beyond" };
        let limit = line(class, full.left - 2.0, full.left + full.width + 2.0, full.top());
        if held <= self.capacity {
            return limit;
        }
        rect("over", self.up_to(held), "") + &limit
    }
}

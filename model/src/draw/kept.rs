//! What a reserve keeps of each node for the hypervisor, and what the page says of it. With reserve 0
//! nothing is kept and nothing is said.

use super::blame::excess;
use crate::records::{Node, Room};
use crate::rules::{within, Placement};

const STYLE: &str = "rect.kept { fill: #ccc; stroke: #666; stroke-width: 1; }\n";

/// The reserve in percent, and what it keeps of each node.
pub struct Kept {
    reserve: u64,
    nodes: Vec<Node>,
}

impl Kept {
    /// What is kept of a room whose usable amounts are these.
    pub fn of(reserve: u64, whole: &Room, usable: &Room) -> Kept {
        let kept = |(whole, usable): (&Node, &Node)| Node {
            memory: whole.memory - usable.memory,
            cpu: whole.cpu - usable.cpu,
        };
        Kept { reserve, nodes: whole.nodes.iter().zip(&usable.nodes).map(kept).collect() }
    }

    pub fn is_some(&self) -> bool {
        self.reserve > 0
    }

    pub fn node(&self, node: usize) -> &Node {
        &self.nodes[node]
    }

    pub fn style(&self) -> &'static str {
        if self.is_some() {
            return STYLE;
        }
        ""
    }

    /// What follows the headline.
    pub fn headline(&self) -> String {
        if self.is_some() {
            return format!(", reserve {} percent", self.reserve);
        }
        String::new()
    }

    /// How a page with a reserve is read.
    pub fn words(&self) -> String {
        if !self.is_some() {
            return String::new();
        }
        let Kept { reserve, .. } = self;
        let share = 100 - reserve;
        format!(
            "<p>Reserve {reserve} percent: {share} percent of a node's memory and of its CPU are \
             usable, each rounded down. The grey share above that is \
             kept for the hypervisor; kept 1 and 10 below a node is memory 1 and CPU 10.</p>\n"
        )
    }

    /// The legend: with a reserve the lines stand at what is usable.
    pub fn legend(&self, legend: &str) -> String {
        if self.is_some() {
            return legend
                .replace(">capacity", ">usable")
                .replace("the capacity", "what is usable");
        }
        legend.to_string()
    }

    /// The line below a node.
    pub fn line(&self, node: usize) -> Option<String> {
        let Node { memory, cpu } = self.node(node);
        self.is_some().then(|| format!("kept {memory} and {cpu}"))
    }

    /// The first node that has too little usable for the target, if one has.
    pub fn target_words(&self, room: &Room) -> String {
        let sums = Placement::target(room).sums;
        let found = (0..sums.len()).find(|&node| !within(room, node, sums[node]));
        match found.filter(|_| self.is_some()) {
            Some(node) => {
                format!(" Node {node} would have {}.", excess(room, self, node, sums[node]))
            }
            None => String::new(),
        }
    }
}

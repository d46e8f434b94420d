//! Text forms of the two records, for people who write them by hand. A line says one thing; what
//! stands behind `#` is a remark. Nodes and VMs are numbered by the order of their lines, from 0.
//!
//! ```text
//! node 4 100 x3                       memory, CPU; x3 makes three of them
//! vm 3 50 from 0 to 1                 memory, CPU, current node, target node; x2 and so on too
//! vm 2 50 from nowhere to 1           nowhere is on no node, as current or as target
//! ban vms 0 nodes 2                   lists rise; 4-9 is short for 4 5 6 7 8 9
//! fence vms none nodes 0 1            none is an empty list
//! spread vms 0 1
//! latency vms 0 1 groups 0 1 | 2      a group without nodes is empty, no groups at all are none
//! before 0 1                          VM 0 is on its target before VM 1 moves
//! version 2                           may stand anywhere; without it a cluster is of version 2 if
//!                                     some VM is or should be nowhere, else of version 1
//! ```
//!
//! A plan is a line for each step, with moves of one version or the other throughout.
//!
//! ```text
//! version 2                           may stand before the first step; a plan without steps is of
//!                                     version 1 unless this line says otherwise
//! step 0 to 1, 1 to 0                 version 1: VM, destination
//! step 0 from 0 to 1, 1 from 1 to 0   version 2: VM, source, destination
//! step 2 to nowhere                   a shutdown; with its source: step 2 from 1 to nowhere
//! step 3 from nowhere to 1            a launch with its source; without: step 3 to 1
//! ```

mod read;
mod steps;
mod words;
mod write;

use crate::records::on_a_node;
pub use read::read_cluster;
pub use steps::{read_plan, write_plan};
pub use words::Fault;
pub(crate) use write::number_list;
pub use write::{constraint_line, write_cluster};

/// The word for on no node.
const WORD: &str = "nowhere";

/// A place as it is written: the number of a node, or the word for none.
fn place_word(place: usize) -> String {
    if on_a_node(place) {
        return place.to_string();
    }
    WORD.into()
}

/// What a row or a list counts: nodes or VMs, and how many a cluster may have.
#[derive(Clone, Copy)]
pub(crate) struct Things {
    pub one: &'static str,
    pub many: &'static str,
    pub most: usize,
}

pub(crate) const NODES: Things = Things { one: "node", many: "nodes", most: 64 };
pub(crate) const VMS: Things = Things { one: "VM", many: "VMs", most: 256 };

impl Things {
    /// Why a number names nothing in a cluster that has `count` of these.
    pub fn missing(self, number: u64, count: usize) -> String {
        let Things { one, many, .. } = self;
        let there = match count {
            0 => format!("no {many}"),
            1 => format!("only {one} 0"),
            _ => format!("{many} 0 to {}", count - 1),
        };
        format!("{one} {number} is not there (this cluster has {there})")
    }
}

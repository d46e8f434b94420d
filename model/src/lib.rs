//! A plain reference model of document 01 as amended, written from its text alone.
//!
//! It favours being obviously right over being fast. Differential tests hold it beside the
//! verified implementation; nothing here is shared with that implementation.

pub mod draw;
pub mod edges;
pub mod form;
pub mod gen;
pub mod ledger;
pub mod moments;
pub mod orders;
pub mod pack;
pub mod planner;
pub mod puzzles;
pub mod reasons;
pub mod records;
pub mod reserves;
pub mod rules;
pub mod sources;
pub mod split;
pub mod splits;
pub mod stop;
pub mod stops;
pub mod text;

pub use pack::{pack_answer, pack_split, pack_stop, pack_verdict};
pub use planner::{build, Answer};
pub use records::{cluster_bytes, parse_cluster, parse_plan, plan_bytes};
pub use records::{on_a_node, NOWHERE};
pub use records::{Constraint, Move, Node, Plan, Room, Step, Version, Vm};
pub use rules::{check, Verdict};
pub use sources::{bare, named};
pub use split::{split, Split};
pub use stop::{stop, Stop};

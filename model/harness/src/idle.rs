//! Idle VMs, those with CPU 0, and nodes over their CPU, here called busy: what there is to tell of
//! them among the inputs of `check` and in what was built.

use crate::seen::{Made, Seen};
use crate::told::{Table, Told};
use kobdrieft_model::rules::{cpu_within, meets_mate, memory_within, misfits, takes};
use kobdrieft_model::rules::{Book, Placement, Sum};
use kobdrieft_model::{on_a_node, Move, Room, Step, Vm};

/// Whether a node is over its CPU.
fn is_busy(room: &Room, here: &Placement, place: usize) -> bool {
    on_a_node(place) && !cpu_within(room, place, here.sums[place])
}

fn is_idle(room: &Room, m: &Move) -> bool {
    room.vms[m.vm].is_idle()
}

/// Whether an idle VM goes to a busy node.
fn enters(room: &Room, here: &Placement, m: &Move) -> bool {
    is_idle(room, m) && is_busy(room, here, m.to)
}

/// Whether a VM is launched.
fn is_launch(here: &Placement, m: &Move) -> bool {
    !on_a_node(here.place[m.vm])
}

/// Whether a move goes elsewhere than to its VM's target.
fn is_pivot(room: &Room, m: &Move) -> bool {
    m.to != room.vms[m.vm].target
}

/// Whether the home of a VM out of place would not have the memory for it.
fn lacks_memory(room: &Room, here: &Placement, vm: usize) -> bool {
    let home = room.vms[vm].target;
    on_a_node(home) && !memory_within(room, home, here.sums[home].plus(&room.vms[vm]))
}

// ---------------------------------------------------------------- check

impl Seen {
    /// Whether, in a plan with this number, some idle VM goes to a busy node in such a move.
    fn entered(&self, number: usize, holds: impl Fn(&Placement, &Move) -> bool) -> bool {
        let mut moves = self.course.moves();
        self.number == number && moves.any(|(at, m)| enters(&self.room, at, m) && holds(at, m))
    }

    /// Whether in some step of an accepted plan an idle VM goes to a busy node that an active one
    /// leaves.
    fn relieved(&self) -> bool {
        let leaves = |at: &Placement, m: &Move, node: usize| {
            at.place[m.vm] == node && !is_idle(&self.room, m)
        };
        let both = |at: &Placement, step: &Step| {
            let mut arrivals = step.iter().filter(|m| enters(&self.room, at, m));
            arrivals.any(|m| step.iter().any(|other| leaves(at, other, m.to)))
        };
        self.number == 0 && self.course.started().any(|(at, step)| both(at, step))
    }

    /// The moves of a step refused with 17 that go to a node, with the sums it may come to.
    fn arrivals(&self) -> impl Iterator<Item = (&Move, Sum)> {
        let refused = self.fault.iter().filter(|m| self.number == 17 && on_a_node(m.to));
        refused.map(|m| {
            let there = self.fault.iter().filter(|other| other.to == m.to);
            let add = |sum: Sum, m: &Move| sum.plus(&self.room.vms[m.vm]);
            (m, there.fold(self.here().sums[m.to], add))
        })
    }

    /// Whether some idle or some active VM itself does not fit, at such a node.
    fn does_not_fit(&self, idle: bool, holds: impl Fn(&Move, Sum) -> bool) -> bool {
        let of_kind = |m: &Move| is_idle(&self.room, m) == idle;
        let fits = |m: &Move, sum| takes(&self.room, m.to, sum, &self.room.vms[m.vm]);
        self.arrivals().any(|(m, sum)| of_kind(m) && !fits(m, sum) && holds(m, sum))
    }

    /// Whether some active VM does not fit at such a node, where an idle one arrives too, and the step
    /// fits without its idle or without its active moves.
    fn beside_idle(&self, without_idle: bool, holds: impl Fn(usize) -> bool) -> bool {
        let arrives = |to: usize| self.fault.iter().any(|m| m.to == to && is_idle(&self.room, m));
        if !self.does_not_fit(false, |m, _| arrives(m.to) && holds(m.to)) {
            return false;
        }
        let kept = |m: &&Move| is_idle(&self.room, m) != without_idle;
        let rest: Step = self.fault.iter().filter(kept).copied().collect();
        !misfits(&self.room, self.here(), &rest)
    }

    fn is_busy(&self, node: usize) -> bool {
        is_busy(&self.room, self.here(), node)
    }

    /// Whether an idle VM meets a mate on a busy node.
    fn meets_mate_there(&self) -> bool {
        if self.number != 18 {
            return false;
        }
        let book = Book::of(&self.room);
        let met = |m: &Move| meets_mate(&book, self.here(), &[*m]);
        self.fault.iter().any(|m| enters(&self.room, self.here(), m) && met(m))
    }

    /// Whether the target is refused for CPU alone, at a node where only idle VMs would arrive.
    fn target_over_cpu(&self) -> bool {
        if self.number != 8 {
            return false;
        }
        let end = Placement::target(&self.room);
        let only_idle = |node: usize| {
            let arrives = |vm: &&Vm| vm.target == node && vm.current != node;
            let mut arrivals = self.room.vms.iter().filter(arrives).peekable();
            arrivals.peek().is_some() && arrivals.all(|vm| vm.is_idle())
        };
        let nodes = 0..self.room.nodes.len();
        nodes.clone().all(|node| memory_within(&self.room, node, end.sums[node]))
            && nodes.clone().any(|node| is_busy(&self.room, &end, node) && only_idle(node))
    }
}

/// Whether an idle and an active VM arrive at one node in a step.
fn beside(room: &Room, step: &[Move]) -> bool {
    let arrives = |node, idle| step.iter().any(|m| m.to == node && is_idle(room, m) == idle);
    (0..room.nodes.len()).any(|node| arrives(node, true) && arrives(node, false))
}

const CHECKED: [Told<Seen>; 15] = [
    ("accepted, idle onto busy", |s| s.entered(0, |_, _| true)),
    ("accepted, idle launched, busy", |s| s.entered(0, is_launch)),
    ("accepted, idle pivot, busy", |s| s.entered(0, |_, m| is_pivot(&s.room, m))),
    ("accepted, idle in, active out", Seen::relieved),
    ("accepted, idle beside active", |s| {
        s.number == 0 && s.course.steps.iter().any(|step| beside(&s.room, step))
    }),
    ("8, CPU, only idle arrive", Seen::target_over_cpu),
    ("17, idle, no memory", |s| s.does_not_fit(true, |_, _| true)),
    ("17, idle, over memory", |s| {
        s.does_not_fit(true, |m, _| !memory_within(&s.room, m.to, s.here().sums[m.to]))
    }),
    ("17, idle, busy, no memory", |s| s.does_not_fit(true, |m, _| s.is_busy(m.to))),
    ("17, active onto busy", |s| {
        s.does_not_fit(false, |m, sum| s.is_busy(m.to) && memory_within(&s.room, m.to, sum))
    }),
    ("17, active beside idle", |s| s.beside_idle(false, |node| !s.is_busy(node))),
    ("17, active beside idle, busy", |s| s.beside_idle(false, |node| s.is_busy(node))),
    ("17, idle fills the memory", |s| s.beside_idle(true, |_| true)),
    ("18, idle onto busy", Seen::meets_mate_there),
    ("19, idle onto busy", |s| s.entered(19, |_, _| true)),
];

// ---------------------------------------------------------------- build

impl Made {
    /// Whether some idle VM goes to a busy node in such a move.
    fn entered(&self, holds: impl Fn(&Placement, &Move) -> bool) -> bool {
        self.course.moves().any(|(at, m)| enters(&self.room, at, m) && holds(at, m))
    }

    /// Whether an idle VM goes to a busy node in the first step.
    fn entered_first(&self) -> bool {
        let first = self.course.started().next();
        first.is_some_and(|(at, step)| step.iter().any(|m| enters(&self.room, at, m)))
    }

    /// Whether an idle VM goes to a busy node while an active one that is wanted there stays away.
    fn entered_before_an_active(&self) -> bool {
        let waits = |at: &Placement, step: &Step, node: usize| {
            let mut away = at.out_of_place(&self.room).into_iter();
            let wanted = |vm: usize| self.room.vms[vm].target == node;
            let stays = |vm: usize| step.iter().all(|m| m.vm != vm);
            away.any(|vm| wanted(vm) && stays(vm) && !self.room.vms[vm].is_idle())
        };
        let both = |at: &Placement, step: &Step| {
            let mut arrivals = step.iter().filter(|m| enters(&self.room, at, m));
            arrivals.any(|m| waits(at, step, m.to))
        };
        self.course.started().any(|(at, step)| both(at, step))
    }

    /// Whether some idle VM has to wait for memory before the first step.
    fn waits_for_memory(&self) -> bool {
        let start = Placement::current(&self.room);
        let mut away = start.out_of_place(&self.room).into_iter();
        away.any(|vm| self.room.vms[vm].is_idle() && lacks_memory(&self.room, &start, vm))
    }

    /// Whether it is blocked with such a VM off its target.
    fn left(&self, holds: impl Fn(&Placement, usize) -> bool) -> bool {
        let end = self.course.end();
        !self.planned && end.out_of_place(&self.room).into_iter().any(|vm| holds(end, vm))
    }

    /// Whether it is blocked with an idle VM off its target, which has not the memory, at such a node.
    fn left_for_memory(&self, holds: impl Fn(&Placement, usize) -> bool) -> bool {
        self.left(|end, vm| {
            let row = &self.room.vms[vm];
            row.is_idle() && lacks_memory(&self.room, end, vm) && holds(end, row.target)
        })
    }

    /// Whether it is blocked with an active VM off its target, which is busy and has the memory.
    fn left_for_cpu(&self) -> bool {
        self.left(|end, vm| {
            let row = &self.room.vms[vm];
            let busy = is_busy(&self.room, end, row.target);
            busy && !row.is_idle() && !lacks_memory(&self.room, end, vm)
        })
    }
}

const BUILT: [Told<Made>; 10] = [
    ("plan, idle onto busy", |m| m.planned && m.entered(|_, _| true)),
    ("plan, idle onto busy, step 1", |m| m.planned && m.entered_first()),
    ("plan, idle launched, busy", |m| m.planned && m.entered(is_launch)),
    ("plan, idle pivot, busy", |made| made.planned && made.entered(|_, m| is_pivot(&made.room, m))),
    ("plan, idle before an active", |m| m.planned && m.entered_before_an_active()),
    ("plan, idle waits for memory", |m| m.planned && m.waits_for_memory()),
    ("blocked, idle onto busy", |m| !m.planned && m.entered(|_, _| true)),
    ("blocked, idle, no memory", |m| m.left_for_memory(|_, _| true)),
    ("blocked, idle busy, no memory", |m| {
        m.left_for_memory(|end, node| is_busy(&m.room, end, node))
    }),
    ("blocked, active, busy", Made::left_for_cpu),
];

// ---------------------------------------------------------------- counts

pub(crate) struct Idle {
    pub(crate) checked: Table<Seen>,
    pub(crate) built: Table<Made>,
}

impl Default for Idle {
    fn default() -> Idle {
        Idle { checked: Table::of(&CHECKED), built: Table::of(&BUILT) }
    }
}

impl Idle {
    /// What no generated input led to.
    pub(crate) fn missing(&self) -> Vec<String> {
        [self.checked.missing(), self.built.missing()].concat()
    }

    pub(crate) fn print(&self) {
        self.checked.print();
        self.built.print();
    }
}

//! VMs that wait for others, each a second for its first: what there is to tell of them among the inputs
//! of `check` and in what was built, and of damaged constraints of that kind.

use crate::damaged::Damaged;
use crate::report::Stream;
use crate::seen::{Made, Seen};
use crate::told::{Table, Told};
use kobdrieft_model::planner::make_steps;
use kobdrieft_model::rules::{check_steps, firsts, Placement};
use kobdrieft_model::{on_a_node, Constraint, Move, Room, Step, Verdict, Version, Vm};

/// The room with nobody waiting.
fn without_befores(room: &Room) -> Room {
    let mut other = room.clone();
    other.constraints.retain(|constraint| !matches!(constraint, Constraint::Before { .. }));
    other
}

fn move_of(step: &[Move], vm: usize) -> Option<&Move> {
    step.iter().find(|m| m.vm == vm)
}

/// Whether a VM is off its target at the record's places.
fn is_away(vm: &Vm) -> bool {
    vm.current != vm.target
}

/// Whether each of two VMs waits for the other.
fn are_bound(room: &Room, one: usize, other: usize) -> bool {
    firsts(room, one).contains(&other) && firsts(room, other).contains(&one)
}

/// What a move does with its VM.
#[derive(PartialEq)]
pub(crate) enum Kind {
    Launch,
    Shutdown,
    Home,
    Pivot,
}

/// What a move does, from where VMs are when its step starts.
fn kind(room: &Room, here: &Placement, m: &Move) -> Kind {
    match (on_a_node(here.place[m.vm]), on_a_node(m.to)) {
        (false, _) => Kind::Launch,
        (_, false) => Kind::Shutdown,
        _ if m.to == room.vms[m.vm].target => Kind::Home,
        _ => Kind::Pivot,
    }
}

// ---------------------------------------------------------------- check

/// What keeps a second from moving: its first is off its target and stays there, comes home in the step,
/// or goes elsewhere; or it is home and leaves.
#[derive(Clone, Copy, PartialEq)]
pub(crate) enum Cause {
    NotHome,
    ComesHome,
    GoesElsewhere,
    Leaves,
}

impl Seen {
    fn is_home(&self, vm: usize) -> bool {
        self.here().place[vm] == self.room.vms[vm].target
    }

    /// What keeps those who wait for a VM from moving in the step at fault.
    fn cause(&self, first: usize) -> Option<Cause> {
        match (self.is_home(first), move_of(&self.fault, first)) {
            (true, None) => None,
            (true, Some(_)) => Some(Cause::Leaves),
            (false, None) => Some(Cause::NotHome),
            (false, Some(m)) if m.to == self.room.vms[first].target => Some(Cause::ComesHome),
            (false, Some(_)) => Some(Cause::GoesElsewhere),
        }
    }

    /// Whether the plan has this number and its step at fault moves some second too soon, in such a way:
    /// the first, what keeps the second, and its move.
    fn too_soon(&self, number: usize, holds: impl Fn(usize, Cause, &Move) -> bool) -> bool {
        self.number == number
            && self.room.befores().any(|(first, second)| {
                let (cause, m) = (self.cause(first), move_of(&self.fault, second));
                cause.zip(m).is_some_and(|(cause, m)| holds(first, cause, m))
            })
    }

    /// Whether it is refused with 33 for such a first.
    fn by_first(&self, holds: impl Fn(&Vm, usize) -> bool) -> bool {
        self.too_soon(33, |first, _, _| holds(&self.room.vms[first], self.here().place[first]))
    }

    /// Whether it is refused with 33 for this.
    pub(crate) fn by(&self, cause: Cause) -> bool {
        self.too_soon(33, |_, found, _| found == cause)
    }

    /// Whether it is refused with 33 at such a move of a second.
    pub(crate) fn at(&self, wanted: Kind) -> bool {
        self.too_soon(33, |_, _, m| kind(&self.room, self.here(), m) == wanted)
    }

    /// Whether it is refused with 33 and comes to this with nobody waiting.
    fn else_comes_to(&self, holds: impl Fn(Verdict) -> bool) -> bool {
        let other = || check_steps(&without_befores(&self.room), &self.plan.steps);
        self.number == 33 && holds(other())
    }

    /// Whether the plan is accepted and some second moves, with such a first: where VMs are, the first,
    /// and the move of the second.
    fn moves_second(&self, holds: impl Fn(&Placement, usize, &Move) -> bool) -> bool {
        let mut moves = self.course.moves();
        self.number == 0
            && moves
                .any(|(at, m)| firsts(&self.room, m.vm).iter().any(|&first| holds(at, first, m)))
    }

    /// Whether the plan is accepted and some second moves so, behind a first that had to be brought home.
    pub(crate) fn waited(&self, holds: impl Fn(Kind) -> bool) -> bool {
        self.moves_second(|at, first, m| {
            is_away(&self.room.vms[first]) && holds(kind(&self.room, at, m))
        })
    }

    /// Whether the plan is accepted and some first moves in a step behind one that moves its second.
    fn first_leaves_later(&self) -> bool {
        let steps = &self.course.steps;
        let step_of = |vm: usize| steps.iter().position(|step| move_of(step, vm).is_some());
        let last_of = |vm: usize| steps.iter().rposition(|step| move_of(step, vm).is_some());
        let follows = |(first, second): (usize, usize)| {
            step_of(second).is_some_and(|at| last_of(first).is_some_and(|last| at < last))
        };
        self.number == 0 && self.room.befores().any(follows)
    }
}

/// A verdict's number, and whether it has a step.
fn number(verdict: Verdict) -> (u8, bool) {
    match verdict {
        Verdict::Accepted { .. } => (0, false),
        Verdict::Refused { number, step } => (number, step > 0),
    }
}

const CHECKED: [Told<Seen>; 33] = [
    ("accepted, second waited", |s| s.waited(|_| true)),
    ("accepted, second launched late", |s| s.waited(|kind| kind == Kind::Launch)),
    ("accepted, second down late", |s| s.waited(|kind| kind == Kind::Shutdown)),
    ("accepted, second pivots late", |s| s.waited(|kind| kind == Kind::Pivot)),
    ("accepted, first always home", |s| {
        let still = |vm: usize| s.course.moves().all(|(_, m)| m.vm != vm);
        s.moves_second(|at, first, _| on_a_node(at.place[first]) && still(first))
    }),
    ("accepted, first stays down", |s| {
        s.moves_second(|at, first, _| !on_a_node(at.place[first]) && !is_away(&s.room.vms[first]))
    }),
    ("accepted, first was shut down", |s| {
        s.moves_second(|at, first, _| !on_a_node(at.place[first]) && is_away(&s.room.vms[first]))
    }),
    ("accepted, first leaves later", Seen::first_leaves_later),
    ("accepted, each for the other", |s| {
        s.moves_second(|_, first, m| are_bound(&s.room, first, m.vm))
    }),
    ("33, first not home", |s| s.by(Cause::NotHome)),
    ("33, first comes home with it", |s| s.by(Cause::ComesHome)),
    ("33, first goes elsewhere", |s| s.by(Cause::GoesElsewhere)),
    ("33, first leaves with it", |s| s.by(Cause::Leaves)),
    ("33, second goes home", |s| s.at(Kind::Home)),
    ("33, second pivots", |s| s.at(Kind::Pivot)),
    ("33, second launched", |s| s.at(Kind::Launch)),
    ("33, second shut down", |s| s.at(Kind::Shutdown)),
    ("33, first down, wanted up", |s| {
        s.by_first(|vm, place| !on_a_node(place) && on_a_node(vm.target))
    }),
    ("33, first up, wanted down", |s| {
        s.by_first(|vm, place| on_a_node(place) && !on_a_node(vm.target))
    }),
    ("33, first down is launched", |s| {
        s.by_first(|vm, place| !on_a_node(place) && !on_a_node(vm.target))
    }),
    ("33, each for the other", |s| s.too_soon(33, |first, _, m| are_bound(&s.room, first, m.vm))),
    ("33, the first waits too", |s| {
        let waits = |vm: usize| firsts(&s.room, vm).iter().any(|&first| !s.is_home(first));
        s.too_soon(33, |first, _, _| waits(first))
    }),
    ("33, another first is home", |s| {
        let fine = |vm: usize| firsts(&s.room, vm).iter().any(|&first| s.cause(first).is_none());
        s.too_soon(33, |_, _, m| fine(m.vm))
    }),
    ("33 in the first step", |s| s.number == 33 && s.course.steps.is_empty()),
    ("33 in a later step", |s| s.number == 33 && !s.course.steps.is_empty()),
    ("33 in cluster 1", |s| s.number == 33 && s.room.version == Version::One),
    ("33, else accepted", |s| s.else_comes_to(|verdict| number(verdict) == (0, false))),
    ("33, else 19", |s| s.else_comes_to(|verdict| number(verdict) == (19, false))),
    ("33, else a later step", |s| s.else_comes_to(|verdict| number(verdict).1)),
    ("15 before 33", |s| s.too_soon(15, |_, _, _| true)),
    ("16 before 33", |s| s.too_soon(16, |_, _, _| true)),
    ("17 before 33", |s| s.too_soon(17, |_, _, _| true)),
    ("18 before 33", |s| s.too_soon(18, |_, _, _| true)),
];

// ---------------------------------------------------------------- damage

impl Damaged {
    /// Whether it has a constraint of this kind with as many bytes as it should have, of such VMs.
    fn has_pair(&self, holds: impl Fn(usize, usize) -> bool) -> bool {
        self.has_body(
            |body| matches!(*body, [5, first, second] if holds(first.into(), second.into())),
        )
    }

    /// Whether it has a constraint of this kind whose length is such.
    fn has_length(&self, holds: impl Fn(usize) -> bool) -> bool {
        self.has_body(|body| body.first() == Some(&5) && holds(body.len()))
    }

    /// Whether some constraint of this kind is what is wrong.
    pub(crate) fn has_bad_before(&self) -> bool {
        let v = self.vms();
        self.has_length(|length| length != 3) || self.has_pair(|a, b| a == b || a >= v || b >= v)
    }
}

const DAMAGES: [Told<Damaged>; 9] = [
    ("7, before itself", |d| d.has_pair(|first, second| first == second && first < d.vms())),
    ("7, first not there", |d| d.has_pair(|first, second| first >= d.vms() && second < d.vms())),
    ("7, second not there", |d| d.has_pair(|first, second| first < d.vms() && second >= d.vms())),
    ("7, kind 5 of length 1", |d| d.has_length(|length| length == 1)),
    ("7, kind 5 of length 2", |d| d.has_length(|length| length == 2)),
    ("7, kind 5 of length 4", |d| d.has_length(|length| length == 4)),
    ("7, kind 6", |d| d.has_body(|body| body.first() == Some(&6))),
    ("7, a bad before in cluster 1", |d| d.is(7, 1) && d.has_bad_before()),
    ("7, a bad before in cluster 2", |d| d.is(7, 2) && d.has_bad_before()),
];

// ---------------------------------------------------------------- build

impl Made {
    /// Whether it is a plan in which some second had to wait for its first, in such a way: the first and
    /// the second.
    pub(crate) fn waits(&self, holds: impl Fn(usize, usize) -> bool) -> bool {
        let away = |vm: usize| is_away(&self.room.vms[vm]);
        let mut befores = self.room.befores();
        self.planned && befores.any(|(a, b)| away(a) && away(b) && holds(a, b))
    }

    /// What is built with nobody waiting, if somebody does.
    pub(crate) fn without_befores(&self) -> Option<Made> {
        self.room.befores().next()?;
        let room = without_befores(&self.room);
        let (steps, planned) = make_steps(&room);
        Some(Made::of(planned, room, steps))
    }

    /// Whether it is blocked with both of such a pair off their targets.
    fn leaves(&self, holds: impl Fn(usize, usize) -> bool) -> bool {
        let left = self.course.end().out_of_place(&self.room);
        let mut befores = self.room.befores();
        let both = |a, b| left.contains(&a) && left.contains(&b);
        !self.planned && befores.any(|(a, b)| both(a, b) && holds(a, b))
    }
}

/// What was built for a room in which some VM waits, and what is with nobody waiting.
struct Compared {
    made: Made,
    without: Made,
}

impl Compared {
    fn both_planned(&self) -> bool {
        self.made.planned && self.without.planned
    }

    /// Whether it is blocked only since VMs wait.
    fn blocked_by(&self) -> bool {
        !self.made.planned && self.without.planned
    }

    fn steps(&self) -> usize {
        self.made.steps().len()
    }

    /// Whether some second that had to wait moves so.
    fn late(&self, wanted: Kind) -> bool {
        let Made { room, course, .. } = &self.made;
        let moved =
            |vm: usize| course.moves().any(|(at, m)| m.vm == vm && kind(room, at, m) == wanted);
        self.made.waits(|_, second| moved(second))
    }

    fn place(&self, vm: usize) -> (bool, bool) {
        let Vm { current, target, .. } = self.made.room.vms[vm];
        (on_a_node(current), on_a_node(target))
    }
}

/// Whether steps are the same but for the sources that they name.
fn same(one: &[Step], other: &[Step]) -> bool {
    let bare = |steps: &[Step]| -> Vec<Vec<(usize, usize)>> {
        steps.iter().map(|step| step.iter().map(|m| (m.vm, m.to)).collect()).collect()
    };
    bare(one) == bare(other)
}

const BUILT: [Told<Compared>; 17] = [
    ("plan, second waits", |c| c.made.waits(|_, _| true)),
    ("plan, more steps for waiting", |c| c.both_planned() && c.steps() > c.without.steps().len()),
    ("plan, nobody has to wait", |c| {
        c.both_planned() && c.steps() > 0 && same(c.made.steps(), c.without.steps())
    }),
    ("plan, pivots for waiting", |c| c.both_planned() && c.made.pivots() > c.without.pivots()),
    ("plan, second launched late", |c| c.late(Kind::Launch)),
    ("plan, second down late", |c| c.late(Kind::Shutdown)),
    ("plan, second pivots late", |c| c.late(Kind::Pivot)),
    ("plan, waits for a launch", |c| c.made.waits(|first, _| c.place(first) == (false, true))),
    ("plan, waits for a shutdown", |c| c.made.waits(|first, _| c.place(first) == (true, false))),
    ("plan, first stays down", |c| {
        let moved = |vm: usize| is_away(&c.made.room.vms[vm]);
        let mut befores = c.made.room.befores();
        c.made.planned && befores.any(|(a, b)| c.place(a) == (false, false) && moved(b))
    }),
    ("plan, three in a row", |c| {
        let waits_for = |vm: usize| firsts(&c.made.room, vm);
        let away = |vm: &usize| is_away(&c.made.room.vms[*vm]);
        c.made.waits(|first, _| waits_for(first).iter().any(away))
    }),
    ("plan, one waits for several", |c| {
        let away = |vm: &&usize| is_away(&c.made.room.vms[**vm]);
        c.made.waits(|_, second| firsts(&c.made.room, second).iter().filter(away).count() > 1)
    }),
    ("blocked by waiting", Compared::blocked_by),
    ("blocked by waiting, at once", |c| c.blocked_by() && c.steps() == 0),
    ("blocked by waiting, late", |c| c.blocked_by() && c.steps() > 0),
    ("blocked, each for the other", |c| c.made.leaves(|a, b| are_bound(&c.made.room, a, b))),
    ("blocked, else blocked too", |c| c.made.leaves(|_, _| true) && !c.without.planned),
];

// ---------------------------------------------------------------- counts

pub(crate) struct Befores {
    pub(crate) checked: Table<Seen>,
    pub(crate) damages: Table<Damaged>,
    built: Table<Compared>,
}

impl Default for Befores {
    fn default() -> Befores {
        let (checked, damages) = (Table::of(&CHECKED), Table::of(&DAMAGES));
        Befores { checked, damages, built: Table::of(&BUILT) }
    }
}

impl Befores {
    /// Counts what there is to tell of steps that were built.
    pub(crate) fn count_built(&mut self, stream: Stream, made: Made) {
        if let Some(without) = made.without_befores() {
            self.built.count(stream, &Compared { made, without });
        }
    }

    /// What no generated input led to.
    pub(crate) fn missing(&self) -> Vec<String> {
        [self.checked.missing(), self.damages.missing(), self.built.missing()].concat()
    }

    pub(crate) fn print(&self) {
        self.checked.print();
        self.damages.print();
        self.built.print();
    }
}

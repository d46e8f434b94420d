//! What there is to tell of a stop, whether it is done or refused.

use crate::report::BLOCKED;
use crate::seen::Seen;
use crate::told::Told;
use kobdrieft_model::rules::{cpu_within, within, Placement};
use kobdrieft_model::stops::Ask;
use kobdrieft_model::{on_a_node, Move, Room, Step, Version};

/// A stop whose reserve is taken and whose cluster can be read: what was asked, what came of it, and
/// what is seen of its plan by itself. A refusal of the plan's own has the same number here and there.
pub(crate) struct Stopped {
    pub(crate) reserve: u64,
    pub(crate) length: usize,
    pub(crate) no_bytes: bool,
    pub(crate) ask: Ask,
    pub(crate) number: usize,
    pub(crate) seen: Seen,
}

impl Stopped {
    fn steps(&self) -> &[Step] {
        &self.seen.plan.steps
    }

    /// The step with this number.
    fn numbered(&self, step: u64) -> Option<&Step> {
        let at = usize::try_from(step).ok()?.checked_sub(1)?;
        self.steps().get(at)
    }

    /// Whether the step is not in the plan.
    fn no_step(&self) -> bool {
        self.numbered(self.ask.step).is_none()
    }

    /// Whether the step is in the plan, and so many marks are too few, or too many.
    fn count(&self, holds: fn(usize, usize) -> bool) -> bool {
        self.numbered(self.ask.step).is_some_and(|step| holds(self.ask.marks.len(), step.len()))
    }

    fn wrong_count(&self) -> bool {
        self.count(|marks, moves| marks != moves)
    }

    fn wrong_mark(&self) -> bool {
        self.ask.marks.iter().any(|&mark| mark > 1)
    }

    fn short(&self) -> bool {
        self.ask.buffer < self.length
    }

    /// Whether the step is not in the plan, but would be one of so many moves with its high bits cut off.
    fn cut_to(&self, bits: u32) -> bool {
        let low = self.ask.step & ((1 << bits) - 1);
        let right = |step: &Step| step.len() == self.ask.marks.len();
        self.number == 20 && low != self.ask.step && self.numbered(low).is_some_and(right)
    }

    /// Whether another step has as many moves as there are marks.
    fn of_another(&self) -> bool {
        let mut steps = self.steps().iter();
        self.wrong_count() && steps.any(|step| step.len() == self.ask.marks.len())
    }

    /// Whether it is refused as its plan is.
    fn as_checked(&self) -> bool {
        self.number != 0 && self.number == self.seen.number
    }

    // What is done.

    fn done(&self) -> bool {
        self.number == 0
    }

    /// The number of the step, if it is done.
    fn at(&self) -> Option<usize> {
        self.done().then_some(self.ask.step as usize)
    }

    /// Whether it is done, and some move of the step that ended, or did not, is such: where VMs are when
    /// the step starts, and the move.
    fn moved(&self, mark: u8, holds: impl Fn(&Placement, &Move) -> bool) -> bool {
        let Some(at) = self.at() else { return false };
        let (start, step) = self.seen.course.started().nth(at - 1).expect("a step of the plan");
        let mut marked = step.iter().zip(&self.ask.marks).filter(|(_, &given)| given == mark);
        marked.any(|(m, _)| holds(start, m))
    }

    fn some(&self, mark: u8) -> bool {
        self.moved(mark, |_, _| true)
    }

    fn launch(&self, mark: u8) -> bool {
        self.moved(mark, |start, m| !on_a_node(start.place[m.vm]))
    }

    fn shutdown(&self, mark: u8) -> bool {
        self.moved(mark, |_, m| !on_a_node(m.to))
    }

    fn pivot(&self, mark: u8) -> bool {
        self.moved(mark, |_, m| on_a_node(m.to) && m.to != self.seen.room.vms[m.vm].target)
    }

    /// Whether some move of the step is of a VM that moved before, and has ended or not.
    fn again(&self, mark: u8) -> bool {
        let moved = |vm: usize| {
            self.steps()[..self.ask.step as usize - 1].iter().flatten().any(|m| m.vm == vm)
        };
        self.moved(mark, |_, m| moved(m.vm))
    }

    /// Whether an idle VM came to a node over its CPU.
    fn idle_onto_busy(&self) -> bool {
        let room = &self.seen.room;
        let busy = |start: &Placement, to: usize| !cpu_within(room, to, start.sums[to]);
        self.moved(1, |start, m| room.vms[m.vm].is_idle() && on_a_node(m.to) && busy(start, m.to))
    }

    /// Whether a VM that waits for another was moved, or called back.
    fn second(&self, mark: u8) -> bool {
        self.moved(mark, |_, m| self.seen.room.befores().any(|(_, second)| second == m.vm))
    }

    fn versions(&self, cluster: Version, plan: Version) -> bool {
        self.done() && (self.seen.room.version, self.seen.plan.version) == (cluster, plan)
    }

    /// Where VMs are in the end.
    fn end(&self) -> Option<Placement> {
        let (start, step) = self.seen.course.started().nth(self.at()? - 1)?;
        let ended = step.iter().zip(&self.ask.marks).filter(|(_, &mark)| mark == 1);
        let ended: Step = ended.map(|(m, _)| *m).collect();
        Some(start.after(&self.seen.room, &ended))
    }

    /// Whether it is done, and a node was over at the record's places and is in the end, or is not.
    fn over(&self, then: bool) -> bool {
        let Some(end) = self.end() else { return false };
        let over = |here: &Placement, node| !within(&self.seen.room, node, here.sums[node]);
        let start = Placement::current(&self.seen.room);
        let mut nodes = 0..self.seen.room.nodes.len();
        nodes.any(|node| over(&start, node) && over(&end, node) == then)
    }

    /// Whether it is done and every VM is where the record had it.
    fn unchanged(&self) -> bool {
        let current = |room: &Room| Placement::current(room).place;
        self.end().is_some_and(|end| end.place == current(&self.seen.room))
    }
}

pub(crate) const REFUSED: [Told<Stopped>; 20] = [
    ("20, step 0", |s| s.number == 20 && s.ask.step == 0),
    ("20, the step past the last", |s| {
        s.number == 20 && !s.steps().is_empty() && s.ask.step == s.steps().len() as u64 + 1
    }),
    ("20, a step of over 16 bits", |s| s.cut_to(16)),
    ("20, a step of over 32 bits", |s| s.cut_to(32)),
    ("20, step 2^64 - 1", |s| s.number == 20 && s.ask.step == u64::MAX),
    ("20, a plan of no steps", |s| s.number == 20 && s.steps().is_empty()),
    ("20, no plan bytes", |s| s.number == 20 && s.no_bytes),
    ("20, no marks", |s| s.number == 20 && !s.no_step() && s.ask.marks.is_empty()),
    ("20, too few marks", |s| s.number == 20 && s.count(|marks, moves| marks < moves)),
    ("20, too many marks", |s| s.number == 20 && s.count(|marks, moves| marks > moves)),
    ("20, 256 marks too many", |s| s.number == 20 && s.count(|marks, moves| marks == moves + 256)),
    ("20, as many as another step", |s| s.number == 20 && s.of_another()),
    ("20 before 21", |s| s.number == 20 && s.wrong_mark()),
    ("20 before 22", |s| s.number == 20 && s.short()),
    ("21, a mark of 255", |s| s.number == 21 && s.ask.marks.contains(&255)),
    ("21, the last mark of several", |s| {
        let earlier = s.ask.marks.iter().rev().skip(1);
        s.number == 21 && s.ask.marks.len() > 1 && earlier.into_iter().all(|&mark| mark < 2)
    }),
    ("21 before 22", |s| s.number == 21 && s.short()),
    ("22, one byte short", |s| s.number == 22 && s.ask.buffer + 1 == s.length),
    ("22, no bytes", |s| s.number == 22 && s.ask.buffer == 0),
    ("22, one ended", |s| s.number == 22 && s.ask.marks.contains(&1)),
];

pub(crate) const AS_CHECKED: [Told<Stopped>; 5] = [
    ("as checked, the stop right", |s| {
        s.as_checked() && !s.no_step() && !s.wrong_count() && !s.wrong_mark() && !s.short()
    }),
    ("as checked, before 20, step", |s| s.as_checked() && s.no_step() && !s.steps().is_empty()),
    ("as checked, before 20, marks", |s| s.as_checked() && s.wrong_count()),
    ("as checked, before 21", |s| s.as_checked() && s.wrong_mark()),
    ("as checked, before 22", |s| s.as_checked() && s.short()),
];

pub(crate) const DONE: [Told<Stopped>; 37] = [
    ("stop, the only step", |s| s.done() && s.steps().len() == 1),
    ("stop, the first of several", |s| s.at() == Some(1) && s.steps().len() > 1),
    ("stop, in the middle", |s| s.at().is_some_and(|at| at > 1 && at < s.steps().len())),
    ("stop, the last of several", |s| s.at().is_some_and(|at| at > 1 && at == s.steps().len())),
    ("stop, a step above 255", |s| s.at().is_some_and(|at| at > 255)),
    ("stop, all ended", |s| s.done() && !s.some(0)),
    ("stop, all of several ended", |s| s.done() && !s.some(0) && s.ask.marks.len() > 1),
    ("stop, none ended", |s| s.done() && !s.some(1)),
    ("stop, none of several ended", |s| s.done() && !s.some(1) && s.ask.marks.len() > 1),
    ("stop, some ended, some not", |s| s.some(0) && s.some(1)),
    ("stop, a launch ended", |s| s.launch(1)),
    ("stop, a launch called back", |s| s.launch(0)),
    ("stop, a shutdown ended", |s| s.shutdown(1)),
    ("stop, a shutdown called back", |s| s.shutdown(0)),
    ("stop, launch and shutdown apart", |s| s.launch(0) && s.shutdown(1)),
    ("stop, a pivot ended", |s| s.pivot(1)),
    ("stop, a pivot called back", |s| s.pivot(0)),
    ("stop, moved before, ended", |s| s.again(1)),
    ("stop, moved before, back", |s| s.again(0)),
    ("stop, idle onto busy", Stopped::idle_onto_busy),
    ("stop, a second ended", |s| s.second(1)),
    ("stop, a second called back", |s| s.second(0)),
    ("stop, cluster 1, plan 1", |s| s.versions(Version::One, Version::One)),
    ("stop, cluster 1, plan 2", |s| s.versions(Version::One, Version::Two)),
    ("stop, cluster 2, plan 1", |s| s.versions(Version::Two, Version::One)),
    ("stop, cluster 2, plan 2", |s| s.versions(Version::Two, Version::Two)),
    ("stop, no reserve", |s| s.done() && s.reserve == 0),
    ("stop, at a reserve", |s| s.done() && s.reserve > 0),
    ("stop, at reserve 90", |s| s.done() && s.reserve == 90),
    ("stop, a node over still", |s| s.over(true)),
    ("stop, a node over no longer", |s| s.over(false)),
    ("stop, over still at a reserve", |s| s.over(true) && s.reserve > 0),
    ("stop, all as it was", Stopped::unchanged),
    ("stop, as it was, behind a step", |s| s.unchanged() && s.ask.step > 1),
    ("stop, a buffer just as long", |s| s.done() && s.ask.buffer == s.length),
    ("stop, a buffer one longer", |s| s.done() && s.ask.buffer == s.length + 1),
    ("stop, a buffer much longer", |s| s.done() && s.ask.buffer > s.length + 10),
];

/// What the planner makes of a record that was written: the outcome, and how many steps.
pub(crate) struct Again {
    pub(crate) outcome: usize,
    pub(crate) steps: usize,
    pub(crate) reserve: u64,
}

pub(crate) const AGAIN: [Told<Again>; 5] = [
    ("stop, then planned", |a| a.outcome == 0 && a.steps > 0),
    ("stop, then nothing to do", |a| a.outcome == 0 && a.steps == 0),
    ("stop, then blocked", |a| a.outcome == BLOCKED),
    ("stop, then blocked late", |a| a.outcome == BLOCKED && a.steps > 0),
    ("stop, then planned at a reserve", |a| a.outcome == 0 && a.steps > 0 && a.reserve > 0),
];

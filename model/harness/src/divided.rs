//! What there is to tell of a split, whether it is done or refused, and of other divisions of its plan.

use crate::seen::Seen;
use crate::told::Told;
use kobdrieft_model::rules::{cpu_within, mates, within, Placement};
use kobdrieft_model::split::{single_moves, BUFFER, MOST_STEPS};
use kobdrieft_model::splits::OF_VERSION_1;
use kobdrieft_model::{on_a_node, planner, Move, Step, Version};

/// A split whose reserve is taken and whose cluster can be read: what was lent, what came of it, and what
/// is seen of its plan by itself. A refusal of the plan's own has the same number here and there. Then a
/// division of the plan, if that is accepted: into single moves, or another.
pub(crate) struct Divided {
    pub(crate) reserve: u64,
    pub(crate) buffer: usize,
    pub(crate) no_bytes: bool,
    pub(crate) number: usize,
    pub(crate) seen: Seen,
    pub(crate) pieces: Vec<Step>,
    pub(crate) dearer: bool,
}

impl Divided {
    /// With the plan divided into single moves. `seen` is of a plan that is accepted, or refused as the
    /// split is.
    pub(crate) fn of(
        reserve: u64,
        buffer: usize,
        no_bytes: bool,
        number: usize,
        seen: Seen,
    ) -> Divided {
        let pieces = match seen.number {
            0 => single_moves(&seen.plan.steps),
            _ => vec![],
        };
        Divided { reserve, buffer, no_bytes, number, seen, pieces, dearer: false }
    }

    fn steps(&self) -> &[Step] {
        &self.seen.plan.steps
    }

    fn moves(&self) -> usize {
        self.steps().iter().map(Vec::len).sum()
    }

    /// Whether the plan has bytes, and is of this version.
    fn version(&self, version: Version) -> bool {
        !self.no_bytes && self.seen.plan.version == version
    }

    fn is_short(&self) -> bool {
        self.buffer < BUFFER
    }

    /// Whether it is 10, and the record would have been no longer than the buffer.
    fn short_but_enough(&self) -> bool {
        let record = 7 + self.moves() * (2 + self.seen.plan.version.width());
        self.number == 10 && self.moves() > 0 && self.buffer >= record
    }

    /// Whether it is 14, and not as its plan is.
    fn many(&self) -> bool {
        self.number == 14 && self.seen.number == 0
    }

    /// Whether it is refused as its plan is.
    fn as_checked(&self) -> bool {
        self.seen.number != 0
    }

    fn done(&self) -> bool {
        self.number == 0
    }

    /// Each step of an accepted plan that is divided, with where VMs are when it starts and its pieces.
    fn cuts(&self) -> impl Iterator<Item = (&Placement, &Step, &[Step])> {
        let mut at = 0;
        let started = self.seen.course.started().filter(|_| self.seen.number == 0);
        started.filter_map(move |(start, step)| {
            let (first, mut moves) = (at, 0);
            while moves < step.len() {
                moves += self.pieces[at].len();
                at += 1;
            }
            (at - first > 1).then(|| (start, step, &self.pieces[first..at]))
        })
    }

    /// Whether something is so of a step that is divided.
    fn cut(&self, holds: impl Fn(&Placement, &Step, &[Step]) -> bool) -> bool {
        self.cuts().any(|(start, step, pieces)| holds(start, step, pieces))
    }

    /// Whether some move of a step that is divided is such.
    fn moved(&self, holds: impl Fn(&Placement, &Move) -> bool) -> bool {
        self.cut(|start, step, _| step.iter().any(|m| holds(start, m)))
    }

    fn launch(&self) -> bool {
        self.moved(|start, m| !on_a_node(start.place[m.vm]))
    }

    fn shutdown(&self) -> bool {
        self.moved(|_, m| !on_a_node(m.to))
    }

    fn launch_and_shutdown(&self) -> bool {
        self.cut(|start, step, _| {
            step.iter().any(|m| !on_a_node(start.place[m.vm]))
                && step.iter().any(|m| !on_a_node(m.to))
        })
    }

    fn pivot(&self) -> bool {
        self.moved(|_, m| on_a_node(m.to) && m.to != self.seen.room.vms[m.vm].target)
    }

    /// Whether a VM goes where another of the same step comes from.
    fn follows(&self) -> bool {
        self.cut(|start, step, _| {
            let left = |to: usize| step.iter().any(|m| start.place[m.vm] == to);
            step.iter().any(|m| on_a_node(m.to) && left(m.to))
        })
    }

    fn idle_onto_busy(&self) -> bool {
        let room = &self.seen.room;
        let busy = |start: &Placement, to: usize| !cpu_within(room, to, start.sums[to]);
        self.moved(|start, m| room.vms[m.vm].is_idle() && on_a_node(m.to) && busy(start, m.to))
    }

    /// Whether a VM that waits for another is in a step that is divided.
    fn second(&self) -> bool {
        self.moved(|_, m| self.seen.room.befores().any(|(_, second)| second == m.vm))
    }

    /// Whether one that another waits for is.
    fn first(&self) -> bool {
        self.moved(|_, m| self.seen.room.befores().any(|(first, _)| first == m.vm))
    }

    fn two_mates(&self) -> bool {
        let moves = |step: &Step, vm: usize| step.iter().any(|m| m.vm == vm);
        self.cut(|_, step, _| {
            let mated = |m: &Move| mates(&self.seen.room, m.vm).into_iter().any(|o| moves(step, o));
            step.iter().any(mated)
        })
    }

    /// Whether a VM moves in several steps.
    fn twice(&self) -> bool {
        let count = |vm: usize| self.steps().iter().flatten().filter(|m| m.vm == vm).count();
        self.done() && self.steps().iter().flatten().any(|m| count(m.vm) > 1)
    }

    fn versions(&self, cluster: Version, plan: Version) -> bool {
        self.done() && self.seen.room.version == cluster && self.version(plan)
    }

    /// Whether it is done, and a node is over at first.
    fn over(&self) -> bool {
        let start = Placement::current(&self.seen.room);
        let over = |node: usize| !within(&self.seen.room, node, start.sums[node]);
        self.done() && self.cuts().next().is_some() && (0..start.sums.len()).any(over)
    }

    /// Whether a piece comes behind one of higher VMs.
    fn falls(&self, pieces: &[Step]) -> bool {
        pieces.windows(2).any(|pair| pair[0][0].vm > pair[1][0].vm)
    }
}

pub(crate) const REFUSED: [Told<Divided>; 20] = [
    ("10, one byte short", |d| d.number == 10 && d.buffer + 1 == BUFFER),
    ("10, no bytes lent", |d| d.number == 10 && d.buffer == 0),
    ("10, version 1", |d| d.number == 10 && d.version(Version::One)),
    ("10, version 2", |d| d.number == 10 && d.version(Version::Two)),
    ("10, enough for version 1", |d| {
        d.number == 10 && d.version(Version::One) && d.buffer >= OF_VERSION_1
    }),
    ("10, enough for the record", Divided::short_but_enough),
    ("10, enough for build", |d| d.number == 10 && d.buffer >= planner::BUFFER),
    ("10, a plan of no steps", |d| d.number == 10 && d.steps().is_empty()),
    ("10, no plan bytes", |d| d.number == 10 && d.no_bytes),
    ("10 before 14", |d| d.number == 10 && d.moves() > MOST_STEPS),
    ("14, 513 moves", |d| d.many() && d.moves() == 513),
    ("14, 1,024 moves", |d| d.many() && d.moves() == 1_024),
    ("14, version 1", |d| d.many() && d.version(Version::One)),
    ("14, version 2", |d| d.many() && d.version(Version::Two)),
    ("14, in a few wide steps", |d| d.many() && d.steps().len() < 20),
    ("14, in hundreds of steps", |d| d.many() && d.steps().len() > 200),
    ("14, at a reserve", |d| d.many() && d.reserve > 0),
    ("split as checked", |d| d.as_checked() && !d.is_short()),
    ("split as checked, before 10", |d| d.as_checked() && d.is_short()),
    ("split as checked, 14 before 10", |d| d.as_checked() && d.number == 14 && d.is_short()),
];

pub(crate) const DONE: [Told<Divided>; 37] = [
    ("split, version 1", |d| d.done() && d.version(Version::One)),
    ("split, version 2", |d| d.done() && d.version(Version::Two)),
    ("split, no plan bytes", |d| d.done() && d.no_bytes),
    ("split, a header of version 1", |d| {
        d.done() && d.version(Version::One) && d.steps().is_empty()
    }),
    ("split, a header of version 2", |d| {
        d.done() && d.version(Version::Two) && d.steps().is_empty()
    }),
    ("split, 511 moves", |d| d.done() && d.moves() == 511),
    ("split, 512 moves, version 1", |d| d.done() && d.moves() == 512 && d.version(Version::One)),
    ("split, 512 moves, version 2", |d| d.done() && d.moves() == 512 && d.version(Version::Two)),
    ("split, 512 in a few wide steps", |d| d.done() && d.moves() == 512 && d.steps().len() < 20),
    ("split, single moves already", |d| {
        d.done() && !d.steps().is_empty() && d.moves() == d.steps().len()
    }),
    ("split, dearer", |d| d.done() && d.dearer),
    ("split, as dear", |d| d.done() && !d.dearer && d.cuts().next().is_some()),
    ("split, a step of two", |d| d.done() && d.cut(|_, step, _| step.len() == 2)),
    ("split, of ten and more", |d| d.done() && d.cut(|_, step, _| step.len() >= 10)),
    ("split, of a hundred and more", |d| d.done() && d.cut(|_, step, _| step.len() >= 100)),
    ("split, several steps", |d| d.done() && d.cuts().nth(1).is_some()),
    ("split, a launch", |d| d.done() && d.launch()),
    ("split, a shutdown", |d| d.done() && d.shutdown()),
    ("split, launch and shutdown", |d| d.done() && d.launch_and_shutdown()),
    ("split, a pivot", |d| d.done() && d.pivot()),
    ("split, one follows another", |d| d.done() && d.follows()),
    ("split, idle onto busy", |d| d.done() && d.idle_onto_busy()),
    ("split, a second", |d| d.done() && d.second()),
    ("split, a first", |d| d.done() && d.first()),
    ("split, two mates", |d| d.done() && d.two_mates()),
    ("split, a VM moves twice", Divided::twice),
    ("split, cluster 1, plan 1", |d| d.versions(Version::One, Version::One)),
    ("split, cluster 1, plan 2", |d| d.versions(Version::One, Version::Two)),
    ("split, cluster 2, plan 1", |d| d.versions(Version::Two, Version::One)),
    ("split, cluster 2, plan 2", |d| d.versions(Version::Two, Version::Two)),
    ("split, no reserve", |d| d.done() && d.reserve == 0),
    ("split, at a reserve", |d| d.done() && d.reserve > 0),
    ("split, at reserve 90", |d| d.done() && d.reserve == 90),
    ("split, a node over at first", Divided::over),
    ("split, a buffer just as long", |d| d.done() && d.buffer == BUFFER),
    ("split, a buffer one longer", |d| d.done() && d.buffer == BUFFER + 1),
    ("split, a buffer much longer", |d| d.done() && d.buffer > BUFFER + 10),
];

/// Of divisions that the library accepts.
pub(crate) const OTHERS: [Told<Divided>; 23] = [
    ("division, accepted", |_| true),
    ("division, version 1", |d| d.version(Version::One)),
    ("division, version 2", |d| d.version(Version::Two)),
    ("division, of single moves", |d| d.moves() == d.steps().len()),
    ("division, dearer", |d| d.dearer),
    ("division, as dear", |d| !d.dearer && d.cuts().next().is_some()),
    ("division, several steps", |d| d.cuts().nth(1).is_some()),
    ("division, into two", |d| d.cut(|_, step, pieces| step.len() > 2 && pieces.len() == 2)),
    ("division, into single moves", |d| {
        d.cut(|_, step, pieces| step.len() > 2 && pieces.len() == step.len())
    }),
    ("division, a higher VM first", |d| d.cut(|_, _, pieces| d.falls(pieces))),
    ("division, pieces of several", |d| {
        d.cut(|_, _, pieces| pieces.iter().any(|piece| piece.len() > 1))
    }),
    ("division, into 512 steps", |d| d.pieces.len() == MOST_STEPS && d.steps().len() < MOST_STEPS),
    ("division, of over 512 moves", |d| d.moves() > MOST_STEPS),
    ("division, a launch", Divided::launch),
    ("division, a shutdown", Divided::shutdown),
    ("division, launch and shutdown", Divided::launch_and_shutdown),
    ("division, a pivot", Divided::pivot),
    ("division, one follows another", Divided::follows),
    ("division, idle onto busy", Divided::idle_onto_busy),
    ("division, a second", Divided::second),
    ("division, a first", Divided::first),
    ("division, two mates", Divided::two_mates),
    ("division, at a reserve", |d| d.reserve > 0 && d.cuts().next().is_some()),
];

//! Inputs at a reserve: what came of them, and what there is to tell by what the same input comes to with
//! no reserve. A node is called over here if it is over what is usable of it, but within its capacity.

use crate::befores::{Cause, Kind as Does};
use crate::builds::Built;
use crate::check;
use crate::damaged::Damaged;
use crate::report::{
    hex, missing, never_generated, outcome, print_kinds, print_row, verdict_words,
};
use crate::report::{Counts, Kind, Report, Row, Stream, BLOCKED};
use crate::seen::{Made, Seen};
use crate::told::{Table, Told};
use kobdrieft_model::gen::Rng;
use kobdrieft_model::rules::{cpu_within, memory_within, within, Placement, Sum};
use kobdrieft_model::{self as model, on_a_node, parse_cluster, Move, Room, Step};

/// What can come of a plan at a reserve.
const CHECKED: [Kind; 13] = [
    ("accepted", 0..=0),
    ("1 to 7", 1..=7),
    ("8", 8..=8),
    ("9", 9..=9),
    ("11 to 14", 11..=14),
    ("15", 15..=15),
    ("16", 16..=16),
    ("17", 17..=17),
    ("18", 18..=18),
    ("33", 33..=33),
    ("19", 19..=19),
    ("23", 23..=23),
    ("27", 27..=27),
];

/// What can come of a plan of no steps at a reserve.
const HEADERS: [Kind; 5] =
    [("accepted", 0..=0), ("1 to 7", 1..=7), ("8 and 9", 8..=9), ("19", 19..=19), ("23", 23..=23)];

/// What can come of planning at a reserve.
const BUILT: [Kind; 6] = [
    ("plan", 0..=0),
    ("1 to 7", 1..=7),
    ("8 and 9", 8..=9),
    ("10", 10..=10),
    ("23", 23..=23),
    ("blocked", BLOCKED..=BLOCKED),
];

// ---------------------------------------------------------------- both calls

/// An input of `build` or of `check`: its reserve, its outcome, and the one with no reserve.
struct Pair {
    built: bool,
    reserve: u64,
    outcome: usize,
    without: usize,
}

impl Pair {
    /// Whether a reserve that is too high comes before one of these outcomes of `check`.
    fn check_23(&self, without: &[usize]) -> bool {
        !self.built && self.outcome == 23 && without.contains(&self.without)
    }

    /// The same of `build`.
    fn build_23(&self, without: &[usize]) -> bool {
        self.built && self.outcome == 23 && without.contains(&self.without)
    }
}

const PAIRS: [Told<Pair>; 21] = [
    ("23 at 91", |p| p.reserve == 91),
    ("23 at 100", |p| p.reserve == 100),
    ("23 at 255", |p| p.reserve == 255),
    ("23 at 256", |p| p.reserve == 256),
    ("23 at 2^32", |p| p.reserve == 1 << 32),
    ("23 at 2^32 + 10", |p| p.reserve == (1 << 32) + 10),
    ("23 at 2^63", |p| p.reserve == 1 << 63),
    ("23 at 2^64 - 1", |p| p.reserve == u64::MAX),
    ("check 23, else accepted", |p| p.check_23(&[0])),
    ("check 23 before 1 to 7", |p| p.check_23(&[1, 2, 3, 4, 5, 6, 7])),
    ("check 23 before 8 and 9", |p| p.check_23(&[8, 9])),
    ("check 23 before 11 to 14", |p| p.check_23(&[11, 12, 13, 14])),
    ("check 23 before 15 to 18, 27", |p| p.check_23(&[15, 16, 17, 18, 27])),
    ("check 23 before 33", |p| p.check_23(&[33])),
    ("check 23 before 19", |p| p.check_23(&[19])),
    ("build 23, else plan", |p| p.build_23(&[0])),
    ("build 23, else blocked", |p| p.build_23(&[BLOCKED])),
    ("build 23 before 1 to 7", |p| p.build_23(&[1, 2, 3, 4, 5, 6, 7])),
    ("build 23 before 8 and 9", |p| p.build_23(&[8, 9])),
    ("build 23 before 10", |p| p.build_23(&[10])),
    ("build 8 by the reserve", |p| p.built && p.outcome == 8 && p.without != 8),
];

/// Whether a node is over: by memory, and by CPU.
fn over(whole: &Room, usable: &Room, here: &Placement, node: usize) -> (bool, bool) {
    let sum = here.sums[node];
    let held = within(whole, node, sum);
    (held && !memory_within(usable, node, sum), held && !cpu_within(usable, node, sum))
}

/// Whether some node is over at the start, in such a way.
fn starts_over(whole: &Room, usable: &Room, holds: impl Fn((bool, bool)) -> bool) -> bool {
    let start = Placement::current(whole);
    (0..whole.nodes.len()).any(|node| holds(over(whole, usable, &start, node)))
}

/// Whether an idle VM goes to a node that is over by CPU.
fn enters(whole: &Room, usable: &Room, here: &Placement, m: &Move) -> bool {
    usable.vms[m.vm].is_idle() && on_a_node(m.to) && over(whole, usable, here, m.to).1
}

// ---------------------------------------------------------------- check

/// An input of `check` at a reserve that is taken: what is seen of it, the room as the record has it,
/// and the number with no reserve.
struct Checked {
    seen: Seen,
    whole: Room,
    without: usize,
}

/// A node's sum, what is usable of it, and whether something is kept, all of memory or of CPU.
struct Load {
    sum: u64,
    usable: u64,
    kept: bool,
}

impl Load {
    fn is_over(&self) -> bool {
        self.sum > self.usable
    }

    /// Whether the sum is so much more than what is usable, where something is kept.
    fn is_by(&self, more: i64) -> bool {
        self.kept && self.sum as i64 - self.usable as i64 == more
    }
}

#[derive(Clone, Copy)]
enum Measure {
    Memory,
    Cpu,
}

impl Checked {
    fn load(&self, measure: Measure, node: usize, sum: Sum) -> Load {
        let (usable, whole) = (&self.seen.room.nodes[node], &self.whole.nodes[node]);
        let (sum, usable, whole) = match measure {
            Measure::Memory => (sum.memory, usable.memory, whole.memory),
            Measure::Cpu => (sum.cpu, usable.cpu, whole.cpu),
        };
        Load { sum, usable, kept: usable < whole }
    }

    /// Whether the arrivals of a step, those that are tested for this measure, make some node such.
    fn makes(
        &self,
        measure: Measure,
        at: &Placement,
        step: &Step,
        holds: fn(&Load) -> bool,
    ) -> bool {
        let tested =
            |m: &&Move| matches!(measure, Measure::Memory) || !self.whole.vms[m.vm].is_idle();
        let mut arrivals = step.iter().filter(tested).filter(|m| on_a_node(m.to));
        arrivals.any(|m| {
            let there = step.iter().filter(|other| other.to == m.to);
            let sum = there.fold(at.sums[m.to], |sum, m| sum.plus(&self.whole.vms[m.vm]));
            holds(&self.load(measure, m.to, sum))
        })
    }

    /// Whether the plan is accepted and some step makes some node such.
    fn accepted(&self, measure: Measure, holds: fn(&Load) -> bool) -> bool {
        let mut steps = self.seen.course.started();
        self.seen.number == 0 && steps.any(|(at, step)| self.makes(measure, at, step, holds))
    }

    /// Whether the step is refused with 17 and would make some node such.
    fn misfits(&self, measure: Measure, holds: fn(&Load) -> bool) -> bool {
        let Seen { number, fault, .. } = &self.seen;
        *number == 17 && self.makes(measure, self.seen.here(), fault, holds)
    }

    /// Whether the target does not fit only for the reserve, and makes some node such.
    fn target(&self, measure: Measure, holds: fn(&Load) -> bool) -> bool {
        let sums = Placement::target(&self.whole).sums;
        let mut loads = sums.iter().enumerate().map(|(node, &sum)| self.load(measure, node, sum));
        self.seen.number == 8 && self.without != 8 && loads.any(|load| holds(&load))
    }

    fn starts_over(&self, holds: fn((bool, bool)) -> bool) -> bool {
        self.seen.number == 0 && starts_over(&self.whole, &self.seen.room, holds)
    }

    /// Whether the plan is accepted and an idle VM goes to a node that is over by CPU.
    fn entered(&self) -> bool {
        let mut moves = self.seen.course.moves();
        self.seen.number == 0 && moves.any(|(at, m)| enters(&self.whole, &self.seen.room, at, m))
    }
}

const TOLD: [Told<Checked>; 25] = [
    ("8 by the reserve, memory", |c| c.target(Measure::Memory, Load::is_over)),
    ("8 by the reserve, CPU", |c| c.target(Measure::Cpu, Load::is_over)),
    ("8, memory one over usable", |c| c.target(Measure::Memory, |load| load.is_by(1))),
    ("8, CPU one over usable", |c| c.target(Measure::Cpu, |load| load.is_by(1))),
    ("17 by the reserve, memory", |c| c.without == 0 && c.misfits(Measure::Memory, Load::is_over)),
    ("17 by the reserve, CPU", |c| c.without == 0 && c.misfits(Measure::Cpu, Load::is_over)),
    ("17, memory one over usable", |c| c.misfits(Measure::Memory, |load| load.is_by(1))),
    ("17, CPU one over usable", |c| c.misfits(Measure::Cpu, |load| load.is_by(1))),
    ("accepted, memory just usable", |c| c.accepted(Measure::Memory, |load| load.is_by(0))),
    ("accepted, CPU just usable", |c| c.accepted(Measure::Cpu, |load| load.is_by(0))),
    ("accepted, memory one below", |c| c.accepted(Measure::Memory, |load| load.is_by(-1))),
    ("accepted, CPU one below", |c| c.accepted(Measure::Cpu, |load| load.is_by(-1))),
    ("accepted, over by memory", |c| c.starts_over(|(memory, _)| memory)),
    ("accepted, over by CPU", |c| c.starts_over(|(_, cpu)| cpu)),
    ("accepted, idle onto over", Checked::entered),
    ("reserve, second waited", |c| c.seen.waited(|_| true)),
    ("reserve, 33, first not home", |c| c.seen.by(Cause::NotHome)),
    ("reserve, 33, first comes home", |c| c.seen.by(Cause::ComesHome)),
    ("reserve, 33, first elsewhere", |c| c.seen.by(Cause::GoesElsewhere)),
    ("reserve, 33, first leaves", |c| c.seen.by(Cause::Leaves)),
    ("reserve, 33, second pivots", |c| c.seen.at(Does::Pivot)),
    ("reserve, 33, second launched", |c| c.seen.at(Does::Launch)),
    ("reserve, 33, second shut down", |c| c.seen.at(Does::Shutdown)),
    ("17 by the reserve before 33", |c| c.seen.number == 17 && c.without == 33),
    ("8 by the reserve before 33", |c| c.seen.number == 8 && c.without == 33),
];

const DAMAGES: [Told<Damaged>; 1] = [("reserve, 7, a bad before", Damaged::has_bad_before)];

// ---------------------------------------------------------------- build

/// What was built at a reserve, the room as the record has it, and what is built with no reserve.
struct Planned {
    made: Made,
    whole: Room,
    without: Option<Made>,
}

impl Planned {
    /// Whether with no reserve there is a plan, and it is such.
    fn else_planned(&self, holds: impl Fn(&Made) -> bool) -> bool {
        self.without.as_ref().is_some_and(|without| without.planned && holds(without))
    }

    fn starts_over(&self) -> bool {
        let either = |(memory, cpu)| memory || cpu;
        self.made.planned && starts_over(&self.whole, &self.made.room, either)
    }

    /// Whether it is a plan in which an idle VM goes to a node that is over by CPU.
    fn entered(&self) -> bool {
        let mut moves = self.made.course.moves();
        self.made.planned && moves.any(|(at, m)| enters(&self.whole, &self.made.room, at, m))
    }
}

const TOLD_BUILT: [Told<Planned>; 8] = [
    ("plan, other steps than at 0", |p| {
        p.made.planned && p.else_planned(|without| without.steps() != p.made.steps())
    }),
    ("plan, pivots by the reserve", |p| {
        p.made.planned && p.made.pivots() > 0 && p.else_planned(|without| without.pivots() == 0)
    }),
    ("plan, over", Planned::starts_over),
    ("plan, idle onto over", Planned::entered),
    ("blocked by the reserve", |p| !p.made.planned && p.else_planned(|_| true)),
    ("blocked late by the reserve", |p| {
        !p.made.planned && !p.made.steps().is_empty() && p.else_planned(|_| true)
    }),
    ("reserve, plan, second waits", |p| p.made.waits(|_, _| true)),
    ("reserve, blocked by waiting", |p| {
        !p.made.planned && p.made.without_befores().is_some_and(|without| without.planned)
    }),
];

// ---------------------------------------------------------------- counts

pub(crate) struct Reserves {
    checks: Counts,
    headers: Counts,
    builds: Counts,
    pairs: Table<Pair>,
    told: Table<Checked>,
    damages: Table<Damaged>,
    told_built: Table<Planned>,
    below: Row,
}

impl Default for Reserves {
    fn default() -> Reserves {
        Reserves {
            checks: Counts::default(),
            headers: Counts::default(),
            builds: Counts::default(),
            pairs: Table::of(&PAIRS),
            told: Table::of(&TOLD),
            damages: Table::of(&DAMAGES),
            told_built: Table::of(&TOLD_BUILT),
            below: Row::default(),
        }
    }
}

/// What is accepted at a reserve and was checked at a smaller one.
const BELOW: &str = "accepted, at a smaller one too";

impl Reserves {
    /// Counts an input of `check` by the model's verdict.
    pub(crate) fn count_check(
        &mut self,
        stream: Stream,
        reserve: u64,
        cluster: &[u8],
        plan: &[u8],
        verdict: u64,
    ) {
        let number = outcome(verdict);
        let without = outcome(model::pack_verdict(model::check(0, cluster, plan)));
        self.checks[number][stream as usize] += 1;
        self.pairs.count(stream, &Pair { built: false, reserve, outcome: number, without });
        if let Some(seen) = Seen::of(reserve, cluster, plan, verdict) {
            let whole = parse_cluster(cluster).expect("it was seen");
            self.told.count(stream, &Checked { seen, whole, without });
        }
        if let Some(damaged) = Damaged::of(cluster, verdict) {
            self.damages.count(stream, &damaged);
        }
    }

    /// Counts a plan of no steps by the model's verdict.
    pub(crate) fn count_headers(&mut self, stream: Stream, verdict: u64) {
        self.headers[outcome(verdict)][stream as usize] += 1;
    }

    /// Counts an input of `build` by what the model made of it, at its reserve and with none.
    pub(crate) fn count_build(
        &mut self,
        stream: Stream,
        reserve: u64,
        cluster: &[u8],
        built: &Built,
        without: &Built,
    ) {
        let (number, else_number) = (outcome(built.answer), outcome(without.answer));
        self.builds[number][stream as usize] += 1;
        let pair = Pair { built: true, reserve, outcome: number, without: else_number };
        self.pairs.count(stream, &pair);
        if let Some(made) = built.made(reserve, cluster) {
            let whole = parse_cluster(cluster).expect("something was built");
            let without = without.made(0, cluster);
            self.told_built.count(stream, &Planned { made, whole, without });
        }
    }

    /// What no generated input led to.
    pub(crate) fn missing(&self) -> Vec<String> {
        let wanted = |kinds: &'static [Kind]| kinds.iter().flat_map(|(_, numbers)| numbers.clone());
        let mut never = missing(&self.checks, "reserve, check", wanted(&CHECKED));
        never.extend(missing(&self.headers, "reserve, no steps", wanted(&HEADERS)));
        never.extend(missing(&self.builds, "reserve, build", wanted(&BUILT)));
        never.extend([self.pairs.missing(), self.told.missing()].concat());
        never.extend(self.damages.missing());
        never.extend(self.told_built.missing());
        never.extend(never_generated(&self.below).then(|| BELOW.to_string()));
        never
    }

    pub(crate) fn print(&self) {
        print_kinds("reserve, check", &CHECKED, &self.checks);
        print_kinds("reserve, no steps", &HEADERS, &self.headers);
        print_kinds("reserve, build", &BUILT, &self.builds);
        self.pairs.print();
        self.told.print();
        self.damages.print();
        print_row(BELOW, self.below);
        self.told_built.print();
    }
}

impl Report {
    /// What is accepted at a reserve must be accepted, at the same cost, at a smaller one.
    pub(crate) fn check_below(
        &mut self,
        stream: Stream,
        reserve: u64,
        cluster: &[u8],
        plan: &[u8],
        accepted: u64,
    ) {
        let less = Rng::new(self.passed + self.failed).below(reserve as usize) as u64;
        self.reserves.below[stream as usize] += 1;
        let result = check(less, cluster, plan);
        if self.judge(result == accepted) {
            println!("what is accepted at reserve {reserve} is another at {less}");
            println!("cluster {}\nplan {}", hex(cluster), hex(plan));
            println!("at {reserve} {}", verdict_words(accepted));
            println!("at {less} {}", verdict_words(result));
        }
    }
}

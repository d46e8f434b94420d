//! Compares the library with the model, input by input, and keeps count of the outcomes.
use crate::befores::Befores;
use crate::builds::Builds;
use crate::damaged::Damaged;
use crate::empties::Empties;
use crate::idle::Idle;
use crate::nowhere::Nowhere;
use crate::reserves::Reserves;
use crate::seen::Seen;
use crate::sources::Sources;
use crate::splits::Splits;
use crate::stops::Stops;
use crate::{check, check_lent, Lent};
use kobdrieft_model as model;
use kobdrieft_model::gen::Origin;
use std::fmt::Display;
use std::ops::{Deref, DerefMut, RangeInclusive};

/// Where an input comes from.
#[derive(Clone, Copy)]
pub enum Stream {
    HandSet,
    Generated,
    Puzzles,
    Large,
}

/// How often something came, by stream.
pub(crate) type Row = [u64; 4];

/// How often each outcome came, by stream. Outcome 0 is accepted or plan, the others are refusals.
pub(crate) struct Counts([Row; BLOCKED + 1]);

impl Default for Counts {
    fn default() -> Counts {
        Counts([Row::default(); BLOCKED + 1])
    }
}

impl Deref for Counts {
    type Target = [Row];

    fn deref(&self) -> &[Row] {
        &self.0
    }
}

impl DerefMut for Counts {
    fn deref_mut(&mut self) -> &mut [Row] {
        &mut self.0
    }
}

/// The outcome behind all numbers.
pub(crate) const BLOCKED: usize = 34;

#[derive(Default)]
pub struct Report {
    pub passed: u64,
    pub failed: u64,
    checks: Counts,
    sources: Sources,
    nowhere: Nowhere,
    pub(crate) idle: Idle,
    pub(crate) befores: Befores,
    pub(crate) empties: Empties,
    pub(crate) builds: Builds,
    pub(crate) reserves: Reserves,
    pub(crate) stops: Stops,
    pub(crate) splits: Splits,
}

impl Report {
    /// Compares `check` on one input, lent between guards and then as it is. What is accepted at a
    /// reserve is checked at a smaller one too.
    pub fn check(
        &mut self,
        stream: Stream,
        reserve: u64,
        cluster: &[u8],
        plan: &[u8],
        origin: Option<Origin>,
    ) {
        let expected = model::pack_verdict(model::check(reserve, cluster, plan));
        match reserve {
            0 => self.count_check(stream, cluster, plan, expected, origin),
            _ => self.reserves.count_check(stream, reserve, cluster, plan, expected),
        }
        let (mut result, kept) = check_watched(reserve, cluster, plan);
        if kept && result == expected {
            result = check(reserve, cluster, plan);
        }
        if self.judge(kept && result == expected) {
            println!("check differs{}", if kept { "" } else { STRAY });
            println!("reserve {reserve}\ncluster {}\nplan {}", hex(cluster), hex(plan));
            println!("library {}", verdict_words(result));
            println!("model   {}", verdict_words(expected));
        }
        if reserve > 0 && outcome(expected) == 0 {
            self.check_below(stream, reserve, cluster, plan, expected);
        }
    }

    /// Counts an input of `check` with no reserve.
    fn count_check(
        &mut self,
        stream: Stream,
        cluster: &[u8],
        plan: &[u8],
        expected: u64,
        origin: Option<Origin>,
    ) {
        self.checks[outcome(expected)][stream as usize] += 1;
        self.sources.count(stream, cluster, plan, expected, origin);
        let seen = Seen::of(0, cluster, plan, expected);
        self.nowhere.count(stream, cluster, expected, seen.as_ref());
        if let Some(seen) = seen {
            self.idle.checked.count(stream, &seen);
            self.befores.checked.count(stream, &seen);
        }
        if let Some(damaged) = Damaged::of(cluster, expected) {
            self.nowhere.damages.count(stream, &damaged);
            self.befores.damages.count(stream, &damaged);
        }
        if plan.is_empty() {
            self.empties.count_file(stream, expected);
        }
    }

    /// Counts an input; whether it is the first that failed.
    pub(crate) fn judge(&mut self, good: bool) -> bool {
        if good {
            self.passed += 1;
        } else {
            self.failed += 1;
        }
        !good && self.failed == 1
    }

    /// Fails once for each outcome that the generated inputs never had.
    pub fn expect_every_outcome(&mut self) {
        let checks = missing(&self.checks, "check", (0..=9).chain(11..=19).chain([27, 33]));
        let (sources, empties) = (self.sources.missing(), self.empties.missing());
        let (nowhere, builds) = (self.nowhere.missing(), self.builds.missing());
        let (idle, befores) = (self.idle.missing(), self.befores.missing());
        let lists = [checks, sources, nowhere, empties, builds, idle, befores];
        let (reserves, stops) = (self.reserves.missing(), self.stops.missing());
        let later = [reserves, stops, self.splits.missing()].concat();
        for name in lists.concat().into_iter().chain(later) {
            println!("never generated: {name}");
            self.failed += 1;
        }
    }

    /// The summary: outcomes by stream, then the line of totals.
    pub fn print(&self) {
        print_row("outcome", ["hand-set", "generated", "puzzles", "large"]);
        print_counts("check", &self.checks);
        self.sources.print();
        self.nowhere.print();
        self.empties.print();
        self.builds.print();
        self.idle.print();
        self.befores.print();
        self.reserves.print();
        self.stops.print();
        self.splits.print();
        self.sources.print_origins();
        println!("{} passed, {} failed", self.passed, self.failed);
    }
}

/// What a failure adds where lent or guard bytes changed.
pub(crate) const STRAY: &str = ": bytes written that are not the call's to write";

/// The library's verdict on bytes between guards, and whether all those bytes stayed.
pub(crate) fn check_watched(reserve: u64, cluster: &[u8], plan: &[u8]) -> (u64, bool) {
    let (mut cluster, mut plan) = (Lent::of(cluster), Lent::of(plan));
    let verdict = check_lent(reserve, &mut cluster, &mut plan);
    (verdict, cluster.untouched() && plan.untouched())
}

/// The bits of a cost.
pub(crate) const COST: u64 = (1 << 44) - 1;

/// The outcome of the model's packed result.
pub(crate) fn outcome(packed: u64) -> usize {
    match packed >> 62 {
        0 => 0,
        1 => BLOCKED,
        _ => usize::from((packed >> 16) as u8),
    }
}

/// Whether only hand-set inputs led to something, if any did.
pub(crate) fn never_generated(row: &Row) -> bool {
    row.iter().sum::<u64>() == row[Stream::HandSet as usize]
}

/// The outcomes among these that only hand-set inputs had, if any.
pub(crate) fn missing(
    counts: &Counts,
    call: &str,
    wanted: impl Iterator<Item = usize>,
) -> Vec<String> {
    let never = |&i: &usize| never_generated(&counts[i]);
    wanted.filter(never).map(|i| format!("{call} {}", outcome_name(call, i))).collect()
}

fn outcome_name(call: &str, outcome: usize) -> String {
    match (outcome, call) {
        (0, "build") => "plan".to_string(),
        (0, "stop" | "split") => "done".to_string(),
        (0, _) => "accepted".to_string(),
        (BLOCKED, _) => "blocked".to_string(),
        _ => outcome.to_string(),
    }
}

pub(crate) fn print_counts(call: &str, counts: &Counts) {
    for (i, row) in counts.iter().enumerate() {
        if row.iter().sum::<u64>() > 0 {
            print_row(
                &format!("{call} {}", outcome_name(call, i)),
                row.map(|count| count.to_string()),
            );
        }
    }
}

/// Outcomes that are counted together, under a name.
pub(crate) type Kind = (&'static str, RangeInclusive<usize>);

pub(crate) fn print_kinds(name: &str, kinds: &[Kind], counts: &Counts) {
    for (kind, outcomes) in kinds {
        let by_stream = [0, 1, 2, 3].map(|stream| {
            let counts = counts[outcomes.clone()].iter().map(|row| row[stream]);
            counts.sum::<u64>()
        });
        print_row(&format!("{name} {kind}"), by_stream);
    }
}

pub(crate) fn print_row<T: Display>(name: &str, columns: [T; 4]) {
    let [first, second, third, fourth] = columns;
    println!("{name:<30}{first:>10}{second:>12}{third:>10}{fourth:>10}");
}

pub(crate) fn hex(bytes: &[u8]) -> String {
    bytes.iter().map(|b| format!("{b:02x}")).collect()
}

pub(crate) fn verdict_words(packed: u64) -> String {
    match packed >> 62 {
        0 => format!("{packed:#018x} accepted, cost {}", packed & COST),
        2 => format!("{packed:#018x} refused {}, step {}", packed >> 16 & 255, packed & 65_535),
        _ => format!("{packed:#018x} no verdict"),
    }
}

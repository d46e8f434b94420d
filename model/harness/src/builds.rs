//! Compares the library's planner with the model's, and has the library check what it built.

use crate::launches::Launches;
use crate::report::{hex, missing, outcome, print_counts, verdict_words};
use crate::report::{Counts, Report, Stream, BLOCKED, COST, STRAY};
use crate::seen::Made;
use crate::{build, build_lent, check, Lent};
use kobdrieft_model::gen::Rng;
use kobdrieft_model::planner::BUFFER;
use kobdrieft_model::rules::usable_room;
use kobdrieft_model::{self as model, bare, parse_cluster, parse_plan, plan_bytes};

/// The outcomes of `build`, and what the plans of generated inputs were like.
#[derive(Default)]
pub(crate) struct Builds {
    outcomes: Counts,
    launches: Launches,
    pivoted: u64,
    most_pivots: usize,
    most_steps: usize,
    blocked_late: u64,
}

impl Builds {
    /// Counts an answer; what was built, unless it is a refusal.
    fn count(&mut self, stream: Stream, cluster: &[u8], built: &Built) -> Option<Made> {
        let outcome = outcome(built.answer);
        self.outcomes[outcome][stream as usize] += 1;
        if outcome != 1 && cluster[0] == 2 {
            self.launches.count(stream, outcome);
        }
        let made = built.made(0, cluster)?;
        self.launches.tell(stream, &made);
        if !matches!(stream, Stream::HandSet) {
            let pivots = made.pivots();
            self.most_pivots = self.most_pivots.max(pivots);
            self.most_steps = self.most_steps.max(built.steps());
            self.pivoted += u64::from(outcome == 0 && pivots > 0);
            self.blocked_late += u64::from(outcome == BLOCKED && built.steps() > 0);
        }
        Some(made)
    }

    /// What no generated input led to.
    pub(crate) fn missing(&self) -> Vec<String> {
        let mut missing = missing(&self.outcomes, "build", (0..=10).chain([BLOCKED]));
        let more = [(self.pivoted, "a plan with a pivot"), (self.blocked_late, "blocked late")];
        missing
            .extend(more.iter().filter(|(count, _)| *count == 0).map(|(_, name)| name.to_string()));
        missing.extend(self.launches.missing());
        missing
    }

    pub(crate) fn print(&self) {
        print_counts("build", &self.outcomes);
        self.launches.print();
        println!("generated plans with a pivot: {}", self.pivoted);
        println!("generated answers blocked after some step: {}", self.blocked_late);
        println!("most steps in one: {}; most pivots: {}", self.most_steps, self.most_pivots);
    }
}

/// The buffer's length for the next comparison. Every length below the least one that is taken
/// comes in turn, then that one, and longer ones.
pub fn buffer_length(turn: usize) -> usize {
    match turn % 16 {
        0 => turn / 16 % BUFFER,
        1 => BUFFER - 1,
        2..=4 => BUFFER + 1 + turn / 16 % 3_000,
        _ => BUFFER,
    }
}

impl Report {
    /// Compares `build` with a buffer of this length and random bytes in it; all of the buffer
    /// counts. Then the library checks what it wrote.
    pub fn build(&mut self, stream: Stream, reserve: u64, cluster: &[u8], buffer: usize) {
        let mut rng = Rng::new(self.passed + self.failed);
        let before: Vec<u8> = (0..buffer).map(|_| rng.draw() as u8).collect();
        let by_model = |reserve| {
            built_by(&before, |out| model::pack_answer(model::build(reserve, cluster, out)))
        };
        let expected = by_model(reserve);
        if reserve > 0 {
            self.reserves.count_build(stream, reserve, cluster, &expected, &by_model(0));
        } else if let Some(made) = self.builds.count(stream, cluster, &expected) {
            self.idle.built.count(stream, &made);
            self.befores.count_built(stream, made);
        }
        let (mut result, kept) = built_watched(reserve, cluster, &before);
        if kept && result == expected {
            result = built_by(&before, |out| build(reserve, cluster, out));
        }
        if self.judge(kept && result == expected) {
            println!("build differs{}", if kept { "" } else { STRAY });
            println!("reserve {reserve}\ncluster {}", hex(cluster));
            println!("buffer before {}", hex(&before));
            println!("library {}\n{}", answer_words(result.answer), hex(&result.out));
            println!("model   {}\n{}", answer_words(expected.answer), hex(&expected.out));
        }
        if !result.is_refused() {
            self.check_built(reserve, cluster, &result);
        }
    }

    /// The library's own checker must take the plan it built at its cost, and refuse the steps
    /// of blocked with 19; and the same steps without their sources.
    pub(crate) fn check_built(&mut self, reserve: u64, cluster: &[u8], built: &Built) {
        let expected =
            if built.answer >> 62 == 0 { built.answer & COST } else { 2 << 62 | 19 << 16 };
        let without = parse_plan(built.record()).map(|plan| plan_bytes(&bare(&plan.steps)));
        for record in [Some(built.record()), without.ok().as_deref()].into_iter().flatten() {
            let result = check(reserve, cluster, record);
            if self.judge(result == expected) {
                println!("check of a built plan differs, answer {}", answer_words(built.answer));
                println!("reserve {reserve}\ncluster {}\nplan {}", hex(cluster), hex(record));
                println!("library {}", verdict_words(result));
                println!("wanted  {}", verdict_words(expected));
            }
        }
    }
}

/// An answer, and the buffer after the call.
#[derive(PartialEq)]
pub(crate) struct Built {
    pub(crate) answer: u64,
    out: Vec<u8>,
}

impl Built {
    pub(crate) fn is_refused(&self) -> bool {
        self.answer >> 62 == 2
    }

    pub(crate) fn steps(&self) -> usize {
        (self.answer >> 53 & 511) as usize
    }

    /// What the model built for a cluster at a reserve, unless it is a refusal.
    pub(crate) fn made(&self, reserve: u64, cluster: &[u8]) -> Option<Made> {
        if self.is_refused() {
            return None;
        }
        let room = usable_room(reserve, &parse_cluster(cluster).expect("the model took it"));
        let steps = parse_plan(self.record()).expect("the model wrote it").steps;
        Some(Made::of(self.answer >> 62 == 0, room, steps))
    }

    /// The record at the buffer's front, by the length that it states.
    fn record(&self) -> &[u8] {
        let stated = self.out.iter().skip(1).take(4).fold(0, |n, &b| n * 256 + usize::from(b));
        &self.out[..stated.min(self.out.len())]
    }
}

pub(crate) fn built_by(before: &[u8], planner: impl Fn(&mut [u8]) -> u64) -> Built {
    let mut out = before.to_vec();
    let answer = planner(&mut out);
    Built { answer, out }
}

/// What the library builds between guards; and whether the cluster and the guards stayed.
fn built_watched(reserve: u64, cluster: &[u8], before: &[u8]) -> (Built, bool) {
    let (mut lent, mut out) = (Lent::of(cluster), Lent::of(before));
    let answer = build_lent(reserve, &mut lent, &mut out);
    let kept = lent.untouched() && out.guarded();
    (Built { answer, out: out.now().to_vec() }, kept)
}

pub(crate) fn answer_words(packed: u64) -> String {
    let (steps, moves) = (packed >> 53 & 511, packed >> 44 & 511);
    let counts = format!("{steps} steps, {moves} moves, cost {}", packed & COST);
    match packed >> 62 {
        0 => format!("{packed:#018x} plan, {counts}"),
        1 => format!("{packed:#018x} blocked, {counts}"),
        _ => verdict_words(packed),
    }
}

//! Compares the library's stops with the model's, and has the library plan for the record it wrote.

use crate::builds::{answer_words, built_by};
use crate::report::{hex, missing, outcome, print_counts, verdict_words};
use crate::report::{Counts, Report, Stream, STRAY};
use crate::seen::Seen;
use crate::stopped::{Again, Stopped, AGAIN, AS_CHECKED, DONE, REFUSED};
use crate::told::Table;
use crate::{build, stop, stop_lent, Lent};
use kobdrieft_model::gen::Rng;
use kobdrieft_model::planner::BUFFER;
use kobdrieft_model::stops::Ask;
use kobdrieft_model::{self as model, pack_stop};

/// The outcomes of `stop`, with and without a reserve, and what there is to tell of them.
pub(crate) struct Stops {
    outcomes: Counts,
    told: [Table<Stopped>; 3],
    again: Table<Again>,
}

impl Default for Stops {
    fn default() -> Stops {
        Stops {
            outcomes: Counts::default(),
            told: [Table::of(&REFUSED), Table::of(&AS_CHECKED), Table::of(&DONE)],
            again: Table::of(&AGAIN),
        }
    }
}

impl Stops {
    /// What no generated input led to.
    pub(crate) fn missing(&self) -> Vec<String> {
        let numbers = (0..=9).chain(11..=23).chain([27, 33]);
        let told = self.told.iter().flat_map(Table::missing);
        let outcomes = missing(&self.outcomes, "stop", numbers);
        outcomes.into_iter().chain(told).chain(self.again.missing()).collect()
    }

    pub(crate) fn print(&self) {
        print_counts("stop", &self.outcomes);
        self.told.iter().for_each(Table::print);
        self.again.print();
    }
}

/// A stop that is compared: all that is lent but the buffer.
#[derive(Clone, Copy)]
pub struct Lending<'a> {
    pub reserve: u64,
    pub cluster: &'a [u8],
    pub plan: &'a [u8],
    pub ask: &'a Ask,
}

/// A packed answer, and the buffer after the call.
#[derive(PartialEq)]
struct After {
    answer: u64,
    out: Vec<u8>,
}

impl Report {
    /// Compares `stop` with random bytes in its buffer, all of which count; lent between guards and then
    /// as it is. What was written is planned for once more.
    pub fn stop(&mut self, stream: Stream, lending: Lending) {
        let Lending { reserve, cluster, plan, ask } = lending;
        let mut rng = Rng::new(self.passed + self.failed);
        let before: Vec<u8> = (0..ask.buffer).map(|_| rng.draw() as u8).collect();
        let expected = by_model(lending, &before);
        self.count_stop(stream, lending, expected.answer);
        let (mut result, kept) = watched(lending, &before);
        if kept && result == expected {
            result = by_library(lending, &before);
        }
        if self.judge(kept && result == expected) {
            println!("stop differs{}", if kept { "" } else { STRAY });
            println!("reserve {reserve}\ncluster {}\nplan {}", hex(cluster), hex(plan));
            println!("step {}\nmarks {}", ask.step, hex(&ask.marks));
            println!("buffer before {}", hex(&before));
            println!("library {}\n{}", stop_words(result.answer), hex(&result.out));
            println!("model   {}\n{}", stop_words(expected.answer), hex(&expected.out));
        }
        if outcome(result.answer) == 0 {
            self.plan_again(stream, reserve, &result);
        }
    }

    fn count_stop(&mut self, stream: Stream, lending: Lending, answer: u64) {
        let Lending { reserve, cluster, plan, ask } = lending;
        let number = outcome(answer);
        self.stops.outcomes[number][stream as usize] += 1;
        // The plan by itself: accepted, or refused with what the stop is refused with.
        let verdict = if matches!(number, 0 | 20..=22) { 0 } else { answer };
        if let Some(seen) = Seen::of(reserve, cluster, plan, verdict) {
            let (length, no_bytes) = (cluster.len(), plan.is_empty());
            let stopped = Stopped { reserve, length, no_bytes, ask: ask.clone(), number, seen };
            self.stops.told.iter_mut().for_each(|table| table.count(stream, &stopped));
        }
    }

    /// The library's own planner must take the record that was written, at the same reserve, and its
    /// checker what comes of that.
    fn plan_again(&mut self, stream: Stream, reserve: u64, after: &After) {
        let length = after.out.len().min(after.answer as usize);
        let record = &after.out[..length];
        let built = built_by(&[0; BUFFER], |out| build(reserve, record, out));
        if self.judge(!built.is_refused()) {
            println!("build refuses what stop wrote");
            println!("reserve {reserve}\ncluster {}", hex(record));
            println!("library {}", answer_words(built.answer));
        }
        if !built.is_refused() {
            let (outcome, steps) = (outcome(built.answer), built.steps());
            self.stops.again.count(stream, &Again { outcome, steps, reserve });
            self.check_built(reserve, record, &built);
        }
    }
}

fn by_model(lending: Lending, before: &[u8]) -> After {
    let Lending { reserve, cluster, plan, ask } = lending;
    let mut out = before.to_vec();
    let stop = model::stop(reserve, cluster, plan, ask.step, &ask.marks, &mut out);
    After { answer: pack_stop(stop), out }
}

fn by_library(lending: Lending, before: &[u8]) -> After {
    let Lending { reserve, cluster, plan, ask } = lending;
    let mut out = before.to_vec();
    let answer = stop(reserve, cluster, plan, ask.step, &ask.marks, &mut out);
    After { answer, out }
}

/// What the library makes of bytes between guards; and whether all that it may not write stayed.
fn watched(lending: Lending, before: &[u8]) -> (After, bool) {
    let Lending { reserve, cluster, plan, ask } = lending;
    let (mut cluster, mut plan) = (Lent::of(cluster), Lent::of(plan));
    let (mut marks, mut out) = (Lent::of(&ask.marks), Lent::of(before));
    let answer = stop_lent(reserve, &mut cluster, &mut plan, ask.step, &mut marks, &mut out);
    let kept = [&cluster, &plan, &marks].iter().all(|lent| lent.untouched()) && out.guarded();
    (After { answer, out: out.now().to_vec() }, kept)
}

fn stop_words(packed: u64) -> String {
    match packed >> 62 {
        0 => format!("{packed:#018x} stopped, length {packed}"),
        _ => verdict_words(packed),
    }
}

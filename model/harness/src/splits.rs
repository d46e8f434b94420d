//! Compares the library's splits with the model's, and has the library check the plan it wrote and other
//! divisions of the one it was given.

use crate::divided::{Divided, DONE, OTHERS, REFUSED};
use crate::report::{hex, missing, outcome, print_counts, verdict_words};
use crate::report::{Counts, Report, Stream, COST, STRAY};
use crate::seen::Seen;
use crate::told::Table;
use crate::{check, split, split_lent, Lent};
use kobdrieft_model::gen::Rng;
use kobdrieft_model::pack::unpack_split;
use kobdrieft_model::rules::plan_cost;
use kobdrieft_model::splits::division;
use kobdrieft_model::{self as model, pack_split, parse_plan, plan_bytes, Plan, Split};

/// How many other divisions of a plan are checked.
const DIVISIONS: usize = 2;

/// The outcomes of `split`, with and without a reserve, and what there is to tell of them and of other
/// divisions.
pub(crate) struct Splits {
    outcomes: Counts,
    told: [Table<Divided>; 2],
    others: Table<Divided>,
}

impl Default for Splits {
    fn default() -> Splits {
        Splits {
            outcomes: Counts::default(),
            told: [Table::of(&REFUSED), Table::of(&DONE)],
            others: Table::of(&OTHERS),
        }
    }
}

impl Splits {
    /// What no generated input led to.
    pub(crate) fn missing(&self) -> Vec<String> {
        let numbers = (0..=19).chain([23, 27, 33]);
        let told = self.told.iter().flat_map(Table::missing);
        let outcomes = missing(&self.outcomes, "split", numbers);
        outcomes.into_iter().chain(told).chain(self.others.missing()).collect()
    }

    pub(crate) fn print(&self) {
        print_counts("split", &self.outcomes);
        self.told.iter().for_each(Table::print);
        self.others.print();
    }
}

/// A split that is compared: all that is lent, of the buffer its length.
#[derive(Clone, Copy)]
pub struct Splitting<'a> {
    pub reserve: u64,
    pub cluster: &'a [u8],
    pub plan: &'a [u8],
    pub buffer: usize,
}

/// A packed answer, and the buffer after the call.
#[derive(PartialEq)]
struct After {
    answer: u64,
    out: Vec<u8>,
}

impl After {
    /// The record at the buffer's front, by the length that it states.
    fn record(&self) -> &[u8] {
        let stated = self.out.iter().skip(1).take(4).fold(0, |n, &b| n * 256 + usize::from(b));
        &self.out[..stated.min(self.out.len())]
    }
}

impl Report {
    /// Compares `split` with random bytes in its buffer, all of which count; lent between guards and then
    /// as it is. What was written is checked, and so are other divisions of a plan that is accepted.
    pub fn split(&mut self, stream: Stream, splitting: Splitting, rng: &mut Rng) {
        let Splitting { reserve, cluster, plan, buffer } = splitting;
        let before: Vec<u8> = (0..buffer).map(|_| rng.draw() as u8).collect();
        let expected = by_model(splitting, &before);
        let (mut result, kept) = watched(splitting, &before);
        if kept && result == expected {
            result = by_library(splitting, &before);
        }
        if self.judge(kept && result == expected) {
            println!("split differs{}", if kept { "" } else { STRAY });
            println!("reserve {reserve}\ncluster {}\nplan {}", hex(cluster), hex(plan));
            println!("buffer before {}", hex(&before));
            println!("library {}\n{}", split_words(result.answer), hex(&result.out));
            println!("model   {}\n{}", split_words(expected.answer), hex(&expected.out));
        }
        let undivided = check(reserve, cluster, plan);
        if outcome(result.answer) == 0 {
            self.check_divided(splitting, &result, undivided);
        }
        self.splits.outcomes[outcome(expected.answer)][stream as usize] += 1;
        let Some(mut divided) = seen(splitting, expected.answer) else { return };
        divided.dearer = divided.number == 0 && expected.answer & COST > undivided;
        self.splits.told.iter_mut().for_each(|table| table.count(stream, &divided));
        if divided.seen.number == 0 && !divided.seen.plan.steps.is_empty() {
            for _ in 0..DIVISIONS {
                self.divide(stream, splitting, &mut divided, undivided, rng);
            }
        }
    }

    /// The library's own checker must accept the plan that was written, at the cost that was given, which
    /// is not below that of the plan; and the record has the steps that were given.
    fn check_divided(&mut self, splitting: Splitting, after: &After, undivided: u64) {
        let Splitting { reserve, cluster, plan, .. } = splitting;
        let record = after.record();
        let verdict = check(reserve, cluster, record);
        let steps = parse_plan(record).map_or(usize::MAX, |plan| plan.steps.len());
        let same = match unpack_split(after.answer) {
            Some(Split::Done { steps: given, cost }) => {
                verdict == cost && steps == usize::from(given) && !record.is_empty()
            }
            _ => false,
        };
        if self.judge(same && undivided >> 62 == 0 && verdict >= undivided) {
            println!("check of a divided plan differs, answer {}", split_words(after.answer));
            println!("reserve {reserve}\ncluster {}", hex(cluster));
            println!("plan    {}\n{}", hex(plan), verdict_words(undivided));
            println!("divided {}\n{}", hex(record), verdict_words(verdict));
        }
    }

    /// The library's checker must accept some other division of a plan that the model accepts, at the cost
    /// that the model gives it, which is not below that of the plan.
    fn divide(
        &mut self,
        stream: Stream,
        splitting: Splitting,
        divided: &mut Divided,
        undivided: u64,
        rng: &mut Rng,
    ) {
        let Splitting { reserve, cluster, plan, .. } = splitting;
        let Plan { version, ref steps } = divided.seen.plan;
        let pieces = division(rng, steps);
        let record = plan_bytes(&Plan { version, steps: pieces.clone() });
        let verdict = check(reserve, cluster, &record);
        let cost = plan_cost(&divided.seen.room, &pieces);
        let good = verdict == cost && undivided >> 62 == 0 && verdict >= undivided;
        if self.judge(good) {
            println!("check of another division differs, wanted {}", verdict_words(cost));
            println!("reserve {reserve}\ncluster {}", hex(cluster));
            println!("plan     {}\n{}", hex(plan), verdict_words(undivided));
            println!("division {}\n{}", hex(&record), verdict_words(verdict));
        }
        if good {
            (divided.pieces, divided.dearer) = (pieces, verdict > undivided);
            self.splits.others.count(stream, divided);
        }
    }
}

/// A split as the tables see it, unless its reserve is too high or its cluster cannot be read.
fn seen(splitting: Splitting, answer: u64) -> Option<Divided> {
    let Splitting { reserve, cluster, plan, buffer } = splitting;
    let number = outcome(answer);
    // The plan by itself: accepted, or refused with what the split is refused with. 14 is the checker's
    // if the record is damaged.
    let accepted = matches!(number, 0 | 10) || (number == 14 && parse_plan(plan).is_ok());
    let verdict = if accepted { 0 } else { answer };
    let seen = Seen::of(reserve, cluster, plan, verdict)?;
    Some(Divided::of(reserve, buffer, plan.is_empty(), number, seen))
}

fn by_model(splitting: Splitting, before: &[u8]) -> After {
    let Splitting { reserve, cluster, plan, .. } = splitting;
    let mut out = before.to_vec();
    let answer = pack_split(model::split(reserve, cluster, plan, &mut out));
    After { answer, out }
}

fn by_library(splitting: Splitting, before: &[u8]) -> After {
    let Splitting { reserve, cluster, plan, .. } = splitting;
    let mut out = before.to_vec();
    let answer = split(reserve, cluster, plan, &mut out);
    After { answer, out }
}

/// What the library makes of bytes between guards; and whether all that it may not write stayed.
fn watched(splitting: Splitting, before: &[u8]) -> (After, bool) {
    let Splitting { reserve, cluster, plan, .. } = splitting;
    let (mut cluster, mut plan, mut out) = (Lent::of(cluster), Lent::of(plan), Lent::of(before));
    let answer = split_lent(reserve, &mut cluster, &mut plan, &mut out);
    let kept = cluster.untouched() && plan.untouched() && out.guarded();
    (After { answer, out: out.now().to_vec() }, kept)
}

fn split_words(packed: u64) -> String {
    match unpack_split(packed) {
        Some(Split::Done { steps, cost }) => {
            format!("{packed:#018x} divided, {steps} steps, cost {cost}")
        }
        Some(_) => verdict_words(packed),
        None => format!("{packed:#018x} no answer"),
    }
}

//! Words that several tests use. Not each of them uses all.
#![allow(dead_code)]

use kobdrieft_model::edges::steps;
use kobdrieft_model::gen::Case;
use kobdrieft_model::planner::make_steps;
use kobdrieft_model::rules::accepted_cluster;
use kobdrieft_model::*;
use std::collections::BTreeMap;

/// The place of a VM on no node.
pub const DOWN: usize = 255;

/// Steps as rows of VM and destination.
pub type Rows<'a> = &'a [&'a [(usize, usize)]];

/// Bytes from hexadecimal with blanks between.
pub fn hex(text: &str) -> Vec<u8> {
    let digits: Vec<u8> = text.chars().filter_map(|c| c.to_digit(16)).map(|d| d as u8).collect();
    digits.chunks(2).map(|pair| pair[0] * 16 + pair[1]).collect()
}

pub fn refused(number: u8, step: u16) -> Verdict {
    Verdict::Refused { number, step }
}

pub fn accepted(cost: u64) -> Verdict {
    Verdict::Accepted { cost }
}

/// One more than the highest number of a refusal.
pub const NUMBERS: usize = 34;

/// Whether the checker gives this number with no reserve, or accepted if it is 0.
pub fn is_given(number: usize) -> bool {
    matches!(number, 0..=9 | 11..=19 | 27 | 33)
}

/// The number of a refusal, or 0 for accepted.
pub fn number_of(verdict: Verdict) -> usize {
    match verdict {
        Verdict::Accepted { .. } => 0,
        Verdict::Refused { number, .. } => usize::from(number),
    }
}

/// The one verdict on steps in both versions, with the right sources named in version 2.
pub fn checked(room: &Room, plan: Rows) -> Verdict {
    checked_at(0, room, plan)
}

/// The same at a reserve.
pub fn checked_at(reserve: u64, room: &Room, plan: Rows) -> Verdict {
    steps_checked_at(reserve, room, &steps(plan))
}

/// The same of steps.
pub fn steps_checked_at(reserve: u64, room: &Room, steps: &[Step]) -> Verdict {
    let cluster = cluster_bytes(room);
    let verdict = check(reserve, &cluster, &plan_bytes(&bare(steps)));
    assert_eq!(check(reserve, &cluster, &plan_bytes(&named(room, steps))), verdict);
    verdict
}

/// The planner's steps for a room that is accepted, which the checker takes, or refuses with 19.
pub fn steps_for(room: &Room) -> (Vec<Step>, bool) {
    steps_at(0, room)
}

/// The same at a reserve.
pub fn steps_at(reserve: u64, room: &Room) -> (Vec<Step>, bool) {
    let usable = accepted_cluster(reserve, &cluster_bytes(room)).expect("an accepted cluster");
    let (steps, all_home) = make_steps(&usable);
    match steps_checked_at(reserve, room, &steps) {
        Verdict::Accepted { .. } => assert!(all_home),
        verdict => assert_eq!((verdict, all_home), (refused(19, 0), false)),
    }
    (steps, all_home)
}

/// A case's room, and its plan in each version with the right sources; `None` if a record is damaged.
pub fn in_both_versions(case: &Case) -> Option<(Room, [Vec<u8>; 2])> {
    let (room, plan) = (parse_cluster(&case.cluster).ok()?, parse_plan(&case.plan).ok()?);
    let one = bare(&plan.steps);
    let two = plan_bytes(&named(&room, &one.steps));
    Some((room, [plan_bytes(&one), two]))
}

/// Every number that the checker gives, at a reserve too, was found.
pub fn all_of_the_checker(numbers: &[usize; NUMBERS]) {
    let mut wanted = (1..=9).chain(11..=19).chain([23, 27, 33]);
    assert!(wanted.all(|number| numbers[number] > 0), "{numbers:?}");
}

/// How often something was so.
#[derive(Default)]
pub struct Seen(BTreeMap<&'static str, usize>);

impl Seen {
    pub fn note(&mut self, name: &'static str, holds: bool) {
        *self.0.entry(name).or_default() += usize::from(holds);
    }

    /// Each was so more than 100 times.
    pub fn all_often(&self) {
        println!("{:#?}", self.0);
        assert!(self.0.values().all(|&count| count > 100));
    }
}

/// What must be on a page.
pub fn has(page: &str, all: &[&str]) {
    for words in all {
        assert!(page.contains(words), "{words}");
    }
}

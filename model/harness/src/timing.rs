//! Times of calls: medians over rounds in which the sides take turns.

use std::hint::black_box;
use std::time::{Duration, Instant};

/// Rounds for each input.
const ROUNDS: usize = 21;

/// Rounds where a call takes longer than a round should.
const FEW_ROUNDS: usize = 3;

/// How long one side's round is to take.
const ROUND: Duration = Duration::from_millis(10);

/// A call that takes longer is made once.
const SLOW: Duration = Duration::from_secs(2);

/// The time of one side.
#[derive(Clone, Copy)]
pub struct Time {
    /// Nanoseconds a call.
    pub nanos: f64,
    /// Whether it is of one call alone, and no median.
    pub once: bool,
}

/// One side: the call, and how it is to be measured.
struct Side<'a> {
    call: &'a dyn Fn() -> u64,
    calls: u32,
    first: Duration,
    times: Vec<f64>,
}

/// What each of these calls takes.
pub fn measure<const N: usize>(calls: [&dyn Fn() -> u64; N]) -> [Time; N] {
    let mut sides = calls.map(warm_up);
    for round in 0..ROUNDS {
        for side in sides.iter_mut().filter(|side| round < rounds(side.first)) {
            let time = one_round(side.call, side.calls);
            side.times.push(time);
        }
    }
    sides.map(|side| match side.first > SLOW {
        true => Time { nanos: side.first.as_nanos() as f64, once: true },
        false => Time { nanos: median(side.times), once: false },
    })
}

fn rounds(call: Duration) -> usize {
    match call {
        _ if call > SLOW => 0,
        _ if call > ROUND => FEW_ROUNDS,
        _ => ROUNDS,
    }
}

/// Times the first call, and counts how many fill a round.
fn warm_up(call: &dyn Fn() -> u64) -> Side<'_> {
    let start = Instant::now();
    black_box(call());
    let first = start.elapsed();
    let mut calls = 1;
    while start.elapsed() < ROUND {
        black_box(call());
        calls += 1;
    }
    Side { call, calls, first, times: Vec::new() }
}

/// Nanoseconds a call over one round.
fn one_round(call: &dyn Fn() -> u64, calls: u32) -> f64 {
    let start = Instant::now();
    for _ in 0..calls {
        black_box(call());
    }
    start.elapsed().as_nanos() as f64 / f64::from(calls)
}

fn median(mut times: Vec<f64>) -> f64 {
    times.sort_by(f64::total_cmp);
    times[times.len() / 2]
}

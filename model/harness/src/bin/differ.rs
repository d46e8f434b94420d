//! `differ SEED COUNT [--seconds N]`: holds the library beside the model on all hand-set inputs,
//! on COUNT generated ones, on as many puzzles for the planner and on larger rooms, and fails on
//! any difference. Each of their clusters is also checked beside no plan bytes and beside the
//! header of a plan of no steps in either version, which must get one verdict. Their plans are
//! stopped in some step, and divided: into single moves by the library, and in other ways for its
//! checker. All of this is done with no reserve, and some of it once more at one.
use kobdrieft_harness::builds::buffer_length;
use kobdrieft_harness::report::{Report, Stream};
use kobdrieft_harness::splits::Splitting;
use kobdrieft_harness::stops::Lending;
use kobdrieft_harness::streams::large;
use kobdrieft_model::edges::{edges, split_edges, stop_edges};
use kobdrieft_model::gen::{cases, either, Case, Rng};
use kobdrieft_model::planner::{make_steps, BUFFER};
use kobdrieft_model::puzzles::{missed, puzzle};
use kobdrieft_model::reserves::{raised, reserved, some_reserve};
use kobdrieft_model::split::BUFFER as SPLIT_BUFFER;
use kobdrieft_model::splits::{many_moves, some_buffer};
use kobdrieft_model::stops::{right_stop, some_stop};
use kobdrieft_model::{cluster_bytes, named, plan_bytes};
use std::env;
use std::process::exit;
use std::time::{Duration, Instant};

/// A larger room comes with every so many generated cases.
const CASES_A_ROOM: usize = 50;

/// A puzzle that the planner fails at comes with every so many, to be stopped in a plan for it.
const CASES_A_MISS: usize = 16;

/// A plan of about 512 moves, or of more, comes with every so many.
const CASES_A_LONG_PLAN: usize = 40;

/// From so many generated cases on, they must reach every outcome.
const ENOUGH: usize = 20_000;

struct Words {
    seed: u64,
    count: usize,
    time: Option<Duration>,
}

fn main() {
    let words: Vec<String> = env::args().skip(1).collect();
    let Some(words) = read_words(&words) else {
        eprintln!("usage: differ SEED COUNT [--seconds N]");
        exit(2);
    };
    let mut report = Report::default();
    hand_set(&mut report);
    let done = generated(&mut report, &words);
    if done >= ENOUGH {
        report.expect_every_outcome();
    } else {
        println!("{done} generated cases are too few to ask for every outcome");
    }
    report.print();
    exit(if report.failed == 0 { 0 } else { 1 });
}

fn read_words(words: &[String]) -> Option<Words> {
    let (seed, count) = (words.first()?.parse().ok()?, words.get(1)?.parse().ok()?);
    let time = match words.get(2..)? {
        [] => None,
        [flag, n] if flag == "--seconds" => Some(Duration::from_secs(n.parse().ok()?)),
        _ => return None,
    };
    Some(Words { seed, count, time })
}

fn hand_set(report: &mut Report) {
    let (mut stops, mut splits) = (Rng::new(1), Rng::new(2));
    for edge in edges() {
        report.check(Stream::HandSet, edge.reserve, &edge.cluster, &edge.plan, None);
        report.no_steps(Stream::HandSet, edge.reserve, &edge.cluster);
        report.build(Stream::HandSet, edge.reserve, &edge.cluster, edge.buffer);
        let (reserve, cluster, plan) = (edge.reserve, &edge.cluster[..], &edge.plan[..]);
        let stream = Stream::HandSet;
        stopped_and_divided(report, stream, reserve, cluster, plan, &mut stops, &mut splits);
        let ask = &right_stop(&mut stops, cluster, plan);
        report.stop(stream, Lending { reserve, cluster, plan, ask });
        let buffer = SPLIT_BUFFER;
        let splitting = Splitting { reserve, cluster, plan, buffer };
        report.split(Stream::HandSet, splitting, &mut splits);
    }
    for edge in stop_edges() {
        let (cluster, plan) = (&edge.cluster, &edge.plan);
        let lending = Lending { reserve: edge.reserve, cluster, plan, ask: &edge.ask };
        report.stop(Stream::HandSet, lending);
    }
    for edge in split_edges() {
        let (reserve, cluster, plan) = (edge.reserve, &edge.cluster[..], &edge.plan[..]);
        let splitting = Splitting { reserve, cluster, plan, buffer: edge.buffer };
        report.split(Stream::HandSet, splitting, &mut splits);
    }
}

/// A stop of a plan, right or wrong as it is drawn, and a split of it, in a buffer that is long enough or
/// not as it is drawn.
fn stopped_and_divided(
    report: &mut Report,
    stream: Stream,
    reserve: u64,
    cluster: &[u8],
    plan: &[u8],
    stops: &mut Rng,
    splits: &mut Rng,
) {
    let ask = &some_stop(stops, cluster, plan);
    report.stop(stream, Lending { reserve, cluster, plan, ask });
    let buffer = some_buffer(splits);
    report.split(stream, Splitting { reserve, cluster, plan, buffer }, splits);
}

/// Goes through the generated cases and the larger rooms until all are done or time is up; how
/// many generated cases were done.
fn generated(report: &mut Report, words: &Words) -> usize {
    let start = Instant::now();
    let mut rooms = Rng::new(!words.seed);
    let mut puzzles = Rng::new(!words.seed);
    let mut reserves = Rng::new(!words.seed);
    let mut stops = Rng::new(!words.seed);
    let mut splits = Rng::new(!words.seed);
    for (i, case) in cases(words.seed, words.count).enumerate() {
        if words.time.is_some_and(|time| start.elapsed() >= time) {
            println!("time is up after {i} generated cases");
            return i;
        }
        report.check(Stream::Generated, 0, &case.cluster, &case.plan, case.origin);
        report.no_steps(Stream::Generated, 0, &case.cluster);
        stopped_and_divided(
            report,
            Stream::Generated,
            0,
            &case.cluster,
            &case.plan,
            &mut stops,
            &mut splits,
        );
        planned(report, i, &case.cluster, &mut puzzles);
        at_a_reserve(report, i, &case, &mut reserves, &mut stops, &mut splits);
        if i % CASES_A_MISS == 0 {
            let (room, steps) = missed(&mut stops);
            let (cluster, plan) =
                (cluster_bytes(&room), plan_bytes(&either(&mut stops, &room, &steps)));
            stopped_and_divided(
                report,
                Stream::Puzzles,
                0,
                &cluster,
                &plan,
                &mut stops,
                &mut splits,
            );
        }
        if i % CASES_A_ROOM == 0 {
            large_room(report, &mut rooms, &mut reserves, &mut stops, &mut splits);
        }
        if i % CASES_A_LONG_PLAN == 0 {
            long_plan(report, i / CASES_A_LONG_PLAN, &mut splits);
        }
    }
    words.count
}

/// Every other case's cluster, whole or damaged, and a puzzle.
fn planned(report: &mut Report, turn: usize, cluster: &[u8], puzzles: &mut Rng) {
    if turn.is_multiple_of(2) {
        report.build(Stream::Generated, 0, cluster, buffer_length(turn / 2));
    }
    let puzzle = cluster_bytes(&puzzle(puzzles));
    report.no_steps(Stream::Puzzles, 0, &puzzle);
    report.build(Stream::Puzzles, 0, &puzzle, buffer_length(turn));
}

/// Every other case's cluster at a reserve, with its plan; in between a puzzle, with what is planned for
/// it with no reserve.
fn at_a_reserve(
    report: &mut Report,
    turn: usize,
    case: &Case,
    rng: &mut Rng,
    stops: &mut Rng,
    splits: &mut Rng,
) {
    let (stream, cluster, plan) = if turn.is_multiple_of(2) {
        (Stream::Generated, case.cluster.clone(), case.plan.clone())
    } else {
        let puzzle = puzzle(rng);
        let plan = plan_bytes(&named(&puzzle, &make_steps(&puzzle).0));
        let cluster = cluster_bytes(&puzzle);
        stopped_and_divided(report, Stream::Puzzles, 0, &cluster, &plan, stops, splits);
        (Stream::Puzzles, cluster, plan)
    };
    let (reserve, cluster) = reserved(rng, &cluster);
    report.check(stream, reserve, &cluster, &plan, None);
    report.no_steps(stream, reserve, &cluster);
    report.build(stream, reserve, &cluster, buffer_length(turn / 2));
    stopped_and_divided(report, stream, reserve, &cluster, &plan, stops, splits);
}

/// A larger room with all its plans, then with one of them at a reserve.
fn large_room(
    report: &mut Report,
    rng: &mut Rng,
    reserves: &mut Rng,
    stops: &mut Rng,
    splits: &mut Rng,
) {
    let room = large(rng);
    for (plan, origin) in &room.plans {
        report.check(Stream::Large, 0, &room.cluster, plan, *origin);
    }
    for (plan, _) in &room.plans[..2] {
        stopped_and_divided(report, Stream::Large, 0, &room.cluster, plan, stops, splits);
    }
    report.no_steps(Stream::Large, 0, &room.cluster);
    report.build(Stream::Large, 0, &room.cluster, BUFFER);
    let (reserve, cluster) = reserved(reserves, &room.cluster);
    let (plan, _) = &room.plans[reserves.below(room.plans.len())];
    report.check(Stream::Large, reserve, &cluster, plan, None);
    report.no_steps(Stream::Large, reserve, &cluster);
    report.build(Stream::Large, reserve, &cluster, BUFFER);
    stopped_and_divided(report, Stream::Large, reserve, &cluster, plan, stops, splits);
}

/// A plan of many moves, every other one at a reserve that leaves of each node what it had.
fn long_plan(report: &mut Report, turn: usize, rng: &mut Rng) {
    let (room, steps) = many_moves(rng);
    let plan = plan_bytes(&either(rng, &room, &steps));
    let (reserve, room) = match turn % 2 {
        0 => (0, room),
        _ => {
            let reserve = some_reserve(rng);
            (reserve, raised(reserve, &room))
        }
    };
    let cluster = cluster_bytes(&room);
    report.check(Stream::Large, reserve, &cluster, &plan, None);
    let buffer = some_buffer(rng);
    let splitting = Splitting { reserve, cluster: &cluster, plan: &plan, buffer };
    report.split(Stream::Large, splitting, rng);
}

//! `program PATH SEED COUNT [--reserve | --stop | --split]`: runs the planning program on hand-set,
//! generated and larger clusters, and compares what it prints with the model's text. With `--reserve` the
//! program takes a reserve in decimal digits as its first argument. With `--stop` it is the program that
//! stops plans, with `--split` the one that divides them, and the file it writes is compared, too.

use kobdrieft_harness::streams::large;
use kobdrieft_model::edges::edges;
use kobdrieft_model::gen::{cases, Rng};
use kobdrieft_model::reserves::{on_the_edge, some_reserve};
use kobdrieft_model::rules::reserve_fault;
use kobdrieft_model::text::{plan_text, read_number};
use kobdrieft_model::{cluster_bytes, parse_cluster, puzzles::puzzle};
use std::env;
use std::io::Write;
use std::process::{exit, Command, Stdio};
use std::thread;

/// A larger room, and an input that is too long, come with every so many generated clusters.
const CLUSTERS_A_ROOM: usize = 20;

/// From so many inputs on, some must be planned with a launch, some with a shutdown, and some in which a
/// VM waits for another.
const ENOUGH: usize = 1_000;

/// Reserves that come in turn. With their higher bits cut off the last four would be taken.
const RESERVES: [&str; 9] = [
    "0",
    "10",
    "90",
    "91",
    "18446744073709551615",
    "256",
    "4294967306",
    "18446744073709551616",
    "18446744073709551626",
];

struct Words {
    path: String,
    seed: u64,
    count: usize,
    mode: Mode,
}

/// Which program it is.
#[derive(Clone, Copy, PartialEq)]
enum Mode {
    Plan,
    PlanAt,
    Stop,
    Split,
}

/// A cluster record, and the reserve in digits.
struct Input {
    reserve: String,
    cluster: Vec<u8>,
}

fn main() {
    let words: Vec<String> = env::args().skip(1).collect();
    let Some(words) = read_words(&words) else {
        eprintln!("usage: program PATH SEED COUNT [--reserve | --stop | --split]");
        exit(2);
    };
    match words.mode {
        Mode::Plan => plans(&words, false),
        Mode::PlanAt => plans(&words, true),
        Mode::Stop => stops::compare(&words.path, words.seed, words.count),
        Mode::Split => splits::compare(&words.path, words.seed, words.count),
    }
}

/// The planning program, with a reserve each time or none.
fn plans(words: &Words, reserves: bool) {
    let (path, inputs) = (&words.path, inputs(words, reserves));
    let (mut version_2, mut launches, mut shutdowns, mut too_high) = (0, 0, 0, 0);
    let mut befores = 0;
    for input in &inputs {
        let Input { reserve, cluster } = input;
        let expected = plan_text(read_number(reserve).expect("digits"), cluster);
        let printed = run(path, reserves.then_some(reserve), cluster);
        if printed != expected {
            println!("reserve {reserve}\ninput {cluster:02x?}\nprogram {printed}model {expected}");
            exit(1);
        }
        let moves = || expected.lines().skip(1).map(|line| line.split(' ').collect::<Vec<_>>());
        version_2 += usize::from(cluster.first() == Some(&2));
        launches += moves().filter(|words| words[2] == "255").count();
        shutdowns += moves().filter(|words| words[3] == "255").count();
        too_high += usize::from(expected == "refused 23 step 0\n");
        let waits = || parse_cluster(cluster).is_ok_and(|room| room.befores().next().is_some());
        befores += usize::from(moves().next().is_some() && waits());
    }
    println!(
        "{path} printed the model's text on {} inputs, {version_2} of version 2, with {launches} \
         launches and {shutdowns} shutdowns; in {befores} that are planned a VM waits for another",
        inputs.len()
    );
    if reserves {
        println!("{too_high} of them have a reserve that is too high");
    }
    if inputs.len() >= ENOUGH && [launches, shutdowns, befores].contains(&0) {
        println!("the inputs have no launch, no shutdown, or nobody who waits for another");
        exit(1);
    }
}

fn read_words(words: &[String]) -> Option<Words> {
    let (seed, count) = (words.get(1)?.parse().ok()?, words.get(2)?.parse().ok()?);
    let mode = match words.get(3..)? {
        [] => Mode::Plan,
        [flag] if flag == "--reserve" => Mode::PlanAt,
        [flag] if flag == "--stop" => Mode::Stop,
        [flag] if flag == "--split" => Mode::Split,
        _ => return None,
    };
    Some(Words { path: words[0].clone(), seed, count, mode })
}

/// Hand-set clusters and others: those with no reserve, or all, each at a reserve.
fn inputs(words: &Words, reserves: bool) -> Vec<Input> {
    let mut rng = Rng::new(!words.seed);
    let hand_set = edges().into_iter().filter(|edge| reserves || edge.reserve == 0);
    let hand_set =
        hand_set.map(|edge| Input { reserve: edge.reserve.to_string(), cluster: edge.cluster });
    let clusters = clusters(words.seed, words.count).into_iter().enumerate();
    let others = clusters.map(|(turn, cluster)| match reserves {
        true => at_a_reserve(&mut rng, turn, cluster),
        false => Input { reserve: "0".to_string(), cluster },
    });
    hand_set.chain(others).collect()
}

/// A cluster at one of `RESERVES` or, every other turn, at one drawn from those that are taken. If it is
/// taken and the record can be read, the room is on the edge at it.
fn at_a_reserve(rng: &mut Rng, turn: usize, cluster: Vec<u8>) -> Input {
    let drawn = some_reserve(rng).to_string();
    let reserve = match turn % 2 {
        0 => RESERVES[turn / 2 % RESERVES.len()].to_string(),
        _ => drawn,
    };
    let number = read_number(&reserve).expect("digits");
    let cluster = match parse_cluster(&cluster) {
        Ok(room) if reserve_fault(number).is_none() => {
            cluster_bytes(&on_the_edge(rng, number, &room))
        }
        _ => cluster,
    };
    Input { reserve, cluster }
}

fn clusters(seed: u64, count: usize) -> Vec<Vec<u8>> {
    let mut rng = Rng::new(seed);
    let mut clusters = Vec::new();
    for (i, case) in cases(seed, count / 2).enumerate() {
        clusters.push(case.cluster);
        clusters.push(cluster_bytes(&puzzle(&mut rng)));
        if i % CLUSTERS_A_ROOM == 0 {
            clusters.push(large(&mut rng).cluster);
            clusters.push(too_long(&mut rng));
        }
    }
    clusters
}

/// A header and more bytes than a record may have, of a version that is taken or not.
fn too_long(rng: &mut Rng) -> Vec<u8> {
    let mut input = vec![0; rng.pick(&[65_536, 65_537, 131_072, 200_000])];
    input[0] = rng.pick(&[0, 1, 2, 3]);
    let length = rng.pick(&[65_535, 65_536, input.len() as u32]);
    input[1..5].copy_from_slice(&length.to_be_bytes());
    input[6] = 1;
    input
}

/// What the program prints on an input. It need not read all of it.
fn run(path: &str, reserve: Option<&String>, cluster: &[u8]) -> String {
    let mut command = Command::new(path);
    command.args(reserve).stdin(Stdio::piped()).stdout(Stdio::piped());
    let mut child = command.spawn().expect("the program starts");
    let mut stdin = child.stdin.take().expect("it was asked for");
    let cluster = cluster.to_vec();
    let writer = thread::spawn(move || stdin.write_all(&cluster));
    let output = child.wait_with_output().expect("the program ends");
    writer.join().expect("the writer ends").ok();
    if !output.status.success() {
        return format!("ended with {}\n", output.status);
    }
    String::from_utf8_lossy(&output.stdout).into_owned()
}

// ---------------------------------------------------------------- stops

/// Wrong reserves, as words.
const NO_RESERVES: [&str; 6] = ["", "x", "-1", "+1", "1.5", "10%"];

mod stops {
    use super::{too_long, NO_RESERVES};
    use kobdrieft_harness::runs::{self, Input, Outcome, NOTHING};
    use kobdrieft_harness::streams::large;
    use kobdrieft_model::edges::{edges, stop_edges};
    use kobdrieft_model::gen::{cases, either, Rng};
    use kobdrieft_model::planner::make_steps;
    use kobdrieft_model::stops::{some_stop, CUT_OFF};
    use kobdrieft_model::text::{read_marks, read_number, stopped};
    use kobdrieft_model::{cluster_bytes, plan_bytes, puzzles::puzzle, reserves::reserved};

    /// A larger room, and a cluster that is too long, come with every so many generated ones.
    const CASES_A_ROOM: usize = 20;

    const WANTED: [&str; 8] = [
        "stopped",
        "refused 20",
        "refused 21",
        "refused 23",
        "refused 1",
        "refused 17",
        "refused 19",
        NOTHING,
    ];

    pub fn compare(path: &str, seed: u64, count: usize) {
        runs::compare(path, &inputs(seed, count), expected, &WANTED);
    }

    fn expected(input: &Input) -> Outcome {
        let reserve = input.reserve.as_ref().map_or(Some(0), |digits| read_number(digits));
        let (step, marks) = (read_number(&input.words[0]), read_marks(&input.words[1]));
        match (reserve, &input.cluster, &input.plan, step, marks) {
            (Some(reserve), Some(cluster), Some(plan), Some(step), Some(marks)) => {
                stopped(reserve, cluster, plan, step, &marks)
            }
            _ => (String::new(), None),
        }
    }

    /// Step and marks as words; the marks as digits, if each is one.
    fn words(step: u64, marks: &[u8]) -> Vec<String> {
        let digits = marks.iter().map(|&mark| char::from(b'0' + mark.min(9))).collect();
        vec![step.to_string(), digits]
    }

    /// Hand-set stops, one of every hand-set plan, and generated ones, some with words that are wrong.
    fn inputs(seed: u64, count: usize) -> Vec<Input> {
        let mut rng = Rng::new(seed);
        let mut inputs = Vec::new();
        for (i, edge) in stop_edges().into_iter().enumerate() {
            // The same stop in longer and shorter buffers is one here.
            if edge.ask.buffer == edge.cluster.len() {
                let words = words(edge.ask.step, &edge.ask.marks);
                inputs.push(Input::of(edge.reserve, i, edge.cluster, edge.plan, words));
            }
        }
        for (i, edge) in edges().into_iter().enumerate().filter(|(i, _)| i % 5 == 0) {
            let ask = some_stop(&mut rng, &edge.cluster, &edge.plan);
            let words = words(ask.step, &ask.marks);
            inputs.push(Input::of(edge.reserve, i, edge.cluster, edge.plan, words));
        }
        for (i, case) in cases(seed, count / 2).enumerate() {
            inputs.push(drawn(&mut rng, i, case.cluster, case.plan));
            let room = puzzle(&mut rng);
            let plan = either(&mut rng, &room, &make_steps(&room).0);
            inputs.push(drawn(&mut rng, i, cluster_bytes(&room), plan_bytes(&plan)));
            if i % CASES_A_ROOM == 0 {
                let room = large(&mut rng);
                let (plan, _) = room.plans[rng.below(room.plans.len())].clone();
                inputs.push(drawn(&mut rng, i, room.cluster, plan.clone()));
                let long = too_long(&mut rng);
                inputs.push(drawn(&mut rng, i, long, plan));
            }
        }
        inputs
    }

    /// A drawn stop of a plan, every third at a reserve, and some with something wrong around it.
    fn drawn(rng: &mut Rng, turn: usize, cluster: Vec<u8>, plan: Vec<u8>) -> Input {
        let (reserve, cluster) = match turn % 3 {
            0 => reserved(rng, &cluster),
            _ => (0, cluster),
        };
        let ask = some_stop(rng, &cluster, &plan);
        let words = words(ask.step, &ask.marks);
        let mut input = Input::of(reserve, turn, cluster, plan, words);
        match rng.below(24) {
            0 => input.words[0] = beyond_64_bits(rng, ask.step),
            1 => input.words[0] = format!("00{}", input.words[0]),
            2 => {
                let word = rng.pick(&["", "x", "-1", "+1", "1.0", "0x1", " 1", "1 "]);
                input.words[0] = word.to_string();
            }
            3 => input.words[1] += rng.pick(&["x", "-", " ", ",", "."]),
            4 => input.words[1] = String::new(),
            5 => input.reserve = Some(rng.pick(&NO_RESERVES).to_string()),
            6 => input.reserve = Some("18446744073709551616".to_string()),
            7 => input.cluster = None,
            8 => input.plan = None,
            9 => input.plan = Some(Vec::new()),
            _ => {}
        }
        input
    }

    /// A number of more than 64 bits that would be this step with the higher ones cut off.
    fn beyond_64_bits(rng: &mut Rng, step: u64) -> String {
        let more = u128::from(rng.pick(&CUT_OFF));
        ((more << 64) + u128::from(step)).to_string()
    }
}

// ---------------------------------------------------------------- splits

mod splits {
    use super::{too_long, NO_RESERVES};
    use kobdrieft_harness::runs::{self, Input, Outcome, NOTHING};
    use kobdrieft_harness::streams::large;
    use kobdrieft_model::edges::{edges, split_edges};
    use kobdrieft_model::gen::{cases, either, Rng};
    use kobdrieft_model::planner::make_steps;
    use kobdrieft_model::split::BUFFER;
    use kobdrieft_model::splits::many_moves;
    use kobdrieft_model::text::{divided, read_number};
    use kobdrieft_model::{cluster_bytes, plan_bytes, puzzles::puzzle, reserves::reserved};

    /// A larger room, a plan of many moves, and a cluster and a plan that are too long come with every so
    /// many generated ones.
    const CASES_A_ROOM: usize = 20;

    const WANTED: [&str; 9] = [
        "divided",
        "refused 14",
        "refused 23",
        "refused 1",
        "refused 13",
        "refused 17",
        "refused 19",
        "refused 33",
        NOTHING,
    ];

    pub fn compare(path: &str, seed: u64, count: usize) {
        runs::compare(path, &inputs(seed, count), expected, &WANTED);
    }

    fn expected(input: &Input) -> Outcome {
        let reserve = input.reserve.as_ref().map_or(Some(0), |digits| read_number(digits));
        match (reserve, &input.cluster, &input.plan) {
            (Some(reserve), Some(cluster), Some(plan)) => divided(reserve, cluster, plan),
            _ => (String::new(), None),
        }
    }

    /// Hand-set splits, hand-set plans, and generated ones, some with words that are wrong.
    fn inputs(seed: u64, count: usize) -> Vec<Input> {
        let mut rng = Rng::new(seed);
        let mut inputs = Vec::new();
        // The same split in longer and shorter buffers is one here.
        for (i, edge) in split_edges().into_iter().filter(|e| e.buffer == BUFFER).enumerate() {
            inputs.push(Input::of(edge.reserve, i, edge.cluster, edge.plan, vec![]));
        }
        for (i, edge) in edges().into_iter().enumerate().filter(|(i, _)| i % 3 == 0) {
            inputs.push(Input::of(edge.reserve, i, edge.cluster, edge.plan, vec![]));
        }
        for (i, case) in cases(seed, count / 2).enumerate() {
            inputs.push(drawn(&mut rng, i, case.cluster, case.plan));
            let room = puzzle(&mut rng);
            let plan = either(&mut rng, &room, &make_steps(&room).0);
            let cluster = cluster_bytes(&room);
            inputs.push(drawn(&mut rng, i, cluster.clone(), plan_bytes(&plan)));
            if i % CASES_A_ROOM == 0 {
                let room = large(&mut rng);
                let (plan, _) = room.plans[rng.below(room.plans.len())].clone();
                inputs.push(drawn(&mut rng, i, room.cluster, plan.clone()));
                let (room, steps) = many_moves(&mut rng);
                let many = plan_bytes(&either(&mut rng, &room, &steps));
                inputs.push(drawn(&mut rng, i + 1, cluster_bytes(&room), many));
                let [long, other] = [too_long(&mut rng), too_long(&mut rng)];
                inputs.push(drawn(&mut rng, i, long, plan));
                inputs.push(drawn(&mut rng, i, cluster, other));
            }
        }
        inputs
    }

    /// A split of a plan, every third at a reserve, and some with something wrong around it.
    fn drawn(rng: &mut Rng, turn: usize, cluster: Vec<u8>, plan: Vec<u8>) -> Input {
        let (reserve, cluster) = match turn % 3 {
            0 => reserved(rng, &cluster),
            _ => (0, cluster),
        };
        let mut input = Input::of(reserve, turn, cluster, plan, vec![]);
        match rng.below(24) {
            0 => input.reserve = Some(rng.pick(&NO_RESERVES).to_string()),
            1 => input.reserve = Some("18446744073709551616".to_string()),
            2 => input.reserve = Some(format!("00{reserve}")),
            3 => input.cluster = None,
            4 => input.plan = None,
            5 => input.plan = Some(Vec::new()),
            _ => {}
        }
        input
    }
}

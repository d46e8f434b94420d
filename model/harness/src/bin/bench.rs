//! Measures the library's `check` beside the model and the baseline on the inputs of `inputs`, each
//! as a plan of version 1 and of version 2, after comparing library, baseline and model on both;
//! with the planner, `build` beside the model on those of `rooms`; and `stop` and `split` beside both.
//! Buffers are not cleared between calls, so caches are warm. With `--agree` it compares and measures
//! nothing.

use kobdrieft_harness::inputs::{all, Input, Outcome};
use kobdrieft_harness::timing::measure;
use kobdrieft_harness::{baseline, check, streams};
use kobdrieft_model as model;
use kobdrieft_model::edges::edges;
use kobdrieft_model::gen::{cases, Rng};
use kobdrieft_model::reserves::reserved;
use std::env;
use std::hint::black_box;
use std::process::exit;

fn main() {
    let words: Vec<String> = env::args().skip(1).collect();
    let only_agree = words == ["--agree"];
    if !only_agree && !words.is_empty() {
        eprintln!("usage: bench [--agree]");
        exit(3);
    }
    let inputs = all();
    print_list(&inputs);
    inputs.iter().for_each(verify);
    println!("\nlibrary, baseline and model agree on all inputs");
    println!("baseline and model agree on {} more", verify_baseline());
    if only_agree {
        planning::agree();
        stopping::agree();
        dividing::agree();
    } else {
        print_table(&inputs);
        planning::builds();
        stopping::stops();
        dividing::splits();
    }
}

fn print_list(inputs: &[Input]) {
    println!(
        "{:<26}{:>6}{:>5}{:>13}{:>7}{:>7}  outcome, version 2",
        "input", "nodes", "VMs", "constraints", "steps", "moves"
    );
    for input in inputs {
        let (nodes, vms) = (input.room.nodes.len(), input.room.vms.len());
        let (constraints, steps) = (input.room.constraints.len(), input.steps.len());
        let moves: usize = input.steps.iter().map(Vec::len).sum();
        let outcome = match input.outcomes {
            [one, two] if one == two => words(two),
            [one, two] => format!("{}; in version 1 {}", words(two), words(one)),
        };
        println!(
            "{:<26}{nodes:>6}{vms:>5}{constraints:>13}{steps:>7}{moves:>7}  {outcome}",
            input.name
        );
    }
}

fn words(outcome: Outcome) -> String {
    match outcome {
        None => "accepted".to_string(),
        Some((number, step)) => format!("{number}, step {step}"),
    }
}

// ---------------------------------------------------------------- results first

/// Stops unless the input is what it was made to be and all three checkers say so.
fn verify(input: &Input) {
    for (plan, made_for) in input.plans.iter().zip(input.outcomes) {
        let verdict = model::check(input.reserve, &input.cluster, plan);
        let outcome = match verdict {
            model::Verdict::Accepted { .. } => None,
            model::Verdict::Refused { number, step } => Some((number, step)),
        };
        expect(outcome == made_for, input.name, "the model's outcome is another");
        let packed = model::pack_verdict(verdict);
        let library = check(input.reserve, &input.cluster, plan);
        expect(library == packed, input.name, "the library differs");
        let simple = baseline::check(input.reserve, &input.cluster, plan);
        expect(simple == packed, input.name, "the baseline differs");
    }
}

/// Compares the baseline with the model on other inputs, with no reserve and at some; how many.
fn verify_baseline() -> usize {
    let mut compared = 0;
    let mut compare = |reserve: u64, cluster: &[u8], plan: &[u8]| {
        let packed = model::pack_verdict(model::check(reserve, cluster, plan));
        let simple = baseline::check(reserve, cluster, plan);
        expect(simple == packed, "a generated input", "the baseline differs");
        compared += 1;
    };
    edges().iter().for_each(|edge| compare(edge.reserve, &edge.cluster, &edge.plan));
    let mut rng = Rng::new(2);
    for case in cases(1, 20_000) {
        compare(0, &case.cluster, &case.plan);
        let (reserve, cluster) = reserved(&mut rng, &case.cluster);
        compare(reserve, &cluster, &case.plan);
    }
    let mut rng = Rng::new(1);
    for room in (0..200).map(|_| streams::large(&mut rng)) {
        room.plans.iter().for_each(|(plan, _)| compare(0, &room.cluster, plan));
    }
    compared
}

fn expect(good: bool, name: &str, what: &str) {
    if !good {
        println!("{name}: {what}");
        exit(1);
    }
}

// ---------------------------------------------------------------- then speed

/// What the library's times are held against, and the times that are shown as ratios.
const RATIOS: [&str; 5] = [
    "to the model",
    "to the baseline",
    "to the model, version 2",
    "to the baseline, version 2",
    "of version 2 to version 1",
];

/// A row for each input: its plan in version 1, then in version 2 (v2), then what the library takes
/// on version 2 as against version 1.
fn print_table(inputs: &[Input]) {
    let one = "plan bytes | library µs | model µs | ratio | baseline µs | ratio";
    let two = "v2 bytes | v2 library µs | v2 model µs | ratio | v2 baseline µs | ratio";
    println!("\n| input | record bytes | {one} | {two} | v2 / v1 |");
    println!("|---|{}", "--:|".repeat(14));
    let mut largest = [(0.0, ""); RATIOS.len()];
    for input in inputs {
        let times = times(input);
        let ratios = ratios(times);
        let (name, record) = (input.name, input.cluster.len());
        let cells = [0, 1].map(|v| {
            let [library, plain, simple] = times[v].map(|nanos| nanos / 1e3);
            let (bytes, to) = (input.plans[v].len(), &ratios[2 * v..]);
            let (model, baseline) = (to[0], to[1]);
            format!(
                "{bytes} | {library:.2} | {plain:.2} | {model:.2} | {simple:.2} | {baseline:.2}"
            )
        });
        println!("| {name} | {record} | {} | {:.2} |", cells.join(" | "), ratios[4]);
        for (most, ratio) in largest.iter_mut().zip(ratios) {
            if ratio > most.0 {
                *most = (ratio, name);
            }
        }
    }
    println!();
    for (to, (ratio, name)) in RATIOS.iter().zip(largest) {
        println!("largest ratio {to} {ratio:.2} ({name})");
    }
}

/// The ratios of `RATIOS`.
fn ratios([one, two]: [[f64; 3]; 2]) -> [f64; RATIOS.len()] {
    let [library, plain, simple] = one;
    let [library_2, plain_2, simple_2] = two;
    [
        library / plain,
        library / simple,
        library_2 / plain_2,
        library_2 / simple_2,
        library_2 / library,
    ]
}

/// Median nanoseconds a call on each version: the library, the model, the baseline.
fn times(input: &Input) -> [[f64; 3]; 2] {
    let [one, two] = [0, 1].map(|version| &input.plans[version][..]);
    let (reserve, cluster) = (|| black_box(input.reserve), || black_box(&input.cluster[..]));
    let library = |plan: &[u8]| check(reserve(), cluster(), black_box(plan));
    let plain =
        |plan: &[u8]| model::pack_verdict(model::check(reserve(), cluster(), black_box(plan)));
    let simple = |plan: &[u8]| baseline::check(reserve(), cluster(), black_box(plan));
    let [a, b, c, d, e, f] = measure([
        &|| library(one),
        &|| library(two),
        &|| plain(one),
        &|| plain(two),
        &|| simple(one),
        &|| simple(two),
    ])
    .map(|time| time.nanos);
    [[a, c, e], [b, d, f]]
}

// ---------------------------------------------------------------- stops
mod stopping {
    use super::expect;
    use kobdrieft_harness::inputs::{halts, Halt};
    use kobdrieft_harness::timing::measure;
    use kobdrieft_harness::{baseline, stop, streams};
    use kobdrieft_model::edges::stop_edges;
    use kobdrieft_model::gen::{cases, Rng};
    use kobdrieft_model::stops::{some_stop, Ask};
    use kobdrieft_model::{self as model, pack_stop};
    use std::cell::RefCell;
    use std::hint::black_box;

    /// A call: reserve, cluster, plan, step, marks and buffer to a packed answer.
    type Call = fn(u64, &[u8], &[u8], u64, &[u8], &mut [u8]) -> u64;

    fn by_model(
        reserve: u64,
        cluster: &[u8],
        plan: &[u8],
        step: u64,
        marks: &[u8],
        out: &mut [u8],
    ) -> u64 {
        pack_stop(model::stop(reserve, cluster, plan, step, marks, out))
    }

    pub fn stops() {
        println!("\n| stop | record bytes | step | moves in it | library µs | model µs | ratio | baseline µs | ratio |");
        println!("|---|{}", "--:|".repeat(8));
        for halt in halts() {
            verify(&halt);
            let out = RefCell::new(vec![0; halt.input.cluster.len()]);
            let call = |call: Call| {
                let (input, out) = (&halt.input, &mut out.borrow_mut()[..]);
                let (cluster, plan) = (black_box(&input.cluster), black_box(&input.plans[1]));
                call(
                    black_box(input.reserve),
                    cluster,
                    plan,
                    halt.step,
                    black_box(&halt.marks),
                    out,
                )
            };
            let times = measure([&|| call(stop), &|| call(by_model), &|| call(baseline::stop)]);
            let [library, plain, simple] = times.map(|time| time.nanos / 1e3);
            println!(
                "| {} | {} | {} | {} | {library:.2} | {plain:.2} | {:.2} | {simple:.2} | {:.2} |",
                halt.name,
                halt.input.cluster.len(),
                halt.step,
                halt.marks.len(),
                library / plain,
                library / simple
            );
        }
    }

    /// Stops unless library, baseline and model agree on all that is measured, and baseline and model on
    /// other stops.
    pub fn agree() {
        let halts = halts();
        halts.iter().for_each(verify);
        println!("library, baseline and model agree on {} stops", halts.len());
        println!("baseline and model agree on {} more", verify_baseline());
    }

    fn verify(halt: &Halt) {
        let Halt { name, input, step, marks } = halt;
        let ask = Ask { step: *step, marks: marks.clone(), buffer: input.cluster.len() };
        let [model, library, simple] = [by_model as Call, stop, baseline::stop]
            .map(|call| answer(call, input.reserve, &input.cluster, &input.plans[1], &ask));
        expect(model.0 >> 62 == 0, name, "the model refuses it");
        expect(library == model, name, "the library differs");
        expect(simple == model, name, "the baseline differs");
    }

    /// What a call gives, and the buffer after it.
    fn answer(call: Call, reserve: u64, cluster: &[u8], plan: &[u8], ask: &Ask) -> (u64, Vec<u8>) {
        let mut out = vec![7; ask.buffer];
        (call(reserve, cluster, plan, ask.step, &ask.marks, &mut out), out)
    }

    /// Compares the baseline with the model on other stops; how many.
    fn verify_baseline() -> usize {
        let mut compared = 0;
        let mut compare = |reserve: u64, cluster: &[u8], plan: &[u8], ask: &Ask| {
            let [model, simple] = [by_model as Call, baseline::stop]
                .map(|call| answer(call, reserve, cluster, plan, ask));
            expect(simple == model, "a generated stop", "the baseline differs");
            compared += 1;
        };
        stop_edges().iter().for_each(|e| compare(e.reserve, &e.cluster, &e.plan, &e.ask));
        let mut rng = Rng::new(3);
        for case in cases(2, 10_000) {
            let ask = some_stop(&mut rng, &case.cluster, &case.plan);
            compare(0, &case.cluster, &case.plan, &ask);
        }
        let mut rooms = Rng::new(4);
        for room in (0..50).map(|_| streams::large(&mut rooms)) {
            let (plan, _) = &room.plans[0];
            compare(0, &room.cluster, plan, &some_stop(&mut rng, &room.cluster, plan));
        }
        compared
    }
}

// ---------------------------------------------------------------- splits
mod dividing {
    use super::expect;
    use kobdrieft_harness::inputs::{cuts, Cut};
    use kobdrieft_harness::timing::measure;
    use kobdrieft_harness::{baseline, split, streams};
    use kobdrieft_model::edges::{edges, split_edges};
    use kobdrieft_model::gen::{cases, either, Rng};
    use kobdrieft_model::split::BUFFER;
    use kobdrieft_model::splits::{many_moves, some_buffer};
    use kobdrieft_model::{self as model, cluster_bytes, pack_split, plan_bytes};
    use std::cell::RefCell;
    use std::hint::black_box;

    /// A call: reserve, cluster, plan and buffer to a packed answer.
    type Call = fn(u64, &[u8], &[u8], &mut [u8]) -> u64;

    fn by_model(reserve: u64, cluster: &[u8], plan: &[u8], out: &mut [u8]) -> u64 {
        pack_split(model::split(reserve, cluster, plan, out))
    }

    /// A row for each plan in each version.
    pub fn splits() {
        println!("\n| split | version | plan bytes | steps | moves | answer | library µs | model µs | ratio | baseline µs | ratio |");
        println!("|---|{}", "--:|".repeat(10));
        for cut in cuts() {
            verify(&cut);
            let moves: usize = cut.input.steps.iter().map(Vec::len).sum();
            let answer = if cut.number == 0 { "done".into() } else { cut.number.to_string() };
            for (version, plan) in (1..).zip(&cut.input.plans) {
                let out = RefCell::new(vec![0; BUFFER]);
                let call = |call: Call| {
                    let (input, out) = (&cut.input, &mut out.borrow_mut()[..]);
                    call(black_box(input.reserve), black_box(&input.cluster), black_box(plan), out)
                };
                let times =
                    measure([&|| call(split), &|| call(by_model), &|| call(baseline::split)]);
                let [library, plain, simple] = times.map(|time| time.nanos / 1e3);
                println!(
                    "| {} | {version} | {} | {} | {moves} | {answer} | {library:.2} | {plain:.2} | {:.2} | {simple:.2} | {:.2} |",
                    cut.name,
                    plan.len(),
                    cut.input.steps.len(),
                    library / plain,
                    library / simple
                );
            }
        }
    }

    /// Stops unless library, baseline and model agree on all that is measured, and baseline and model on
    /// other splits.
    pub fn agree() {
        let cuts = cuts();
        cuts.iter().for_each(verify);
        println!("library, baseline and model agree on {} splits", 2 * cuts.len());
        println!("baseline and model agree on {} more", verify_baseline());
    }

    fn verify(cut: &Cut) {
        let Cut { name, input, number } = cut;
        for plan in &input.plans {
            let [model, library, simple] = [by_model as Call, split, baseline::split]
                .map(|call| answer(call, input.reserve, &input.cluster, plan, BUFFER));
            let outcome = if model.0 >> 62 == 0 { 0 } else { (model.0 >> 16) as u8 };
            expect(outcome == *number, name, "the model's outcome is another");
            expect(library == model, name, "the library differs");
            expect(simple == model, name, "the baseline differs");
        }
    }

    /// What a call gives, and the buffer after it.
    fn answer(
        call: Call,
        reserve: u64,
        cluster: &[u8],
        plan: &[u8],
        buffer: usize,
    ) -> (u64, Vec<u8>) {
        let mut out = vec![7; buffer];
        (call(reserve, cluster, plan, &mut out), out)
    }

    /// Compares the baseline with the model on other splits; how many.
    fn verify_baseline() -> usize {
        let mut compared = 0;
        let mut compare = |reserve: u64, cluster: &[u8], plan: &[u8], buffer: usize| {
            let [model, simple] = [by_model as Call, baseline::split]
                .map(|call| answer(call, reserve, cluster, plan, buffer));
            expect(simple == model, "a generated split", "the baseline differs");
            compared += 1;
        };
        split_edges().iter().for_each(|e| compare(e.reserve, &e.cluster, &e.plan, e.buffer));
        edges().iter().for_each(|e| compare(e.reserve, &e.cluster, &e.plan, BUFFER));
        let mut rng = Rng::new(5);
        for case in cases(6, 10_000) {
            compare(0, &case.cluster, &case.plan, some_buffer(&mut rng));
        }
        for _ in 0..100 {
            let (room, steps) = many_moves(&mut rng);
            let plan = plan_bytes(&either(&mut rng, &room, &steps));
            compare(0, &cluster_bytes(&room), &plan, some_buffer(&mut rng));
        }
        for room in (0..50).map(|_| streams::large(&mut rng)).collect::<Vec<_>>() {
            room.plans.iter().for_each(|(plan, _)| compare(0, &room.cluster, plan, BUFFER));
        }
        compared
    }
}

// ---------------------------------------------------------------- the planner
mod planning {
    use super::expect;
    use kobdrieft_harness::build;
    use kobdrieft_harness::rooms::{all, Ends, Task};
    use kobdrieft_harness::timing::measure;
    use kobdrieft_model::planner::BUFFER;
    use kobdrieft_model::{self as model, Answer};
    use std::hint::black_box;

    pub fn builds() {
        println!("\n| room | nodes | VMs | constraints | answer | steps | moves | library µs | model µs | ratio |");
        println!("|---|--:|--:|--:|---|--:|--:|--:|--:|--:|");
        for task in all() {
            let moves = verify(&task);
            let (nodes, vms) = (task.room.nodes.len(), task.room.vms.len());
            let constraints = task.room.constraints.len();
            let answer = format!("{:?}", task.ends).to_lowercase();
            let [library, plain] = measure([&|| by_library(&task).0, &|| by_model(&task).0]);
            let once = if plain.once { " (once)" } else { "" };
            println!(
                "| {} | {nodes} | {vms} | {constraints} | {answer} | {} | {moves} | {:.2} | {:.2}{once} | {:.4} |",
                task.name,
                task.steps,
                library.nanos / 1e3,
                plain.nanos / 1e3,
                library.nanos / plain.nanos
            );
        }
    }

    /// Stops unless library and model agree on all rooms.
    pub fn agree() {
        let rooms = all();
        rooms.iter().for_each(|task| {
            verify(task);
        });
        println!("library and model agree on {} rooms to plan for", rooms.len());
    }

    /// A packed answer, and the buffer after the call.
    type Built = (u64, [u8; BUFFER]);

    fn by_library(task: &Task) -> Built {
        let mut out = [0; BUFFER];
        (build(black_box(task.reserve), black_box(&task.cluster), &mut out), out)
    }

    fn by_model(task: &Task) -> Built {
        let mut out = [0; BUFFER];
        let (reserve, cluster) = (black_box(task.reserve), black_box(&task.cluster));
        (model::pack_answer(model::build(reserve, cluster, &mut out)), out)
    }

    /// Stops unless the room is what it was made to be and library and model say the same of it;
    /// the moves of its plan.
    fn verify(task: &Task) -> u16 {
        let answer = model::build(task.reserve, &task.cluster, &mut [0; BUFFER]);
        let (ends, steps, moves) = match answer {
            Answer::Plan { steps, moves, .. } => (Ends::Plan, steps, moves),
            Answer::Blocked { steps, moves, .. } => (Ends::Blocked, steps, moves),
            Answer::Refused { number, .. } => panic!("{}: refused {number}", task.name),
        };
        let made_for = ends == task.ends && steps == task.steps;
        expect(made_for, task.name, &format!("the model's answer is another: {answer:?}"));
        expect(by_library(task) == by_model(task), task.name, "the library differs");
        moves
    }
}

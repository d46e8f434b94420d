//! The trainer's command: records from text and back, plans, verdicts, stops, splits, costs and pictures.

use kobdrieft_model::draw::{page, Whose};
use kobdrieft_model::form::{read_cluster, read_plan, write_cluster, write_plan, Fault};
use kobdrieft_model::ledger::{lines, table};
use kobdrieft_model::reasons::reason;
use kobdrieft_model::rules::{plan_cost, reserve_fault};
use kobdrieft_model::text::{divided, planned, read_marks, read_number, stopped, verdict_text};
use kobdrieft_model::{check, cluster_bytes, parse_cluster, parse_plan, plan_bytes};
use kobdrieft_model::{Plan, Room, Verdict};
use std::os::unix::fs::MetadataExt;
use std::{env, fs, io::Write, process::ExitCode};

const USAGE: &str = "\
room pack TEXT CLUSTER           a cluster's text to its record
room unpack CLUSTER [TEXT]       a cluster record to text
room pack-plan TEXT PLAN         a plan's text to its record, of the text's version
room unpack-plan PLAN [TEXT]     a plan record to text
room plan [--reserve R] CLUSTER PLAN
                                 make a plan, write its record, print what the planning program prints
room check [--reserve R] CLUSTER PLAN
                                 print the verdict
room stop [--reserve R] CLUSTER PLAN STEP MARKS OUT
                                 stop a plan in a step, write the cluster record with all VMs where they are;
                                 MARKS has a digit for each move of the step: 1 it ended, 0 it did not
room split [--reserve R] CLUSTER PLAN OUT
                                 divide every step of a plan into single moves, write the divided plan's record
room cost CLUSTER PLAN           print how the cost builds up, a line for each step; the last word is the cost
room draw [--reserve R] CLUSTER PLAN PAGE [VERDICT]
                                 draw a plan as an HTML page; VERDICT is the line that the proved checker
                                 prints for it, else the page shows the model's own
R is the share of each node, in percent, that is kept for the hypervisor: 0 if it is not given
a PLAN of 0 bytes is read as a plan of no steps
exit status: 0 plan, accepted, stopped or divided, or done; 1 blocked; 2 refused, or a damaged record;
             3 wrong use, or a file that cannot be read or written
";

const DONE: u8 = 0;
const BLOCKED: u8 = 1;
const REFUSED: u8 = 2;
const WRONG: u8 = 3;

/// An exit status, and what went wrong as a line to print behind `room: `.
struct Failure(u8, String);

/// The exit status of what did not go wrong.
type Outcome = Result<u8, Failure>;

fn main() -> ExitCode {
    let words: Vec<String> = env::args().skip(1).collect();
    let words: Vec<&str> = words.iter().map(String::as_str).collect();
    let status = run(&words).unwrap_or_else(|Failure(status, why)| {
        eprintln!("room: {why}");
        status
    });
    ExitCode::from(status)
}

fn run(words: &[&str]) -> Outcome {
    let (reserve, words) = take_reserve(words)?;
    match words[..] {
        ["pack", text, cluster] => {
            let room = read_cluster(&read(text)?).map_err(|fault| at(text, fault))?;
            write(cluster, &cluster_bytes(&room))
        }
        ["pack-plan", text, plan] => {
            let made = read_plan(&read(text)?).map_err(|fault| at(text, fault))?;
            write(plan, &plan_bytes(&made))
        }
        ["unpack", cluster, ref text @ ..] if text.len() < 2 => {
            let room = record(cluster, parse_cluster)?;
            give(text.first(), &write_cluster(&room))
        }
        ["unpack-plan", plan, ref text @ ..] if text.len() < 2 => {
            let plan = record(plan, parse_plan)?;
            give(text.first(), &write_plan(&plan))
        }
        ["plan", cluster, plan] => make_plan(reserve, cluster, plan),
        ["check", cluster, plan] => {
            answer(&verdict_text(check(reserve, &read(cluster)?, &read(plan)?)))
        }
        ["stop", cluster, plan, step, marks, out] => {
            stop_plan(reserve, [cluster, plan], step, marks, out)
        }
        ["split", cluster, plan, out] => split_plan(reserve, [cluster, plan], out),
        ["cost", cluster, plan] => cost_table(cluster, plan),
        ["draw", cluster, plan, page, ref verdict @ ..] if verdict.len() < 2 => {
            draw_plan(reserve, cluster, plan, page, verdict.first())
        }
        ["help" | "--help" | "-h"] => give(None, USAGE),
        _ => {
            let usage = USAGE.trim_end();
            Err(wrong(format!("these words are not understood; it takes one of\n{usage}")))
        }
    }
}

/// Takes the reserve, or 0 if none is given, out from behind the commands that look at one.
fn take_reserve<'a>(words: &[&'a str]) -> Result<(u64, Vec<&'a str>), Failure> {
    let [command @ ("plan" | "check" | "stop" | "split" | "draw"), "--reserve", digits, rest @ ..] =
        words
    else {
        return Ok((0, words.to_vec()));
    };
    let why = || wrong(format!("'{digits}' stands where a reserve should, a number in digits"));
    let reserve = read_number(digits).ok_or_else(why)?;
    Ok((reserve, [&[*command], rest].concat()))
}

/// Makes a plan with the model. A refused cluster gives a refusal line and no record.
fn make_plan(reserve: u64, cluster: &str, plan: &str) -> Outcome {
    written(planned(reserve, &read(cluster)?), plan)
}

/// Stops a plan with the model. A refusal gives its line and no record. The record takes the place of
/// neither file that is read.
fn stop_plan(reserve: u64, files: [&str; 2], step: &str, marks: &str, out: &str) -> Outcome {
    let no_step = || wrong(format!("'{step}' stands where a step should, a number in digits"));
    let step = read_number(step).ok_or_else(no_step)?;
    let no_marks = || wrong(format!("'{marks}' stands where marks should, a digit for each move"));
    let marks = read_marks(marks).ok_or_else(no_marks)?;
    let [cluster, plan] = both(files, out)?;
    written(stopped(reserve, &cluster, &plan, step, &marks), out)
}

/// Divides a plan with the model. A refusal gives its line and no record, as with a stop.
fn split_plan(reserve: u64, files: [&str; 2], out: &str) -> Outcome {
    let [cluster, plan] = both(files, out)?;
    written(divided(reserve, &cluster, &plan), out)
}

/// Reads two files, neither of which is the one for the record.
fn both(files: [&str; 2], out: &str) -> Result<[Vec<u8>; 2], Failure> {
    let [cluster, plan] = files.map(read);
    let bytes = [cluster?, plan?];
    match files.into_iter().find(|file| is_same(file, out)) {
        Some(file) => Err(wrong(format!("the record would be written over {file}"))),
        None => Ok(bytes),
    }
}

/// Writes a record, if there is one, and answers.
fn written((text, record): (String, Option<Vec<u8>>), out: &str) -> Outcome {
    if let Some(record) = record {
        write(out, &record)?;
    }
    answer(&text)
}

/// Prints an answer and ends by its first word; what a refusal means is a remark beside it.
fn answer(text: &str) -> Outcome {
    give(None, text)?;
    match text.split_whitespace().collect::<Vec<&str>>()[..] {
        ["refused", number, ..] => {
            let number = number.parse().unwrap_or(0);
            Err(Failure(REFUSED, reason(number).into()))
        }
        ["blocked", ..] => Ok(BLOCKED),
        _ => Ok(DONE),
    }
}

/// Prints how the cost builds up. A plan that the checker would refuse has a cost too; that it
/// would, with no reserve, is a remark beside the table.
fn cost_table(cluster: &str, plan: &str) -> Outcome {
    let room = record(cluster, parse_cluster)?;
    let given = record(plan, parse_plan)?;
    let lines = lines(&room, &given.steps).map_err(|why| refused(plan, 15, &format!(" {why}")))?;
    let verdict = check(0, &cluster_bytes(&room), &plan_bytes(&given));
    let cost = match verdict {
        Verdict::Accepted { cost } => cost,
        Verdict::Refused { .. } => plan_cost(&room, &given.steps),
    };
    give(None, &table(&lines, cost))?;
    if let Verdict::Refused { number, .. } = verdict {
        let line = verdict_text(verdict);
        let (line, why) = (line.trim_end(), reason(number));
        eprintln!("room: the checker would refuse this plan ({line}): {why}");
    }
    Ok(DONE)
}

/// Draws a plan. With a reserve that is too high nothing is drawn: no node then has a usable amount.
fn draw_plan(reserve: u64, cluster: &str, plan: &str, to: &str, verdict: Option<&&str>) -> Outcome {
    if let Some(number) = reserve_fault(reserve) {
        return Err(refused("--reserve", number, ""));
    }
    let room = record(cluster, parse_cluster)?;
    let given = record(plan, parse_plan)?;
    let whose = match verdict {
        Some(line) => agreed(reserve, &room, &given, line)?,
        None => Whose::Model,
    };
    let unfit = |why| Failure(REFUSED, format!("{plan}: {why}"));
    write(to, page(reserve, &room, &given, whose).map_err(unfit)?.as_bytes())
}

/// A verdict is shown as the proved checker's only if the model's is the same.
fn agreed(reserve: u64, room: &Room, plan: &Plan, line: &str) -> Result<Whose, Failure> {
    let own = verdict_text(check(reserve, &cluster_bytes(room), &plan_bytes(plan)));
    let (own, line) = (own.trim_end(), line.trim());
    if own == line {
        return Ok(Whose::Checker);
    }
    Err(wrong(format!(
        "the verdicts differ: '{line}' is given, the model says '{own}'; nothing is drawn"
    )))
}

// ---------------------------------------------------------------- files

fn wrong(why: String) -> Failure {
    Failure(WRONG, why)
}

fn read(name: &str) -> Result<Vec<u8>, Failure> {
    fs::read(name).map_err(|error| wrong(format!("{name}: cannot be read ({error})")))
}

/// Whether two names are of one file.
fn is_same(one: &str, other: &str) -> bool {
    let file = |name| fs::metadata(name).map(|file| (file.dev(), file.ino())).ok();
    file(one).is_some() && file(one) == file(other)
}

fn write(name: &str, bytes: &[u8]) -> Outcome {
    let failed = |error| wrong(format!("{name}: cannot be written ({error})"));
    fs::write(name, bytes).map(|()| DONE).map_err(failed)
}

/// Text to a file, or to standard output if none is named.
fn give(name: Option<&&str>, text: &str) -> Outcome {
    let Some(name) = name else {
        let failed = |error| wrong(format!("cannot print ({error})"));
        return std::io::stdout().write_all(text.as_bytes()).map(|()| DONE).map_err(failed);
    };
    write(name, text.as_bytes())
}

/// Reads a record that must be undamaged.
fn record<T>(name: &str, parse: fn(&[u8]) -> Result<T, u8>) -> Result<T, Failure> {
    parse(&read(name)?).map_err(|number| refused(name, number, ""))
}

fn refused(name: &str, number: u8, more: &str) -> Failure {
    Failure(REFUSED, format!("{name}: refused with number {number}: {}{more}", reason(number)))
}

fn at(name: &str, Fault { line, reason }: Fault) -> Failure {
    wrong(format!("{name}:{line}: {reason}"))
}

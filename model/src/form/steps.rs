//! A plan's text, both ways.

use super::place_word;
use super::words::{lines, Fault, Words};
use crate::records::{Move, Plan, Step, Version, NOWHERE};

const MOST_STEPS: usize = 512;
const MOST_MOVES: usize = 1_024;
const MOST_IN_A_STEP: usize = 256;

/// What tells the version of a plan, and in which line: the line `version` or a first move.
#[derive(Clone, Copy)]
struct Told {
    version: Version,
    line: usize,
    by_move: bool,
}

/// Reads a plan's text: a line for each step, none for the plan without steps. Its moves tell its
/// version; a line before the first step may, and without either it is 1. It tests shape only, as
/// a plan may be a bad one for the cluster it is made for.
pub fn read_plan(text: &[u8]) -> Result<Plan, Fault> {
    let mut told = None;
    let mut steps: Vec<Step> = Vec::new();
    for mut words in lines(text)?.0 {
        if words.take("version") {
            told = Some(version(&mut words, told)?);
            continue;
        }
        if steps.len() == MOST_STEPS {
            return words.fault(format!("a plan has at most {MOST_STEPS} steps"));
        }
        words.expect("step")?;
        steps.push(step(&mut words, &mut told)?);
        if steps.iter().map(Vec::len).sum::<usize>() > MOST_MOVES {
            return words.fault(format!("a plan has at most {MOST_MOVES} moves"));
        }
    }
    Ok(Plan { version: told.map_or(Version::One, |told| told.version), steps })
}

/// Reads the number behind `version`, which must be the first to tell it.
fn version(words: &mut Words, told: Option<Told>) -> Result<Told, Fault> {
    match told {
        Some(Told { by_move: true, .. }) => {
            return words.fault("'version' stands behind a step; it belongs before the first");
        }
        Some(Told { line, .. }) => {
            return words.fault(format!("'version' stands here again; line {line} has it"));
        }
        None => {}
    }
    Ok(Told { version: words.version()?, line: words.line, by_move: false })
}

/// Reads moves with commas between them.
fn step(words: &mut Words, told: &mut Option<Told>) -> Result<Step, Fault> {
    let mut step = Step::new();
    loop {
        let m = read_move(words)?;
        agree(words, told, &m)?;
        step.push(m);
        if step.len() > MOST_IN_A_STEP {
            return words.fault(format!("a step has at most {MOST_IN_A_STEP} moves"));
        }
        if words.peek().is_none() {
            return Ok(step);
        }
        words.expect(",")?;
    }
}

fn read_move(words: &mut Words) -> Result<Move, Fault> {
    let vm = words.number_in("a VM", 0, 255)? as usize;
    let from = match words.take("from") {
        true => Some(place(words, "a source")?),
        false => None,
    };
    words.expect("to")?;
    let to = place(words, "a destination")?;
    Ok(Move { vm, from, to })
}

/// Reads a node, which need not be one of the cluster's, or nowhere.
fn place(words: &mut Words, what: &str) -> Result<usize, Fault> {
    match words.place(what)? {
        Some(number) => Ok(words.in_range(what, number, 0, 255)? as usize),
        None => Ok(NOWHERE),
    }
}

/// A move must be of the version that is told; the first tells it if nothing has. A line that
/// says another version than the moves is itself at fault.
fn agree(words: &Words, told: &mut Option<Told>, m: &Move) -> Result<(), Fault> {
    let (version, here) = (Version::of_move(m), words.line);
    let first = *told.get_or_insert(Told { version, line: here, by_move: true });
    if first.version == version {
        return Ok(());
    }
    let (vm, names) = (m.vm, if m.from.is_some() { "its source" } else { "no source" });
    let (line, reason) = if first.by_move {
        let other = if m.from.is_some() { "no source" } else { "a source" };
        let at = first.line;
        (here, format!("VM {vm} names {names}, but line {at} names {other}; a plan does not mix"))
    } else {
        let number = first.version as u8;
        (first.line, format!("version {number} is said, but VM {vm} names {names} in line {here}"))
    };
    Err(Fault { line, reason })
}

/// Writes a plan's text. Its version needs a line only where no move tells it and it is not 1.
pub fn write_plan(plan: &Plan) -> String {
    if plan.steps.is_empty() {
        return match plan.version {
            Version::One => "# no steps\n".into(),
            Version::Two => "version 2\n# no steps\n".into(),
        };
    }
    let line = |step: &Step| {
        let moves: Vec<String> = step.iter().map(write_move).collect();
        format!("step {}\n", moves.join(", "))
    };
    plan.steps.iter().map(line).collect()
}

fn write_move(m: &Move) -> String {
    let from = m.from.map_or(String::new(), |from| format!(" from {}", place_word(from)));
    format!("{}{from} to {}", m.vm, place_word(m.to))
}

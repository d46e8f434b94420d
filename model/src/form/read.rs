//! From text to a cluster.

use super::words::{digits, lines, Fault, Words};
use super::{Things, NODES, VMS, WORD};
use crate::gen::{MOST_CPU, MOST_MEMORY};
use crate::records::{Constraint, Node, Room, Version, Vm, NOWHERE};

const MOST_CONSTRAINTS: usize = 128;
const MOST_GROUPS: usize = 64;

/// How many nodes and VMs a cluster has.
#[derive(Clone, Copy)]
struct Counts {
    nodes: usize,
    vms: usize,
}

/// A version that is said, and in which line.
#[derive(Clone, Copy)]
struct Said {
    version: Version,
    line: usize,
}

/// The lines of each sort, the first word read; a line `version` read whole.
#[derive(Default)]
struct Sorted<'a> {
    said: Option<Said>,
    nodes: Vec<Words<'a>>,
    vms: Vec<Words<'a>>,
    constraints: Vec<(&'a str, Words<'a>)>,
}

/// Reads a cluster's text. Lines may stand in any order: the nodes are read first, then the VMs,
/// then the constraints. A line `version` or the places of the VMs tell its version. It tests shape
/// only; the target may be a bad one (faults 8 and 9).
pub fn read_cluster(text: &[u8]) -> Result<Room, Fault> {
    let (lines, last) = lines(text)?;
    let sorted = sort(lines)?;
    let nodes = rows(sorted.nodes, NODES, node)?;
    if nodes.is_empty() {
        let reason = "the text ends without a node line; a cluster has 1 to 64 nodes".into();
        return Err(Fault { line: last, reason });
    }
    let nowhere = sorted.vms.iter().find(|words| words.has(WORD)).map(|words| words.line);
    let vms = rows(sorted.vms, VMS, |words| vm(words, nodes.len()))?;
    let version = version(sorted.said, nowhere)?;
    let counts = Counts { nodes: nodes.len(), vms: vms.len() };
    let constraints = constraints(sorted.constraints, counts)?;
    Ok(Room { version, nodes, vms, constraints })
}

/// The version that is said; else 2 if some line has a VM on no node, and 1 if none has.
fn version(said: Option<Said>, nowhere: Option<usize>) -> Result<Version, Fault> {
    match (said, nowhere) {
        (Some(Said { version: Version::One, line }), Some(at)) => {
            let reason = format!("version 1 is said, but line {at} has '{WORD}', of version 2");
            Err(Fault { line, reason })
        }
        (Some(Said { version, .. }), _) => Ok(version),
        (None, Some(_)) => Ok(Version::Two),
        (None, None) => Ok(Version::One),
    }
}

fn sort(lines: Vec<Words>) -> Result<Sorted, Fault> {
    let mut sorted = Sorted::default();
    for mut words in lines {
        match words.next().unwrap_or_default() {
            "node" => sorted.nodes.push(words),
            "vm" => sorted.vms.push(words),
            kind @ ("ban" | "fence" | "spread" | "latency" | "before") => {
                sorted.constraints.push((kind, words));
            }
            "version" => {
                if let Some(Said { line, .. }) = sorted.said {
                    return words.fault(format!("'version' stands here again; line {line} has it"));
                }
                sorted.said = Some(Said { version: words.version()?, line: words.line });
            }
            "step" => {
                return words.fault("'step' belongs in a plan's text; this is read as a cluster");
            }
            other => {
                let known = "version, node, vm, ban, fence, spread, latency or before";
                return words.fault(format!("no line begins with '{other}', only with {known}"));
            }
        }
    }
    Ok(sorted)
}

// ---------------------------------------------------------------- rows

/// Reads the rows of one sort, each as often as its line says.
fn rows<'a, T: Clone>(
    lines: Vec<Words<'a>>,
    things: Things,
    row: impl Fn(&mut Words<'a>) -> Result<T, Fault>,
) -> Result<Vec<T>, Fault> {
    let mut rows = Vec::new();
    for mut words in lines {
        let one = row(&mut words)?;
        let times = times(&mut words, things)?;
        words.end()?;
        rows.resize(rows.len() + times, one);
        if rows.len() > things.most {
            let Things { many, most, .. } = things;
            let reason = format!("this line makes it {} {many}; {most} are allowed", rows.len());
            return words.fault(reason);
        }
    }
    Ok(rows)
}

/// Reads how often a row stands, such as `x3`; once if the line does not say.
fn times(words: &mut Words, things: Things) -> Result<usize, Fault> {
    let Some(count) = words.peek().and_then(|word| word.strip_prefix('x')).and_then(digits) else {
        return Ok(1);
    };
    words.next();
    if count == 0 || count > things.most as u64 {
        return words.fault(format!("x{count} is out of range (x1 to x{})", things.most));
    }
    Ok(count as usize)
}

fn node(words: &mut Words) -> Result<Node, Fault> {
    let memory = words.number_in("the node's memory", 0, MOST_MEMORY)?;
    let cpu = words.number_in("the node's CPU", 0, MOST_CPU)?;
    Ok(Node { memory, cpu })
}

fn vm(words: &mut Words, nodes: usize) -> Result<Vm, Fault> {
    let memory = words.number_in("the VM's memory", 1, MOST_MEMORY)?;
    let cpu = words.number_in("the VM's CPU", 0, MOST_CPU)?;
    words.expect("from")?;
    let current = place(words, "the current node", nodes)?;
    words.expect("to")?;
    let target = place(words, "the target node", nodes)?;
    Ok(Vm { memory, cpu, current, target })
}

fn place(words: &mut Words, what: &str, nodes: usize) -> Result<usize, Fault> {
    match words.place(what)? {
        Some(number) if number == NOWHERE as u64 => {
            let missing = NODES.missing(number, nodes);
            words.fault(format!("{missing}; on no node is '{WORD}'"))
        }
        Some(number) => known(words, number, NODES, nodes),
        None => Ok(NOWHERE),
    }
}

/// A number that names one of `count` things.
fn known(words: &Words, number: u64, things: Things, count: usize) -> Result<usize, Fault> {
    if number < count as u64 {
        return Ok(number as usize);
    }
    words.fault(things.missing(number, count))
}

// ---------------------------------------------------------------- constraints

fn constraints(lines: Vec<(&str, Words)>, counts: Counts) -> Result<Vec<Constraint>, Fault> {
    let mut constraints = Vec::new();
    for (kind, mut words) in lines {
        if constraints.len() == MOST_CONSTRAINTS {
            return words
                .fault(format!("this line is one too many; {MOST_CONSTRAINTS} are allowed"));
        }
        constraints.push(constraint(kind, &mut words, counts)?);
        words.end()?;
    }
    Ok(constraints)
}

fn constraint(kind: &str, words: &mut Words, counts: Counts) -> Result<Constraint, Fault> {
    if kind == "before" {
        return before(words, counts.vms);
    }
    words.expect("vms")?;
    let vms = list(words, "none", VMS, counts.vms)?;
    if kind == "spread" {
        return Ok(Constraint::Spread { vms });
    }
    if kind == "latency" {
        words.expect("groups")?;
        return Ok(Constraint::Latency { vms, groups: groups(words, counts.nodes)? });
    }
    words.expect("nodes")?;
    let nodes = list(words, "none", NODES, counts.nodes)?;
    Ok(match kind {
        "ban" => Constraint::Ban { vms, nodes },
        _ => Constraint::Fence { vms, nodes },
    })
}

/// Reads two different VMs.
fn before(words: &mut Words, vms: usize) -> Result<Constraint, Fault> {
    let mut vm = |what: &str| {
        let number = words.number(what)?;
        known(words, number, VMS, vms)
    };
    let (first, second) = (vm("the first VM")?, vm("the second VM")?);
    if first == second {
        return words.fault(format!("VM {first} cannot wait for itself"));
    }
    Ok(Constraint::Before { first, second })
}

/// Reads numbers and runs as long as they come, or the word for an empty list.
fn list(words: &mut Words, empty: &str, things: Things, count: usize) -> Result<Vec<usize>, Fault> {
    let mut list: Vec<usize> = Vec::new();
    if words.take(empty) {
        return Ok(list);
    }
    while let Some((first, last)) = words.peek().and_then(run) {
        words.next();
        let (first, last) =
            (known(words, first, things, count)?, known(words, last, things, count)?);
        if first > last {
            return words.fault(format!("{first}-{last} runs backwards; lists rise"));
        }
        if let Some(before) = list.last().filter(|&&before| before >= first) {
            let one = things.one;
            return words.fault(format!("{one} {first} stands behind {one} {before}; lists rise"));
        }
        list.extend(first..=last);
    }
    if !list.is_empty() {
        return Ok(list);
    }
    let found = words.peek().map_or("the line ends".into(), |word| format!("'{word}' stands"));
    let many = things.many;
    words.fault(format!("{found} where a list of {many} should ('{empty}' if it has no {many})"))
}

/// A number, or two with a stroke between, as first and last.
fn run(word: &str) -> Option<(u64, u64)> {
    match word.split_once('-') {
        Some((first, last)) => Some((digits(first)?, digits(last)?)),
        None => digits(word).map(|number| (number, number)),
    }
}

/// Reads node lists with strokes between them, no node in two.
fn groups(words: &mut Words, nodes: usize) -> Result<Vec<Vec<usize>>, Fault> {
    let mut groups: Vec<Vec<usize>> = Vec::new();
    if words.take("none") {
        return Ok(groups);
    }
    loop {
        let group = list(words, "empty", NODES, nodes)?;
        if let Some(node) = group.iter().find(|node| groups.iter().any(|g| g.contains(node))) {
            return words.fault(format!("node {node} stands in two groups"));
        }
        groups.push(group);
        if groups.len() > MOST_GROUPS {
            return words.fault(format!("a latency has at most {MOST_GROUPS} groups"));
        }
        if !words.take("|") {
            return Ok(groups);
        }
    }
}

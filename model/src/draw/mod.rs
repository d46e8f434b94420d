//! A plan as a page to look at or print: the start, the moment of each step at which all its
//! moves run, and the end. The page is whole in itself and says numbers only.

mod arrows;
mod bar;
mod blame;
mod frame;
mod kept;
mod label;
mod look;
mod node;
mod picture;
mod shelf;
mod svg;
mod words;

use crate::form::constraint_line;
use crate::reasons::reason;
use crate::records::{cluster_bytes, plan_bytes, Plan, Room, Step};
use crate::rules::{check, reserve_fault, usable_room, Verdict};
use crate::text::verdict_text;
use frame::{frames, is_pivot, Frame};
use kept::Kept;
use look::{Scale, NARROW, TALL};
use words::many;

const STYLE: &str = include_str!("page.css");
const LEGEND: &str = include_str!("legend.svg");

/// On paper a small cluster's frames stand two abreast; a large one's are as wide as the sheet.
const SMALL: &str = "@page { size: A4 portrait; margin: 10mm; }\n\
                     @media print { body { zoom: 0.7; } }\n";
const LARGE: &str = "body { max-width: 1400px; }\n\
                     @page { size: A4 landscape; margin: 10mm; }\n\
                     @media print { body { zoom: 0.74; } }\n";

/// How the frames are read.
const LABELS: &str = "VM 5, target 9: VM 5 is to end on node 9. VM 5 \u{2192} 9: it runs to node \
    9. VM 5 \u{2190} 2: it runs from node 2. Where it is narrow, VM is left out. A block too low \
    for words is shown again below its node.";
const BRIEF: &str = " A step's frame shows the nodes that the step touches; the others stay as \
    they are.";
const SHELF: &str = " The shelf holds the VMs on no node; nothing counts there. Target none: the \
    VM is to be on no node. VM 5 \u{2192} none: it is shut down, and counts on its node until that \
    has ended. VM 5 \u{2190} none: it is launched.";
const IDLE: &str = " A VM with CPU 0 needs only memory to arrive, so that a node over its CPU may \
    take it.";
const BEFORE: &str =
    " VM 0 before VM 1: a step moves VM 1 only if VM 0 is on its target when it starts, \
    and stays there.";
const PIVOT: &str = " A pivot is a move to a node that is not its VM's target.";
const MARKS: &str = " Broken red lines are around what refuses a step.";

/// More constraints than this are only counted.
const MOST_SHOWN: usize = 12;

/// Whose verdict the page shows.
#[derive(Clone, Copy, Debug, PartialEq, Eq)]
pub enum Whose {
    /// The model's own.
    Model,
    /// The proved checker's, which is the model's too.
    Checker,
}

/// Draws a plan at a reserve. The error is a sentence, if the reserve is too high (fault 23) or some
/// step does not fit the cluster (fault 15).
pub fn page(reserve: u64, whole: &Room, plan: &Plan, whose: Whose) -> Result<String, String> {
    if let Some(number) = reserve_fault(reserve) {
        return Err(reason(number).into());
    }
    let steps = &plan.steps;
    let verdict = check(reserve, &cluster_bytes(whole), &plan_bytes(plan));
    let room = &usable_room(reserve, whole);
    let kept = &Kept::of(reserve, whole, room);
    let frames = frames(room, kept, steps, verdict)?;
    let scale = Scale::of(whole, &frames);
    let figures: String = frames.iter().map(|frame| figure(room, kept, &scale, frame)).collect();
    let headline = headline(steps, verdict) + &kept.headline();
    let print = if room.nodes.len() <= NARROW { SMALL } else { LARGE };
    let verdict = verdict_words(room, kept, verdict, whose);
    let about = about(room, &frames) + &kept.words() + &verdict + &constraints(room);
    let legend = kept.legend(LEGEND);
    let reading = reading(room, steps, &frames);
    let kept = kept.style();
    Ok(format!(
        "<!DOCTYPE html>\n<html lang=\"en\">\n<head>\n<meta charset=\"utf-8\"/>\n\
         <title>{headline}</title>\n<style>\n{STYLE}{kept}{print}</style>\n</head>\n<body>\n\
         <h1>{headline}</h1>\n{about}{legend}{reading}<main>\n{figures}</main>\n</body>\n</html>\n"
    ))
}

fn headline(steps: &[Step], verdict: Verdict) -> String {
    let moves = steps.iter().map(Vec::len).sum();
    let end = match verdict {
        Verdict::Accepted { cost } => format!("cost {cost}"),
        Verdict::Refused { .. } => "refused".into(),
    };
    format!("{}, {}, {end}", many(steps.len(), "step"), many(moves, "move"))
}

/// What the plan is for, and where it ends if it gets there.
fn about(room: &Room, frames: &[Frame]) -> String {
    let cluster = format!("{}, {}", many(room.nodes.len(), "node"), many(room.vms.len(), "VM"));
    let end = match frames.last().filter(|end| end.still).map(|end| end.astray(room)) {
        None => "",
        Some(0) => " The end is the target.",
        Some(1) => " The end is not the target: 1 VM is elsewhere.",
        Some(n) => &format!(" The end is not the target: {n} VMs are elsewhere."),
    };
    format!("<p>{cluster}.{end}</p>\n")
}

/// The line of the verdict, whose it is, and what a refusal means.
fn verdict_words(room: &Room, kept: &Kept, verdict: Verdict, whose: Whose) -> String {
    let whose = match whose {
        Whose::Model => "Verdict of the Rust model, not of the proved checker",
        Whose::Checker => "Verdict of the proved checker",
    };
    let line = verdict_text(verdict);
    let why = match verdict {
        Verdict::Accepted { .. } => "",
        Verdict::Refused { number: number @ ..15, .. } => {
            let (why, target) = (reason(number), kept.target_words(room));
            &format!(" {why}{target} The steps are drawn as they stand, unchecked.")
        }
        Verdict::Refused { number, .. } => &format!(" {}", reason(number)),
    };
    format!("<p class=\"verdict\">{whose}: <b>{}</b>.{why}</p>\n", line.trim_end())
}

fn constraints(room: &Room) -> String {
    if room.constraints.is_empty() {
        return String::new();
    }
    let shown = room.constraints.iter().take(MOST_SHOWN);
    let items: String = shown.map(|c| format!("<li>{}</li>\n", constraint_line(c))).collect();
    let more = match room.constraints.len().saturating_sub(MOST_SHOWN) {
        0 => String::new(),
        n => format!("<li>and {n} more</li>\n"),
    };
    format!("<ul>\n{items}{more}</ul>\n")
}

/// What is to be said of how to read these frames.
fn reading(room: &Room, steps: &[Step], frames: &[Frame]) -> String {
    let drawn = frames.iter().filter(|frame| !frame.still).count();
    let pivots = steps.iter().take(drawn).flatten().any(|m| is_pivot(room, m));
    let sentences = [
        (true, LABELS),
        (frames.iter().any(|frame| frame.brief), BRIEF),
        (room.has_nowhere(), SHELF),
        (frames.iter().any(|frame| frame.has_idle_arrival_over_cpu(room)), IDLE),
        (room.befores().next().is_some(), BEFORE),
        (pivots, PIVOT),
        (frames.iter().any(|frame| !frame.blame.notes().is_empty()), MARKS),
    ];
    let said: String =
        sentences.iter().filter(|(holds, _)| *holds).map(|(_, words)| *words).collect();
    format!("<p class=\"reading\">{said}</p>\n")
}

fn figure(room: &Room, kept: &Kept, scale: &Scale, frame: &Frame) -> String {
    let kind = if frame.refused { "refused" } else { "fine" };
    let tall = if frame.shown.len() > TALL { " tall" } else { "" };
    let Frame { title, notes, .. } = frame;
    let notes: String = notes.iter().map(|note| format!("<p>{note}</p>\n")).collect();
    let drawing = node::drawing(room, kept, scale, frame);
    format!(
        "<figure class=\"{kind}{tall}\">\n<figcaption><h2>{title}</h2>\n{notes}</figcaption>\n\
         {drawing}</figure>\n"
    )
}

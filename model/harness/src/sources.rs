//! The plans that were checked, by version: what came of each, where they came from, and what there
//! is to tell of those whose sources are wrong.

use crate::report::{missing, outcome, print_kinds, print_row, Counts, Kind, Stream};
use crate::told::{Table, Told};
use kobdrieft_model::gen::Origin;
use kobdrieft_model::rules::{check_steps, Placement};
use kobdrieft_model::{bare, parse_cluster, parse_plan, Move, Room, Verdict, Version};

/// What can come of a plan of version 1 or 2, and behind that what only one of version 2 can.
const KINDS: [Kind; 11] = [
    ("accepted", 0..=0),
    ("1 to 9", 1..=9),
    ("13", 13..=13),
    ("14", 14..=14),
    ("15", 15..=15),
    ("16", 16..=16),
    ("17", 17..=17),
    ("18", 18..=18),
    ("33", 33..=33),
    ("19", 19..=19),
    ("27", 27..=27),
];

/// The kinds of a version's plans.
fn kinds(version: Version) -> &'static [Kind] {
    match version {
        Version::One => &KINDS[..KINDS.len() - 1],
        Version::Two => &KINDS,
    }
}

/// A step refused with 27, or with 15 though it has a wrong source: its number, a move with a wrong
/// source, and what the step is refused with if no source is named.
struct Wrong {
    number: u8,
    step: usize,
    room: Room,
    m: Move,
    unnamed: Option<u8>,
}

impl Wrong {
    /// Looks at a plan by the model's verdict on it.
    fn of(cluster: &[u8], plan: &[u8], verdict: u64) -> Option<Wrong> {
        let (number, step) = (outcome(verdict) as u8, (verdict & 65_535) as usize);
        if !matches!(number, 15 | 27) {
            return None;
        }
        let (room, plan) = (parse_cluster(cluster).ok()?, parse_plan(plan).ok()?);
        let (before, steps) = plan.steps.split_at(step - 1);
        let start = before.iter().fold(Placement::current(&room), |h, step| h.after(&room, step));
        let place = |m: &Move| start.place.get(m.vm).copied();
        let wrong = |m: &&Move| m.from.is_some() && place(m).is_some() && m.from != place(m);
        let m = *steps[0].iter().find(wrong)?;
        let unnamed = match check_steps(&room, &bare(&plan.steps).steps) {
            Verdict::Refused { number, step: at } if usize::from(at) == step => Some(number),
            _ => None,
        };
        Some(Wrong { number, step, room, m, unnamed })
    }

    fn is_27(&self) -> bool {
        self.number == 27
    }

    /// What the move names.
    fn names(&self) -> Named {
        match self.m.from {
            Some(from) if from == self.m.to => Named::Destination,
            Some(from) if from == self.room.vms[self.m.vm].current => Named::Record,
            Some(from) if from >= self.room.nodes.len() => Named::NoNode,
            _ => Named::Other,
        }
    }
}

/// What a wrong source is: the move's destination, the place that the record has the VM at, no node
/// of the cluster, or another node.
#[derive(PartialEq)]
enum Named {
    Destination,
    Record,
    NoNode,
    Other,
}

const TOLD: [Told<Wrong>; 12] = [
    ("27 in the first step", |w| w.is_27() && w.step == 1),
    ("27 in a later step", |w| w.is_27() && w.step > 1),
    ("27, else sound", |w| w.is_27() && w.unnamed.is_none()),
    ("27 before 16", |w| w.is_27() && w.unnamed == Some(16)),
    ("27 before 17", |w| w.is_27() && w.unnamed == Some(17)),
    ("27 before 18", |w| w.is_27() && w.unnamed == Some(18)),
    ("27 before 33", |w| w.is_27() && w.unnamed == Some(33)),
    ("27, source no node", |w| w.is_27() && w.names() == Named::NoNode),
    ("27, source the destination", |w| w.is_27() && w.names() == Named::Destination),
    ("27, source the record's place", |w| w.is_27() && w.names() == Named::Record),
    ("27, source another node", |w| w.is_27() && w.names() == Named::Other),
    ("15 before 27", |w| w.number == 15),
];

/// What comes of plans by origin: accepted, 15, 27, anything else.
const OUTCOMES: [&str; 4] = ["accepted", "15", "27", "other"];

/// The plans of an origin in a version, and which of those outcomes must have come.
const ORIGINS: [(&str, Origin, Version, [bool; 4]); 9] = [
    ("planner's, version 1", Origin::Planner, Version::One, [true, false, false, true]),
    ("planner's, version 2", Origin::Planner, Version::Two, [true, false, false, true]),
    ("spoilt, version 1", Origin::Spoilt, Version::One, [true, true, false, true]),
    ("spoilt, version 2", Origin::Spoilt, Version::Two, [true, true, false, true]),
    ("sources stale, version 2", Origin::Stale, Version::Two, [true, true, true, true]),
    ("one source wrong, version 2", Origin::OneWrong, Version::Two, [false, true, true, true]),
    ("turned round, version 2", Origin::TurnedRound, Version::Two, [false, true, false, true]),
    ("other file, version 1", Origin::OtherFile, Version::One, [true, true, false, true]),
    ("other file, version 2", Origin::OtherFile, Version::Two, [true; 4]),
];

pub(crate) struct Sources {
    versions: [Counts; 2],
    told: Table<Wrong>,
    origins: [[u64; 4]; ORIGINS.len()],
    longest: [usize; 2],
}

impl Default for Sources {
    fn default() -> Sources {
        let (versions, origins) = (Default::default(), Default::default());
        Sources { versions, told: Table::of(&TOLD), origins, longest: [0; 2] }
    }
}

impl Sources {
    /// Counts an input by its plan's version, if it has bytes enough to have one.
    pub(crate) fn count(
        &mut self,
        stream: Stream,
        cluster: &[u8],
        plan: &[u8],
        verdict: u64,
        origin: Option<Origin>,
    ) {
        let Some(version) = plan.first().and_then(|&b| Version::of(b)).filter(|_| plan.len() > 6)
        else {
            return;
        };
        let (i, outcome) = (version as usize - 1, outcome(verdict));
        self.versions[i][outcome][stream as usize] += 1;
        if outcome == 0 && !matches!(stream, Stream::HandSet) {
            self.longest[i] = self.longest[i].max(plan.len());
        }
        if let Some(wrong) = Wrong::of(cluster, plan, verdict) {
            self.told.count(stream, &wrong);
        }
        let kind = [0, 15, 27].iter().position(|&number| number == outcome).unwrap_or(3);
        for (row, (_, from, of, _)) in self.origins.iter_mut().zip(ORIGINS) {
            row[kind] += u64::from(Some(from) == origin && of == version);
        }
    }

    /// What no generated input led to.
    pub(crate) fn missing(&self) -> Vec<String> {
        let mut never = Vec::new();
        for version in Version::ALL {
            let (name, counts) = (name(version), &self.versions[version as usize - 1]);
            let wanted = kinds(version).iter().flat_map(|(_, outcomes)| outcomes.clone());
            never.extend(missing(counts, &format!("{name},"), wanted));
        }
        never.extend(self.told.missing());
        for (row, (name, _, _, wanted)) in self.origins.iter().zip(ORIGINS) {
            for ((count, wanted), outcome) in row.iter().zip(wanted).zip(OUTCOMES) {
                if wanted && *count == 0 {
                    never.push(format!("{name}, {outcome}"));
                }
            }
        }
        never
    }

    pub(crate) fn print(&self) {
        for version in Version::ALL {
            print_kinds(name(version), kinds(version), &self.versions[version as usize - 1]);
        }
        self.told.print();
    }

    /// What came of the generated plans by origin, all streams together.
    pub(crate) fn print_origins(&self) {
        print_row("generated plans", OUTCOMES);
        for (row, (name, ..)) in self.origins.iter().zip(ORIGINS) {
            print_row(name, *row);
        }
        let [one, two] = self.longest;
        println!("longest accepted plan generated: {one} bytes in version 1, {two} in version 2");
    }
}

fn name(version: Version) -> &'static str {
    match version {
        Version::One => "version 1",
        Version::Two => "version 2",
    }
}

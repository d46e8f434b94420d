//! Clusters of version 2 and VMs on no node: what came of such clusters, and what there is to tell
//! of launches, shutdowns and VMs that stay down among the inputs of `check`.

use crate::damaged::Damaged;
use crate::report::{missing, outcome, print_kinds, Counts, Kind, Stream};
use crate::seen::Seen;
use crate::told::{Table, Told};
use kobdrieft_model::rules::{allows, mates, meets_mate, misfits, Book, Placement};
use kobdrieft_model::{on_a_node, parse_cluster, Constraint, Move, Version, NOWHERE};

/// What can come of a plan for a cluster of version 2.
const KINDS: [Kind; 11] = [
    ("accepted", 0..=0),
    ("3 to 7", 3..=7),
    ("8 and 9", 8..=9),
    ("11 to 14", 11..=14),
    ("15", 15..=15),
    ("16", 16..=16),
    ("17", 17..=17),
    ("18", 18..=18),
    ("33", 33..=33),
    ("19", 19..=19),
    ("27", 27..=27),
];

impl Seen {
    fn target(&self, vm: usize) -> usize {
        self.room.vms[vm].target
    }

    /// Whether the cluster is accepted and has such a constraint.
    fn kept(&self, holds: impl Fn(&Constraint) -> bool) -> bool {
        !(1..=9).contains(&self.number) && self.room.constraints.iter().any(holds)
    }

    /// How many of these VMs there are, and how many of them end on no node.
    fn down(&self, vms: &[usize]) -> (usize, usize) {
        (vms.len(), vms.iter().filter(|&&vm| !on_a_node(self.target(vm))).count())
    }

    /// Whether the plan is accepted and some move, from this place, is such.
    fn moved(&self, holds: impl Fn(usize, &Move) -> bool) -> bool {
        self.number == 0 && self.course.moves().any(|(at, m)| holds(at.place[m.vm], m))
    }

    /// Whether the step is refused with this number and some move of a VM that is there, from this
    /// place, is such.
    fn refused(&self, number: usize, holds: impl Fn(usize, &Move) -> bool) -> bool {
        let there = |m: &&Move| m.vm < self.room.vms.len();
        let mut moves = self.fault.iter().filter(there);
        self.number == number && moves.any(|m| holds(self.here().place[m.vm], m))
    }

    /// Whether the plan ends with some VM off its target and at such a place.
    fn left(&self, holds: impl Fn(usize) -> bool) -> bool {
        let astray = self.here().out_of_place(&self.room);
        self.number == 19 && astray.iter().any(|&vm| holds(self.here().place[vm]))
    }

    /// The start of the step at fault, as it would be with the shutdowns of the step done.
    fn without_shutdowns(&self) -> Placement {
        let mut place = self.here().place.clone();
        self.fault.iter().filter(|m| !on_a_node(m.to)).for_each(|m| place[m.vm] = NOWHERE);
        Placement::of(&self.room, place)
    }

    /// Whether a step is refused with 17 only since its shutdowns count until they end.
    fn pays_nobody(&self) -> bool {
        self.number == 17 && !misfits(&self.room, &self.without_shutdowns(), &self.fault)
    }

    /// Whether a step is refused with 18 only since a mate is still being shut down.
    fn meets_leaver(&self) -> bool {
        let meets = || meets_mate(&Book::of(&self.room), &self.without_shutdowns(), &self.fault);
        self.number == 18 && !meets()
    }

    /// Whether two launches of a step refused with 18 are of mates and go to one node.
    fn launches_meet(&self) -> bool {
        let launched = |m: &&Move| self.number == 18 && !on_a_node(self.here().place[m.vm]);
        let launches: Vec<&Move> = self.fault.iter().filter(launched).collect();
        let meet = |a: &Move, b: &Move| a.to == b.to && mates(&self.room, a.vm).contains(&b.vm);
        launches.iter().any(|a| launches.iter().any(|b| meet(a, b)))
    }

    /// Whether the moves of a step refused with this number are sound if its launches are left out.
    fn by_a_launch(&self, number: usize, faulty: impl Fn(&[Move]) -> bool) -> bool {
        if self.number != number {
            return false;
        }
        let was_up = |m: &&Move| on_a_node(self.here().place[m.vm]);
        let others: Vec<Move> = self.fault.iter().filter(was_up).copied().collect();
        !faulty(&others)
    }
}

const TOLD: [Told<Seen>; 31] = [
    ("cluster 2, nobody ever down", |s| {
        s.number == 0 && s.room.version == Version::Two && !s.room.has_nowhere()
    }),
    ("latency, all end down", |s| {
        s.kept(|c| {
            matches!(c, Constraint::Latency { vms, groups }
            if !groups.is_empty() && matches!(s.down(vms), (all @ 1.., down) if all == down))
        })
    }),
    ("latency, all down, no group", |s| {
        s.kept(|c| {
            matches!(c, Constraint::Latency { vms, groups }
            if groups.is_empty() && !vms.is_empty())
        })
    }),
    ("latency, some end down", |s| {
        s.kept(|c| {
            matches!(c, Constraint::Latency { vms, .. }
            if matches!(s.down(vms), (all, down @ 1..) if down < all))
        })
    }),
    ("mates that both end down", |s| {
        s.kept(|c| matches!(c, Constraint::Spread { vms } if s.down(vms).1 > 1))
    }),
    ("fence on no node, all end down", |s| {
        s.kept(|c| {
            matches!(c, Constraint::Fence { vms, nodes }
            if nodes.is_empty() && !vms.is_empty())
        })
    }),
    ("8, VMs on no node", |s| s.number == 8 && s.room.has_nowhere()),
    ("9, VMs on no node", |s| s.number == 9 && s.room.has_nowhere()),
    ("accepted, a launch", |s| s.moved(|from, _| !on_a_node(from))),
    ("accepted, a shutdown", |s| s.moved(|_, m| !on_a_node(m.to))),
    ("accepted, no source named", |s| {
        s.plan.version == Version::One && s.moved(|_, m| !on_a_node(m.to))
    }),
    ("accepted, source 255", |s| s.moved(|_, m| m.from == Some(NOWHERE))),
    ("accepted, launched elsewhere", |s| {
        s.moved(|from, m| !on_a_node(from) && on_a_node(s.target(m.vm)) && m.to != s.target(m.vm))
    }),
    ("accepted, launched for a while", |s| {
        s.moved(|from, m| !on_a_node(from) && !on_a_node(s.target(m.vm)))
    }),
    ("accepted, moved, then down", |s| {
        s.moved(|from, m| on_a_node(from) && on_a_node(m.to) && !on_a_node(s.target(m.vm)))
    }),
    ("accepted, down out of a fence", |s| {
        s.moved(|_, m| !on_a_node(m.to) && s.room.constraints.iter().any(|c| fences(c, m.vm)))
    }),
    ("accepted, one stays down", |s| {
        let still = |vm: usize| s.course.moves().all(|(_, m)| m.vm != vm);
        let down = |vm: &usize| !on_a_node(s.here().place[*vm]);
        let moved = !s.course.steps.is_empty();
        s.number == 0 && moved && (0..s.room.vms.len()).filter(down).any(still)
    }),
    ("15, down, target a node", |s| {
        s.room.version == Version::Two
            && s.refused(15, |_, m| !on_a_node(m.to) && on_a_node(s.target(m.vm)))
    }),
    ("15, down already", |s| s.refused(15, |from, m| !on_a_node(m.to) && m.to == from)),
    ("15, down in cluster 1", |s| {
        s.room.version == Version::One && s.refused(15, |_, m| !on_a_node(m.to))
    }),
    ("27, 255 named, on a node", |s| {
        s.refused(27, |from, m| m.from == Some(NOWHERE) && on_a_node(from))
    }),
    ("27, a node named, down", |s| {
        s.refused(27, |from, m| m.from.is_some_and(on_a_node) && !on_a_node(from))
    }),
    ("16, a launch", |s| {
        let closed = |m: &Move| s.room.constraints.iter().any(|c| !allows(c, m.vm, m.to));
        s.refused(16, |from, m| !on_a_node(from) && closed(m))
    }),
    ("17, by a launch", |s| s.by_a_launch(17, |step| misfits(&s.room, s.here(), step))),
    ("17, a shutdown pays nobody", Seen::pays_nobody),
    ("18, by a launch", |s| {
        s.by_a_launch(18, |step| meets_mate(&Book::of(&s.room), s.here(), step))
    }),
    ("18, two launches meet", Seen::launches_meet),
    ("18, a mate being shut down", Seen::meets_leaver),
    ("19, one still down", |s| s.left(|place| !on_a_node(place))),
    ("19, one still up", |s| {
        let astray = s.here().out_of_place(&s.room);
        s.number == 19 && astray.iter().any(|&vm| !on_a_node(s.target(vm)))
    }),
    ("19, launched elsewhere", |s| {
        let first_down = |vm: &usize| !on_a_node(s.room.vms[*vm].current);
        let astray = s.here().out_of_place(&s.room);
        s.left(on_a_node)
            && astray.iter().filter(|vm| on_a_node(s.here().place[**vm])).any(first_down)
    }),
];

fn fences(constraint: &Constraint, vm: usize) -> bool {
    matches!(constraint, Constraint::Fence { vms, .. } if vms.contains(&vm))
}

const DAMAGES: [Told<Damaged>; 7] = [
    ("2, version 0", |d| d.is(2, 0)),
    ("2, version 3", |d| d.is(2, 3)),
    ("2, version 255", |d| d.is(2, 255)),
    ("6, 255 in cluster 1", |d| {
        let two = [&[2], &d.cluster[1..]].concat();
        d.is(6, 1) && parse_cluster(&two) != Err(6)
    }),
    ("6 in cluster 2", |d| d.is(6, 2)),
    ("7, node 255 in cluster 1", |d| d.is(7, 1) && d.has_body(lists_255)),
    ("7, node 255 in cluster 2", |d| d.is(7, 2) && d.has_body(lists_255)),
];

/// Whether a node list of this constraint has 255 in it. It would stand last, as lists rise.
fn lists_255(body: &[u8]) -> bool {
    matches!(body, [1 | 2 | 4, ..]) && ends_with_255(body).is_some()
}

/// `Some` if a node list of this constraint ends with 255.
fn ends_with_255(body: &[u8]) -> Option<()> {
    let vms = usize::from(*body.get(1)?) * 256 + usize::from(*body.get(2)?);
    let mut rest = body.get(3 + vms..)?;
    if body[0] == 4 {
        rest = rest.get(1..)?;
    }
    loop {
        let (&count, behind) = rest.split_first()?;
        let nodes = behind.get(..usize::from(count))?;
        if nodes.last() == Some(&255) {
            return Some(());
        }
        rest = &behind[nodes.len()..];
    }
}

pub(crate) struct Nowhere {
    checks: Counts,
    told: Table<Seen>,
    pub(crate) damages: Table<Damaged>,
}

impl Default for Nowhere {
    fn default() -> Nowhere {
        let (told, damages) = (Table::of(&TOLD), Table::of(&DAMAGES));
        Nowhere { checks: Counts::default(), told, damages }
    }
}

impl Nowhere {
    /// Counts an input if its cluster is of version 2, and by what there is to tell of it.
    pub(crate) fn count(
        &mut self,
        stream: Stream,
        cluster: &[u8],
        verdict: u64,
        seen: Option<&Seen>,
    ) {
        let number = outcome(verdict);
        if number != 1 && cluster[0] == 2 {
            self.checks[number][stream as usize] += 1;
        }
        seen.into_iter().for_each(|seen| self.told.count(stream, seen));
    }

    /// What no generated input led to.
    pub(crate) fn missing(&self) -> Vec<String> {
        let wanted = KINDS.into_iter().flat_map(|(_, outcomes)| outcomes);
        let checks = missing(&self.checks, "cluster 2,", wanted);
        [checks, self.told.missing(), self.damages.missing()].concat()
    }

    pub(crate) fn print(&self) {
        print_kinds("cluster 2", &KINDS, &self.checks);
        self.told.print();
        self.damages.print();
    }
}

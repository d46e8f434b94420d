//! What an input of `check` came to, and what was built for one of `build`, step by step.

use crate::report::outcome;
use kobdrieft_model::rules::{usable_room, Placement};
use kobdrieft_model::{parse_cluster, parse_plan, Move, Plan, Room, Step, Version};

/// Steps, and where VMs are before the first of them, after it, and so on to the last.
pub(crate) struct Course {
    pub(crate) steps: Vec<Step>,
    places: Vec<Placement>,
}

impl Course {
    fn of(room: &Room, steps: Vec<Step>) -> Course {
        let mut places = vec![Placement::current(room)];
        for (i, step) in steps.iter().enumerate() {
            places.push(places[i].after(room, step));
        }
        Course { steps, places }
    }

    /// Where VMs are in the end.
    pub(crate) fn end(&self) -> &Placement {
        self.places.last().expect("a start at least")
    }

    /// Each step with where VMs are when it starts.
    pub(crate) fn started(&self) -> impl Iterator<Item = (&Placement, &Step)> {
        self.places.iter().zip(&self.steps)
    }

    /// Each move with where VMs are when its step starts.
    pub(crate) fn moves(&self) -> impl Iterator<Item = (&Placement, &Move)> {
        self.started().flat_map(|(start, step)| step.iter().map(move |m| (start, m)))
    }
}

/// An input whose reserve is taken and whose cluster can be read: the model's number, 0 for accepted;
/// the room with its usable amounts; the plan, as one of no steps if it cannot be read; the steps
/// before the one at fault, or all; and the step at fault.
pub(crate) struct Seen {
    pub(crate) number: usize,
    pub(crate) room: Room,
    pub(crate) plan: Plan,
    pub(crate) course: Course,
    pub(crate) fault: Step,
}

impl Seen {
    pub(crate) fn of(reserve: u64, cluster: &[u8], plan: &[u8], verdict: u64) -> Option<Seen> {
        let (number, step) = (outcome(verdict), (verdict & 65_535) as usize);
        let room = parse_cluster(cluster).ok().filter(|_| number != 23)?;
        let room = usable_room(reserve, &room);
        let plan = parse_plan(plan).unwrap_or(Plan::empty(Version::One));
        let is_at_fault = matches!(number, 15..=18 | 27 | 33);
        let sound = match number {
            0 | 19 => plan.steps.len(),
            _ if is_at_fault => step - 1,
            _ => 0,
        };
        let course = Course::of(&room, plan.steps[..sound].to_vec());
        let fault = if is_at_fault { plan.steps[sound].clone() } else { vec![] };
        Some(Seen { number, room, plan, course, fault })
    }

    /// Where VMs are when the step at fault starts, or after the last.
    pub(crate) fn here(&self) -> &Placement {
        self.course.end()
    }
}

/// What was built for a cluster: whether it is a plan or blocked, the room with its usable amounts, and
/// the steps with their sources.
pub(crate) struct Made {
    pub(crate) planned: bool,
    pub(crate) room: Room,
    pub(crate) course: Course,
}

impl Made {
    pub(crate) fn of(planned: bool, room: Room, steps: Vec<Step>) -> Made {
        Made { planned, course: Course::of(&room, steps), room }
    }

    pub(crate) fn steps(&self) -> &[Step] {
        &self.course.steps
    }

    /// How many moves go elsewhere than to their VM's target.
    pub(crate) fn pivots(&self) -> usize {
        self.steps().iter().flatten().filter(|m| m.to != self.room.vms[m.vm].target).count()
    }
}

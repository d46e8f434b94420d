//! What a stop means, event by event. A VM counts at one place at rest and at two while its move runs;
//! when it is stopped a running move ends, or is called back, and is at one again. Nothing of `stop` is
//! used here.

use crate::orders::{every_order, every_state, Event, Phase};
use crate::records::{Move, Room, Step};

/// The places at which each VM counts, the one it comes from first. No node is a place here, too.
#[derive(Clone, Debug)]
pub struct Places(Vec<Vec<usize>>);

impl Places {
    pub fn current(room: &Room) -> Places {
        Places(room.vms.iter().map(|vm| vec![vm.current]).collect())
    }

    /// From its begin on a VM counts at its destination, too.
    pub fn begin(&mut self, m: &Move) {
        self.0[m.vm].push(m.to);
    }

    /// From its end on it no longer counts at its source.
    pub fn end(&mut self, m: &Move) {
        assert_eq!(self.0[m.vm].len(), 2, "a move that runs");
        self.0[m.vm].remove(0);
    }

    /// Called back it no longer counts at its destination.
    pub fn call_back(&mut self, m: &Move) {
        assert_eq!(self.0[m.vm].len(), 2, "a move that runs");
        self.0[m.vm].pop();
    }

    /// The places at which all the moves of some steps have ended.
    pub fn after(mut self, steps: &[Step]) -> Places {
        for step in steps {
            step.iter().for_each(|m| self.begin(m));
            step.iter().for_each(|m| self.end(m));
        }
        self
    }

    /// The place of each VM, with no move running.
    pub fn at_rest(&self) -> Vec<usize> {
        let place = |places: &Vec<usize>| match places[..] {
            [place] => place,
            _ => panic!("a move runs: {places:?}"),
        };
        self.0.iter().map(place).collect()
    }
}

/// A step under way: how far its moves have come, and where VMs count.
#[derive(Clone, Debug)]
pub struct Moment<'a> {
    step: &'a [Move],
    pub phases: Vec<Phase>,
    places: Places,
}

impl<'a> Moment<'a> {
    /// The moment at which a step starts.
    pub fn first(start: &Places, step: &'a [Move]) -> Moment<'a> {
        Moment { step, phases: vec![Phase::Waiting; step.len()], places: start.clone() }
    }

    /// The moment behind an event.
    pub fn go_on(&mut self, event: Event) {
        match event {
            Event::Begin(i) => {
                self.places.begin(&self.step[i]);
                self.phases[i] = Phase::Running;
            }
            Event::End(i) => {
                self.places.end(&self.step[i]);
                self.phases[i] = Phase::Ended;
            }
        }
    }

    /// All marks that agree with this moment: 1 where a move has ended, 0 where it waits, either where
    /// it runs.
    pub fn marks(&self) -> Vec<Vec<u8>> {
        let mut all: Vec<Vec<u8>> = vec![vec![]];
        for phase in &self.phases {
            let either: &[u8] = match phase {
                Phase::Waiting => &[0],
                Phase::Running => &[0, 1],
                Phase::Ended => &[1],
            };
            let with = |mark: u8| all.iter().map(move |marks| [&marks[..], &[mark]].concat());
            all = either.iter().flat_map(|&mark| with(mark)).collect();
        }
        all
    }

    /// Where VMs are when the step is stopped here: of the moves that run those marked 1 end, the others
    /// are called back.
    pub fn stopped(&self, marks: &[u8]) -> Vec<usize> {
        let mut places = self.places.clone();
        for ((m, phase), mark) in self.step.iter().zip(&self.phases).zip(marks) {
            match (phase, mark) {
                (Phase::Running, 1) => places.end(m),
                (Phase::Running, _) => places.call_back(m),
                _ => {}
            }
        }
        places.at_rest()
    }
}

/// Calls `visit` at every moment of every order of a step. A step of more than three moves has too many
/// orders: each moment that some order reaches is then visited once.
pub fn every_moment(start: &Places, step: &[Move], mut visit: impl FnMut(&Moment)) {
    if step.len() > 3 {
        return every_state(step.len(), |phases| visit(&moment_at(start, step, phases)));
    }
    for order in every_order(step.len()) {
        let mut moment = Moment::first(start, step);
        visit(&moment);
        for event in order {
            moment.go_on(event);
            visit(&moment);
        }
    }
}

/// The moment at which moves have come so far.
fn moment_at<'a>(start: &Places, step: &'a [Move], phases: &[Phase]) -> Moment<'a> {
    let mut moment = Moment::first(start, step);
    for (i, phase) in phases.iter().enumerate() {
        if *phase != Phase::Waiting {
            moment.go_on(Event::Begin(i));
        }
        if *phase == Phase::Ended {
            moment.go_on(Event::End(i));
        }
    }
    moment
}

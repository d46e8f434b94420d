//! Larger rooms with plans of many steps: the planner's own in both versions, those spoilt late,
//! in their moves or their sources, and plans of other rooms; and with no plan bytes.

use kobdrieft_model::gen::{self, Origin, Rng, Size};
use kobdrieft_model::planner::make_steps;
use kobdrieft_model::rules::{step_fault, Book, Placement};
use kobdrieft_model::{bare, cluster_bytes, named, plan_bytes, Move, Plan, Room, Step, Version};

/// A cluster with several plans for it, and the origin of each that has bytes.
pub struct Large {
    pub cluster: Vec<u8>,
    pub plans: Vec<(Vec<u8>, Option<Origin>)>,
}

/// How many spoilt plans come beside the sound one.
const SPOILT: usize = 8;

pub fn large(rng: &mut Rng) -> Large {
    let room = large_room(rng);
    let (mut steps, mut origin) = (make_steps(&room).0, Origin::Planner);
    if rng.chance(50) {
        lengthen(rng, &room, &mut steps);
        origin = Origin::Spoilt;
    }
    let mut plans = vec![(bare(&steps), origin), (named(&room, &steps), origin)];
    plans.extend((0..SPOILT).map(|_| spoilt_late(rng, &room, &steps)));
    if rng.chance(25) {
        plans.push((gen::other_file(rng, &room), Origin::OtherFile));
    }
    let records = plans.iter().map(|(plan, origin)| (plan_bytes(plan), Some(*origin)));
    let plans = records.chain([(Vec::new(), None)]).collect();
    Large { cluster: cluster_bytes(&room), plans }
}

/// Rooms that take many steps, or many moves a step.
fn large_room(rng: &mut Rng) -> Room {
    let size = rng.pick(&[Size::Medium, Size::Large, Size::Large]);
    match rng.below(12) {
        0 => gen::swaps(rng.range(20, 128)),
        1 | 2 => {
            let n = rng.range(20, 64);
            gen::ring(rng, n)
        }
        3 | 4 => gen::knot(rng, size),
        5 => gen::apart(rng, size),
        6 => {
            let n = rng.range(20, 64);
            gen::relay(rng, n)
        }
        7 => gen::busy(rng, size),
        8 | 9 => gen::waiting(rng, size),
        _ => gen::room(rng, size),
    }
}

/// Puts sound moves and their ways back in front, until 512 steps or 1,024 moves come near.
fn lengthen(rng: &mut Rng, room: &Room, steps: &mut Vec<Step>) {
    let moves: usize = steps.iter().map(Vec::len).sum();
    let pairs = 512usize.saturating_sub(steps.len()) / 2;
    let pairs = pairs.min(1_024usize.saturating_sub(moves) / 2);
    let book = Book::of(room);
    let here = Placement::current(room);
    let mut front = Vec::new();
    for _ in 0..pairs {
        if let Some(pair) = there_and_back(rng, room, &book, &here) {
            front.extend(pair);
        }
    }
    front.append(steps);
    *steps = front;
}

/// A sound move of one VM and the sound move back, if the draw hits on such a pair.
fn there_and_back(rng: &mut Rng, room: &Room, book: &Book, here: &Placement) -> Option<[Step; 2]> {
    if room.vms.is_empty() {
        return None;
    }
    let vm = rng.below(room.vms.len());
    let to = gen::some_place(rng, room, vm);
    let (there, back) = (vec![Move::bare(vm, to)], vec![Move::bare(vm, here.place[vm])]);
    let sound = step_fault(room, book, here, &there).is_none();
    let returns = sound && step_fault(room, book, &here.after(room, &there), &back).is_none();
    returns.then_some([there, back])
}

/// A plan changed in the last third of its steps: the moves with all sources right, or sources.
fn spoilt_late(rng: &mut Rng, room: &Room, steps: &[Step]) -> (Plan, Origin) {
    let at = steps.len() - rng.range(steps.len().min(1), steps.len().div_ceil(3));
    let origin = match rng.below(8) {
        0 => Origin::Stale,
        1 | 2 if !steps.is_empty() => Origin::OneWrong,
        3 if !steps.is_empty() => Origin::TurnedRound,
        _ => Origin::Spoilt,
    };
    let mut plan = match origin {
        Origin::Spoilt => bare(steps),
        _ => named(room, steps),
    };
    let late = Plan { version: Version::Two, steps: plan.steps.split_off(at) };
    plan.steps.extend(match origin {
        Origin::OneWrong => gen::one_wrong(rng, room, late).steps,
        Origin::TurnedRound => gen::turned_round(rng, late).steps,
        _ => {
            let mut late = late.steps;
            gen::spoil(rng, room, &mut late);
            late
        }
    });
    let plan = match origin {
        Origin::Spoilt => gen::either(rng, room, &plan.steps),
        _ => named(room, &plan.steps),
    };
    (plan, origin)
}

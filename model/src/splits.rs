//! Seeded divisions of plans, in whatever pieces, and all divisions of a step; plans with about as many
//! moves as can be single ones; and lengths of a buffer for a divided plan. Nothing of `split` is used
//! here but its limits.

use crate::gen::{self, random_sound_step, Rng, Size};
use crate::planner::{self, make_steps};
use crate::records::{Move, Room, Step};
use crate::rules::{step_fault, Book, Placement};
use crate::split::{BUFFER, MOST_STEPS};

// ---------------------------------------------------------------- divisions

/// The same moves with some steps divided, or all, each among several in a row: into two, into single
/// moves or into any number of pieces, which come in any order. At times all are single ones, as far as
/// no more than 512 steps result, which holds always if there are no more already.
pub fn division(rng: &mut Rng, steps: &[Step]) -> Vec<Step> {
    let percent = rng.pick(&[20, 60, 100, 100]);
    let all_single = rng.chance(15);
    let mut spare = MOST_STEPS.saturating_sub(steps.len());
    let mut turns: Vec<usize> = (0..steps.len()).collect();
    rng.shuffle(&mut turns);
    let mut pieces = vec![1; steps.len()];
    for i in turns {
        let most = steps[i].len() - 1;
        let more = match rng.below(4) {
            _ if all_single => most,
            _ if !rng.chance(percent) => 0,
            0 => most.min(1),
            1 => most,
            _ => rng.below(most + 1),
        };
        pieces[i] += more.min(spare);
        spare -= more.min(spare);
    }
    steps.iter().zip(pieces).flat_map(|(step, count)| in_pieces(rng, step, count)).collect()
}

/// The moves of a step in so many pieces, at least one in each, and the VMs of each rising.
fn in_pieces(rng: &mut Rng, step: &[Move], count: usize) -> Vec<Step> {
    let mut moves = step.to_vec();
    rng.shuffle(&mut moves);
    let others = moves.split_off(count);
    let mut pieces: Vec<Step> = moves.into_iter().map(|m| vec![m]).collect();
    for m in others {
        pieces[rng.below(count)].push(m);
    }
    pieces.iter_mut().for_each(|piece| piece.sort_by_key(|m| m.vm));
    pieces
}

/// All divisions of a step: any of its parts but the empty one comes first, and behind it all divisions of
/// the rest. Steps of 1, 2, 3, 4 and 5 moves have 1, 3, 13, 75 and 541.
pub fn every_division(step: &[Move]) -> Vec<Vec<Step>> {
    if step.is_empty() {
        return vec![vec![]];
    }
    let mut all = Vec::new();
    for part in 1..1usize << step.len() {
        let is_first = |i: usize| part >> i & 1 == 1;
        let of = |first: bool| -> Step {
            let its = step.iter().enumerate().filter(|(i, _)| is_first(*i) == first);
            its.map(|(_, m)| *m).collect()
        };
        for behind in every_division(&of(false)) {
            all.push([vec![of(true)], behind].concat());
        }
    }
    all
}

// ---------------------------------------------------------------- plans of many moves

/// How many moves a plan of many is to have.
const MANY: [usize; 10] = [510, 511, 512, 512, 512, 513, 513, 514, 700, 1_024];

/// A cluster, and steps for it that are accepted and have many moves: just as many as can be single ones,
/// a few more or less, or as many as there may be.
pub fn many_moves(rng: &mut Rng) -> (Room, Vec<Step>) {
    loop {
        let room = room(rng);
        let (steps, all_home) = make_steps(&room);
        let wanted = rng.pick(&MANY);
        if let Some(steps) = filled(rng, &room, steps, wanted).filter(|_| all_home) {
            return (room, steps);
        }
    }
}

/// Rooms of every sort, in which some VMs have a node to go to and come back from.
fn room(rng: &mut Rng) -> Room {
    let size = rng.pick(&[Size::Tiny, Size::Small, Size::Medium, Size::Medium, Size::Large]);
    match rng.below(10) {
        0 => gen::swaps(rng.range(1, 12)),
        1 => {
            let n = rng.range(3, 12);
            gen::relay(rng, n)
        }
        2 | 3 => gen::apart(rng, size),
        4 | 5 => gen::waiting(rng, size),
        6 | 7 => gen::busy(rng, size),
        _ => gen::room(rng, size),
    }
}

/// Steps that have so many moves: a sound step and its way back go in front of them or behind them, as
/// often as it takes, in the end a part of that step. `None` if that does not come out.
fn filled(rng: &mut Rng, room: &Room, mut steps: Vec<Step>, moves: usize) -> Option<Vec<Step>> {
    let book = Book::of(room);
    let (here, at) = match rng.chance(50) {
        true => (Placement::current(room), 0),
        false => (Placement::target(room), steps.len()),
    };
    let percent = rng.pick(&[5, 20, 50, 100]);
    let there = random_sound_step(rng, room, &book, &here, percent);
    let mut missing = moves.checked_sub(steps.iter().map(Vec::len).sum())?;
    while missing > 0 && !there.is_empty() && steps.len() + 2 <= MOST_STEPS {
        let part = &there[..there.len().min(missing / 2)];
        missing -= 2 * part.len();
        steps.splice(at..at, there_and_back(room, &book, &here, part)?);
    }
    (missing == 0).then_some(steps)
}

/// A sound step that is not empty, and the step back, if that is sound, too.
fn there_and_back(room: &Room, book: &Book, here: &Placement, there: &[Move]) -> Option<[Step; 2]> {
    let back: Step = there.iter().map(|m| Move::bare(m.vm, here.place[m.vm])).collect();
    let then = here.after(room, there);
    let returns = step_fault(room, book, &then, &back).is_none();
    (!there.is_empty() && returns).then(|| [there.to_vec(), back])
}

// ---------------------------------------------------------------- buffers

/// The buffer that divided plans of version 1 would fit in.
pub const OF_VERSION_1: usize = 2_055;

/// The length of a buffer: mostly just long enough, or longer; or too short by a byte, as long as others
/// need it, or of any length.
pub fn some_buffer(rng: &mut Rng) -> usize {
    match rng.below(24) {
        0 => BUFFER - 1,
        1 => rng.below(BUFFER),
        2 => rng.pick(&[0, 0, 7, OF_VERSION_1, planner::BUFFER]),
        3 => rng.range(OF_VERSION_1, BUFFER - 1),
        4 => BUFFER + 1,
        5 | 6 => BUFFER + rng.below(3_000),
        _ => BUFFER,
    }
}

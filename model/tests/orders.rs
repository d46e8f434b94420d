//! The meaning of a step, order by order, against the closed forms.

use kobdrieft_model::edges::{before, cluster_a, node, room_2, vm};
use kobdrieft_model::gen::{room, Rng, Size};
use kobdrieft_model::orders::{every_order, every_state, explore, follow, Found, Phase, Run};
use kobdrieft_model::rules::{meets_mate, misfits, moves_too_soon, step_fault, Book, Placement};
use kobdrieft_model::{Constraint, Move, Node, Room, Step, NOWHERE};

/// A small room whose nodes were made tight around what they may have to hold in the step. Often some
/// VMs are on no node, or go there, and often one waits for another.
fn tight(rng: &mut Rng) -> (Room, Placement, Step) {
    let mut room = room(rng, Size::Tiny);
    let (n, v) = (room.nodes.len(), room.vms.len());
    let down = rng.pick(&[0, 20, 40]);
    let place = |rng: &mut Rng| if rng.chance(down) { NOWHERE } else { rng.below(n) };
    let start = Placement::of(&room, (0..v).map(|_| place(rng)).collect());
    room.vms.iter_mut().filter(|_| rng.chance(down)).for_each(|vm| vm.target = NOWHERE);
    if v > 1 && rng.chance(40) {
        let first = rng.below(v);
        room.constraints.push(before(first, (first + rng.range(1, v - 1)) % v));
        if rng.chance(50) {
            room.vms[first].target = start.place[first];
        }
    }
    let step = small_step(rng, &start, &room);
    let left = start.after(&room, &step).sums;
    for (node, (before, after)) in room.nodes.iter_mut().zip(start.sums.iter().zip(&left)) {
        let memory = before.memory.max(after.memory) + rng.below(5) as u64;
        let cpu = before.cpu.max(after.cpu) + rng.pick(&[0, 1, 3, 100]);
        *node = Node { memory: memory.saturating_sub(1), cpu: cpu.saturating_sub(1) };
    }
    if rng.chance(50) {
        let all: Vec<usize> = (0..v).collect();
        room.constraints.push(Constraint::Spread { vms: rng.some_of(&all) });
    }
    (room, start, step)
}

/// One to four moves with no fault 15.
fn small_step(rng: &mut Rng, start: &Placement, room: &Room) -> Step {
    let (n, v) = (room.nodes.len(), room.vms.len());
    let mut vms: Vec<usize> = (0..v).collect();
    rng.shuffle(&mut vms);
    vms.truncate(rng.range(1, 4));
    vms.sort();
    let to = |rng: &mut Rng, vm: usize| match start.place[vm] {
        NOWHERE => rng.below(n),
        _ if room.vms[vm].target == NOWHERE && rng.chance(60) => NOWHERE,
        place => (place + rng.range(1, n - 1)) % n,
    };
    vms.iter().map(|&vm| Move::bare(vm, to(rng, vm))).collect()
}

/// Whether a step has a launch, and whether it has a shutdown.
fn kinds(start: &Placement, step: &[Move]) -> (bool, bool) {
    (step.iter().any(|m| start.place[m.vm] == NOWHERE), step.iter().any(|m| m.to == NOWHERE))
}

fn closed(room: &Room, start: &Placement, step: &[Move]) -> Found {
    let book = Book::of(room);
    Found {
        misfit: misfits(room, start, step),
        mate: meets_mate(&book, start, step),
        soon: moves_too_soon(room, &book, start, step),
    }
}

#[test]
fn closed_forms_say_what_all_states_say() {
    let mut rng = Rng::new(1);
    let mut outcomes = [[[0; 8]; 2]; 2];
    for _ in 0..80_000 {
        let (room, start, step) = tight(&mut rng);
        let found = explore(&room, &start.place, &step);
        assert_eq!(found, closed(&room, &start, &step), "{room:?} {start:?} {step:?}");
        let (launch, shutdown) = kinds(&start, &step);
        let of_its_kind = &mut outcomes[usize::from(launch)][usize::from(shutdown)];
        let Found { misfit, mate, soon } = found;
        of_its_kind[[soon, misfit, mate].iter().fold(0, |n, &bit| 2 * n + usize::from(bit))] += 1;
    }
    println!("sound, 18 only, 17 only, both, and the same with 33; by shutdown no and yes, by");
    println!("launch no and yes: {outcomes:?}");
    assert!(outcomes.as_flattened().as_flattened().iter().all(|&c| c > 50), "{outcomes:?}");
}

/// The start sums, and who is on which node, with the shutdowns of a step done already: steps that
/// would be sound so, and are not, are found by some order and by the closed forms alike.
#[test]
fn a_shutdown_counts_until_it_has_ended() {
    let mut rng = Rng::new(6);
    let (mut misfits, mut mates) = (0, 0);
    for _ in 0..60_000 {
        let (room, start, step) = tight(&mut rng);
        let mut done = start.place.clone();
        step.iter().filter(|m| m.to == NOWHERE).for_each(|m| done[m.vm] = NOWHERE);
        let rest: Step = step.iter().filter(|m| m.to != NOWHERE).copied().collect();
        let (found, then) = (explore(&room, &start.place, &step), explore(&room, &done, &rest));
        assert!(found.misfit || !then.misfit, "a shutdown takes room from nobody");
        assert!(found.mate || !then.mate);
        misfits += usize::from(found.misfit && !then.misfit);
        mates += usize::from(found.mate && !then.mate);
        assert_eq!(found, closed(&room, &start, &step));
    }
    println!("{misfits} steps do not fit only for a shutdown that still counts, {mates} meet it");
    assert!(misfits > 500 && mates > 200);
}

#[test]
fn a_launch_and_a_shutdown_count_on_one_node() {
    let room = room_2(&[node(9, 9), node(9, 9)], &[vm(3, 1, 255, 1), vm(2, 4, 1, 255)], &[]);
    let step = [Move::bare(0, 1), Move::bare(1, 255)];
    let run = Run { room: &room, start: &[255, 1], step: &step };
    use Phase::{Ended, Running, Waiting};
    let loads = |phases: [Phase; 2]| [0, 1].map(|node| run.load(&phases, node));
    assert_eq!(loads([Waiting, Waiting]), [(0, 0), (2, 4)]);
    assert_eq!(loads([Running, Waiting]), [(0, 0), (5, 5)]);
    assert_eq!(loads([Ended, Waiting]), [(0, 0), (5, 5)]);
    assert_eq!(loads([Waiting, Running]), [(0, 0), (2, 4)]);
    assert_eq!(loads([Waiting, Ended]), [(0, 0), (0, 0)]);
    assert_eq!(loads([Running, Running]), [(0, 0), (5, 5)]);
    assert_eq!(loads([Ended, Ended]), [(0, 0), (3, 1)]);
}

#[test]
fn a_running_vm_counts_on_both_its_nodes() {
    let room = cluster_a();
    let step = [Move::bare(0, 2)];
    let run = Run { room: &room, start: &[0, 1], step: &step };
    let loads = |phase| [0, 1, 2].map(|node| run.load(&[phase], node));
    assert_eq!(loads(Phase::Waiting), [(3, 50), (2, 50), (0, 0)]);
    assert_eq!(loads(Phase::Running), [(3, 50), (2, 50), (3, 50)]);
    assert_eq!(loads(Phase::Ended), [(0, 0), (2, 50), (3, 50)]);
}

#[test]
fn there_are_as_many_orders_as_there_should_be() {
    for (moves, orders) in [(0, 1), (1, 1), (2, 6), (3, 90), (4, 2_520)] {
        assert_eq!(every_order(moves).len(), orders);
    }
    let mut states = 0;
    every_state(4, |_| states += 1);
    assert_eq!(states, 81);
}

#[test]
fn states_say_what_listed_orders_say() {
    let mut rng = Rng::new(2);
    let orders: Vec<_> = (0..=4).map(every_order).collect();
    for round in 0..4_000 {
        let (room, start, step) = tight(&mut rng);
        if step.len() == 4 && round % 20 != 0 {
            continue;
        }
        let mut found = Found::default();
        for order in &orders[step.len()] {
            found.add(follow(&room, &start.place, &step, order));
        }
        assert_eq!(found, explore(&room, &start.place, &step));
    }
}

#[test]
fn in_a_sound_step_a_node_within_capacity_stays_within() {
    let mut rng = Rng::new(3);
    let mut sound = 0;
    for _ in 0..20_000 {
        let (room, start, step) = tight(&mut rng);
        if closed(&room, &start, &step) != Found::default() {
            continue;
        }
        sound += 1;
        let run = Run { room: &room, start: &start.place, step: &step };
        let waiting = vec![Phase::Waiting; step.len()];
        for node in 0..room.nodes.len() {
            let within = run.is_within(&waiting, node);
            let over_memory = run.load(&waiting, node).0 > room.nodes[node].memory;
            for m in step.iter().filter(|m| m.to == node) {
                assert!(!over_memory, "a node over its memory took an arrival");
                assert!(within || room.vms[m.vm].cpu == 0, "one over its CPU took an active VM");
            }
            every_state(step.len(), |phases| assert!(!within || run.is_within(phases, node)));
        }
    }
    assert!(sound > 1_000);
}

#[test]
fn part_of_a_sound_step_is_sound() {
    let mut rng = Rng::new(4);
    for _ in 0..20_000 {
        let (room, start, step) = tight(&mut rng);
        let book = Book::of(&room);
        if step_fault(&room, &book, &start, &step).is_some() {
            continue;
        }
        for mask in 0..1 << step.len() {
            let kept = (0..step.len()).filter(|i| mask >> i & 1 == 1);
            let part: Step = kept.map(|i| step[i]).collect();
            assert_eq!(step_fault(&room, &book, &start, &part), None);
        }
    }
}

/// Orders go by the places: what sources the moves name, right or wrong, changes nothing, and a
/// step without fault 15 is at fault by 27 exactly if some source is wrong.
#[test]
fn sources_are_no_matter_of_orders() {
    let mut rng = Rng::new(5);
    let (mut right, mut wrong) = (0, 0);
    for _ in 0..10_000 {
        let (room, start, step) = tight(&mut rng);
        let book = Book::of(&room);
        let place = |m: &Move| Some(start.place[m.vm]);
        let drawn = |rng: &mut Rng, m: &Move| match rng.chance(80) {
            true => place(m),
            false => Some(rng.pick(&[0, 1, 2, 3, 255])),
        };
        let sourced: Step = step.iter().map(|m| Move { from: drawn(&mut rng, m), ..*m }).collect();
        assert_eq!(explore(&room, &start.place, &sourced), explore(&room, &start.place, &step));
        let fault = step_fault(&room, &book, &start, &sourced);
        if sourced.iter().all(|m| m.from == place(m)) {
            assert_eq!(fault, step_fault(&room, &book, &start, &step));
            right += 1;
        } else {
            assert_eq!(fault, Some(27));
            wrong += 1;
        }
    }
    println!("{right} steps with right sources, {wrong} with a wrong one");
    assert!(right > 1_000 && wrong > 1_000);
}

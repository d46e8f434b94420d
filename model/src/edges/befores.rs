//! Hand-set inputs in which VMs wait for others: the constraint's shape, what it asks of steps, and where
//! its number stands among the others.

use super::{at_home, ban, before, changed, latency, node, room, room_2, spread, vm, Edges};
use crate::records::{cluster_bytes, cluster_bytes_with, Constraint, Move, Room, Version, NOWHERE};

/// A refusal of a step with 33.
fn at(step: u16) -> Option<(u8, u16)> {
    Some((33, step))
}

/// Three roomy nodes, and VMs with these places and targets.
fn roomy(places: &[(usize, usize)], list: &[Constraint]) -> Room {
    let vms: Vec<_> = places.iter().map(|&(current, target)| vm(1, 1, current, target)).collect();
    room(&vec![node(9, 9); 3], &vms, list)
}

/// The same in version 2.
fn roomy_2(places: &[(usize, usize)], list: &[Constraint]) -> Room {
    Room { version: Version::Two, ..roomy(places, list) }
}

/// VM 0 is to go from node 0 to 1, VM 1 from node 1 to 2 once VM 0 is home.
fn pair() -> Room {
    roomy(&[(0, 1), (1, 2)], &[before(0, 1)])
}

// ---------------------------------------------------------------- 7

/// Kind, first and second, and nothing else; both are there, and differ. The room at home has VMs 0
/// and 1.
pub(super) fn shapes(e: &mut Edges) {
    e.bodies("one before the other", &[&[5, 0, 1]], 0);
    e.bodies("the higher before the lower", &[&[5, 1, 0]], 0);
    e.bodies("each before the other", &[&[5, 0, 1], &[5, 1, 0]], 0);
    e.bodies("twice the same", &[&[5, 0, 1], &[5, 0, 1]], 0);
    e.bodies("beside the other kinds", &[&[3, 0, 0], &[5, 0, 1], &[4, 0, 0, 0]], 0);
    for itself in [0, 1] {
        e.bodies("before itself", &[&[5, itself, itself]], 7);
    }
    for other in [2, 3, 64, 254, 255] {
        e.bodies(&format!("first {other}"), &[&[5, other, 0]], 7);
        e.bodies(&format!("second {other}"), &[&[5, 0, other]], 7);
        e.bodies(&format!("both {other}"), &[&[5, other, other]], 7);
    }
    e.bodies("first and second are not there", &[&[5, 2, 3]], 7);
    e.bodies("before, length 1", &[&[5]], 7);
    e.bodies("before, length 2", &[&[5, 0]], 7);
    e.bodies("before, length 4", &[&[5, 0, 1, 0]], 7);
    e.bodies("before, three of them", &[&[5, 0, 1, 1]], 7);
    e.bodies("before, as a list of both", &[&[5, 0, 2, 0, 1]], 7);
    e.bodies("before, as lists of one", &[&[5, 0, 1, 0, 0, 1, 1]], 7);
    e.bodies("before, length 258", &[&[&[5, 0, 1][..], &[0; 255]].concat()], 7);
    for kind in [0, 1, 2, 4, 6, 255] {
        e.bodies(&format!("length 3 and kind {kind}"), &[&[kind, 0, 0]], 7);
        e.bodies(&format!("two VMs and kind {kind}"), &[&[kind, 0, 1]], 7);
    }
    e.bodies("two VMs and kind 3", &[&[3, 0, 1]], 7);
    e.bodies("length 3 and kind 3", &[&[3, 0, 0]], 0);
    e.bodies("the second before is bad", &[&[5, 0, 1], &[5, 1, 1]], 7);
    e.bodies("a bad one before, a target that breaks a ban", &[&[1, 0, 1, 0, 1, 0], &[5, 0, 0]], 7);

    let lengths = cluster_bytes_with(&at_home(), &[vec![5, 0, 1], vec![5, 1, 0]]);
    let second = lengths.len() - 5;
    e.cluster("before, the last length one more", changed(&lengths, |b| b[second + 1] = 4), 5);
    e.cluster("before, the last length one less", changed(&lengths, |b| b[second + 1] = 2), 5);
    let together = [vec![5, 0, 1, 0], vec![5, 1]];
    e.cluster("lengths 4 and 2", cluster_bytes_with(&at_home(), &together), 7);

    for (vms, first, second, number) in [
        (0, 0, 1, 7),
        (0, 0, 0, 7),
        (1, 0, 0, 7),
        (1, 0, 1, 7),
        (1, 1, 0, 7),
        (2, 0, 1, 0),
        (255, 254, 0, 0),
        (255, 255, 0, 7),
        (255, 0, 255, 7),
        (256, 255, 0, 0),
        (256, 0, 255, 0),
        (256, 254, 255, 0),
        (256, 255, 255, 7),
    ] {
        for version in Version::ALL {
            let all = room(&[node(300, 300)], &vec![vm(1, 1, 0, 0); vms], &[]);
            let body = vec![5, first, second];
            let cluster = cluster_bytes_with(&Room { version, ..all }, &[body]);
            e.cluster(&format!("V {vms}, {first} before {second}"), cluster, number);
        }
    }
    let row = |first: usize| before(first, first + 1);
    let row: Vec<Constraint> = (0..128).map(row).collect();
    let all = room(&[node(300, 300)], &vec![vm(1, 1, 0, 0); 256], &row);
    e.room("128 in a row", &all, 0);
    let more = Room { constraints: [row, vec![before(0, 255)]].concat(), ..all };
    e.room("129 of them", &more, 4);
}

/// Nothing is asked of the target, nor of where VMs are at first.
pub(super) fn targets(e: &mut Edges) {
    let no_steps = |e: &mut Edges, name: &str, room: &Room, number| {
        e.no_steps(&format!("before, {name}"), &cluster_bytes(room), number);
    };
    no_steps(e, "both at home", &roomy(&[(0, 0), (1, 1)], &[before(0, 1)]), 0);
    no_steps(e, "both at home, on one node", &roomy(&[(0, 0), (0, 0)], &[before(0, 1)]), 0);
    no_steps(e, "each for the other, at home", &each_for_the_other([(0, 0), (1, 1)]), 0);
    no_steps(e, "the first away", &roomy(&[(0, 1), (1, 1)], &[before(0, 1)]), 19);
    no_steps(e, "the second away", &roomy(&[(0, 0), (1, 2)], &[before(0, 1)]), 19);
    no_steps(e, "both away", &pair(), 19);
    no_steps(e, "each for the other, away", &each_for_the_other([(0, 1), (1, 0)]), 19);
    let down = |places: [(usize, usize); 2]| roomy_2(&places, &[before(0, 1)]);
    no_steps(e, "both down", &down([(NOWHERE, NOWHERE), (NOWHERE, NOWHERE)]), 0);
    no_steps(e, "the first down, the second home", &down([(NOWHERE, NOWHERE), (1, 1)]), 0);
    no_steps(e, "the first is to be shut down", &down([(0, NOWHERE), (1, 1)]), 19);
    let banned = roomy(&[(0, 0), (1, 1)], &[before(0, 1), ban(&[0], &[0])]);
    no_steps(e, "beside a ban that the target breaks", &banned, 9);
    let mut full = pair();
    full.nodes[2].memory = 0;
    no_steps(e, "beside a target that does not fit", &full, 8);
}

/// Two VMs with these places and targets, of which each waits for the other.
fn each_for_the_other(places: [(usize, usize); 2]) -> Room {
    roomy(&places, &[before(0, 1), before(1, 0)])
}

// ---------------------------------------------------------------- 33

pub(super) fn steps(e: &mut Edges) {
    let both = pair();
    e.steps("one, then the other", &both, &[&[(0, 1)], &[(1, 2)]], None);
    e.steps("the other way round", &both, &[&[(1, 2)], &[(0, 1)]], at(1));
    e.steps("both in one step", &both, &[&[(0, 1), (1, 2)]], at(1));
    e.steps("the second alone", &both, &[&[(1, 2)]], at(1));
    e.steps("the first alone", &both, &[&[(0, 1)]], Some((19, 0)));
    e.steps("the first elsewhere, then the second", &both, &[&[(0, 2)], &[(1, 2)]], at(2));
    e.steps("the first elsewhere beside the second", &both, &[&[(0, 2), (1, 2)]], at(1));
    e.steps("the first by a stop", &both, &[&[(0, 2)], &[(0, 1)], &[(1, 2)]], None);
    e.steps("the second aside", &both, &[&[(1, 0)], &[(0, 1)], &[(1, 2)]], at(1));
    e.steps("the second aside beside the first", &both, &[&[(0, 1), (1, 0)], &[(1, 2)]], at(1));
    e.steps("the second by a stop", &both, &[&[(0, 1)], &[(1, 0)], &[(1, 2)]], None);
    let leaves: &[&[(usize, usize)]] = &[&[(0, 1)], &[(0, 2), (1, 2)], &[(0, 1)]];
    e.steps("the first leaves beside the second", &both, leaves, at(2));
    e.steps("the first has left", &both, &[&[(0, 1)], &[(0, 0)], &[(1, 2)]], at(3));
    let later: &[&[(usize, usize)]] = &[&[(0, 1)], &[(1, 2)], &[(0, 2)], &[(0, 1)]];
    e.steps("the first leaves when the second is home", &both, later, None);
    let again: &[&[(usize, usize)]] = &[&[(0, 1)], &[(1, 2)], &[(0, 2)], &[(1, 0)]];
    e.steps("the second once more, the first away", &both, again, at(4));
    e.sourced("the other way round, sources named", &both, &[&[(1, 1, 2)], &[(0, 0, 1)]], at(1));

    let home = roomy(&[(1, 1), (1, 2)], &[before(0, 1)]);
    e.steps("the first is home", &home, &[&[(1, 2)]], None);
    e.steps("the first is home and leaves", &home, &[&[(0, 0), (1, 2)], &[(0, 1)]], at(1));
    e.steps("the first left before", &home, &[&[(0, 0)], &[(1, 2)], &[(0, 1)]], at(2));
    e.steps("the first left and came back", &home, &[&[(0, 0)], &[(0, 1)], &[(1, 2)]], None);
    e.steps("comes back beside the second", &home, &[&[(0, 0)], &[(0, 1), (1, 2)]], at(2));
    let stays = roomy(&[(0, 1), (2, 2)], &[before(0, 1)]);
    e.steps("the second need not move", &stays, &[&[(0, 1)]], None);
    e.steps("the second moves though it is home", &stays, &[&[(1, 0)], &[(0, 1)]], at(1));

    let high = roomy(&[(1, 2), (0, 1)], &[before(1, 0)]);
    e.steps("the higher first", &high, &[&[(1, 1)], &[(0, 2)]], None);
    e.steps("the lower first", &high, &[&[(0, 2)], &[(1, 1)]], at(1));
    e.steps("the higher first, both at once", &high, &[&[(0, 2), (1, 1)]], at(1));

    let mutual = each_for_the_other([(0, 1), (1, 0)]);
    e.steps("each for the other, one", &mutual, &[&[(0, 1)], &[(1, 0)]], at(1));
    e.steps("each for the other, the other", &mutual, &[&[(1, 0)], &[(0, 1)]], at(1));
    e.steps("each for the other, both", &mutual, &[&[(0, 1), (1, 0)]], at(1));
    let one_home = each_for_the_other([(1, 1), (1, 0)]);
    e.steps("each for the other, one is home", &one_home, &[&[(1, 0)]], None);
    e.steps("each for the other, the one home moves", &one_home, &[&[(0, 2)]], at(1));

    let row = roomy(&[(0, 1), (1, 2), (2, 0)], &[before(0, 1), before(1, 2)]);
    e.steps("three in a row", &row, &[&[(0, 1)], &[(1, 2)], &[(2, 0)]], None);
    e.steps("the last two at once", &row, &[&[(0, 1)], &[(1, 2), (2, 0)]], at(2));
    e.steps("the first and the last at once", &row, &[&[(0, 1), (2, 0)], &[(1, 2)]], at(1));
    e.steps("the middle last", &row, &[&[(0, 1)], &[(2, 0)], &[(1, 2)]], at(2));
    let middle = roomy(&[(0, 1), (2, 2), (2, 0)], &[before(0, 1), before(1, 2)]);
    e.steps("the middle is home", &middle, &[&[(2, 0)], &[(0, 1)]], None);
    e.steps("the ends at once, the middle is home", &middle, &[&[(0, 1), (2, 0)]], None);

    let many = roomy(&[(0, 1), (1, 0), (2, 0)], &[before(0, 2), before(1, 2)]);
    e.steps("one for two", &many, &[&[(0, 1), (1, 0)], &[(2, 0)]], None);
    e.steps("one for two, one of them home", &many, &[&[(0, 1)], &[(2, 0)], &[(1, 0)]], at(2));
    e.steps("one beside the second", &many, &[&[(0, 1)], &[(1, 0), (2, 0)]], at(2));
    let fan = roomy(&[(0, 1), (1, 0), (2, 0)], &[before(0, 1), before(0, 2)]);
    e.steps("two for one", &fan, &[&[(0, 1)], &[(1, 0), (2, 0)]], None);
    e.steps("two for one, the higher too soon", &fan, &[&[(0, 1), (2, 0)], &[(1, 0)]], at(1));
    let twice = roomy(&[(0, 1), (1, 2)], &[before(0, 1), before(0, 1)]);
    e.steps("said twice", &twice, &[&[(0, 1)], &[(1, 2)]], None);
    e.steps("said twice, at once", &twice, &[&[(0, 1), (1, 2)]], at(1));

    wide(e);
}

/// 256 VMs and 128 constraints.
fn wide(e: &mut Edges) {
    let go = |vms: std::ops::Range<usize>| vms.map(|vm| (vm, 1)).collect::<Vec<_>>();
    let halves: Vec<Constraint> = (0..128).map(|vm| before(vm, 128 + vm)).collect();
    let halves = room(&vec![node(300, 300); 2], &vec![vm(1, 1, 0, 1); 256], &halves);
    e.steps("half, then the other", &halves, &[&go(0..128), &go(128..256)], None);
    e.steps("all but one, then the rest", &halves, &[&go(0..127), &go(128..256)], at(2));
    e.steps("one of the other half too", &halves, &[&go(0..129), &go(129..256)], at(1));
    let last: Vec<Constraint> = (127..255).map(|vm| before(vm, 255)).collect();
    let last = room(&vec![node(300, 300); 2], &vec![vm(1, 1, 0, 1); 256], &last);
    e.steps("the last for 128", &last, &[&go(0..255), &go(255..256)], None);
    e.steps("the last with them", &last, &[&go(0..256)], at(1));
    e.steps("the last, one not home", &last, &[&go(0..254), &go(255..256)], at(2));
    let first: Vec<Constraint> = (128..256).map(|vm| before(255, vm % 255)).collect();
    let first = room(&vec![node(300, 300); 2], &vec![vm(1, 1, 0, 1); 256], &first);
    e.steps("the highest first", &first, &[&go(255..256), &go(0..255)], None);
    e.steps("the highest in the last step", &first, &[&go(0..128), &go(255..256)], at(1));
}

/// A first on no node is home exactly if it should be there; launches and shutdowns of the second wait
/// as any move does.
pub(super) fn on_no_node(e: &mut Edges) {
    let with = |places: &[(usize, usize)]| roomy_2(places, &[before(0, 1)]);
    let down = with(&[(NOWHERE, NOWHERE), (1, 2)]);
    e.steps("a first that stays down", &down, &[&[(1, 2)]], None);
    e.steps("launched beside the second", &down, &[&[(0, 0), (1, 2)], &[(0, NOWHERE)]], at(1));
    e.steps("launched before the second", &down, &[&[(0, 0)], &[(1, 2)], &[(0, NOWHERE)]], at(2));
    let back: &[&[(usize, usize)]] = &[&[(0, 0)], &[(0, NOWHERE)], &[(1, 2)]];
    e.steps("launched and shut down before it", &down, back, None);
    let waits = with(&[(NOWHERE, 0), (1, 2)]);
    e.steps("a first to be launched", &waits, &[&[(0, 0)], &[(1, 2)]], None);
    e.steps("a first to be launched, the second alone", &waits, &[&[(1, 2)], &[(0, 0)]], at(1));
    e.steps("a first to be launched, both", &waits, &[&[(0, 0), (1, 2)]], at(1));
    e.steps("a first launched elsewhere", &waits, &[&[(0, 1)], &[(1, 2)], &[(0, 0)]], at(2));
    let ends = with(&[(0, NOWHERE), (1, 2)]);
    e.steps("a first to be shut down", &ends, &[&[(0, NOWHERE)], &[(1, 2)]], None);
    e.steps("a first to be shut down, the second alone", &ends, &[&[(1, 2)]], at(1));
    e.steps("a first to be shut down, both", &ends, &[&[(0, NOWHERE), (1, 2)]], at(1));
    let launch = with(&[(0, 1), (NOWHERE, 2)]);
    e.steps("a launch that waits", &launch, &[&[(0, 1)], &[(1, 2)]], None);
    e.steps("a launch too soon", &launch, &[&[(1, 2)], &[(0, 1)]], at(1));
    e.steps("a launch beside the first", &launch, &[&[(0, 1), (1, 2)]], at(1));
    e.steps("a launch elsewhere too soon", &launch, &[&[(1, 0)], &[(0, 1)], &[(1, 2)]], at(1));
    let shutdown = with(&[(0, 1), (2, NOWHERE)]);
    e.steps("a shutdown that waits", &shutdown, &[&[(0, 1)], &[(1, NOWHERE)]], None);
    e.steps("a shutdown too soon", &shutdown, &[&[(1, NOWHERE)], &[(0, 1)]], at(1));
    e.steps("a shutdown beside the first", &shutdown, &[&[(0, 1), (1, NOWHERE)]], at(1));
    e.steps("moved before its shutdown", &shutdown, &[&[(1, 0)]], at(1));
    let guest = with(&[(0, 1), (NOWHERE, NOWHERE)]);
    e.steps("a second that stays down", &guest, &[&[(0, 1)]], None);
    e.steps("a second launched for a while", &guest, &[&[(1, 0)], &[(1, NOWHERE)]], at(1));
    let both = with(&[(0, NOWHERE), (NOWHERE, 0)]);
    e.steps("a shutdown, then a launch in its place", &both, &[&[(0, NOWHERE)], &[(1, 0)]], None);
    e.steps("both at once", &both, &[&[(0, NOWHERE), (1, 0)]], at(1));
}

/// In a step 15, 27, 16, 17 and 18 come before 33, and 33 before 19; the first step at fault decides.
pub(super) fn among_other_faults(e: &mut Edges) {
    let with = |list: &[Constraint]| {
        let mut room = roomy(&[(0, 1), (1, 2)], &[before(0, 1)]);
        room.constraints.extend_from_slice(list);
        room
    };
    let plain = with(&[]);
    let said = |number: u8, step: u16| Some((number, step));
    e.steps("15 before 33, to where it is", &plain, &[&[(0, 0), (1, 2)]], said(15, 1));
    e.steps("15 before 33, VM V", &plain, &[&[(1, 2), (2, 0)]], said(15, 1));
    e.steps("15 before 33, VM 255", &plain, &[&[(1, 2), (255, 0)]], said(15, 1));
    e.steps("15 before 33, node N", &plain, &[&[(0, 3), (1, 2)]], said(15, 1));
    e.steps("15 before 33, VMs fall", &plain, &[&[(1, 2), (0, 1)]], said(15, 1));
    e.steps("15 before 33, shut down", &plain, &[&[(0, NOWHERE), (1, 2)]], said(15, 1));
    e.sourced("27 before 33", &plain, &[&[(1, 0, 2)]], said(27, 1));
    e.sourced("27 of the first before 33", &plain, &[&[(0, 2, 1), (1, 1, 2)]], said(27, 1));
    e.sourced("33, sources right", &plain, &[&[(0, 0, 1), (1, 1, 2)]], at(1));
    let banned = with(&[ban(&[1], &[0])]);
    e.steps("16 before 33", &banned, &[&[(1, 0)]], said(16, 1));
    e.steps("33 where it is open", &banned, &[&[(1, 2)]], at(1));
    let closed = with(&[ban(&[0], &[2])]);
    e.steps("16 of the first before 33", &closed, &[&[(0, 2), (1, 0)]], said(16, 1));
    let mut small = with(&[]);
    small.nodes[0] = node(1, 9);
    e.steps("17 before 33", &small, &[&[(1, 0)]], said(17, 1));
    e.steps("33 where it fits", &small, &[&[(1, 2)]], at(1));
    e.steps("17 of another before 33", &small, &[&[(0, 1)], &[(0, 0), (1, 0)]], said(17, 2));
    let apart = with(&[spread(&[0, 1])]);
    e.steps("18 before 33", &apart, &[&[(1, 0)]], said(18, 1));
    e.steps("18 beside 33", &apart, &[&[(0, 1), (1, 2)]], said(18, 1));
    e.steps("33 where no mate is", &apart, &[&[(1, 2)]], at(1));
    let grouped = with(&[latency(&[0, 1], &[&[1, 2], &[0]])]);
    e.steps("33 out of a group", &grouped, &[&[(1, 0)]], at(1));
    e.steps("33 before 19", &plain, &[&[(1, 0)]], at(1));
    e.steps("33 in step 1, 15 in step 2", &plain, &[&[(1, 2)], &[(9, 9)]], at(1));
    e.steps("33 in step 1, 17 in step 2", &small, &[&[(1, 2)], &[(1, 0)]], at(1));
    e.steps("17 in step 1, 33 in step 2", &small, &[&[(0, 1), (1, 0)], &[(1, 2)]], said(17, 1));
    e.steps("15 in step 1, 33 in step 2", &plain, &[&[(0, 0)], &[(1, 2)]], said(15, 1));
    e.steps("33 behind a good step", &plain, &[&[(0, 2)], &[(0, 0)], &[(1, 2)]], at(3));

    let third = |list: &[Constraint]| roomy(&[(0, 1), (1, 2), (2, 2)], list);
    let beside = third(&[before(0, 1), ban(&[2], &[0])]);
    e.steps("16 of a third beside 33", &beside, &[&[(1, 2), (2, 0)]], said(16, 1));
    e.steps("33 beside a good move", &beside, &[&[(1, 2), (2, 1)]], at(1));

    // 512 steps, and 33 in the last.
    let sway = |i: usize| vec![Move::bare(2, if i % 2 == 0 { 0 } else { 2 })];
    let mut long: Vec<Vec<Move>> = (0..511).map(sway).collect();
    long.push(vec![Move::bare(1, 2)]);
    e.both("33 in step 512", &third(&[before(0, 1)]), &long, at(512));
}

// ---------------------------------------------------------------- planned

/// Rooms in which waiting tells how the planner goes on.
pub(super) fn planned(e: &mut Edges) {
    let mut add = |name: &str, room: &Room, number| e.no_steps(name, &cluster_bytes(room), number);
    add("the second waits a step", &pair(), 19);
    add("each for the other, blocked", &each_for_the_other([(0, 1), (1, 2)]), 19);
    let ring = [before(0, 1), before(1, 2), before(2, 0)];
    add("three in a ring, blocked", &roomy(&[(0, 1), (1, 2), (2, 0)], &ring), 19);
    let open = roomy(&[(0, 1), (2, 2), (2, 0)], &ring);
    add("three in a ring, one is home", &open, 19);
    let row = roomy(&[(0, 1), (1, 2), (2, 0)], &[before(2, 1), before(1, 0)]);
    add("three in a row, the last first", &row, 19);
    // VMs 0 and 1 change places by node 2, which takes either.
    let swap = |list: &[Constraint]| {
        room(&[node(4, 9), node(4, 9), node(3, 9)], &[vm(3, 1, 0, 1), vm(2, 1, 1, 0)], list)
    };
    add("the lower pivots", &swap(&[]), 19);
    add("the higher may not pivot", &swap(&[before(0, 1)]), 19);
    add("the lower may not pivot", &swap(&[before(1, 0)]), 19);
    let mut helped = swap(&[before(2, 0)]);
    helped.vms.push(vm(1, 1, 2, 2));
    add("the lower pivots, whom it waits for is home", &helped, 19);
    let mut waits = swap(&[before(2, 0), before(2, 1)]);
    waits.vms.push(vm(1, 1, 2, 1));
    add("nobody pivots until a third is home", &waits, 19);
    let turn = |list: &[Constraint]| {
        room_2(&[node(9, 9)], &[vm(3, 1, 0, NOWHERE), vm(2, 1, NOWHERE, 0)], list)
    };
    add("a launch waits for a shutdown it needs nothing of", &turn(&[before(0, 1)]), 19);
    add("a shutdown waits for a launch", &turn(&[before(1, 0)]), 19);
    let tight = Room { nodes: vec![node(4, 9)], ..turn(&[before(1, 0)]) };
    add("a launch needs the room of one that waits for it, blocked", &tight, 19);
    let down = roomy_2(&[(NOWHERE, NOWHERE), (0, 1)], &[before(0, 1)]);
    add("nobody waits for one that stays down", &down, 19);
}

//! The drawn page: well formed, whole in itself, a frame for the start, each step and the end; in
//! each frame the VMs that it must show, named where nothing else is written; what refuses a step
//! is marked, whose verdict it is is said, and what a reserve keeps is shown.

mod common;

use common::has;
use kobdrieft_model::draw::{page, Whose};
use kobdrieft_model::edges::{cluster_a, node, room as made, room_2, sourced, steps, vm};
use kobdrieft_model::gen::{apart, knot, plan, room, swaps, waiting, Rng, Size};
use kobdrieft_model::orders::{Phase, Run};
use kobdrieft_model::planner::make_steps;
use kobdrieft_model::reasons::reason;
use kobdrieft_model::reserves::{on_the_edge, some_reserve};
use kobdrieft_model::rules::{firsts, usable_room, Placement};
use kobdrieft_model::*;
use std::collections::BTreeSet;

/// The parts of a page between these two marks.
fn parts<'a>(page: &'a str, from: &'a str, to: &'a str) -> impl Iterator<Item = &'a str> {
    page.split(from).skip(1).map(move |rest| rest.split(to).next().unwrap())
}

/// Every tag is closed in turn, and every attribute has both its quotes.
fn well_formed(page: &str) {
    let mut open = Vec::new();
    for tag in parts(page.strip_prefix("<!DOCTYPE html>").expect("a page"), "<", ">") {
        assert_eq!(tag.matches('"').count() % 2, 0, "{tag}");
        if let Some(name) = tag.strip_prefix('/') {
            assert_eq!(open.pop(), Some(name), "</{name}> closes another");
        } else if !tag.ends_with('/') {
            open.push(tag.split_whitespace().next().unwrap());
        }
    }
    assert!(open.is_empty(), "still open: {open:?}");
    for foreign in ["http", "src=", "href", "<script", "@import", "NaN", "inf\""] {
        assert!(!page.contains(foreign), "{foreign}");
    }
}

// ---------------------------------------------------------------- shapes and words of a frame

/// A shape or a text: its class, where it is, and its words.
#[derive(Clone, Debug)]
struct Thing {
    class: String,
    left: f64,
    right: f64,
    top: f64,
    bottom: f64,
    words: String,
}

impl Thing {
    fn overlaps(&self, other: &Thing) -> bool {
        let apart = self.right <= other.left || other.right <= self.left;
        !(apart || self.bottom <= other.top || other.bottom <= self.top)
    }

    /// The same, smaller by what rounding may add.
    fn shrunk(&self) -> Thing {
        let (left, right) = (self.left + 0.15, self.right - 0.15);
        Thing { left, right, top: self.top + 0.15, bottom: self.bottom - 0.15, ..self.clone() }
    }

    /// Whether this lies in the other, up to rounding.
    fn within(&self, other: &Thing) -> bool {
        self.left > other.left - 0.2
            && self.right < other.right + 0.2
            && self.top > other.top - 0.2
            && self.bottom < other.bottom + 0.2
    }
}

fn attribute(tag: &str, name: &str) -> Option<f64> {
    let start = format!(" {name}=\"");
    let value = parts(tag, &start, "\"").next()?;
    Some(value.parse().unwrap())
}

fn rects(frame: &str) -> Vec<Thing> {
    let rect = |tag: &str| {
        let at = |name| attribute(tag, name).unwrap();
        Thing {
            class: parts(tag, "class=\"", "\"").next().unwrap().into(),
            left: at("x"),
            right: at("x") + at("width"),
            top: at("y"),
            bottom: at("y") + at("height"),
            words: String::new(),
        }
    };
    parts(frame, "<rect", ">").map(rect).collect()
}

/// The texts of a frame, as large as they come out in a wide font.
fn texts(frame: &str) -> Vec<Thing> {
    let text = |element: &str| {
        let (tag, words) = element.split_once('>').unwrap();
        let at = |name| attribute(tag, name);
        let (x, y, font) = (at("x").unwrap(), at("y").unwrap(), at("font-size").unwrap());
        let glyph = |char| match char {
            ' ' | ',' | '\u{b7}' | 'i' | 'l' => 0.32,
            'M' | '\u{2190}' | '\u{2192}' => 0.87,
            _ => 0.6,
        };
        let wide = at("textLength").unwrap_or(font * words.chars().map(glyph).sum::<f64>());
        Thing {
            class: parts(tag, "class=\"", "\"").next().unwrap().into(),
            left: x - wide / 2.0,
            right: x + wide / 2.0,
            top: y - 0.75 * font,
            bottom: y + 0.22 * font,
            words: words.into(),
        }
    };
    parts(frame, "<text", "</text>").map(text).collect()
}

/// No block of a VM lies over another, and those of VMs on no node lie on the shelf, which is over
/// all bars.
fn blocks_apart(whole: &Thing, rects: &[Thing]) {
    let is = |kind: &'static str| move |rect: &&Thing| rect.class.split(' ').next() == Some(kind);
    let blocks: Vec<Thing> = rects.iter().filter(is("vm")).map(Thing::shrunk).collect();
    for (i, block) in blocks.iter().enumerate() {
        assert!(block.within(whole), "{block:?} is out of the picture");
        let other = blocks[..i].iter().find(|other| block.overlaps(other));
        assert!(other.is_none(), "{block:?} lies over {other:?}");
    }
    for shelf in rects.iter().filter(is("shelf")) {
        assert!(shelf.within(whole), "{shelf:?}");
        let meets = |rect: &&Thing| rect.overlaps(shelf);
        assert!(rects.iter().filter(is("room")).all(|bar| bar.top > shelf.bottom), "{shelf:?}");
        assert!(blocks.iter().filter(meets).all(|block| block.within(shelf)), "{shelf:?}");
    }
}

/// No text lies over another, all lie in the picture, and the words of a VM lie in its block.
fn tidy(picture: &str) {
    let (texts, rects) = (texts(picture), rects(picture));
    let tag = picture.split('>').next().unwrap();
    let (right, bottom) = (attribute(tag, "width").unwrap(), attribute(tag, "height").unwrap());
    let (class, words) = (String::new(), String::new());
    let whole = Thing { class, left: 0.0, right, top: 0.0, bottom, words };
    blocks_apart(&whole, &rects);
    for (i, text) in texts.iter().enumerate() {
        assert!(text.within(&whole), "{text:?}");
        let other = texts[..i].iter().find(|other| text.overlaps(other));
        assert!(other.is_none(), "{text:?} lies over {other:?}");
        if text.class.starts_with("vm ") {
            let holds = |rect: &Thing| rect.class == text.class && text.within(rect);
            assert!(rects.iter().any(holds), "{text:?} is out of its block");
        }
    }
}

/// The VMs that texts of this class name, and the line behind each.
fn labels(frame: &str, class: &str) -> Vec<(usize, String)> {
    let texts = texts(frame);
    let mut found = Vec::new();
    for (i, text) in texts.iter().enumerate().filter(|(_, text)| text.class == class) {
        if text.words.ends_with("MiB") && !text.words.starts_with("VM ") {
            continue;
        }
        let words = text.words.strip_prefix("VM ").unwrap_or(&text.words);
        let digits = words.split(|char: char| !char.is_ascii_digit()).next().unwrap();
        if let (Ok(vm), rest) = (digits.parse(), &words[digits.len()..]) {
            let next = texts.get(i + 1).filter(|_| !rest.contains([',', '\u{2190}', '\u{2192}']));
            found.push((vm, format!("{rest} {}", next.map_or("", |next| &next.words))));
        }
    }
    found
}

fn vms_named(frame: &str, class: &str) -> BTreeSet<usize> {
    labels(frame, class).into_iter().map(|(vm, _)| vm).collect()
}

/// How often each VM has a block that names it alone.
fn vms_in(frame: &str, vms: usize) -> Vec<usize> {
    let mut counts = vec![0; vms];
    for vm in parts(frame, "<title>VM ", ":") {
        counts[vm.parse::<usize>().unwrap()] += 1;
    }
    counts
}

// ---------------------------------------------------------------- whole pages

fn frames(page: &str) -> Vec<&str> {
    parts(page, "<figure", "</figure>").collect()
}

/// A place in a label.
fn brief(place: usize) -> String {
    if place == 255 {
        return "none".into();
    }
    place.to_string()
}

/// A place in a sentence.
fn place_words(place: usize) -> String {
    if place == 255 {
        return "no node".into();
    }
    format!("node {place}")
}

/// A frame between steps shows every node, and names every VM, with its target unless it is there.
fn still(room: &Room, here: &Placement, frame: &str) {
    assert_eq!(frame.matches("class=\"name\"").count(), room.nodes.len());
    assert_eq!(vms_in(frame, room.vms.len()), vec![1; room.vms.len()]);
    let astray = here.out_of_place(room);
    let home: BTreeSet<usize> = (0..room.vms.len()).filter(|vm| !astray.contains(vm)).collect();
    assert_eq!(vms_named(frame, "vm home"), home);
    let named = labels(frame, "vm astray");
    assert_eq!(
        named.iter().map(|(vm, _)| *vm).collect::<BTreeSet<_>>(),
        astray.into_iter().collect()
    );
    for (vm, words) in named {
        let target = format!("target {}", brief(room.vms[vm].target));
        assert!(words.trim_end().ends_with(&target), "{vm}: {words}");
    }
}

/// A step's frame names every VM that moves, on both its nodes, and calls pivots so.
fn moving(room: &Room, step: &Step, brief: bool, frame: &str) {
    let moves: BTreeSet<usize> = step.iter().map(|m| m.vm).collect();
    for class in ["vm leaves", "vm arrives"] {
        assert_eq!(vms_named(frame, class), moves);
        for (vm, words) in labels(frame, class) {
            let m = step.iter().find(|m| m.vm == vm).unwrap();
            assert_eq!(words.contains("pivot"), room.vms[vm].target != m.to, "{vm}: {words}");
        }
    }
    if !brief {
        let twice = |vm: usize| 1 + usize::from(moves.contains(&vm));
        let expected: Vec<usize> = (0..room.vms.len()).map(twice).collect();
        assert_eq!(vms_in(frame, room.vms.len()), expected);
        assert_eq!(frame.matches("class=\"name\"").count(), room.nodes.len());
    }
}

/// Draws steps that can be drawn, with and without sources, which look the same.
fn drawn(room: &Room, steps: &[Step]) -> String {
    let page = plan_drawn(room, &bare(steps));
    assert_eq!(plan_drawn(room, &named(room, steps)), page);
    page
}

/// Draws a plan that can be drawn and looks at every frame.
fn plan_drawn(room: &Room, plan: &Plan) -> String {
    plan_drawn_at(0, room, plan)
}

/// The same at a reserve.
fn plan_drawn_at(reserve: u64, room: &Room, plan: &Plan) -> String {
    let page = page(reserve, room, plan, Whose::Model).expect("a plan that fits");
    well_formed(&page);
    let (steps, at) = (&plan.steps, refused_at(reserve, room, plan));
    let shown = at.unwrap_or(steps.len());
    let brief = page.contains("shows the nodes that the step touches");
    let frames = frames(&page);
    assert_eq!(frames.len(), 1 + shown + usize::from(at.is_none()));
    let mut here = Placement::current(room);
    still(room, &here, frames[0]);
    for (step, frame) in steps[..shown].iter().zip(&frames[1..]) {
        moving(room, step, brief, frame);
        here = here.after(room, step);
    }
    if at.is_none() {
        still(room, &here, frames[frames.len() - 1]);
    }
    parts(&page, "<svg class=\"frame\"", "</svg>").for_each(tidy);
    for frame in &frames {
        let shelves = frame.matches(">on no node</text>").count();
        assert_eq!(shelves, usize::from(room.has_nowhere()));
    }
    assert_eq!(page.contains("The shelf holds the VMs on no node"), room.has_nowhere());
    for number in ["node 255", "target 255", "\u{2192} 255", "\u{2190} 255", "to 255", "from 255"] {
        assert!(!page.contains(number), "{number}");
    }
    page
}

/// The step at which a plan is refused, if it is at one.
fn refused_at(reserve: u64, room: &Room, plan: &Plan) -> Option<usize> {
    match check(reserve, &cluster_bytes(room), &plan_bytes(plan)) {
        Verdict::Refused { step, .. } if step > 0 => Some(usize::from(step)),
        _ => None,
    }
}

/// Nodes of equal size, and VMs that are mostly too low for words in their blocks, some of which
/// are to go elsewhere.
fn crowd(nodes: usize, vms: usize, seed: u64) -> Room {
    let mut rng = Rng::new(seed);
    let mut some_vm = || {
        let current = rng.below(nodes);
        let target = if rng.chance(50) { current } else { rng.below(nodes) };
        let (memory, cpu) = (rng.pick(&[1_024, 2_048, 4_096, 16_384]), rng.pick(&[50, 100, 800]));
        vm(memory, cpu, current, target)
    };
    let vms: Vec<Vm> = (0..vms).map(|_| some_vm()).collect();
    made(&vec![node(262_144, 40_000); nodes], &vms, &[])
}

#[test]
fn a_drawn() {
    let a = cluster_a();
    let page = drawn(&a, &make_steps(&a).0);
    has(
        &page,
        &[
            "<h1>3 steps, 3 moves, cost 16</h1>",
            "<p>3 nodes, 2 VMs. The end is the target.</p>",
            "Verdict of the Rust model, not of the proved checker: <b>accepted cost 16</b>.",
            "A pivot is a move to a node that is not its VM's target.",
            "<h2>Start</h2>\n<p>2 VMs off target.</p>",
            "<h2>Step 1 of 3</h2>\n<p>VM 0 from node 0 to 2 (pivot).</p>\n\
             <p>Cost of these moves 3, of the plan so far 3.</p>",
            ">pivot to 2</text>",
            ">pivot from 0</text>",
            "<p>VM 1 from node 1 to 0.</p>\n<p>Cost of these moves 5, of the plan so far 8.</p>",
            "<p>Cost of these moves 8, of the plan so far 16.</p>",
            "<h2>End</h2>\n<p>Every VM is on its target.</p>",
        ],
    );
    assert_eq!(page.matches("class=\"arrow\"").count(), 3);
    assert!(!page.contains("OVERFULL") && !page.contains("Broken red lines"));
}

#[test]
fn rooms_of_all_sizes() {
    for (nodes, vms) in [(3, 9), (8, 100), (9, 80), (10, 40), (10, 256), (16, 90), (40, 200)] {
        let room = crowd(nodes, vms, nodes as u64);
        let page = drawn(&room, &make_steps(&room).0);
        let wide = parts(&page, "<svg class=\"frame\" width=\"", "\"").next().unwrap();
        assert_eq!(wide == "1360", nodes > 8, "{nodes} nodes, {wide} wide");
    }
    let full = parse_cluster(include_bytes!("../../examples/full-room.cluster")).unwrap();
    let page = drawn(&full, &make_steps(&full).0);
    has(&page, &["VM 0 from node 0 to 63 (pivot).", "A step's frame shows the nodes that"]);
    assert_eq!(frames(&page)[1].matches("class=\"name\"").count(), 2);
}

#[test]
fn large_pages_stay_light() {
    let room = crowd(64, 256, 7);
    let to = |i: usize, vm: usize| (room.vms[vm].current + 1 + (i / 128) % 2) % 64;
    let step = |i| [i % 128, 128 + i % 128].map(|vm| Move::bare(vm, to(i, vm))).to_vec();
    let steps: Vec<Step> = (0..512).map(step).collect();
    assert!(matches!(
        check(0, &cluster_bytes(&room), &plan_bytes(&bare(&steps))),
        Verdict::Refused { number: 19, .. }
    ));
    let (page, pairs) = (drawn(&room, &steps), swaps(128));
    let most = drawn(&pairs, &make_steps(&pairs).0);
    println!("{} and {} bytes", page.len(), most.len());
    assert!(page.len() < 5_000_000 && most.len() < 5_000_000);
}

// ---------------------------------------------------------------- refused plans

#[test]
fn no_room() {
    let a = cluster_a();
    let both = drawn(&a, &steps(&[&[(0, 1), (1, 0)], &[(9, 9)]]));
    has(
        &both,
        &[
            "<h1>2 steps, 3 moves, refused</h1>",
            &format!("<b>refused 17 step 1</b>. {}</p>", reason(17)),
            "<figure class=\"refused\">\n<figcaption><h2>Step 1 of 2, refused</h2>",
            "<p>An order that fails: begin VM 0: node 1 would have memory 5 of 4 \
             (VM 1 counts there until its move ends).</p>",
            "<p>The step behind it is not drawn.</p>",
            "Broken red lines are around what refuses a step.",
            ">no space</text>",
        ],
    );
    assert_eq!(both.matches("OVERFULL").count(), 2);
    assert_eq!(both.matches("class=\"over\"").count(), 3, "two nodes, and one in the legend");
    assert_eq!(both.matches("class=\"blamed\"").count(), 2);
}

#[test]
fn forbidden() {
    let constraints = vec![Constraint::Ban { vms: vec![0], nodes: vec![2] }];
    let a = Room { constraints, ..cluster_a() };
    let page = drawn(&a, &steps(&[&[(0, 2)], &[(1, 0)], &[(0, 1)]]));
    has(
        &page,
        &[
            "<p>VM 0 may not go to node 2: ban vms 0 nodes 2.</p>",
            "<p>The 2 steps behind it are not drawn.</p>",
            ">forbidden</text>",
        ],
    );
    assert_eq!(page.matches("class=\"blamed\"").count(), 1);
    assert_eq!(page.matches("class=\"blamed-vm\"").count(), 1);
}

#[test]
fn mates_meet() {
    let spread = |vms| vec![Constraint::Spread { vms }];
    let nodes = vec![node(9, 100); 3];
    let a = Room { nodes: nodes.clone(), constraints: spread(vec![0, 1]), ..cluster_a() };
    let page = drawn(&a, &steps(&[&[(0, 1)]]));
    has(&page, &["begin VM 0: node 1 would have VMs 0 and 1, spread mates.", ">mates meet</text>"]);
    assert_eq!(page.matches("class=\"blamed\"").count(), 1);
    assert_eq!(page.matches("class=\"blamed-vm\"").count(), 2);
    let both = drawn(&a, &steps(&[&[(0, 2), (1, 2)]]));
    has(&both, &["begin VM 0, begin VM 1: node 2 would have VMs 1 and 0, spread mates."]);
    assert_eq!(both.matches("class=\"blamed-vm\"").count(), 2);
}

#[test]
fn sources_that_are_wrong() {
    let page = plan_drawn(&cluster_a(), &sourced(&[&[(0, 0, 2)], &[(1, 1, 0)], &[(0, 0, 1)]]));
    has(
        &page,
        &[
            "<h1>3 steps, 3 moves, refused</h1>",
            &format!("<b>refused 27 step 3</b>. {}</p>", reason(27)),
            "<figure class=\"refused\">\n<figcaption><h2>Step 3 of 3, refused</h2>\n\
             <p>VM 0 from node 2 to 1.</p>\n<p>Refused with number 27.</p>\n\
             <p>The move of VM 0 to node 1 names node 0 as its source, but VM 0 is on node 2 when \
             the step starts.</p>",
            "Broken red lines are around what refuses a step.",
            ">not here</text>",
        ],
    );
    assert_eq!(page.matches("<figure").count(), 4);
    let refused = frames(&page)[3];
    assert_eq!(refused.matches("class=\"blamed\"").count(), 1, "the node that is named");
    assert_eq!(refused.matches("class=\"blamed-vm\"").count(), 1, "the VM where it is");
    assert_eq!(page.matches("class=\"blamed").count(), 2);
    let rects = rects(refused);
    let blamed = |class: &str| rects.iter().find(|rect| rect.class == class).unwrap();
    let column = |x: f64| (x / 150.0) as usize;
    assert_eq!(column(blamed("blamed").left), 0);
    assert_eq!(column(blamed("blamed-vm").left), 2);

    let behind = plan_drawn(&cluster_a(), &sourced(&[&[(0, 2, 2)], &[(9, 9, 9)]]));
    has(
        &behind,
        &["names node 2 as its source, but VM 0 is on node 0 when the step starts.</p>\n\
             <p>The step behind it is not drawn.</p>"],
    );
    let far = plan_drawn(&cluster_a(), &sourced(&[&[(0, 0, 2), (1, 254, 0)]]));
    has(
        &far,
        &["<p>The move of VM 1 to node 0 names node 254 as its source, but VM 1 is on node 1 \
             when the step starts; node 254 is not there (this cluster has nodes 0 to 2).</p>"],
    );
    let nowhere = plan_drawn(&cluster_a(), &sourced(&[&[(0, 0, 2), (1, 255, 0)]]));
    has(
        &nowhere,
        &["<p>The move of VM 1 to node 0 names no node as its source, but VM 1 is on node 1 \
             when the step starts.</p>"],
    );
    for page in [far, nowhere] {
        assert_eq!(page.matches("class=\"blamed\"").count(), 0);
        assert_eq!(page.matches("class=\"blamed-vm\"").count(), 1);
    }
}

/// In a frame that shows only the nodes its step touches, the node that is named is there too; and
/// more than three wrong sources are counted.
#[test]
fn sources_that_are_wrong_in_a_large_room() {
    let mut room = crowd(40, 200, 40);
    room.vms[0].current = 0;
    let brief = plan_drawn(&room, &sourced(&[&[(0, 30, 39)]]));
    has(&brief, &["A step's frame shows the nodes that", "names node 30 as its source, but VM 0"]);
    for node in [0, 30, 39] {
        assert!(frames(&brief)[1].contains(&format!(">node {node}</text>")), "{node}");
    }
    assert_eq!(frames(&brief)[1].matches("class=\"name\"").count(), 3);
    let away = |vm: usize| (vm, 99, (room.vms[vm].current + 1) % 40);
    let many: Vec<(usize, usize, usize)> = (0..5).map(away).collect();
    let page = plan_drawn(&room, &sourced(&[&many]));
    assert_eq!(page.matches("names node 99 as its source").count(), 3);
    has(&page, &["<p>And 2 more like this.</p>"]);
    assert_eq!(page.matches("class=\"blamed\"").count(), 0);
}

// ---------------------------------------------------------------- on no node

/// VM 0 is shut down on node 0, where VM 1 is launched; VM 2 stays down.
fn turn(memory: u64, constraints: &[Constraint]) -> Room {
    let vms = [vm(3, 50, 0, 255), vm(2, 50, 255, 0), vm(9, 50, 255, 255)];
    room_2(&[node(memory, 100), node(4, 100)], &vms, constraints)
}

#[test]
fn a_shutdown_and_a_launch() {
    let room = turn(4, &[]);
    let page = drawn(&room, &make_steps(&room).0);
    has(
        &page,
        &[
            "<h1>2 steps, 2 moves, cost 2</h1>",
            "The end is the target.",
            "<h2>Start</h2>\n<p>2 VMs off target.</p>",
            "<p>VM 0 shut down on node 0.</p>\n\
             <p>Cost of these moves 0, of the plan so far 0.</p>",
            "<p>VM 1 launched on node 0.</p>\n\
             <p>Cost of these moves 2, of the plan so far 2.</p>",
            "<title>VM 0: memory 3, CPU 50, target no node</title>",
            "<h2>End</h2>\n<p>Every VM is on its target.</p>",
        ],
    );
    let frames = frames(&page);
    let words = |frame: &str, class: &str| -> Vec<String> {
        texts(frame).into_iter().filter(|t| t.class == class).map(|t| t.words).collect()
    };
    assert_eq!(
        words(frames[0], "vm astray"),
        ["VM 1, target 0", "VM 0 \u{b7} 3 MiB", "target none"]
    );
    assert_eq!(words(frames[0], "vm home"), ["VM 2 \u{b7} 9 MiB"]);
    assert_eq!(words(frames[1], "vm leaves"), ["VM 0 \u{b7} 3 MiB", "shuts down"]);
    assert_eq!(words(frames[1], "vm arrives"), ["VM 0 \u{2190} 0"]);
    assert_eq!(words(frames[2], "vm leaves"), ["VM 1 \u{2192} 0"]);
    assert_eq!(words(frames[2], "vm arrives"), ["VM 1 \u{b7} 2 MiB", "launched"]);
    assert_eq!(words(frames[3], "vm home").len(), 3);
    assert!(words(frames[3], "vm astray").is_empty());
    let memory = |frame: &str| words(frame, "within")[0].clone();
    assert_eq!(
        frames.iter().map(|frame| memory(frame)).collect::<Vec<_>>(),
        ["memory 3 of 4", "memory 3 of 4", "memory 2 of 4", "memory 2 of 4"],
    );
    assert_eq!(page.matches("class=\"arrow\"").count(), 2);
    assert_eq!(page.matches("class=\"shelf\" x=").count(), 2 * frames.len());
}

/// Who is on the shelf in each frame, by the blocks that lie on it.
#[test]
fn who_is_on_the_shelf() {
    let room = turn(4, &[]);
    let page = drawn(&room, &make_steps(&room).0);
    let on_shelf = |frame: &str| {
        let rects = rects(frame);
        let shelf = rects.iter().find(|rect| rect.class == "shelf").unwrap();
        let blocks = rects.iter().filter(|rect| rect.class.starts_with("vm "));
        let classes = blocks.filter(|block| block.within(shelf)).map(|block| block.class.clone());
        classes.collect::<Vec<_>>()
    };
    let shelves: Vec<Vec<String>> = frames(&page).into_iter().map(on_shelf).collect();
    let expected: [&[&str]; 4] = [
        &["vm astray", "vm home"],
        &["vm astray", "vm home", "vm arrives"],
        &["vm home", "vm leaves", "vm home"],
        &["vm home", "vm home"],
    ];
    // By number: VM 0 is down from the second step on, VM 1 until then.
    assert_eq!(shelves, [expected[0], expected[1], expected[2], expected[3]]);
}

#[test]
fn a_shutdown_pays_for_nothing() {
    let page = drawn(&turn(4, &[]), &steps(&[&[(0, 255), (1, 0)]]));
    has(
        &page,
        &[
            "<b>refused 17 step 1</b>",
            "<p>VM 0 shut down on node 0, VM 1 launched on node 0.</p>",
            "<p>An order that fails: begin VM 1: node 0 would have memory 5 of 4 (VM 0 counts \
             there until its shutdown ends).</p>",
            ">no space</text>",
        ],
    );
    assert_eq!(page.matches("class=\"blamed\"").count(), 1);
    let spread = [Constraint::Spread { vms: vec![0, 1, 2] }];
    let page = drawn(&turn(9, &spread), &steps(&[&[(0, 255), (1, 0)]]));
    has(
        &page,
        &["<p>An order that fails: begin VM 1: node 0 would have VMs 1 and 0, spread mates (VM 0 \
             counts there until its shutdown ends).</p>"],
    );
    assert_eq!(page.matches("class=\"blamed\"").count(), 1);
    assert_eq!(page.matches("class=\"blamed-vm\"").count(), 2);
}

/// Moves that name no node, or a node, where they should not: the shelf is marked as a node is.
#[test]
fn sources_on_no_node() {
    let room = turn(9, &[]);
    let page = plan_drawn(&room, &sourced(&[&[(0, 255, 255)]]));
    has(
        &page,
        &["<p>The shutdown of VM 0 names no node as its source, but VM 0 is on node 0 when the \
             step starts.</p>"],
    );
    assert_eq!(page.matches("class=\"blamed\"").count(), 1);
    let blamed = rects(frames(&page)[1]);
    let blamed = |class: &str| blamed.iter().find(|rect| rect.class == class).unwrap().clone();
    assert_eq!(blamed("blamed").top, 3.0, "the shelf");
    assert!(blamed("blamed-vm").top > blamed("blamed").bottom, "the VM on its node");

    let page = plan_drawn(&room, &sourced(&[&[(1, 1, 0)]]));
    has(
        &page,
        &["<p>The move of VM 1 to node 0 names node 1 as its source, but VM 1 is on no node when \
             the step starts.</p>"],
    );
    let refused = rects(frames(&page)[1]);
    let find = |class: &str| refused.iter().find(|rect| rect.class == class).unwrap();
    assert!(find("blamed-vm").within(find("shelf")), "the VM on the shelf");
    assert!(find("blamed").top > find("shelf").bottom, "the node that is named");
}

#[test]
fn launches_that_are_forbidden_or_go_elsewhere() {
    let ban = [Constraint::Ban { vms: vec![1, 2], nodes: vec![1] }];
    let page = drawn(&turn(9, &ban), &steps(&[&[(1, 1)]]));
    has(&page, &["<p>VM 1 may not go to node 1: ban vms 1 2 nodes 1.</p>", ">forbidden</text>"]);
    let aside = drawn(&turn(9, &[]), &steps(&[&[(1, 1)], &[(1, 0)], &[(0, 255)]]));
    has(
        &aside,
        &["<p>VM 1 launched on node 1 (pivot).</p>", ">launch, pivot</text>", "A pivot is a move"],
    );
    let short = drawn(&turn(9, &[]), &steps(&[&[(1, 0)]]));
    has(&short, &["The end is not the target: 1 VM is elsewhere.", "<b>refused 19 step 0</b>"]);
}

#[test]
fn shutdowns_that_do_not_fit_the_cluster() {
    let table: [(&[(usize, usize)], &str); 4] = [
        (&[(1, 255)], "VM 1 is to be shut down, but its target is node 0"),
        (&[(2, 255)], "VM 2 is to be shut down, but it is on no node already"),
        (&[(0, 254)], "node 254 is not there (this cluster has nodes 0 to 1)"),
        (&[(3, 255)], "VM 3 is not there (this cluster has VMs 0 to 2)"),
    ];
    for (step, why) in table {
        let plan = bare(&steps(&[step]));
        let outcome = page(0, &turn(9, &[]), &plan, Whose::Model);
        assert_eq!(
            outcome,
            Err(format!("this plan is not one for this cluster: in step 1, {why}"))
        );
    }
    let outcome = page(0, &cluster_a(), &bare(&steps(&[&[(0, 255)]])), Whose::Model);
    let why = "in step 1, VM 0 is to be shut down, but its target is node 1";
    assert_eq!(outcome, Err(format!("this plan is not one for this cluster: {why}")));
}

/// Shelves of few and many VMs over rooms of few and many nodes.
#[test]
fn shelves_of_all_sizes() {
    for (nodes, down) in [(1, 1), (1, 200), (3, 7), (8, 100), (13, 90), (40, 250), (64, 192)] {
        let mut room = crowd(nodes, down.max(64), nodes as u64);
        room.version = Version::Two;
        for (i, vm) in room.vms.iter_mut().enumerate().take(down) {
            match i % 3 {
                0 => vm.current = 255,
                1 => vm.target = 255,
                _ => (vm.current, vm.target) = (255, 255),
            }
        }
        room.nodes.fill(node(16_777_215, 65_535));
        let page = drawn(&room, &make_steps(&room).0);
        let brief = page.contains("shows the nodes that the step touches");
        assert_eq!(page.contains(" more</text>"), brief && down > 2, "{nodes} {down}");
    }
}

#[test]
fn off_target() {
    let a = cluster_a();
    let nothing = drawn(&a, &[]);
    has(
        &nothing,
        &[
            "<h1>0 steps, 0 moves, refused</h1>",
            "The end is not the target: 2 VMs are elsewhere.",
            "<b>refused 19 step 0</b>",
            "<h2>End, refused</h2>\n<p>2 VMs off target.</p>\n<p>Refused with number 19.</p>",
        ],
    );
    let half = drawn(&a, &steps(&[&[(0, 2)], &[(1, 0)]]));
    has(&half, &["The end is not the target: 1 VM is elsewhere."]);
}

#[test]
fn nothing_to_move() {
    let mut home = cluster_a();
    home.vms.iter_mut().for_each(|vm| vm.current = vm.target);
    let no_bytes = plan_drawn(&home, &parse_plan(&[]).unwrap());
    has(
        &no_bytes,
        &[
            "<h1>0 steps, 0 moves, cost 0</h1>",
            "The end is the target.",
            "<b>accepted cost 0</b>",
            "<h2>Start</h2>\n<p>Every VM is on its target.</p>",
            "<h2>End</h2>\n<p>Every VM is on its target.</p>",
        ],
    );
    for version in Version::ALL {
        assert_eq!(no_bytes, plan_drawn(&home, &Plan::empty(version)));
    }
}

#[test]
fn a_target_that_is_refused() {
    let mut a = cluster_a();
    a.vms[0].target = 0;
    let why = format!("<b>refused 8 step 0</b>. {} The steps are drawn", reason(8));
    for steps in [steps(&[&[(1, 0)]]), vec![]] {
        let page = drawn(&a, &steps);
        has(&page, &[&why]);
        assert!(!page.contains("<figure class=\"refused\">"));
    }
}

#[test]
fn whose_verdict() {
    let a = cluster_a();
    let page = page(0, &a, &named(&a, &make_steps(&a).0), Whose::Checker).unwrap();
    has(
        &page,
        &["<p class=\"verdict\">Verdict of the proved checker: <b>accepted cost 16</b>.</p>"],
    );
}

#[test]
fn plans_for_another_cluster() {
    let table: [(&[(usize, usize)], &str); 5] = [
        (&[(2, 0)], "VM 2 is not there (this cluster has VMs 0 to 1)"),
        (&[(1, 3)], "node 3 is not there (this cluster has nodes 0 to 2)"),
        (&[(1, 0), (0, 1)], "VM 0 stands behind VM 1; the VMs of a step rise"),
        (&[(1, 0), (1, 2)], "VM 1 stands behind VM 1; the VMs of a step rise"),
        (&[(0, 2)], "VM 0 goes to node 2, where it already is"),
    ];
    for (step, why) in table {
        let start = "this plan is not one for this cluster: in step 2, ";
        let list = steps(&[&[(0, 2)], step]);
        for plan in [bare(&list), named(&cluster_a(), &list)] {
            let outcome = page(0, &cluster_a(), &plan, Whose::Model);
            assert_eq!(outcome, Err(format!("{start}{why}")));
        }
    }
}

/// Where the VMs are when this step starts, counted from 1.
fn start_of(room: &Room, steps: &[Step], step: usize) -> Placement {
    let before = |here: Placement, step: &Step| here.after(room, step);
    steps[..step - 1].iter().fold(Placement::current(room), before)
}

/// Holds the wrong sources of a step refused with 27 against what its page tells and marks.
fn told_sources(room: &Room, plan: &Plan, step: usize, page: &str) {
    let start = start_of(room, &plan.steps, step);
    let wrong: Vec<&Move> =
        plan.steps[step - 1].iter().filter(|m| m.from != Some(start.place[m.vm])).collect();
    assert!(!wrong.is_empty());
    for Move { vm, from, to } in wrong.iter().take(3) {
        let (from, place) = (from.unwrap(), start.place[*vm]);
        let what = match to {
            255 => format!("shutdown of VM {vm}"),
            _ => format!("move of VM {vm} to node {to}"),
        };
        let (from, place) = (place_words(from), place_words(place));
        let told = format!(
            "The {what} names {from} as its source, but VM {vm} is on {place} when the step starts"
        );
        has(page, &[&told]);
    }
    let shelf = if room.has_nowhere() { 255 } else { 0 };
    let is_there = |from: usize| from < room.nodes.len() || from == shelf;
    let there = |m: &&&Move| is_there(m.from.unwrap());
    let nodes: BTreeSet<usize> = wrong.iter().filter(there).map(|m| m.from.unwrap()).collect();
    assert_eq!(page.matches("class=\"blamed\"").count(), nodes.len());
    assert!(page.matches("class=\"blamed-vm\"").count() >= wrong.len());
}

/// Holds the VMs that move too soon in a step refused with 33 against what its page tells and marks.
fn told_waits(room: &Room, plan: &Plan, step: usize, page: &str) {
    let start = start_of(room, &plan.steps, step);
    let step = &plan.steps[step - 1];
    let moves = |vm: usize| step.iter().any(|m| m.vm == vm);
    let away = |vm: &usize| start.place[*vm] != room.vms[*vm].target;
    let mut pairs = Vec::new();
    for m in step {
        let waited_for = firsts(room, m.vm).into_iter().filter(|vm| away(vm) || moves(*vm));
        pairs.extend(waited_for.map(|first| (first, m.vm)));
    }
    assert!(!pairs.is_empty());
    for (first, second) in pairs.iter().take(3) {
        let target = place_words(room.vms[*first].target);
        let mut said = Vec::new();
        said.extend(
            away(first).then(|| format!("is not on its target, {target}, when the step starts")),
        );
        said.extend(moves(*first).then(|| "moves in the same step".to_string()));
        let said = said.join(", and ");
        has(page, &[&format!("<p>VM {second} waits for VM {first}, which {said}.</p>")]);
    }
    assert_eq!(page.contains(" more like this."), pairs.len() > 3);
    let places: BTreeSet<usize> = pairs.iter().map(|(first, _)| start.place[*first]).collect();
    assert_eq!(page.matches("class=\"blamed\"").count(), places.len());
    let vms: BTreeSet<usize> = pairs.into_iter().flat_map(|(a, b)| [a, b]).collect();
    assert!(page.matches("class=\"blamed-vm\"").count() >= vms.len());
}

/// Follows every order that a page tells of a refused step; gives how many there are.
fn told_orders(reserve: u64, room: &Room, plan: &Plan, page: &str) -> usize {
    let Some(at) = refused_at(reserve, room, plan) else { return 0 };
    let (start, step) = (start_of(room, &plan.steps, at), &plan.steps[at - 1]);
    let run = Run { room: &usable_room(reserve, room), start: &start.place, step };
    let mut told = 0;
    for order in parts(page, "An order that fails: begin VM ", ": node ") {
        let vms = order.split(", begin VM ").map(|vm| vm.parse().unwrap());
        let moves: Vec<usize> =
            vms.map(|vm: usize| step.iter().position(|m| m.vm == vm).unwrap()).collect();
        let mut phases = vec![Phase::Waiting; step.len()];
        let (last, first) = moves.split_last().unwrap();
        for &i in first {
            phases[i] = Phase::Running;
        }
        let found = run.test_begin(&phases, *last);
        assert!(if page.contains(">no space<") { found.misfit } else { found.mate }, "{order}");
        told += 1;
    }
    told
}

#[test]
fn generated_plans() {
    let mut rng = Rng::new(41);
    let (mut pages, mut refusals, mut orders, mut sources, mut soon) = (0, 0, 0, 0, 0);
    let sizes = [(Size::Tiny, 400), (Size::Small, 400), (Size::Medium, 40), (Size::Large, 4)];
    for (size, how_many) in sizes {
        for _ in 0..how_many {
            for make in [room, knot, apart, waiting] {
                let room = make(&mut rng, size);
                let (mut plan, _) = plan(&mut rng, &room);
                plan.steps.truncate(40);
                let verdict = check(0, &cluster_bytes(&room), &plan_bytes(&plan));
                if matches!(verdict, Verdict::Refused { number: 15, .. }) {
                    assert!(page(0, &room, &plan, Whose::Model).is_err());
                    refusals += 1;
                    continue;
                }
                let page = plan_drawn(&room, &plan);
                pages += 1;
                match verdict {
                    Verdict::Refused { number: 27, step } => {
                        told_sources(&room, &plan, usize::from(step), &page);
                        sources += 1;
                    }
                    Verdict::Refused { number: 33, step } => {
                        told_waits(&room, &plan, usize::from(step), &page);
                        soon += 1;
                    }
                    _ => orders += told_orders(0, &room, &plan, &page),
                }
            }
        }
    }
    println!("{pages} pages, {refusals} refused, {orders} orders that fail, {sources} with 27,");
    println!("{soon} with 33");
    assert!(pages > 500 && refusals > 50 && orders > 50 && sources > 50 && soon > 20);
}

// ---------------------------------------------------------------- reserves

/// What stands under each node of a frame that shows all: what is usable, and what is kept of the rest.
fn shows_usable(reserve: u64, room: &Room, frame: &str) {
    let texts = texts(frame);
    let usable = usable_room(reserve, room);
    let names = texts.iter().enumerate().filter(|(_, text)| text.class == "name");
    for ((i, _), (has, whole)) in names.zip(usable.nodes.iter().zip(&room.nodes)) {
        let [memory, cpu, kept] = [1, 2, 3].map(|more| &texts[i + more]);
        for (text, has) in [(memory, has.memory), (cpu, has.cpu)] {
            let (held, limit) = text.words.split_once(" of ").unwrap();
            let held: u64 = held.split(' ').next_back().unwrap().parse().unwrap();
            assert_eq!(limit, has.to_string());
            assert_eq!(text.class, if held > has { "overfull" } else { "within" });
        }
        let share = format!("kept {} and {}", whole.memory - has.memory, whole.cpu - has.cpu);
        assert_eq!((kept.class.as_str(), kept.words.as_str()), ("kept", share.as_str()));
    }
}

/// What is kept stands as a grey share on top of its bar.
fn shows_kept(frame: &str) {
    let rects = rects(frame);
    for (i, kept) in rects.iter().enumerate().filter(|(_, rect)| rect.class == "kept") {
        let bar = &rects[i - 1];
        assert_eq!(bar.class, "room");
        assert!((bar.top - kept.bottom).abs() < 0.15 && kept.top < kept.bottom + 0.1);
        assert!(bar.left == kept.left && bar.right == kept.right);
    }
}

#[test]
fn generated_plans_at_reserves() {
    let mut rng = Rng::new(42);
    let (mut pages, mut over, mut targets, mut orders) = (0, 0, 0, 0);
    let sizes = [(Size::Tiny, 300), (Size::Small, 200), (Size::Medium, 20), (Size::Large, 2)];
    for (size, how_many) in sizes {
        for _ in 0..how_many {
            for make in [room, knot, apart] {
                let first = make(&mut rng, size);
                let (mut plan, _) = plan(&mut rng, &first);
                plan.steps.truncate(40);
                let reserve = some_reserve(&mut rng);
                let room = on_the_edge(&mut rng, reserve, &first);
                if page(reserve, &room, &plan, Whose::Model).is_err() {
                    continue;
                }
                let page = plan_drawn_at(reserve, &room, &plan);
                has(&page, &[&format!(", reserve {reserve} percent</h1>"), ">usable<"]);
                frames(&page).iter().for_each(|frame| shows_kept(frame));
                shows_usable(reserve, &room, frames(&page)[0]);
                pages += 1;
                over += usize::from(frames(&page)[0].contains("OVERFULL"));
                targets += usize::from(page.contains(" usable. The steps are drawn"));
                orders += told_orders(reserve, &room, &plan, &page);
                assert_eq!(
                    page.contains(">no space<"),
                    page.contains(" usable.</p>") || page.contains(" usable (VM"),
                );
            }
        }
    }
    println!("{pages} pages, {over} with a node over, {targets} with 8, {orders} orders that fail");
    assert!(pages > 500 && over > 50 && targets > 50 && orders > 20);
}

/// Cluster A at 25 percent: memory 3 of 4 and CPU 75 of 100 are usable, and a whole bar is 170 high.
#[test]
fn a_at_a_reserve() {
    let a = cluster_a();
    let page = plan_drawn_at(25, &a, &bare(&make_steps(&a).0));
    let start = frames(&page)[0];
    let high = |class: &str| -> Vec<f64> {
        let of_class = rects(start).into_iter().filter(|rect| rect.class == class);
        of_class.map(|rect| ((rect.bottom - rect.top) * 10.0).round() / 10.0).collect()
    };
    assert_eq!(high("room"), [127.5; 6]);
    assert_eq!(high("kept"), [42.5; 6]);
    has(start, &[">memory 3 of 3</text>", ">CPU 50 of 75</text>", ">kept 1 and 25</text>"]);
    assert!(!page.contains("OVERFULL"));
}

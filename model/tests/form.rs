//! The text forms: every undamaged record has one, both ways give back what went in (no plan bytes
//! come back as the header of a plan of no steps), and what is not understood is refused at its
//! line.

use kobdrieft_model::edges::{cluster_a, edges, node, room as made, room_2, sourced, steps, vm};
use kobdrieft_model::form::{read_cluster, read_plan, write_cluster, write_plan, Fault};
use kobdrieft_model::gen::{apart, cases, knot, plan, ring, room, swaps, Rng, Size};
use kobdrieft_model::puzzles::puzzle;
use kobdrieft_model::*;

/// The records of a plan of no steps in each version.
const HEADERS: [&[u8]; 2] = [&[1, 0, 0, 0, 7, 0, 0], &[2, 0, 0, 0, 7, 0, 0]];

/// Record to text to record, and text to record to text.
fn there_and_back(record: &[u8]) -> bool {
    let Ok(room) = parse_cluster(record) else { return false };
    let text = write_cluster(&room);
    let again = read_cluster(text.as_bytes()).unwrap_or_else(|f| panic!("{f:?} in\n{text}"));
    assert_eq!(cluster_bytes(&again), record, "{text}");
    assert_eq!(write_cluster(&again), text);
    true
}

fn plan_there_and_back(record: &[u8]) -> bool {
    let Ok(plan) = parse_plan(record) else { return false };
    let text = write_plan(&plan);
    let again = read_plan(text.as_bytes()).unwrap_or_else(|f| panic!("{f:?} in\n{text}"));
    let written = if record.is_empty() { HEADERS[0] } else { record };
    assert_eq!(plan_bytes(&again), written, "{text}");
    assert_eq!(write_plan(&again), text);
    let said = format!("version {}\n{}", plan.version as u8, text.replace("version 2\n", ""));
    assert_eq!(read_plan(said.as_bytes()), Ok(plan), "{said}");
    true
}

#[test]
fn generated_clusters() {
    let mut rng = Rng::new(31);
    let sizes = [(Size::Tiny, 1_500), (Size::Small, 1_500), (Size::Medium, 400), (Size::Large, 60)];
    let mut count = 0;
    for (size, how_many) in sizes {
        for _ in 0..how_many {
            for make in [room, knot, apart] {
                assert!(there_and_back(&cluster_bytes(&make(&mut rng, size))));
                count += 1;
            }
        }
    }
    for _ in 0..1_000 {
        assert!(there_and_back(&cluster_bytes(&puzzle(&mut rng))));
    }
    println!("{count} clusters and 1,000 puzzles");
}

#[test]
fn generated_and_hand_set_records_with_damage() {
    let (mut clusters, mut plans) = ([0; 3], 0);
    let random = cases(32, 20_000).map(|case| (case.cluster, case.plan));
    let set = edges().into_iter().map(|edge| (edge.cluster, edge.plan));
    for (cluster, plan) in random.chain(set) {
        if there_and_back(&cluster) {
            let room = parse_cluster(&cluster).unwrap();
            clusters[room.version as usize - 1 + usize::from(room.has_nowhere())] += 1;
        }
        plans += usize::from(plan_there_and_back(&plan));
    }
    println!("undamaged clusters: of version 1, of version 2 with all on nodes, of version 2 with");
    println!("some on none: {clusters:?}; {plans} undamaged plans");
    assert!(clusters.iter().all(|&count| count > 1_000) && plans > 10_000);
}

#[test]
fn generated_plans_of_either_version() {
    let mut rng = Rng::new(33);
    let mut seen = [[0; 2]; 2];
    for i in 0..8_000 {
        let make = [room, knot, apart][i % 3];
        let room = make(&mut rng, if i % 50 == 0 { Size::Medium } else { Size::Tiny });
        let (plan, _) = plan(&mut rng, &room);
        let moves: usize = plan.steps.iter().map(Vec::len).sum();
        if plan.steps.len() <= 512 && moves <= 1_024 {
            assert!(plan_there_and_back(&plan_bytes(&plan)));
            seen[plan.version as usize - 1][usize::from(moves > 0)] += 1;
        }
    }
    println!("without and with moves, by version: {seen:?}");
    assert!(seen.as_flattened().iter().all(|&count| count > 100), "{seen:?}");
}

#[test]
fn largest_records() {
    assert!(there_and_back(&cluster_bytes(&swaps(128))));
    assert!(there_and_back(&cluster_bytes(&ring(&mut Rng::new(1), 64))));
    let all_vms: Vec<usize> = (0..256).collect();
    let groups: Vec<Vec<usize>> = (0..64).map(|node| vec![63 - node]).collect();
    let widest = Constraint::Latency { vms: all_vms, groups };
    let full = made(&vec![node(0, 0); 64], &vec![vm(1, 0, 63, 0); 256], &vec![widest; 128]);
    assert!(there_and_back(&cluster_bytes(&full)));
    let thin = vec![vec![Move::bare(255, 255); 2]; 512];
    let wide = vec![vec![Move::bare(0, 63); 256]; 4];
    let lengths = [thin, wide].map(|steps| {
        [bare(&steps), named(&full, &steps)].map(|plan| {
            let record = plan_bytes(&plan);
            assert!(plan_there_and_back(&record));
            record.len()
        })
    });
    assert_eq!(lengths, [[3_079, 4_103], [2_063, 3_087]]);
}

#[test]
fn plans_of_no_steps() {
    assert!(plan_there_and_back(&[]));
    assert_eq!(parse_plan(&[]), parse_plan(HEADERS[0]));
    let texts = ["# no steps\n", "version 2\n# no steps\n"];
    for (header, text) in HEADERS.into_iter().zip(texts) {
        assert!(plan_there_and_back(header));
        assert_eq!(write_plan(&parse_plan(header).unwrap()), text);
        for length in 1..header.len() {
            assert!(!plan_there_and_back(&header[..length]));
        }
    }
    for text in ["", "# nothing\n", "version 1", "# a\n\n version 01 # b"] {
        assert_eq!(read_plan(text.as_bytes()), Ok(Plan::empty(Version::One)), "{text}");
    }
    for text in ["version 2", "\nversion 2\n# nothing\n"] {
        assert_eq!(read_plan(text.as_bytes()), Ok(Plan::empty(Version::Two)), "{text}");
    }
}

#[test]
fn steps_in_either_version() {
    let list = steps(&[&[(0, 2)], &[(1, 0)], &[(0, 1)]]);
    let texts = [
        "step 0 to 2\nstep 1 to 0\nstep 0 to 1\n",
        "step 0 from 0 to 2\nstep 1 from 1 to 0\nstep 0 from 2 to 1\n",
    ];
    for (plan, text) in [bare(&list), named(&cluster_a(), &list)].into_iter().zip(texts) {
        assert_eq!(write_plan(&plan), text);
        assert_eq!(read_plan(text.as_bytes()), Ok(plan.clone()));
        let said = format!("# said\n version {} # so\n\n{text}", plan.version as u8);
        assert_eq!(read_plan(said.as_bytes()), Ok(plan));
    }
    let wrong = b"step 0 from 255 to 255, 0 from 9 to 9";
    assert_eq!(read_plan(wrong), Ok(sourced(&[&[(0, 255, 255), (0, 9, 9)]])));
}

/// Records of both versions that differ in nothing but the version have texts that tell it.
#[test]
fn clusters_of_either_version() {
    let rows = "node 4 100 x3\nvm 3 50 from 0 to 1\nvm 2 50 from 1 to 0\n";
    let two = Room { version: Version::Two, ..cluster_a() };
    assert_eq!(read_cluster(rows.as_bytes()), Ok(cluster_a()));
    for text in
        [format!("version 2\n{rows}"), format!("{rows}\n version 02 # so"), write_cluster(&two)]
    {
        assert_eq!(read_cluster(text.as_bytes()), Ok(two.clone()), "{text}");
    }
    for text in
        [format!("version 1\n{rows}"), format!("# a\n{rows}version 1"), write_cluster(&cluster_a())]
    {
        assert_eq!(read_cluster(text.as_bytes()), Ok(cluster_a()), "{text}");
    }
    assert_eq!(write_cluster(&two).lines().nth(1), Some("version 2"));
    assert!(!write_cluster(&cluster_a()).contains("version"));
    let record = cluster_bytes(&two);
    assert_eq!(record[0], 2);
    assert_eq!(record[1..], cluster_bytes(&cluster_a())[1..]);
    assert!(there_and_back(&record));
}

/// Places on no node, in rows and in moves.
#[test]
fn on_no_node() {
    let rows = "node 4 100 x2\nvm 3 50 from nowhere to 1\nvm 2 50 from 1 to nowhere\n\
                vm 1 0 from nowhere to nowhere x2\n";
    let vms = [vm(3, 50, 255, 1), vm(2, 50, 1, 255), vm(1, 0, 255, 255), vm(1, 0, 255, 255)];
    let expected = room_2(&[node(4, 100), node(4, 100)], &vms, &[]);
    assert_eq!(read_cluster(rows.as_bytes()), Ok(expected.clone()));
    assert_eq!(read_cluster(format!("version 2\n{rows}").as_bytes()), Ok(expected.clone()));
    let text = write_cluster(&expected);
    let lines: Vec<&str> = text.lines().map(|l| l.split('#').next().unwrap().trim()).collect();
    assert_eq!(lines[1..], rows.lines().collect::<Vec<_>>(), "no line for the version");
    assert!(there_and_back(&cluster_bytes(&expected)));

    let pairs = "step 0 to 1, 1 to nowhere\n";
    assert_eq!(read_plan(pairs.as_bytes()), Ok(bare(&steps(&[&[(0, 1), (1, 255)]]))));
    let triples = "step 0 from nowhere to 1, 1 from 1 to nowhere\n";
    let plan = sourced(&[&[(0, 255, 1), (1, 1, 255)]]);
    assert_eq!(read_plan(triples.as_bytes()), Ok(plan.clone()));
    assert_eq!(read_plan(b"step 0 from 255 to 1, 1 from 1 to 255"), Ok(plan.clone()));
    assert_eq!(write_plan(&plan), triples);
    assert_eq!(write_plan(&bare(&plan.steps)), pairs);
    assert_eq!(named(&expected, &bare(&plan.steps).steps), plan);
}

/// A version that is said twice, or that has no VM on no node.
#[test]
fn versions_of_clusters_that_are_refused() {
    let table = [
        ("version 1\nnode 1 1\nversion 1", 3, "'version' stands here again; line 1 has it"),
        ("node 1 1\nversion 2\n\nversion 1", 4, "'version' stands here again; line 2 has it"),
        (
            "# a\nversion 1\nnode 1 1\nvm 1 1 from 0 to 0\nvm 1 1 from nowhere to 0",
            2,
            "version 1 is said, but line 5 has 'nowhere', of version 2",
        ),
        (
            "vm 1 1 from 0 to nowhere\nvm 1 1 from nowhere to 0\nnode 1 1\nversion 1",
            4,
            "version 1 is said, but line 1 has 'nowhere', of version 2",
        ),
    ];
    for (text, line, reason) in table {
        refused(read_cluster(text.as_bytes()), line, reason);
    }
}

#[test]
fn empty_lists() {
    let text = b"node 0 0\nban vms none nodes none\nfence vms none nodes 0\nspread vms none\n\
        latency vms none groups none\nlatency vms none groups empty\n\
        latency vms none groups empty | 0 |empty";
    let none = Vec::new;
    let latency = |groups| Constraint::Latency { vms: vec![], groups };
    let constraints = [
        Constraint::Ban { vms: none(), nodes: none() },
        Constraint::Fence { vms: none(), nodes: vec![0] },
        Constraint::Spread { vms: none() },
        latency(vec![]),
        latency(vec![vec![]]),
        latency(vec![vec![], vec![0], vec![]]),
    ];
    assert_eq!(read_cluster(text), Ok(made(&[node(0, 0)], &[], &constraints)));
}

#[test]
fn what_people_write() {
    let a = cluster_a();
    let plain = b"node 4 100 x3\nvm 3 50 from 0 to 1\nvm 2 50 from 1 to 0";
    let mixed = "\u{feff}# A\r\nvm 3 50 from 0 to 1# first\r\n\r\n  node 4 100 x2\r\n\
                 \tvm 02 50 from 1 to 0\r\nnode 4 100 x1\r\n";
    assert_eq!(read_cluster(plain), Ok(a.clone()));
    assert_eq!(read_cluster(mixed.as_bytes()), Ok(a));
    let runs = b"node 1 1 x9\nban vms none nodes 0 2-4 6 8-8";
    let nodes = vec![0, 2, 3, 4, 6, 8];
    let ban = Constraint::Ban { vms: vec![], nodes };
    assert_eq!(read_cluster(runs).unwrap().constraints, [ban]);
    let both = bare(&steps(&[&[(0, 1), (1, 0)]]));
    assert_eq!(read_plan(b"step 0 to 1, 1 to 0 # both"), Ok(both.clone()));
    assert_eq!(read_plan(b"\nstep 0 to 1,1 to 0\n"), Ok(both));
    let both = sourced(&[&[(0, 0, 1), (1, 1, 0)]]);
    assert_eq!(read_plan(b"\n\tstep 0  from 0 to 1,1 from 01 to 0#both\r\n"), Ok(both));
}

#[test]
fn a_as_text() {
    let text = write_cluster(&cluster_a());
    let lines: Vec<&str> = text.lines().map(|l| l.split('#').next().unwrap().trim()).collect();
    assert_eq!(lines, ["", "node 4 100 x3", "vm 3 50 from 0 to 1", "vm 2 50 from 1 to 0"]);
    let remarks: Vec<&str> = text.lines().map(|l| l.split('#').nth(1).unwrap().trim()).collect();
    assert_eq!(remarks[1..], ["nodes 0 to 2", "VM 0", "VM 1"]);
}

// ---------------------------------------------------------------- refusals

fn refused<T: std::fmt::Debug>(outcome: Result<T, Fault>, line: usize, reason: &str) {
    assert_eq!(outcome.unwrap_err(), Fault { line, reason: reason.into() });
}

/// A line in a cluster of three nodes and two VMs, which comes to stand in line 4.
fn added(line: &str) -> Result<Room, Fault> {
    let text = format!("node 4 100 x2\nvm 3 50 from 0 to 1\nvm 2 50 from 1 to 0\n{line}\nnode 1 1");
    read_cluster(text.as_bytes())
}

#[test]
fn lines_that_are_refused() {
    let table = [
        (
            "nod 4 100",
            "no line begins with 'nod', only with version, node, vm, ban, fence, spread, latency or before",
        ),
        ("step 0 to 1", "'step' belongs in a plan's text; this is read as a cluster"),
        ("version", "the line ends where the version should stand"),
        ("version two", "'two' stands where the version should, a number"),
        ("version 0", "the version cannot be 0 (it goes from 1 to 2)"),
        ("version 3", "the version cannot be 3 (it goes from 1 to 2)"),
        ("version 2 2", "'2' stands where the line should end"),
        ("node", "the line ends where the node's memory should stand"),
        ("node 4", "the line ends where the node's CPU should stand"),
        ("node four 100", "'four' stands where the node's memory should, a number"),
        ("node -4 100", "'-4' stands where the node's memory should, a number"),
        ("node +4 100", "'+4' stands where the node's memory should, a number"),
        ("node 4 100 3", "'3' stands where the line should end"),
        ("node 4 100 x", "'x' stands where the line should end"),
        ("node 4 100 x2 x2", "'x2' stands where the line should end"),
        ("node 4 100 x0", "x0 is out of range (x1 to x64)"),
        ("node 4 100 x65", "x65 is out of range (x1 to x64)"),
        ("node 4 100 x63", "this line makes it 65 nodes; 64 are allowed"),
        ("node 16777216 1", "the node's memory cannot be 16777216 (it goes from 0 to 16777215)"),
        ("node 1 65536", "the node's CPU cannot be 65536 (it goes from 0 to 65535)"),
        ("vm 0 1 from 0 to 1", "the VM's memory cannot be 0 (it goes from 1 to 16777215)"),
        ("vm 1 70000 from 0 to 1", "the VM's CPU cannot be 70000 (it goes from 0 to 65535)"),
        ("vm 1 1 to 0 from 1", "'to' stands where 'from' should"),
        ("vm 1 1 from 0", "the line ends where 'to' should stand"),
        ("vm 1 1 from 0 to", "the line ends where the target node should stand"),
        (
            "vm 1 1 from here to 1",
            "'here' stands where the current node should, a number or 'nowhere'",
        ),
        ("vm 1 1 from 0 to no", "'no' stands where the target node should, a number or 'nowhere'"),
        ("vm 1 1 from nowhere", "the line ends where 'to' should stand"),
        ("vm 1 1 from nowhere to 1 nowhere", "'nowhere' stands where the line should end"),
        ("vm nowhere 1 from 0 to 1", "'nowhere' stands where the VM's memory should, a number"),
        (
            "vm 1 1 from Nowhere to 1",
            "'Nowhere' stands where the current node should, a number or 'nowhere'",
        ),
        ("vm 1 1 from nowhere to 9", "node 9 is not there (this cluster has nodes 0 to 2)"),
        (
            "vm 1 1 from 255 to 1",
            "node 255 is not there (this cluster has nodes 0 to 2); on no node is 'nowhere'",
        ),
        (
            "vm 1 1 from 0 to 255 x3",
            "node 255 is not there (this cluster has nodes 0 to 2); on no node is 'nowhere'",
        ),
        ("ban vms 0 nodes 255", "node 255 is not there (this cluster has nodes 0 to 2)"),
        (
            "ban vms 0 nodes nowhere",
            "'nowhere' stands where a list of nodes should ('none' if it has no nodes)",
        ),
        ("fence vms 0 nodes 0 nowhere", "'nowhere' stands where the line should end"),
        ("vm 1 1 from 3 to 1", "node 3 is not there (this cluster has nodes 0 to 2)"),
        ("vm 1 1 from 0 to 9", "node 9 is not there (this cluster has nodes 0 to 2)"),
        ("vm 1 1 from 0 to 1 x255", "this line makes it 257 VMs; 256 are allowed"),
        ("vm 1 1 from 0 to 1 x257", "x257 is out of range (x1 to x256)"),
        ("ban 0 nodes 2", "'0' stands where 'vms' should"),
        ("ban vms 0", "the line ends where 'nodes' should stand"),
        ("ban vms nodes 2", "'nodes' stands where a list of VMs should ('none' if it has no VMs)"),
        (
            "fence vms 0 nodes",
            "the line ends where a list of nodes should ('none' if it has no nodes)",
        ),
        ("fence vms 0 nodes 0 two", "'two' stands where the line should end"),
        ("spread vms 0 2", "VM 2 is not there (this cluster has VMs 0 to 1)"),
        ("spread vms 0-2", "VM 2 is not there (this cluster has VMs 0 to 1)"),
        ("spread vms 1 0", "VM 0 stands behind VM 1; lists rise"),
        ("spread vms 0 0", "VM 0 stands behind VM 0; lists rise"),
        ("spread vms 1-0", "1-0 runs backwards; lists rise"),
        ("spread vms 0 1 nodes 2", "'nodes' stands where the line should end"),
        ("spread vms none 1", "'1' stands where the line should end"),
        ("latency vms 0 1", "the line ends where 'groups' should stand"),
        ("latency vms 0 groups 0 1 | 1", "node 1 stands in two groups"),
        ("latency vms 0 groups 3", "node 3 is not there (this cluster has nodes 0 to 2)"),
        (
            "latency vms 0 groups 0 |",
            "the line ends where a list of nodes should ('empty' if it has no nodes)",
        ),
        (
            "ban vms 99999999999999999999 nodes 0",
            "VM 18446744073709551615 is not there (this cluster has VMs 0 to 1)",
        ),
    ];
    for (line, reason) in table {
        refused(added(line), 4, reason);
    }
    let groups = format!("latency vms 0 groups empty{}", " | empty".repeat(64));
    refused(added(&groups), 4, "a latency has at most 64 groups");
    let spreads = "spread vms 0 1\n".repeat(129);
    refused(added(&spreads), 4 + 128, "this line is one too many; 128 are allowed");
}

#[test]
fn texts_that_are_refused() {
    let no_nodes = "the text ends without a node line; a cluster has 1 to 64 nodes";
    refused(read_cluster(b""), 1, no_nodes);
    refused(read_cluster(b"# empty\n\n# still\n"), 3, no_nodes);
    refused(read_cluster(b"node 1 1\n\xff"), 2, "this line is not plain text (UTF-8)");
    let alone = b"node 1 1\nspread vms 0";
    refused(read_cluster(alone), 2, "VM 0 is not there (this cluster has no VMs)");
    let alone = b"node 1 1\nvm 1 1 from 0 to 1";
    refused(read_cluster(alone), 2, "node 1 is not there (this cluster has only node 0)");
}

#[test]
fn plans_that_are_refused() {
    let table = [
        ("node 4 100", "'node' stands where 'step' should"),
        ("step", "the line ends where a VM should stand"),
        ("step 0", "the line ends where 'to' should stand"),
        ("step 0 to", "the line ends where a destination should stand"),
        ("step 256 to 0", "a VM cannot be 256 (it goes from 0 to 255)"),
        ("step 0 to 256", "a destination cannot be 256 (it goes from 0 to 255)"),
        ("step 0 to 1 1 to 0", "'1' stands where ',' should"),
        ("step 0 to 1,", "the line ends where a VM should stand"),
        (
            "step 0 from 0 to 1",
            "VM 0 names its source, but line 1 names no source; a plan does not mix",
        ),
        (
            "step 0 to 1, 7 from 0 to 1",
            "VM 7 names its source, but line 1 names no source; a plan does not mix",
        ),
        ("version 1", "'version' stands behind a step; it belongs before the first"),
        ("version 2", "'version' stands behind a step; it belongs before the first"),
    ];
    for (line, reason) in table {
        refused(read_plan(format!("step 0 to 1\n\n{line}\n").as_bytes()), 3, reason);
    }
    let table = [
        ("step 0 from", "the line ends where a source should stand"),
        ("step 0 from to 1", "'to' stands where a source should, a number or 'nowhere'"),
        ("step 0 from nowhere", "the line ends where 'to' should stand"),
        ("step nowhere from 0 to 1", "'nowhere' stands where a VM should, a number"),
        (
            "step 0 from 0 to none",
            "'none' stands where a destination should, a number or 'nowhere'",
        ),
        ("step 0 from nowhere to 256", "a destination cannot be 256 (it goes from 0 to 255)"),
        ("step 0 from 0", "the line ends where 'to' should stand"),
        ("step 0 from 0 1", "'1' stands where 'to' should"),
        ("step 0 from 256 to 0", "a source cannot be 256 (it goes from 0 to 255)"),
        ("step 0 from 0 to 256", "a destination cannot be 256 (it goes from 0 to 255)"),
        (
            "step 0 to 1 from 0",
            "VM 0 names no source, but line 1 names a source; a plan does not mix",
        ),
        (
            "step 3 from 0 to 1, 4 to 1",
            "VM 4 names no source, but line 1 names a source; a plan does not mix",
        ),
        ("version 2", "'version' stands behind a step; it belongs before the first"),
    ];
    for (line, reason) in table {
        refused(read_plan(format!("step 0 from 0 to 1\n\n{line}\n").as_bytes()), 3, reason);
    }
    let wide = |moves: usize| format!("step {}\n", vec!["0 to 1"; moves].join(", "));
    let long = "step 0 to 1\n".repeat(513);
    refused(read_plan(long.as_bytes()), 513, "a plan has at most 512 steps");
    refused(read_plan(wide(257).as_bytes()), 1, "a step has at most 256 moves");
    refused(read_plan(wide(205).repeat(5).as_bytes()), 5, "a plan has at most 1024 moves");
    let long = "step 0 from 0 to 1\n".repeat(513);
    refused(read_plan(long.as_bytes()), 513, "a plan has at most 512 steps");
    let said = format!("version 2\n{long}");
    refused(read_plan(said.as_bytes()), 514, "a plan has at most 512 steps");
}

#[test]
fn versions_that_are_refused() {
    let table = [
        ("version", 1, "the line ends where the version should stand"),
        ("version two", 1, "'two' stands where the version should, a number"),
        ("version 0", 1, "the version cannot be 0 (it goes from 1 to 2)"),
        ("\nversion 3", 2, "the version cannot be 3 (it goes from 1 to 2)"),
        ("version 257", 1, "the version cannot be 257 (it goes from 1 to 2)"),
        ("version 1 2", 1, "'2' stands where the line should end"),
        ("version 1\nversion 1", 2, "'version' stands here again; line 1 has it"),
        ("version 1\n\nversion 2", 3, "'version' stands here again; line 1 has it"),
        (
            "# a\nversion 1\n\nstep 3 from 0 to 1",
            2,
            "version 1 is said, but VM 3 names its source in line 4",
        ),
        (
            "version 2\nstep 0 from 0 to 1\nstep 5 to 1",
            1,
            "version 2 is said, but VM 5 names no source in line 3",
        ),
    ];
    for (text, line, reason) in table {
        refused(read_plan(text.as_bytes()), line, reason);
    }
}

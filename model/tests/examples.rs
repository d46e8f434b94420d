//! The examples: their records are what their texts give, those without a text have none, planning,
//! checking, stopping and dividing give what stands beside them, at reserves too, and the page names each.

use kobdrieft_model::draw::{page, Whose};
use kobdrieft_model::form::{read_cluster, read_plan};
use kobdrieft_model::text::{
    divided, plan_text, planned, read_marks, read_number, stopped, verdict_text,
};
use kobdrieft_model::*;
use std::collections::BTreeSet;
use std::fs;
use std::path::PathBuf;

fn file(name: &str) -> PathBuf {
    PathBuf::from(env!("CARGO_MANIFEST_DIR")).join("../examples").join(name)
}

fn bytes(name: &str) -> Vec<u8> {
    fs::read(file(name)).unwrap_or_else(|error| panic!("{name}: {error}"))
}

fn text(name: &str) -> String {
    String::from_utf8(bytes(name)).expect("text")
}

/// All files there, by name and ending.
fn files() -> BTreeSet<(String, String)> {
    let entries = fs::read_dir(file("")).expect("the examples");
    let names = entries.map(|entry| entry.unwrap().file_name().into_string().unwrap());
    names.map(|name| name.split_once('.').map(|(n, e)| (n.into(), e.into())).unwrap()).collect()
}

/// The names of the files with this ending.
fn names(ending: &str) -> BTreeSet<String> {
    files().into_iter().filter(|(_, e)| e == ending).map(|(name, _)| name).collect()
}

/// What stands beside `NAME` at reserves, as `NAME.reserve-R.ENDING`: the name, the reserve and the
/// text.
fn at_reserves(ending: &str) -> Vec<(String, u64, String)> {
    let read = |(name, rest): (String, String)| {
        let digits = rest.strip_prefix("reserve-")?.strip_suffix(ending)?.strip_suffix('.')?;
        let reserve = read_number(digits)?;
        let said = text(&format!("{name}.{rest}"));
        Some((name, reserve, said))
    };
    files().into_iter().filter_map(read).collect()
}

/// A stop of an example's plan, as the name of its file says it.
struct StopFile {
    file: String,
    name: String,
    reserve: u64,
    step: u64,
    marks: String,
}

impl StopFile {
    /// What the model says of it, and the record that it then writes.
    fn by_model(&self) -> (String, Option<Vec<u8>>) {
        let [cluster, plan] =
            ["cluster", "plan"].map(|ending| bytes(&format!("{}.{ending}", self.name)));
        let marks = read_marks(&self.marks).expect("digits");
        stopped(self.reserve, &cluster, &plan, self.step, &marks)
    }

    /// The record beside it, if there is one.
    fn after(&self) -> Option<Vec<u8>> {
        fs::read(file(&format!("{}.after", self.file))).ok()
    }
}

/// The stops here with this ending: `NAME.stop-STEP-MARKS.ENDING`, and at reserves
/// `NAME.reserve-R.stop-STEP-MARKS.ENDING`.
fn stop_files(ending: &str) -> Vec<StopFile> {
    let read = |(name, rest): (String, String)| {
        let rest = rest.strip_suffix(ending)?.strip_suffix('.')?;
        let (reserve, stop) = match rest.strip_prefix("reserve-") {
            Some(rest) => rest.split_once('.')?,
            None => ("0", rest),
        };
        let (step, marks) = stop.strip_prefix("stop-")?.split_once('-')?;
        let (reserve, step) = (read_number(reserve)?, read_number(step)?);
        Some(StopFile { file: format!("{name}.{rest}"), name, reserve, step, marks: marks.into() })
    };
    files().into_iter().filter_map(read).collect()
}

/// A split of an example's plan, as the name of its file says it.
struct SplitFile {
    file: String,
    name: String,
    reserve: u64,
}

impl SplitFile {
    fn cluster(&self) -> Vec<u8> {
        bytes(&format!("{}.cluster", self.name))
    }

    fn plan(&self) -> Vec<u8> {
        bytes(&format!("{}.plan", self.name))
    }

    /// What is said of it here.
    fn said(&self) -> String {
        text(&format!("{}.split", self.file))
    }

    /// The record beside it, if there is one.
    fn single(&self) -> Option<Vec<u8>> {
        fs::read(file(&format!("{}.single", self.file))).ok()
    }

    /// What the checker says of its plan.
    fn verdict(&self) -> Verdict {
        check(self.reserve, &self.cluster(), &self.plan())
    }
}

/// The splits here with this ending: `NAME.ENDING`, and at reserves `NAME.reserve-R.ENDING`.
fn split_files(ending: &str) -> Vec<SplitFile> {
    let read = |(name, rest): (String, String)| match rest.strip_suffix(ending)? {
        "" => Some(SplitFile { file: name.clone(), name, reserve: 0 }),
        rest => {
            let rest = rest.strip_suffix('.')?;
            let reserve = read_number(rest.strip_prefix("reserve-")?)?;
            Some(SplitFile { file: format!("{name}.{rest}"), name, reserve })
        }
    };
    files().into_iter().filter_map(read).collect()
}

/// Whether a cluster's record is what some text packs to. A damaged one is not.
fn cluster_has_text(name: &str) -> bool {
    parse_cluster(&bytes(&format!("{name}.cluster"))).is_ok()
}

/// Whether a plan's record is what some text packs to. No bytes are not: a text without steps packs
/// to a header. A damaged record is not, either.
fn has_text(name: &str) -> bool {
    let record = bytes(&format!("{name}.plan"));
    !record.is_empty() && parse_plan(&record).is_ok()
}

#[test]
fn every_example_is_whole() {
    assert!(names("cluster").len() >= 50);
    let with_text = names("cluster").into_iter().filter(|name| cluster_has_text(name));
    assert_eq!(names("room"), with_text.collect());
    assert_eq!(names("expected"), names("cluster"));
    assert_eq!(names("verdict"), names("plan"));
    assert!(names("plan").is_subset(&names("cluster")));
    let with_text = names("plan").into_iter().filter(|name| has_text(name));
    assert_eq!(names("steps"), with_text.collect());
    let known = ["room", "cluster", "expected", "steps", "plan", "verdict", "md", "sh"];
    let is_other = |(_, ending): &(String, String)| !known.contains(&ending.as_str());
    let others: Vec<_> = files().into_iter().filter(is_other).collect();
    let (planned, checked) = (at_reserves("expected"), at_reserves("verdict"));
    let (stops, records) = (stop_files("stopped"), stop_files("after"));
    let (splits, singles) = (split_files("split"), split_files("single"));
    let known = [planned.len(), checked.len(), stops.len(), records.len()];
    let known = known.iter().sum::<usize>() + splits.len() + singles.len();
    assert_eq!(known, others.len(), "{others:?}");
    assert!(stops.iter().all(|stop| names("plan").contains(&stop.name)));
    let is_done = |stop: &&StopFile| text(&format!("{}.stopped", stop.file)).starts_with("stopped");
    let done: Vec<&String> = stops.iter().filter(is_done).map(|stop| &stop.file).collect();
    assert_eq!(done, records.iter().map(|stop| &stop.file).collect::<Vec<_>>());
    assert!(splits.iter().all(|split| names("plan").contains(&split.name)));
    let done = splits.iter().filter(|split| split.said().starts_with("divided"));
    let done: Vec<&String> = done.map(|split| &split.file).collect();
    assert_eq!(done, singles.iter().map(|split| &split.file).collect::<Vec<_>>());
    assert!(planned.iter().all(|(name, ..)| names("cluster").contains(name)));
    assert!(checked.iter().all(|(name, ..)| names("plan").contains(name)));
}

#[test]
fn records_are_what_the_texts_give() {
    for name in names("room") {
        let room = read_cluster(&bytes(&format!("{name}.room"))).expect(&name);
        assert_eq!(cluster_bytes(&room), bytes(&format!("{name}.cluster")), "{name}");
    }
    for name in names("steps") {
        let plan = read_plan(&bytes(&format!("{name}.steps"))).expect(&name);
        assert_eq!(plan_bytes(&plan), bytes(&format!("{name}.plan")), "{name}");
    }
}

/// Hand-made plans of document 01 are of version 1; those that show sources are of version 2.
#[test]
fn versions_of_the_plans() {
    let sources = ["a-sources", "a-wrong-source", "a-swapped", "a-same", "a-stays-named"];
    let others = [
        "a-nothing-2",
        "launch",
        "launch-shutdown",
        "launch-wrong-source",
        "shutdown-cost",
        "shutdown-fenced",
    ];
    let two: BTreeSet<String> = sources.into_iter().chain(others).map(String::from).collect();
    for name in names("steps") {
        let plan = parse_plan(&bytes(&format!("{name}.plan"))).unwrap();
        let expected = if two.contains(&name) { Version::Two } else { Version::One };
        assert_eq!(plan.version, expected, "{name}");
    }
    assert!(two.is_subset(&names("steps")));
    for name in ["a-sources", "a-wrong-source", "a-same", "a-stays-named", "a-nothing-2"] {
        assert_eq!(bytes(&format!("{name}.cluster")), bytes("a.cluster"), "{name}");
    }
}

/// The clusters in which some VM is or should be on no node are of version 2, and one more is.
#[test]
fn versions_of_the_clusters() {
    let down = [
        "before-down",
        "before-launch",
        "before-shutdown",
        "before-waits-down",
        "idle-launch",
        "latency-down",
        "launch",
        "launch-after-pivot",
        "launch-at-once",
        "launch-mate",
        "launch-shutdown",
        "launch-waits",
        "launch-wrong-source",
        "shutdown",
        "shutdown-cost",
        "shutdown-fenced",
        "shutdown-wrong",
        "stays-down",
    ];
    let mut found = Vec::new();
    for name in names("room") {
        let room = parse_cluster(&bytes(&format!("{name}.cluster"))).unwrap();
        let two = room.has_nowhere() || name == "a-version-2";
        assert_eq!(room.version, if two { Version::Two } else { Version::One }, "{name}");
        found.extend(room.has_nowhere().then_some(name));
    }
    assert_eq!(found, down);
    let [a, two] = ["a", "a-version-2"].map(|name| bytes(&format!("{name}.cluster")));
    assert_eq!((&a[1..], a[0], two[0]), (&two[1..], 1, 2));
}

/// The records here that are damaged: one would be whole in version 2, in the other a VM waits for itself.
#[test]
fn clusters_without_a_text() {
    let without: Vec<String> =
        names("cluster").into_iter().filter(|name| !cluster_has_text(name)).collect();
    assert_eq!(without, ["before-same", "launch-version-1"]);
    let mut record = bytes("launch-version-1.cluster");
    assert_eq!(parse_cluster(&record), Err(6));
    record[0] = 2;
    assert_eq!(record, bytes("launch.cluster"));
    let mut record = bytes("before-same.cluster");
    assert_eq!((parse_cluster(&record), &record[record.len() - 3..]), (Err(7), &[5, 0, 0][..]));
    *record.last_mut().unwrap() = 1;
    assert_eq!(record, bytes("before.cluster"));
}

/// The same cluster stands behind several plans.
#[test]
fn clusters_that_are_the_same() {
    let alike = [
        ("a", "a-shutdown"),
        ("launch", "launch-wrong-source"),
        ("launch-waits", "launch-at-once"),
        ("before", "before-both"),
        ("before", "before-pivot"),
        ("before-moves-on", "before-leaves"),
        ("empty-home", "header-home"),
        ("most-moves", "more-moves"),
    ];
    for (one, other) in alike {
        assert_eq!(bytes(&format!("{one}.cluster")), bytes(&format!("{other}.cluster")));
    }
}

/// `idle`, and what little tells others from it: VM 0 is active, or node 1 has not its memory.
#[test]
fn idle_and_its_like() {
    let room = |name: &str| parse_cluster(&bytes(&format!("{name}.cluster"))).unwrap();
    let idle = room("idle");
    assert!(idle.vms[0].is_idle() && idle.vms[1].cpu > idle.nodes[1].cpu);
    let mut other = idle.clone();
    other.vms[0].cpu = 1;
    assert_eq!(other, room("idle-active"));
    let mut other = idle;
    other.nodes[1].memory = other.vms[1].memory - 1;
    assert_eq!(other, room("idle-memory"));
    for name in ["idle-active", "idle-memory"] {
        assert_eq!(bytes(&format!("{name}.plan")), bytes("idle.plan"), "{name}");
    }
}

/// With nobody waiting all of these are planned in one step, and their plans accepted.
#[test]
fn before_and_its_like() {
    let is_one = |name: &String| name.starts_with("before");
    let wait: Vec<String> = names("room").into_iter().filter(is_one).collect();
    assert_eq!(wait.len(), 11);
    for name in wait {
        let mut room = parse_cluster(&bytes(&format!("{name}.cluster"))).unwrap();
        assert!(room.befores().count() > 0, "{name}");
        room.constraints.clear();
        let free = cluster_bytes(&room);
        assert!(plan_text(0, &free).starts_with("plan steps 1 moves "), "{name}");
        if names("plan").contains(&name) {
            let verdict = check(0, &free, &bytes(&format!("{name}.plan")));
            assert!(matches!(verdict, Verdict::Accepted { .. }), "{name}");
        }
    }
    let room = parse_cluster(&bytes("before.cluster")).unwrap();
    let own = parse_plan(&bytes("before.plan")).unwrap();
    let record = plan_bytes(&named(&room, &own.steps));
    assert_eq!(planned(0, &bytes("before.cluster")).1, Some(record), "the planner's own");
}

/// What the examples with sources come to without them: the wrong ones are told by their sources
/// alone.
#[test]
fn the_same_plans_without_sources() {
    let table = [
        ("a-sources", "accepted cost 16\n"),
        ("a-wrong-source", "accepted cost 16\n"),
        ("a-swapped", "accepted cost 5\n"),
        ("a-same", "refused 19 step 0\n"),
        ("a-stays-named", "refused 15 step 1\n"),
        ("launch", "accepted cost 3\n"),
        ("launch-wrong-source", "accepted cost 3\n"),
    ];
    for (name, line) in table {
        let plan = parse_plan(&bytes(&format!("{name}.plan"))).unwrap();
        let without = plan_bytes(&bare(&plan.steps));
        let verdict = check(0, &bytes(&format!("{name}.cluster")), &without);
        assert_eq!(verdict_text(verdict), line, "{name}");
    }
}

/// The planner's record for A, and `a-swapped` as the planner's record for the cluster that it
/// was made for: the same, with VM 0 on node 2.
#[test]
fn the_planner_wrote_the_plans_with_sources() {
    assert_eq!(planned(0, &bytes("a.cluster")).1, Some(bytes("a-sources.plan")));
    let cluster = bytes("a-swapped.cluster");
    assert_eq!(cluster, bytes("five.cluster"));
    let mut other = parse_cluster(&cluster).unwrap();
    other.vms[0].current = 2;
    assert_eq!(planned(0, &cluster_bytes(&other)).1, Some(bytes("a-swapped.plan")));
    let own = planned(0, &cluster).1.unwrap();
    assert_eq!(bare(&parse_plan(&own).unwrap().steps), parse_plan(&bytes("five.plan")).unwrap());
}

#[test]
fn plans_without_a_text() {
    for name in ["empty-home", "a-empty", "empty-overfull"] {
        assert!(bytes(&format!("{name}.plan")).is_empty(), "{name}");
    }
    assert_eq!(bytes("a-cut.plan"), bytes("a.plan")[..6]);
    let without = names("plan").into_iter().filter(|name| !has_text(name));
    assert_eq!(without.collect::<Vec<_>>(), ["a-cut", "a-empty", "empty-home", "empty-overfull"]);
    for name in ["a", "a-empty", "a-cut"] {
        assert_eq!(bytes(&format!("{name}.cluster")), bytes("a.cluster"));
    }
}

#[test]
fn the_planner_prints_what_is_expected() {
    for name in names("expected") {
        let printed = plan_text(0, &bytes(&format!("{name}.cluster")));
        assert_eq!(printed, text(&format!("{name}.expected")), "{name}");
    }
    for (name, reserve, said) in at_reserves("expected") {
        let printed = plan_text(reserve, &bytes(&format!("{name}.cluster")));
        assert_eq!(printed, said, "{name} at {reserve}");
    }
}

#[test]
fn the_checker_says_what_is_expected() {
    for name in names("verdict") {
        let verdict = check(0, &bytes(&format!("{name}.cluster")), &bytes(&format!("{name}.plan")));
        assert_eq!(verdict_text(verdict), text(&format!("{name}.verdict")), "{name}");
    }
    for (name, reserve, said) in at_reserves("verdict") {
        let [cluster, plan] = ["cluster", "plan"].map(|ending| bytes(&format!("{name}.{ending}")));
        assert_eq!(verdict_text(check(reserve, &cluster, &plan)), said, "{name} at {reserve}");
    }
}

#[test]
fn stops_come_out_as_is_expected() {
    let stops = stop_files("stopped");
    assert!(stops.len() >= 16);
    for stop in stops {
        let (said, record) = stop.by_model();
        assert_eq!(said, text(&format!("{}.stopped", stop.file)), "{}", stop.file);
        assert_eq!(record, stop.after(), "{}", stop.file);
    }
}

/// Where VMs are in the records that were written, and nothing else has changed.
#[test]
fn where_stops_leave_the_vms() {
    let table: [(&str, &[usize]); 13] = [
        ("a.stop-1-0", &[0, 1]),
        ("a.stop-1-1", &[2, 1]),
        ("a.stop-2-1", &[2, 0]),
        ("a-sources.stop-2-1", &[2, 0]),
        ("five.stop-1-00", &[0, 1]),
        ("five.stop-1-01", &[0, 0]),
        ("five.stop-1-10", &[1, 1]),
        ("five.stop-1-11", &[1, 0]),
        ("kept-leaves.reserve-10.stop-1-0", &[0, 1]),
        ("launch.stop-1-0", &[NOWHERE, 0]),
        ("launch-waits.stop-2-0", &[NOWHERE, NOWHERE]),
        ("missed-plan.stop-1-0", &[2, 1, 0]),
        ("shutdown.stop-1-1", &[NOWHERE, 0]),
    ];
    let stops = stop_files("after");
    assert_eq!(stops.len(), table.len());
    for stop in stops {
        let (_, places) = table.iter().find(|(file, _)| *file == stop.file).expect(&stop.file);
        let mut room = parse_cluster(&bytes(&format!("{}.cluster", stop.name))).unwrap();
        room.vms.iter_mut().zip(*places).for_each(|(vm, &place)| vm.current = place);
        assert_eq!(Some(cluster_bytes(&room)), stop.after(), "{}", stop.file);
    }
}

/// The planner takes every record that a stop wrote.
#[test]
fn what_a_stop_wrote_is_planned_again() {
    for stop in stop_files("after") {
        let (said, plan) = planned(stop.reserve, &stop.after().unwrap());
        let plan = plan.unwrap_or_else(|| panic!("{}: {said}", stop.file));
        let verdict = check(stop.reserve, &stop.after().unwrap(), &plan);
        let blocked = Verdict::Refused { number: 19, step: 0 };
        assert_eq!(verdict == blocked, said.starts_with("blocked "), "{}", stop.file);
        assert!(verdict == blocked || matches!(verdict, Verdict::Accepted { .. }));
    }
}

#[test]
fn splits_come_out_as_is_expected() {
    let splits = split_files("split");
    assert!(splits.len() >= 20);
    for split in splits {
        let (said, record) = divided(split.reserve, &split.cluster(), &split.plan());
        assert_eq!(said, split.said(), "{}", split.file);
        assert_eq!(record, split.single(), "{}", split.file);
    }
}

/// The version and the moves of the records that were written.
#[test]
fn what_splits_write() {
    const DOWN: usize = NOWHERE;
    let bare = |moves: &[(usize, usize)]| -> Vec<Move> {
        moves.iter().map(|&(vm, to)| Move::bare(vm, to)).collect()
    };
    let named = |moves: &[(usize, usize, usize)]| -> Vec<Move> {
        moves.iter().map(|&(vm, from, to)| Move { vm, from: Some(from), to }).collect()
    };
    let all: Vec<Move> =
        [1, 0].iter().flat_map(|&to| (0..256).map(move |vm| Move::bare(vm, to))).collect();
    let thin = bare(&[(0, 1), (1, 2), (2, 1), (3, 0)]);
    let table = [
        ("a", Version::One, bare(&[(0, 2), (1, 0), (0, 1)])),
        ("a-sources", Version::Two, named(&[(0, 0, 2), (1, 1, 0), (0, 2, 1)])),
        ("before-two", Version::One, bare(&[(0, 1), (1, 2), (2, 2)])),
        ("empty-home", Version::Two, vec![]),
        ("five", Version::One, bare(&[(0, 1), (1, 0)])),
        ("header-home", Version::One, vec![]),
        ("idle-beside", Version::One, bare(&[(0, 1), (1, 1)])),
        ("kept-cpu", Version::One, bare(&[(0, 1), (1, 1), (2, 2)])),
        ("kept-leaves.reserve-10", Version::One, bare(&[(0, 1), (1, 0)])),
        ("launch-shutdown", Version::Two, named(&[(0, DOWN, 1), (1, 1, DOWN), (2, 0, 1)])),
        ("most-moves", Version::One, all),
        ("thin-links", Version::One, thin.clone()),
        ("thin-links.reserve-10", Version::One, thin),
    ];
    let splits = split_files("single");
    assert_eq!(splits.len(), table.len());
    for split in splits {
        let (_, version, moves) = table.iter().find(|(file, ..)| *file == split.file).unwrap();
        let steps = moves.iter().map(|&m| vec![m]).collect();
        let plan = Plan { version: *version, steps };
        assert_eq!(parse_plan(&split.single().unwrap()), Ok(plan), "{}", split.file);
    }
    for single_already in ["a", "a-sources", "header-home"] {
        let [plan, single] = ["plan", "single"].map(|e| bytes(&format!("{single_already}.{e}")));
        assert_eq!(plan, single, "{single_already}");
    }
}

/// The checker accepts every record that a split wrote, at the cost that is said, which is not lower than
/// that of the plan.
#[test]
fn what_a_split_wrote_is_accepted() {
    let mut dearer = 0;
    for split in split_files("single") {
        let verdict = check(split.reserve, &split.cluster(), &split.single().unwrap());
        let (Verdict::Accepted { cost }, Verdict::Accepted { cost: undivided }) =
            (verdict, split.verdict())
        else {
            panic!("{}: {verdict:?}", split.file);
        };
        let steps = parse_plan(&split.single().unwrap()).unwrap().steps.len();
        assert_eq!(split.said(), format!("divided steps {steps} cost {cost}\n"), "{}", split.file);
        assert!(cost >= undivided, "{}", split.file);
        dearer += usize::from(cost > undivided);
    }
    assert!(dearer >= 8, "{dearer}");
}

#[test]
fn every_plan_that_fits_is_drawn() {
    for name in names("plan") {
        let room = parse_cluster(&bytes(&format!("{name}.cluster"))).unwrap();
        let verdict = text(&format!("{name}.verdict"));
        let Ok(plan) = parse_plan(&bytes(&format!("{name}.plan"))) else {
            assert_eq!(verdict, "refused 11 step 0\n", "{name}");
            continue;
        };
        let other = verdict.starts_with("refused 15 ");
        assert_eq!(page(0, &room, &plan, Whose::Model).is_err(), other, "{name}");
    }
    for (name, reserve, verdict) in at_reserves("verdict") {
        let (cluster, plan) = (bytes(&format!("{name}.cluster")), bytes(&format!("{name}.plan")));
        let (Ok(room), Ok(plan)) = (parse_cluster(&cluster), parse_plan(&plan)) else { continue };
        let other = ["refused 15 ", "refused 23 "].iter().any(|line| verdict.starts_with(line));
        let drawn = page(reserve, &room, &plan, Whose::Model);
        assert_eq!(drawn.is_err(), other, "{name} at {reserve}");
    }
}

#[test]
fn the_page_names_every_example_and_its_first_line() {
    let page = text("README.md");
    for name in names("cluster") {
        let row = format!("| `{name}` |");
        let row = page.lines().find(|line| line.starts_with(&row)).expect(&name);
        let expected = text(&format!("{name}.expected"));
        assert!(row.contains(expected.lines().next().unwrap()), "{name}: {expected}");
        if names("verdict").contains(&name) {
            assert!(row.contains(text(&format!("{name}.verdict")).trim_end()), "{name}");
        }
    }
}

/// Each stop has a row of its own, with what is said and what is planned from there.
#[test]
fn the_page_has_every_stop() {
    let page = text("README.md");
    for stop in stop_files("stopped") {
        let StopFile { file, name, reserve, step, marks } = &stop;
        let row = format!("| `{name}` | {reserve} | {step} | `{marks}` |");
        let row = page.lines().find(|line| line.starts_with(&row)).expect(file);
        let said = text(&format!("{file}.stopped"));
        let again = stop.after().map_or(String::new(), |after| plan_text(*reserve, &after));
        let quoted = |text: &str| text.lines().next().map_or(String::new(), |l| format!("`{l}` "));
        let end = format!("| {}| {}|", quoted(&said), quoted(&again));
        assert!(row.ends_with(&end), "{file}: {end}");
    }
    let rows = page.lines().filter(|line| line.contains("| `stopped length ")).count();
    assert_eq!(rows, stop_files("after").len());
}

/// Each split has a row of its own, with what the checker says of the plan and what is said of the split.
#[test]
fn the_page_has_every_split() {
    let page = text("README.md");
    let (_, page) = page.split_once("\nDivided into single moves.").expect("their table");
    for split in split_files("split") {
        let begin = format!("| `{}` | {} |", split.name, split.reserve);
        let (verdict, said) = (verdict_text(split.verdict()), split.said());
        let end = format!("| `{}` | `{}` |", verdict.trim_end(), said.trim_end());
        let is_row = |line: &&str| line.starts_with(&begin) && line.ends_with(&end);
        assert_eq!(page.lines().filter(is_row).count(), 1, "{}: {end}", split.file);
    }
    let rows = page.lines().filter(|line| line.contains("| `divided steps ")).count();
    assert_eq!(rows, split_files("single").len());
}

//! The command itself, run on files.

mod common;

use common::NUMBERS;
use kobdrieft_model::gen::{cases, Case};
use kobdrieft_model::reasons::reason;
use kobdrieft_model::rules::plan_cost;
use kobdrieft_model::{check, parse_cluster, parse_plan, Plan, Room, Verdict};
use std::collections::BTreeSet;
use std::fs;
use std::path::PathBuf;
use std::process::Command;

const A: &str = "node 4 100 x3\nvm 3 50 from 0 to 1\nvm 2 50 from 1 to 0\n";

/// A folder of its own, which goes when the test ends.
struct Folder(PathBuf);

impl Folder {
    fn new(name: &str) -> Folder {
        let path = std::env::temp_dir().join(format!("room-{}-{name}", std::process::id()));
        fs::create_dir_all(&path).unwrap();
        Folder(path)
    }

    fn put(&self, name: &str, bytes: impl AsRef<[u8]>) {
        fs::write(self.0.join(name), bytes).unwrap();
    }

    fn get(&self, name: &str) -> Vec<u8> {
        fs::read(self.0.join(name)).unwrap()
    }

    /// Runs the command here; gives its status and both its outputs. Words in a pair of `'` are one.
    fn room(&self, words: &str) -> (i32, String, String) {
        let parts = words.split('\'').enumerate();
        let words = parts.flat_map(|(i, part)| match i % 2 {
            0 => part.split_whitespace().collect(),
            _ => vec![part],
        });
        let mut command = Command::new(env!("CARGO_BIN_EXE_room"));
        let run = command.args(words).current_dir(&self.0).output().unwrap();
        let text = |bytes| String::from_utf8(bytes).unwrap();
        (run.status.code().unwrap(), text(run.stdout), text(run.stderr))
    }

    /// Runs the command, which must succeed, and gives what it prints.
    fn prints(&self, words: &str) -> String {
        let (status, out, err) = self.room(words);
        assert_eq!((status, err.as_str()), (0, ""), "{words}");
        out
    }

    /// Runs the command, which must fail with this status and one line.
    fn fails(&self, words: &str, status: i32, line: &str) {
        let outcome = (status, String::new(), format!("room: {line}\n"));
        assert_eq!(self.room(words), outcome, "{words}");
    }

    /// Runs the command, which must print this refusal and remark what it means.
    fn refuses(&self, words: &str, number: u8, step: u16) {
        let line = format!("refused {number} step {step}\n");
        let outcome = (2, line, format!("room: {}\n", reason(number)));
        assert_eq!(self.room(words), outcome, "{words}");
    }

    /// Makes the records of cluster A and of a plan for it; gives what `cost` says of them.
    fn cost_of(&self, steps: &str) -> (i32, String, String) {
        self.put("a.txt", A);
        self.put("steps.txt", steps);
        self.prints("pack a.txt a.cluster");
        self.prints("pack-plan steps.txt a.plan");
        self.room("cost a.cluster a.plan")
    }

    /// Makes the records of cluster A and of a plan with both moves in one step.
    fn put_both(&self) {
        self.put("a.txt", A);
        self.put("both.txt", "step 0 to 1, 1 to 0\n");
        self.prints("pack a.txt a.cluster");
        self.prints("pack-plan both.txt both.plan");
    }
}

impl Drop for Folder {
    fn drop(&mut self) {
        let _ = fs::remove_dir_all(&self.0);
    }
}

#[test]
fn from_text_to_a_drawn_plan() {
    let here = Folder::new("whole");
    here.put("a.txt", A);
    assert_eq!(here.prints("pack a.txt a.cluster"), "");
    let planned = "plan steps 3 moves 3 cost 16\n1 0 0 2\n2 1 1 0\n3 0 2 1\n";
    assert_eq!(here.prints("plan a.cluster a.plan"), planned);
    assert_eq!(here.prints("check a.cluster a.plan"), "accepted cost 16\n");
    assert_eq!(here.prints("draw a.cluster a.plan a.html"), "");
    assert!(here.get("a.html").starts_with(b"<!DOCTYPE html>"));
    let steps = "step 0 from 0 to 2\nstep 1 from 1 to 0\nstep 0 from 2 to 1\n";
    assert_eq!(here.prints("unpack-plan a.plan"), steps);
    here.prints("unpack-plan a.plan again.txt");
    here.prints("pack-plan again.txt again.plan");
    assert_eq!(here.get("again.plan"), here.get("a.plan"));
    assert_eq!(here.get("a.plan")[..5], [2, 0, 0, 0, 22]);
    assert_eq!(here.prints("unpack a.cluster again.txt"), "");
    assert_eq!(here.prints("unpack a.cluster").as_bytes(), here.get("again.txt"));
    assert_eq!(here.prints("pack again.txt again.cluster"), "");
    assert_eq!(here.get("again.cluster"), here.get("a.cluster"));
}

#[test]
fn plans_by_hand() {
    let here = Folder::new("hand");
    here.put_both();
    here.refuses("check a.cluster both.plan", 17, 1);
    here.prints("draw a.cluster both.plan both.html");
    here.put("far.txt", "step 0 to 9");
    here.prints("pack-plan far.txt far.plan");
    let why = "far.plan: this plan is not one for this cluster: in step 1, node 9 is not there \
               (this cluster has nodes 0 to 2)";
    here.fails("draw a.cluster far.plan far.html", 2, why);
    assert!(!here.0.join("far.html").exists());
}

/// A's plan in both versions, and with a source that was right before the VM moved on.
#[test]
fn plans_with_and_without_sources() {
    let here = Folder::new("sources");
    here.put("a.txt", A);
    here.prints("pack a.txt a.cluster");
    let texts = [
        ("bare", "step 0 to 2\nstep 1 to 0\nstep 0 to 1\n"),
        ("named", "step 0 from 0 to 2\nstep 1 from 1 to 0\nstep 0 from 2 to 1\n"),
        ("wrong", "step 0 from 0 to 2\nstep 1 from 1 to 0\nstep 0 from 0 to 1\n"),
    ];
    for (name, text) in texts {
        here.put(name, text);
        here.prints(&format!("pack-plan {name} {name}.plan"));
        assert_eq!(here.prints(&format!("unpack-plan {name}.plan")), text);
        here.prints(&format!("draw a.cluster {name}.plan {name}.html"));
    }
    assert_eq!(here.get("bare.plan").len() + 3, here.get("named.plan").len());
    assert_eq!(here.get("bare.html"), here.get("named.html"));
    let costs = ["bare", "named"].map(|name| {
        assert_eq!(here.prints(&format!("check a.cluster {name}.plan")), "accepted cost 16\n");
        here.prints(&format!("cost a.cluster {name}.plan"))
    });
    here.refuses("check a.cluster wrong.plan", 27, 3);
    let (status, table, err) = here.room("cost a.cluster wrong.plan");
    assert_eq!((status, err), (0, remark(27, 3)));
    assert!(costs.iter().all(|cost| *cost == table));
    here.prints("draw a.cluster wrong.plan given.html 'refused 27 step 3'");
    let page = String::from_utf8(here.get("given.html")).unwrap();
    assert!(page.contains("Verdict of the proved checker: <b>refused 27 step 3</b>"));
    let other =
        "the verdicts differ: 'accepted cost 16' is given, the model says 'refused 27 step \
                 3'; nothing is drawn";
    here.fails("draw a.cluster wrong.plan x.html 'accepted cost 16'", 3, other);

    here.put("mixed", "step 0 from 0 to 2\nstep 1 to 0\n");
    let why = "mixed:2: VM 1 names no source, but line 1 names a source; a plan does not mix";
    here.fails("pack-plan mixed x", 3, why);
    here.put("said", "\nversion 1\nstep 0 from 0 to 2\n");
    let why = "said:2: version 1 is said, but VM 0 names its source in line 3";
    here.fails("pack-plan said x", 3, why);
    assert!(!here.0.join("x").exists());
}

/// A VM is shut down and another launched in its place, from text to a page.
#[test]
fn launches_and_shutdowns() {
    let here = Folder::new("nowhere");
    let text = "node 4 100\nvm 3 50 from 0 to nowhere\nvm 2 50 from nowhere to 0\n";
    here.put("turn.txt", text);
    here.prints("pack turn.txt turn.cluster");
    assert_eq!(here.get("turn.cluster")[0], 2);
    let rows = here.prints("unpack turn.cluster");
    let rows: Vec<&str> = rows.lines().skip(1).map(|row| row.split(" #").next().unwrap()).collect();
    let rows: Vec<&str> = rows.into_iter().map(str::trim_end).collect();
    assert_eq!(rows, text.lines().collect::<Vec<_>>());
    let planned = "plan steps 2 moves 2 cost 2\n1 0 0 255\n2 1 255 0\n";
    assert_eq!(here.prints("plan turn.cluster turn.plan"), planned);
    let steps = "step 0 from 0 to nowhere\nstep 1 from nowhere to 0\n";
    assert_eq!(here.prints("unpack-plan turn.plan"), steps);
    assert_eq!(here.prints("check turn.cluster turn.plan"), "accepted cost 2\n");
    let table = here.prints("cost turn.cluster turn.plan");
    assert_eq!(cells(&table), [HEADING, "1 1 0 0 0 0", "2 1 2 0 2 2", "cost 2"]);
    here.prints("draw turn.cluster turn.plan turn.html 'accepted cost 2'");

    here.put("both.txt", "step 0 to nowhere, 1 to 0\n");
    here.prints("pack-plan both.txt both.plan");
    here.refuses("check turn.cluster both.plan", 17, 1);
    here.prints("draw turn.cluster both.plan both.html");
    here.put("wrong.txt", "step 1 to nowhere\n");
    here.prints("pack-plan wrong.txt wrong.plan");
    here.refuses("check turn.cluster wrong.plan", 15, 1);
    let why = "wrong.plan: this plan is not one for this cluster: in step 1, VM 1 is to be shut \
               down, but its target is node 0";
    here.fails("draw turn.cluster wrong.plan wrong.html", 2, why);

    let mut record = here.get("turn.cluster");
    record[0] = 1;
    here.put("one.cluster", &record);
    here.refuses("plan one.cluster x.plan", 6, 0);
    let why = format!("one.cluster: refused with number 6: {}", reason(6));
    here.fails("unpack one.cluster", 2, &why);
    here.put("said.txt", format!("# a turn\nversion 1\n{text}"));
    let why = "said.txt:2: version 1 is said, but line 4 has 'nowhere', of version 2";
    here.fails("pack said.txt x", 3, why);
    here.put("number.txt", text.replace("nowhere", "255"));
    let why = "number.txt:2: node 255 is not there (this cluster has only node 0); on no node is \
               'nowhere'";
    here.fails("pack number.txt x", 3, why);
    assert!(!here.0.join("x").exists());
}

/// The version is told by a line where nobody is on no node.
#[test]
fn clusters_of_version_2_without_nowhere() {
    let here = Folder::new("version");
    here.put("a.txt", A);
    here.put("two.txt", format!("version 2\n{A}"));
    for name in ["a", "two"] {
        here.prints(&format!("pack {name}.txt {name}.cluster"));
        here.prints(&format!("unpack {name}.cluster again.txt"));
        here.prints("pack again.txt again.cluster");
        assert_eq!(here.get("again.cluster"), here.get(&format!("{name}.cluster")));
    }
    let (one, two) = (here.get("a.cluster"), here.get("two.cluster"));
    assert_eq!((one[0], two[0], &one[1..]), (1, 2, &two[1..]));
    let planned = here.prints("plan a.cluster a.plan");
    assert_eq!(here.prints("plan two.cluster two.plan"), planned);
    assert_eq!(here.get("two.plan"), here.get("a.plan"));
}

/// A shutdown has memory 0 and its step counts with 0; it pays for the step before it.
#[test]
fn what_a_shutdown_costs() {
    let here = Folder::new("shutdown-cost");
    let rows = ["vm 3 10 from 0 to 1", "vm 5 10 from 0 to nowhere", "vm 2 10 from 0 to 1"];
    here.put("a.txt", format!("node 10 100 x2\n{}\n", rows.join("\n")));
    here.put("steps.txt", "step 0 to 1\nstep 1 to nowhere\nstep 2 to 1\n");
    here.prints("pack a.txt a.cluster");
    here.prints("pack-plan steps.txt a.plan");
    let table = here.prints("cost a.cluster a.plan");
    let lines = [HEADING, "1 1 3 0 3 3", "2 1 0 3 3 6", "3 1 2 3 5 11", "cost 11"];
    assert_eq!(cells(&table), lines);
    assert_eq!(here.prints("check a.cluster a.plan"), "accepted cost 11\n");
    here.put("steps.txt", "step 0 to 1, 1 to nowhere\nstep 2 to 1\n");
    here.prints("pack-plan steps.txt a.plan");
    let table = here.prints("cost a.cluster a.plan");
    assert_eq!(cells(&table), [HEADING, "1 2 3 0 3 3", "2 1 2 3 5 8", "cost 8"]);
}

#[test]
fn whose_verdict_a_page_shows() {
    let here = Folder::new("whose");
    here.put_both();
    let shown = |words: &str| {
        here.prints(&format!("draw a.cluster both.plan page.html{words}"));
        String::from_utf8(here.get("page.html")).unwrap()
    };
    let line = "<b>refused 17 step 1</b>";
    let own = format!("Verdict of the Rust model, not of the proved checker: {line}");
    assert!(shown("").contains(&own));
    assert!(
        shown(" 'refused 17 step 1'").contains(&format!("Verdict of the proved checker: {line}"))
    );
    for other in ["accepted cost 5", "refused 17 step 2", "both"] {
        let why = format!(
            "the verdicts differ: '{other}' is given, the model says 'refused 17 step 1'; \
             nothing is drawn"
        );
        here.fails(&format!("draw a.cluster both.plan other.html '{other}'"), 3, &why);
        assert!(!here.0.join("other.html").exists());
    }
}

#[test]
fn a_cluster_that_gets_no_plan() {
    let here = Folder::new("refused");
    here.put("bad.txt", "node 1 1\nnode 9 9\nvm 3 1 from 1 to 0\n");
    here.prints("pack bad.txt bad.cluster");
    here.refuses("plan bad.cluster bad.plan", 8, 0);
    assert!(!here.0.join("bad.plan").exists());
    here.put("stuck.txt", "node 4 100 x2\nvm 3 50 from 0 to 1\nvm 2 50 from 1 to 0\n");
    here.prints("pack stuck.txt stuck.cluster");
    let blocked = (1, "blocked steps 0 moves 0 cost 0\n".into(), String::new());
    assert_eq!(here.room("plan stuck.cluster stuck.plan"), blocked);
    here.refuses("check stuck.cluster stuck.plan", 19, 0);
    here.prints("draw stuck.cluster stuck.plan stuck.html");
}

const HEADING: &str = "step moves most before sum total";

/// The lines of a table, each as its words with one space between.
fn cells(table: &str) -> Vec<String> {
    let words = |line: &str| line.split_whitespace().collect::<Vec<&str>>().join(" ");
    table.lines().map(words).collect()
}

/// What `cost` says beside the table of a plan that is refused.
fn remark(number: u8, step: u16) -> String {
    let why = reason(number);
    format!("room: the checker would refuse this plan (refused {number} step {step}): {why}\n")
}

#[test]
fn how_the_cost_of_a_builds_up() {
    let here = Folder::new("cost");
    let table = [
        "step  moves  most  before  sum  total\n",
        "   1      1     3       0    3      3\n",
        "   2      1     2       3    5      8\n",
        "   3      1     3       5    8     16\n",
        "cost                               16\n",
    ];
    let steps = "step 0 to 2\nstep 1 to 0\nstep 0 to 1\n";
    assert_eq!(here.cost_of(steps), (0, table.concat(), String::new()));
}

#[test]
fn the_cost_of_refused_plans() {
    let here = Folder::new("cost-refused");
    let holds = |steps: &str, rows: &[&str], number, step| {
        let (status, table, err) = here.cost_of(steps);
        assert_eq!((status, err), (0, remark(number, step)), "{steps}");
        assert_eq!(cells(&table), [&[HEADING], rows].concat());
    };
    holds("", &["cost 0"], 19, 0);
    holds("step 0 to 1, 1 to 0", &["1 2 3 0 5 5", "cost 5"], 17, 1);
    let twice = "step 0 to 2\nstep 0 to 1, 1 to 0\n";
    holds(twice, &["1 1 3 0 3 3", "2 2 3 3 11 14", "cost 14"], 17, 2);
    holds("step 1 to 9", &["1 1 2 0 2 2", "cost 2"], 15, 1);
    holds("step 1 from 0 to 2", &["1 1 2 0 2 2", "cost 2"], 27, 1);
    holds("step 1 from 0 to 1", &["1 1 2 0 2 2", "cost 2"], 15, 1);
}

#[test]
fn what_has_no_cost() {
    let here = Folder::new("cost-none");
    let why = format!(
        "room: a.plan: refused with number 15: {} In step 2, VM 2 is not there (this cluster has \
         VMs 0 to 1).\n",
        reason(15)
    );
    for steps in [
        "step 0 to 2\nstep 1 to 0, 2 to 1\n",
        "step 0 from 9 to 2\nstep 1 from 1 to 0, 2 from 0 to 1\n",
    ] {
        assert_eq!(here.cost_of(steps), (2, String::new(), why.clone()));
    }
    here.put("short", [1, 0, 0]);
    for (files, number) in [("short a.plan", 1), ("a.cluster short", 11), ("short short", 1)] {
        let why = format!("short: refused with number {number}: {}", reason(number));
        here.fails(&format!("cost {files}"), 2, &why);
    }
}

/// The cluster and the plan, if both records are whole and every VM of the plan is there.
fn whole(cluster: &[u8], plan: &[u8]) -> Option<(Room, Plan)> {
    let (room, plan) = (parse_cluster(cluster).ok()?, parse_plan(plan).ok()?);
    let all_there = plan.steps.iter().flatten().all(|m| m.vm < room.vms.len());
    all_there.then_some((room, plan))
}

#[test]
fn the_last_word_is_the_cost() {
    let here = Folder::new("cost-cases");
    let mut seen = [0; NUMBERS];
    for Case { cluster, plan, .. } in cases(4, 800) {
        here.put("cluster", &cluster);
        here.put("plan", &plan);
        let (status, table, err) = here.room("cost cluster plan");
        let Some((room, Plan { steps, .. })) = whole(&cluster, &plan) else {
            assert!(status == 2 && table.is_empty(), "{table}");
            assert!(err.contains(": refused with number "), "{err}");
            continue;
        };
        let (number, said) = match check(0, &cluster, &plan) {
            Verdict::Accepted { .. } => (0, String::new()),
            Verdict::Refused { number, step } => (number, remark(number, step)),
        };
        assert_eq!((status, err), (0, said));
        seen[usize::from(number)] += 1;

        let cost = plan_cost(&room, &steps);
        let rows = cells(&table);
        assert_eq!(rows.len(), steps.len() + 2);
        assert_eq!(rows[steps.len() + 1], format!("cost {cost}"));
        assert!(steps.is_empty() || rows[steps.len()].ends_with(&format!(" {cost}")), "{table}");
        let widths: BTreeSet<usize> = table.lines().map(str::len).collect();
        assert_eq!(widths.len(), 1, "{table}");
    }
    for number in [0, 8, 9, 15, 16, 17, 18, 19, 27, 33] {
        assert!(seen[number] > 0, "{number}: {seen:?}");
    }
}

/// A file of 0 bytes is a plan of no steps, and everything said of it is what is said of a header;
/// its text is that of the header of version 1.
#[test]
fn a_plan_file_of_no_bytes() {
    let here = Folder::new("empty");
    let home = "node 4 100 x2\nvm 3 50 from 0 to 0\nvm 2 50 from 1 to 1\n";
    let full = "node 4 100 x2\nvm 3 50 from 0 to 1\nvm 2 50 from 1 to 1\n";
    for (name, text) in [("home", home), ("a", A), ("full", full)] {
        here.put(name, text);
        here.prints(&format!("pack {name} {name}.cluster"));
    }
    here.put("none", "");
    for (text, header, number) in
        [("# nothing to do\n", "header-1", 1), ("version 2\n# nothing to do\n", "header-2", 2)]
    {
        here.put("none.txt", text);
        assert_eq!(here.prints(&format!("pack-plan none.txt {header}")), "");
        assert_eq!(here.get(header), [number, 0, 0, 0, 7, 0, 0]);
    }
    assert_eq!(here.prints("plan home.cluster planned"), "plan steps 0 moves 0 cost 0\n");
    assert_eq!(here.get("planned"), here.get("header-2"));

    let no_steps = [
        ("none", "# no steps\n", "header-1"),
        ("header-1", "# no steps\n", "header-1"),
        ("header-2", "version 2\n# no steps\n", "header-2"),
    ];
    for (plan, text, header) in no_steps {
        assert_eq!(here.prints(&format!("check home.cluster {plan}")), "accepted cost 0\n");
        here.refuses(&format!("check a.cluster {plan}"), 19, 0);
        here.refuses(&format!("check full.cluster {plan}"), 8, 0);
        let costs = [("home", String::new()), ("a", remark(19, 0)), ("full", remark(8, 0))];
        for (cluster, said) in costs {
            let (status, table, err) = here.room(&format!("cost {cluster}.cluster {plan}"));
            assert_eq!((status, err), (0, said), "{cluster} {plan}");
            assert_eq!(cells(&table), [HEADING, "cost 0"]);
            here.prints(&format!("draw {cluster}.cluster {plan} {cluster}-{plan}.html"));
        }
        assert_eq!(here.prints(&format!("unpack-plan {plan}")), text);
        here.prints(&format!("unpack-plan {plan} again.txt"));
        here.prints("pack-plan again.txt again");
        assert_eq!(here.get("again"), here.get(header));
    }
    let shows = |page: &str, line: &str| {
        let page = String::from_utf8(here.get(page)).unwrap();
        assert!(page.contains(&format!("<b>{line}</b>")), "{line}");
    };
    for (cluster, line) in
        [("home", "accepted cost 0"), ("a", "refused 19 step 0"), ("full", "refused 8 step 0")]
    {
        let pages = no_steps.map(|(plan, ..)| format!("{cluster}-{plan}.html"));
        shows(&pages[0], line);
        assert!(pages.iter().all(|page| here.get(page) == here.get(&pages[0])));
        here.prints(&format!("draw {cluster}.cluster none given.html '{line}'"));
        shows("given.html", line);
        let why = format!(
            "the verdicts differ: 'refused 11 step 0' is given, the model says '{line}'; \
             nothing is drawn"
        );
        here.fails(&format!("draw {cluster}.cluster none x.html 'refused 11 step 0'"), 3, &why);
    }
}

/// A file that is not there, or cannot be read, is never taken for one of 0 bytes.
#[test]
fn a_plan_file_that_cannot_be_read() {
    let here = Folder::new("unread");
    here.put("home", "node 1 1\nvm 1 1 from 0 to 0\n");
    here.prints("pack home home.cluster");
    fs::create_dir(here.0.join("folder")).unwrap();
    for plan in ["missing", "folder"] {
        for words in ["unpack-plan PLAN", "check home.cluster PLAN", "cost home.cluster PLAN"] {
            let (status, out, err) = here.room(&words.replace("PLAN", plan));
            let begin = format!("room: {plan}: cannot be read (");
            assert!(status == 3 && out.is_empty() && err.starts_with(&begin), "{words}: {err}");
        }
        let (status, _, err) = here.room(&format!("draw home.cluster {plan} x.html"));
        assert!(status == 3 && err.contains("cannot be read ("), "{err}");
        assert!(!here.0.join("x.html").exists());
    }
    here.put("none", "");
    let why = format!("none: refused with number 1: {}", reason(1));
    for words in ["unpack none", "cost none none", "draw none none x.html"] {
        here.fails(words, 2, &why);
    }
    here.refuses("check none none", 1, 0);
    for length in 1..7 {
        here.put("cut", &[1, 0, 0, 0, 7, 0][..length]);
        here.refuses("check home.cluster cut", 11, 0);
        let why = format!("cut: refused with number 11: {}", reason(11));
        here.fails("unpack-plan cut", 2, &why);
        here.fails("cost home.cluster cut", 2, &why);
        here.fails("draw home.cluster cut x.html", 2, &why);
    }
}

/// A with memory 5: with no reserve both go at once, at 20 percent one steps aside, and from 41 percent
/// on, with memory 2 of 5 left, the target does not fit.
#[test]
fn reserves() {
    let here = Folder::new("reserve");
    here.put("five.txt", A.replace("node 4", "node 5"));
    here.put("both.txt", "step 0 to 1, 1 to 0\n");
    here.prints("pack five.txt five");
    here.prints("pack-plan both.txt both");
    let both = "plan steps 1 moves 2 cost 5\n1 0 0 1\n1 1 1 0\n";
    let aside = "plan steps 3 moves 3 cost 16\n1 0 0 2\n2 1 1 0\n3 0 2 1\n";
    assert_eq!(here.prints("plan five plan-0"), both);
    assert_eq!(here.prints("plan --reserve 0 five plan-00"), both);
    assert_eq!(here.get("plan-0"), here.get("plan-00"));
    assert_eq!(here.prints("plan --reserve 20 five plan-20"), aside);
    assert_eq!(here.prints("check --reserve 0 five both"), "accepted cost 5\n");
    assert_eq!(here.prints("check --reserve 20 five plan-20"), "accepted cost 16\n");
    assert_eq!(here.prints("check --reserve 040 five plan-20"), "accepted cost 16\n");
    here.refuses("check --reserve 20 five both", 17, 1);
    here.refuses("check --reserve 41 five plan-20", 8, 0);
    here.refuses("plan --reserve 90 five x", 8, 0);

    here.prints("draw five both plain.html");
    here.prints("draw --reserve 0 five both zero.html");
    assert_eq!(here.get("plain.html"), here.get("zero.html"));
    here.prints("draw --reserve 20 five both page.html 'refused 17 step 1'");
    let page = String::from_utf8(here.get("page.html")).unwrap();
    for words in ["reserve 20 percent</h1>", "Verdict of the proved checker: <b>refused 17 step 1"]
    {
        assert!(page.contains(words), "{words}");
    }
    let differ =
        "the verdicts differ: 'accepted cost 5' is given, the model says 'refused 17 step \
                  1'; nothing is drawn";
    here.fails("draw --reserve 20 five both x 'accepted cost 5'", 3, differ);
    let (status, table, err) = here.room("cost five both");
    assert_eq!((status, err.as_str()), (0, ""));
    assert!(table.ends_with(" 5\n"));
    assert!(!here.0.join("x").exists());
}

/// 23 for every number above 90, however long, before all that is wrong with the files; nothing is
/// written.
#[test]
fn reserves_that_are_too_high() {
    let here = Folder::new("too-high");
    here.put_both();
    here.put("short", [1, 0, 0]);
    here.put("none", "");
    let long = "9".repeat(60);
    for reserve in ["91", "0091", "256", "18446744073709551615", "18446744073709551616", &long] {
        for files in ["a.cluster both.plan", "short short", "none none"] {
            here.refuses(&format!("check --reserve {reserve} {files}"), 23, 0);
            let why = format!("--reserve: refused with number 23: {}", reason(23));
            here.fails(&format!("draw --reserve {reserve} {files} x"), 2, &why);
        }
        for cluster in ["a.cluster", "short", "none"] {
            here.refuses(&format!("plan --reserve {reserve} {cluster} x"), 23, 0);
        }
    }
    for (words, number) in [("check --reserve 90 short short", 1), ("plan --reserve 90 short x", 1)]
    {
        here.refuses(words, number, 0);
    }
    assert!(!here.0.join("x").exists());
}

/// A reserve is decimal digits, straight behind a command that looks at one.
#[test]
fn reserves_that_are_not_understood() {
    let here = Folder::new("reserve-words");
    here.put_both();
    for digits in ["''", "+1", "-1", "1.5", "ten", "10%", "0x10", "' 1'", "a.cluster"] {
        for command in ["plan", "check", "stop", "split", "draw"] {
            let files = "a.cluster both.plan x";
            let words = digits.trim_matches('\'');
            let why = format!("'{words}' stands where a reserve should, a number in digits");
            here.fails(&format!("{command} --reserve {digits} {files}"), 3, &why);
        }
    }
    for words in [
        "plan --reserve 10",
        "plan --reserve",
        "plan a.cluster --reserve 10 x",
        "plan a.cluster x --reserve 10",
        "check --reserve=10 a.cluster both.plan",
        "check --reserve 10 --reserve 10 a.cluster both.plan",
        "check -r 10 a.cluster both.plan",
        "--reserve 10 check a.cluster both.plan",
        "cost --reserve 10 a.cluster both.plan",
        "unpack --reserve 10 a.cluster",
        "pack --reserve 10 a.txt x",
    ] {
        let (status, out, err) = here.room(words);
        assert!(status == 3 && out.is_empty(), "{words}: {err}");
        assert!(err.contains("room pack TEXT CLUSTER"), "{words}: {err}");
    }
    assert!(!here.0.join("x").exists());
}

/// A's plan stopped in each step, with the records that come of it planned again.
#[test]
fn stops() {
    let here = Folder::new("stop");
    here.put("a.txt", A);
    here.prints("pack a.txt a");
    here.prints("plan a plan");
    let stopped = [
        ("1 0", "from 0 to 1", "from 1 to 0", "plan steps 3 moves 3 cost 16\n"),
        ("1 1", "from 2 to 1", "from 1 to 0", "plan steps 2 moves 2 cost 7\n"),
        ("2 0", "from 2 to 1", "from 1 to 0", "plan steps 2 moves 2 cost 7\n"),
        ("002 1", "from 2 to 1", "from 0 to 0", "plan steps 1 moves 1 cost 3\n"),
        ("3 1", "from 1 to 1", "from 0 to 0", "plan steps 0 moves 0 cost 0\n"),
    ];
    for (words, first, second, planned) in stopped {
        here.put("out", "what was there before, longer than the record that is written");
        assert_eq!(here.prints(&format!("stop a plan {words} out")), "stopped length 40\n");
        let text = here.prints("unpack out");
        assert!(text.contains(&format!("vm 3 50 {first}")), "{text}");
        assert!(text.contains(&format!("vm 2 50 {second}")), "{text}");
        assert!(here.prints("plan out again").starts_with(planned), "{words}");
        assert_eq!(here.get("out").len(), 40);
        here.prints(&format!("stop --reserve 0 a plan {words} same"));
        assert_eq!(here.get("same"), here.get("out"));
        here.prints(&format!("stop --reserve 25 a plan {words} same"));
        assert_eq!(here.get("same"), here.get("out"));
    }
    here.prints("stop a plan 1 0 same");
    assert_eq!(here.get("same"), here.get("a"));
    here.put("five.txt", A.replace("node 4", "node 5"));
    here.put("both.txt", "step 0 to 1, 1 to 0\n");
    here.prints("pack five.txt five");
    here.prints("pack-plan both.txt both");
    let (back, there) = ("vm 2 50 from 1 to 0", "vm 3 50 from 1 to 1");
    here.prints("stop five both 1 10 out");
    let text = here.prints("unpack out");
    assert!(text.contains(back) && text.contains(there), "{text}");
}

/// Nothing is written, and a file that is there stays, with every refusal of a stop.
#[test]
fn stops_that_are_refused() {
    let here = Folder::new("no-stop");
    here.put_both();
    here.prints("plan a.cluster plan");
    here.put("none", "");
    here.put("home.txt", "node 4 100 x2\nvm 3 50 from 0 to 0\n");
    here.prints("pack home.txt home");
    here.put("out", "kept");
    let long = "1".repeat(40);
    for step in
        ["0", "4", "65537", "4294967297", "18446744073709551615", "18446744073709551617", &long]
    {
        here.refuses(&format!("stop a.cluster plan {step} 1 out"), 20, 0);
    }
    for (words, number, step) in [
        ("a.cluster plan 1 '' out", 20, 0),
        ("a.cluster plan 1 11 out", 20, 0),
        ("a.cluster plan 1 22 out", 20, 0),
        ("a.cluster plan 4 2 out", 20, 0),
        ("home none 1 '' out", 20, 0),
        ("home none 0 '' out", 20, 0),
        ("home none 1 1 out", 20, 0),
        ("a.cluster plan 1 2 out", 21, 0),
        ("a.cluster plan 1 9 out", 21, 0),
        ("a.cluster both.plan 1 11 out", 17, 1),
        ("a.cluster both.plan 0 9 out", 17, 1),
        ("a.cluster none 1 '' out", 19, 0),
        ("none plan 1 1 out", 1, 0),
        ("a.cluster a.cluster 1 1 out", 14, 0),
        ("--reserve 26 a.cluster plan 1 1 out", 8, 0),
        ("--reserve 91 a.cluster plan 9 7 out", 23, 0),
        ("--reserve 18446744073709551616 none none 0 '' out", 23, 0),
    ] {
        here.refuses(&format!("stop {words}"), number, step);
        let words = words.strip_suffix("out").unwrap();
        here.refuses(&format!("stop {words} x"), number, step);
    }
    assert_eq!(here.get("out"), b"kept");
    assert!(!here.0.join("x").exists());
}

/// Words that are no step, no marks or no files, and a record that would go over one that is read.
#[test]
fn stops_that_are_not_understood() {
    let here = Folder::new("stop-words");
    here.put_both();
    here.prints("plan a.cluster plan");
    for word in ["''", "+1", "-1", "1.0", "one", "0x1", "' 1'", "1,"] {
        let bare = word.trim_matches('\'');
        let why = format!("'{bare}' stands where a step should, a number in digits");
        here.fails(&format!("stop a.cluster plan {word} 1 x"), 3, &why);
        if bare.is_empty() {
            continue;
        }
        let why = format!("'{bare}' stands where marks should, a digit for each move");
        here.fails(&format!("stop a.cluster plan 1 {word} x"), 3, &why);
        here.fails(&format!("stop missing plan 1 {word} x"), 3, &why);
    }
    for files in ["missing plan", "a.cluster missing", "missing missing", ". plan", "a.cluster ."] {
        let (status, out, err) = here.room(&format!("stop {files} 1 1 x"));
        assert!(status == 3 && out.is_empty() && err.contains("cannot be read ("), "{err}");
    }
    let before = [here.get("a.cluster"), here.get("plan")];
    std::os::unix::fs::symlink("a.cluster", here.0.join("link")).unwrap();
    fs::hard_link(here.0.join("plan"), here.0.join("hard")).unwrap();
    for (out, file) in [
        ("a.cluster", "a.cluster"),
        ("./a.cluster", "a.cluster"),
        ("link", "a.cluster"),
        ("plan", "plan"),
        ("hard", "plan"),
    ] {
        let why = format!("the record would be written over {file}");
        here.fails(&format!("stop a.cluster plan 1 1 {out}"), 3, &why);
        here.fails(&format!("stop a.cluster plan 9 1 {out}"), 3, &why);
    }
    assert_eq!([here.get("a.cluster"), here.get("plan")], before);
    let (status, out, err) = here.room("stop a.cluster plan 1 1 no/such/folder");
    assert!(status == 3 && out.is_empty() && err.contains("cannot be written"), "{err}");
    for words in [
        "stop a.cluster plan 1 1",
        "stop a.cluster plan 1 1 x y",
        "stop a.cluster plan --reserve 10 1 1 x",
        "stop a.cluster plan 1 1 x 10",
        "stop --reserve 10",
    ] {
        let (status, out, err) = here.room(words);
        assert!(status == 3 && out.is_empty(), "{words}: {err}");
        assert!(err.contains("room pack TEXT CLUSTER"), "{words}: {err}");
    }
    assert!(!here.0.join("x").exists());
}

/// Both moves of A with memory 5 as a step each, in either version, and A's own plan, which is so already.
#[test]
fn splits() {
    let here = Folder::new("split");
    here.put("a.txt", A);
    here.put("five.txt", A.replace("node 4", "node 5"));
    here.put("both-1.txt", "step 0 to 1, 1 to 0\n");
    here.put("both-2.txt", "step 0 from 0 to 1, 1 from 1 to 0\n");
    here.prints("pack a.txt a");
    here.prints("pack five.txt five");
    let singles = ["step 0 to 1\nstep 1 to 0\n", "step 0 from 0 to 1\nstep 1 from 1 to 0\n"];
    for (version, singles) in ["1", "2"].iter().zip(singles) {
        here.prints(&format!("pack-plan both-{version}.txt both"));
        assert_eq!(here.prints("check five both"), "accepted cost 5\n");
        here.put("out", "what was there before, longer than the record that is written");
        for words in ["five both out", "--reserve 0 five both out", "--reserve 0000 five both out"]
        {
            assert_eq!(here.prints(&format!("split {words}")), "divided steps 2 cost 8\n");
            assert_eq!(here.prints("unpack-plan out"), singles);
        }
        assert_eq!(here.prints("check five out"), "accepted cost 8\n");
        assert_eq!(here.prints("split five out again"), "divided steps 2 cost 8\n");
        assert_eq!(here.get("again"), here.get("out"));
    }
    here.prints("plan a plan");
    for words in ["a plan same", "--reserve 25 a plan same"] {
        assert_eq!(here.prints(&format!("split {words}")), "divided steps 3 cost 16\n");
        assert_eq!(here.get("same"), here.get("plan"));
    }
    here.put("home.txt", "node 4 100\nvm 3 50 from 0 to 0\n");
    here.prints("pack home.txt home");
    here.put("none", "");
    here.put("header-1", [1, 0, 0, 0, 7, 0, 0]);
    here.put("header-2", [2, 0, 0, 0, 7, 0, 0]);
    for (plan, becomes) in
        [("none", "header-2"), ("header-1", "header-1"), ("header-2", "header-2")]
    {
        assert_eq!(here.prints(&format!("split home {plan} out")), "divided steps 0 cost 0\n");
        assert_eq!(here.get("out"), here.get(becomes), "{plan}");
    }
}

/// Nothing is written, and a file that is there stays, with every refusal of a split.
#[test]
fn splits_that_are_refused() {
    let here = Folder::new("no-split");
    here.put_both();
    here.prints("plan a.cluster plan");
    here.put("none", "");
    here.put("wide.txt", "node 600 600 x2\nvm 1 1 from 0 to 0 x256\n");
    here.prints("pack wide.txt wide");
    let all = |to: usize| {
        let moves: Vec<String> = (0..256).map(|vm| format!("{vm} to {to}")).collect();
        format!("step {}\n", moves.join(", "))
    };
    let there_and_back = all(1) + &all(0);
    here.put("many.txt", &there_and_back);
    here.prints("pack-plan many.txt many");
    assert_eq!(here.prints("split wide many out"), "divided steps 512 cost 131328\n");
    assert_eq!(here.get("out").len(), 2_055);
    here.put("more.txt", there_and_back + "step 0 to 1\nstep 0 to 0\n");
    here.prints("pack-plan more.txt more");
    assert_eq!(here.prints("check wide more"), "accepted cost 775\n");
    here.put("out", "kept");
    for (words, number, step) in [
        ("wide more out", 14, 0),
        ("a.cluster both.plan out", 17, 1),
        ("a.cluster none out", 19, 0),
        ("none plan out", 1, 0),
        ("a.cluster a.cluster out", 14, 0),
        ("--reserve 26 a.cluster plan out", 8, 0),
        ("--reserve 91 wide more out", 23, 0),
        ("--reserve 18446744073709551616 none none out", 23, 0),
    ] {
        here.refuses(&format!("split {words}"), number, step);
        let words = words.strip_suffix("out").unwrap();
        here.refuses(&format!("split {words} x"), number, step);
    }
    assert_eq!(here.get("out"), b"kept");
    assert!(!here.0.join("x").exists());
}

/// Files that are not there, a record that would go over one that is read, and other words.
#[test]
fn splits_that_are_not_understood() {
    let here = Folder::new("split-words");
    here.put_both();
    here.prints("plan a.cluster plan");
    for files in ["missing plan", "a.cluster missing", "missing missing", ". plan", "a.cluster ."] {
        let (status, out, err) = here.room(&format!("split {files} x"));
        assert!(status == 3 && out.is_empty() && err.contains("cannot be read ("), "{err}");
    }
    let before = [here.get("a.cluster"), here.get("plan")];
    std::os::unix::fs::symlink("plan", here.0.join("link")).unwrap();
    fs::hard_link(here.0.join("a.cluster"), here.0.join("hard")).unwrap();
    for (out, file) in [
        ("a.cluster", "a.cluster"),
        ("hard", "a.cluster"),
        ("plan", "plan"),
        ("./plan", "plan"),
        ("link", "plan"),
    ] {
        let why = format!("the record would be written over {file}");
        here.fails(&format!("split a.cluster plan {out}"), 3, &why);
        here.fails(&format!("split --reserve 91 a.cluster plan {out}"), 3, &why);
    }
    assert_eq!([here.get("a.cluster"), here.get("plan")], before);
    let (status, out, err) = here.room("split a.cluster plan no/such/folder");
    assert!(status == 3 && out.is_empty() && err.contains("cannot be written"), "{err}");
    for words in [
        "split a.cluster plan",
        "split a.cluster plan x y",
        "split a.cluster plan --reserve 10 x",
        "split a.cluster plan x 10",
        "split --reserve 10",
        "divide a.cluster plan x",
    ] {
        let (status, out, err) = here.room(words);
        assert!(status == 3 && out.is_empty(), "{words}: {err}");
        assert!(err.contains("room pack TEXT CLUSTER"), "{words}: {err}");
    }
    assert!(!here.0.join("x").exists());
}

#[test]
fn what_it_cannot_do() {
    let here = Folder::new("cannot");
    here.put("plant.txt", format!("# plant\n\n{A}\nvm 1 1 from 0 to 9\n"));
    let why = "plant.txt:7: node 9 is not there (this cluster has nodes 0 to 2)";
    here.fails("pack plant.txt plant.cluster", 3, why);
    assert!(!here.0.join("plant.cluster").exists());
    here.put("plan.txt", "\nstep 0 1");
    here.fails("pack-plan plan.txt x", 3, "plan.txt:2: '1' stands where 'to' should");
    here.put("short", [1, 0, 0]);
    for (command, number) in [("unpack", 1), ("unpack-plan", 11), ("draw short short x", 1)] {
        let why = format!("short: refused with number {number}: {}", reason(number));
        here.fails(&format!("{command} short"), 2, &why);
    }
    for words in ["unpack missing", "plan missing x", "check missing x", "cost missing x"] {
        let (status, _, err) = here.room(words);
        assert!(status == 3 && err.starts_with("room: missing: cannot be read ("), "{err}");
    }
    here.put("a.txt", A);
    let (status, _, err) = here.room("pack a.txt no/such/folder");
    assert!(status == 3 && err.contains("cannot be written"), "{err}");
    for words in ["", "pack a.txt", "unpack a b c", "paint a b", "cost a", "draw a b c d e"] {
        let (status, _, err) = here.room(words);
        assert!(status == 3 && err.contains("room pack TEXT CLUSTER"), "{words}: {err}");
    }
    assert!(here.prints("help").starts_with("room pack TEXT CLUSTER"));
}

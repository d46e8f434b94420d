//! Programs that read a cluster and a plan from files and write a record into a third, run beside the
//! model.

use std::collections::BTreeMap;
use std::path::{Path, PathBuf};
use std::process::{exit, Command};
use std::{env, fs, process};

/// What such a program gets: the bytes of both files, the words behind them, and at the end, behind the
/// file for the record, the reserve. A file that is `None` is not there.
pub struct Input {
    pub cluster: Option<Vec<u8>>,
    pub plan: Option<Vec<u8>>,
    pub words: Vec<String>,
    pub reserve: Option<String>,
}

impl Input {
    /// Both files there, and the reserve as the last word unless it is 0; then it may be left out.
    pub fn of(
        reserve: u64,
        turn: usize,
        cluster: Vec<u8>,
        plan: Vec<u8>,
        words: Vec<String>,
    ) -> Input {
        let reserve = (reserve > 0 || turn.is_multiple_of(2)).then(|| reserve.to_string());
        Input { cluster: Some(cluster), plan: Some(plan), words, reserve }
    }
}

/// What is printed, and what the file for the record then has, if it is written.
pub type Outcome = (String, Option<Vec<u8>>);

/// From so many inputs on, all that is wanted must have come.
const ENOUGH: usize = 1_000;

/// What came of words that are wrong, or a file that cannot be read: nothing is printed.
pub const NOTHING: &str = "nothing";

/// A folder of its own, which goes in the end.
struct Folder(PathBuf);

impl Drop for Folder {
    fn drop(&mut self) {
        let _ = fs::remove_dir_all(&self.0);
    }
}

/// Runs a program on all inputs, and ends with status 1 at the first that comes out otherwise than
/// `expected`. What is wanted are first words, or with a refusal the first two.
pub fn compare(
    path: &str,
    inputs: &[Input],
    expected: impl Fn(&Input) -> Outcome,
    wanted: &[&str],
) {
    let folder = Folder(env::temp_dir().join(format!("runs-{}", process::id())));
    fs::create_dir_all(&folder.0).expect("a folder for the files");
    let path = fs::canonicalize(path).expect("the program is there");
    let mut seen: BTreeMap<String, usize> = BTreeMap::new();
    for (turn, input) in inputs.iter().enumerate() {
        let expected = expected(input);
        let result = run(&path, &folder.0, input, turn % 2 == 0);
        if result != expected {
            print(input, &result, &expected);
            drop(folder);
            exit(1);
        }
        let words: Vec<&str> = expected.0.split_whitespace().collect();
        let kind = match words[..] {
            [] => NOTHING.to_string(),
            ["refused", number, ..] => format!("refused {number}"),
            [word, ..] => word.to_string(),
        };
        *seen.entry(kind).or_default() += 1;
    }
    println!("{} printed and wrote what the model does on {} inputs", path.display(), inputs.len());
    let counts: Vec<String> = seen.iter().map(|(kind, n)| format!("{kind}: {n}")).collect();
    println!("{}", counts.join(", "));
    let never: Vec<&&str> = wanted.iter().filter(|&&kind| !seen.contains_key(kind)).collect();
    if inputs.len() >= ENOUGH && !never.is_empty() {
        println!("the inputs never came to {never:?}");
        drop(folder);
        exit(1);
    }
}

/// What the program prints, and what it wrote into the file for the record. With `old` that file is there
/// before, with other bytes, which must stay unless a record is written.
fn run(path: &Path, folder: &Path, input: &Input, old: bool) -> Outcome {
    const OLD: [u8; 9] = *b"as it was";
    let [cluster, plan, out] = ["cluster", "plan", "out"].map(|name| folder.join(name));
    for (name, bytes) in [(&cluster, &input.cluster), (&plan, &input.plan)] {
        match bytes {
            Some(bytes) => fs::write(name, bytes).expect("a file is written"),
            None => drop(fs::remove_file(name)),
        }
    }
    match old {
        true => fs::write(&out, OLD).expect("a file is written"),
        false => drop(fs::remove_file(&out)),
    }
    let mut command = Command::new(path);
    command.args([&cluster, &plan]).args(&input.words).arg(&out);
    let output = command.args(&input.reserve).output().expect("the program starts");
    if !output.status.success() {
        return (format!("ended with {}\n", output.status), None);
    }
    for (name, bytes) in [(&cluster, &input.cluster), (&plan, &input.plan)] {
        if fs::read(name).ok() != *bytes {
            return (format!("it changed {}\n", name.display()), None);
        }
    }
    let written = fs::read(&out).ok();
    let kept = written.as_deref() == old.then_some(&OLD[..]);
    (String::from_utf8_lossy(&output.stdout).into_owned(), written.filter(|_| !kept))
}

fn print(input: &Input, result: &Outcome, expected: &Outcome) {
    let Input { cluster, plan, words, reserve } = input;
    println!("cluster {cluster:02x?}\nplan {plan:02x?}");
    println!("words {words:?} reserve {reserve:?}");
    println!("program {}wrote {:02x?}", result.0, result.1);
    println!("model {}wants {:02x?}", expected.0, expected.1);
}

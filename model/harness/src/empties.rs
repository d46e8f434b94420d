//! Plan files of 0 bytes: what came of those among the inputs; and clusters that are checked beside
//! no plan bytes and beside the header of a plan of no steps in either version.

use crate::check;
use crate::report::{check_watched, hex, missing, outcome, print_kinds, verdict_words};
use crate::report::{Counts, Kind, Report, Stream, STRAY};
use kobdrieft_model::{self as model, edges::header, Version};

/// What can come of a plan of no steps.
const KINDS: [Kind; 3] = [("accepted", 0..=0), ("1 to 9", 1..=9), ("19", 19..=19)];

#[derive(Default)]
pub(crate) struct Empties {
    files: Counts,
    headers: Counts,
}

impl Empties {
    /// Counts an input whose plan has no bytes.
    pub(crate) fn count_file(&mut self, stream: Stream, verdict: u64) {
        self.files[outcome(verdict)][stream as usize] += 1;
    }

    /// What no generated input led to.
    pub(crate) fn missing(&self) -> Vec<String> {
        let wanted = || KINDS.into_iter().flat_map(|(_, outcomes)| outcomes);
        let files = missing(&self.files, "no plan bytes,", wanted());
        [files, missing(&self.headers, "headers,", wanted())].concat()
    }

    pub(crate) fn print(&self) {
        print_kinds("no bytes", &KINDS, &self.files);
        print_kinds("headers", &KINDS, &self.headers);
        let clusters: u64 = self.headers.iter().flatten().sum();
        println!("clusters with no plan bytes held against both headers of 0 steps: {clusters}");
    }
}

impl Report {
    /// Compares `check` on a cluster, whole or damaged, beside no plan bytes; then the library's
    /// verdict on no plan bytes with those on the headers of a plan of no steps, one of each
    /// version, which must be equal to it.
    pub fn no_steps(&mut self, stream: Stream, reserve: u64, cluster: &[u8]) {
        let expected = model::pack_verdict(model::check(reserve, cluster, &[]));
        match reserve {
            0 => self.empties.headers[outcome(expected)][stream as usize] += 1,
            _ => self.reserves.count_headers(stream, expected),
        }
        let (mut no_bytes, kept) = check_watched(reserve, cluster, &[]);
        if kept && no_bytes == expected {
            no_bytes = check(reserve, cluster, &[]);
        }
        if self.judge(kept && no_bytes == expected) {
            let stray = if kept { "" } else { STRAY };
            println!("check on no plan bytes differs{stray}");
            println!("reserve {reserve}\ncluster {}", hex(cluster));
            println!("library {}", verdict_words(no_bytes));
            println!("model   {}", verdict_words(expected));
        }
        for version in Version::ALL {
            let header = header(version);
            let with_header = check(reserve, cluster, &header);
            if self.judge(no_bytes == with_header) {
                println!("check tells no plan bytes from the header of a plan of no steps");
                println!("reserve {reserve}\ncluster {}", hex(cluster));
                println!("header {}", hex(&header));
                println!("no plan bytes {}", verdict_words(no_bytes));
                println!("the header    {}", verdict_words(with_header));
                println!("model         {}", verdict_words(expected));
            }
        }
    }
}

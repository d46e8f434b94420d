//! Cluster records that cannot be read.

use crate::report::outcome;

/// A record refused with 2, 6 or 7, and its number.
pub(crate) struct Damaged {
    pub(crate) number: usize,
    pub(crate) cluster: Vec<u8>,
}

impl Damaged {
    pub(crate) fn of(cluster: &[u8], verdict: u64) -> Option<Damaged> {
        let number = outcome(verdict);
        matches!(number, 2 | 6 | 7).then(|| Damaged { number, cluster: cluster.to_vec() })
    }

    /// Whether it has this number and this version.
    pub(crate) fn is(&self, number: usize, version: u8) -> bool {
        self.number == number && self.cluster[0] == version
    }

    /// The number of its VMs.
    pub(crate) fn vms(&self) -> usize {
        self.count(7)
    }

    /// Whether it is refused with 7 and some constraint's bytes, without their length, are such.
    pub(crate) fn has_body(&self, holds: impl Fn(&[u8]) -> bool) -> bool {
        if self.number != 7 {
            return false;
        }
        let mut at = 11 + 5 * self.count(5) + 7 * self.vms();
        let mut found = false;
        while at < self.cluster.len() {
            let end = at + 2 + self.count(at);
            found |= holds(&self.cluster[at + 2..end]);
            at = end;
        }
        found
    }

    fn count(&self, at: usize) -> usize {
        usize::from(self.cluster[at]) * 256 + usize::from(self.cluster[at + 1])
    }
}

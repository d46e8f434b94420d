//! The verified library, called through its C interface, and what it is held against.
//!
//! `check`, `build`, `stop` and `split` lend slices as they are. `Lent` puts guard bytes around a copy, so
//! that a write into lent bytes, or beside them, shows.

pub mod baseline;
mod befores;
pub mod builds;
mod damaged;
mod divided;
pub mod empties;
mod idle;
pub mod inputs;
pub mod launches;
pub mod nowhere;
pub mod report;
mod reserves;
pub mod rooms;
pub mod runs;
mod seen;
pub mod sources;
pub mod splits;
mod stopped;
pub mod stops;
pub mod streams;
pub mod timing;
mod told;

mod c {
    extern "C" {
        pub fn kobdrieft_check_v9(
            reserve: u64,
            cluster: *const u8,
            cluster_len: usize,
            plan: *const u8,
            plan_len: usize,
        ) -> u64;
        pub fn kobdrieft_build_v9(
            reserve: u64,
            cluster: *const u8,
            cluster_len: usize,
            out: *mut u8,
            out_len: usize,
        ) -> u64;
        pub fn kobdrieft_stop_v9(
            reserve: u64,
            cluster: *const u8,
            cluster_len: usize,
            plan: *const u8,
            plan_len: usize,
            step: u64,
            marks: *const u8,
            marks_len: usize,
            out: *mut u8,
            out_len: usize,
        ) -> u64;
        pub fn kobdrieft_split_v9(
            reserve: u64,
            cluster: *const u8,
            cluster_len: usize,
            plan: *const u8,
            plan_len: usize,
            out: *mut u8,
            out_len: usize,
        ) -> u64;
    }
}

/// Checks a plan for a cluster at a reserve; the packed verdict.
pub fn check(reserve: u64, cluster: &[u8], plan: &[u8]) -> u64 {
    let (bytes, length) = (cluster.as_ptr(), cluster.len());
    // SAFETY: each pointer can be read for the length beside it. An empty slice has a pointer
    // that is not null, and no byte of it is read.
    unsafe { c::kobdrieft_check_v9(reserve, bytes, length, plan.as_ptr(), plan.len()) }
}

/// Builds a plan for a cluster at a reserve, at the front of `out`; the packed answer.
pub fn build(reserve: u64, cluster: &[u8], out: &mut [u8]) -> u64 {
    let (bytes, length) = (cluster.as_ptr(), cluster.len());
    // SAFETY: as in `check`, and `out` can be written for its length and overlaps nothing.
    unsafe { c::kobdrieft_build_v9(reserve, bytes, length, out.as_mut_ptr(), out.len()) }
}

/// Stops a plan for a cluster in a step at a reserve; the cluster record as it then is goes to the front
/// of `out`. Gives the packed answer.
pub fn stop(
    reserve: u64,
    cluster: &[u8],
    plan: &[u8],
    step: u64,
    marks: &[u8],
    out: &mut [u8],
) -> u64 {
    // SAFETY: as in `build`.
    unsafe {
        c::kobdrieft_stop_v9(
            reserve,
            cluster.as_ptr(),
            cluster.len(),
            plan.as_ptr(),
            plan.len(),
            step,
            marks.as_ptr(),
            marks.len(),
            out.as_mut_ptr(),
            out.len(),
        )
    }
}

/// Divides every step of a plan for a cluster into single moves at a reserve; the divided plan's record
/// goes to the front of `out`. Gives the packed answer.
pub fn split(reserve: u64, cluster: &[u8], plan: &[u8], out: &mut [u8]) -> u64 {
    // SAFETY: as in `build`.
    unsafe {
        c::kobdrieft_split_v9(
            reserve,
            cluster.as_ptr(),
            cluster.len(),
            plan.as_ptr(),
            plan.len(),
            out.as_mut_ptr(),
            out.len(),
        )
    }
}

/// How many guard bytes stand on either side. An odd number also lends odd addresses.
const GUARDS: usize = 17;
const GUARD: u8 = 0xA5;

/// A copy of some bytes with guard bytes around it, and another that the library never sees. The
/// library gets a pointer that may be written through, so that the compiler may not assume that
/// the bytes stay.
pub struct Lent {
    bytes: Vec<u8>,
    before: Vec<u8>,
}

impl Lent {
    pub fn of(bytes: &[u8]) -> Lent {
        let guards = [GUARD; GUARDS];
        Lent { bytes: [&guards, bytes, &guards].concat(), before: bytes.to_vec() }
    }

    fn len(&self) -> usize {
        self.before.len()
    }

    fn pointer(&mut self) -> *mut u8 {
        self.bytes[GUARDS..].as_mut_ptr()
    }

    /// The lent bytes as they are now.
    pub fn now(&self) -> &[u8] {
        &self.bytes[GUARDS..GUARDS + self.len()]
    }

    /// Whether no guard byte was written.
    pub fn guarded(&self) -> bool {
        let (front, back) = (&self.bytes[..GUARDS], &self.bytes[GUARDS + self.len()..]);
        front.iter().chain(back).all(|&b| b == GUARD)
    }

    /// Whether neither a lent byte nor a guard byte was written.
    pub fn untouched(&self) -> bool {
        self.now() == self.before && self.guarded()
    }
}

/// As `check`, over watched bytes.
pub fn check_lent(reserve: u64, cluster: &mut Lent, plan: &mut Lent) -> u64 {
    let (bytes, length) = (cluster.pointer(), cluster.len());
    // SAFETY: both pointers stay within their vectors for the length beside them.
    unsafe { c::kobdrieft_check_v9(reserve, bytes, length, plan.pointer(), plan.len()) }
}

/// As `build`, over watched bytes.
pub fn build_lent(reserve: u64, cluster: &mut Lent, out: &mut Lent) -> u64 {
    let (bytes, length) = (cluster.pointer(), cluster.len());
    // SAFETY: as in `check_lent`; the two vectors are apart.
    unsafe { c::kobdrieft_build_v9(reserve, bytes, length, out.pointer(), out.len()) }
}

/// As `stop`, over watched bytes.
pub fn stop_lent(
    reserve: u64,
    cluster: &mut Lent,
    plan: &mut Lent,
    step: u64,
    marks: &mut Lent,
    out: &mut Lent,
) -> u64 {
    // SAFETY: as in `build_lent`; all four vectors are apart.
    unsafe {
        c::kobdrieft_stop_v9(
            reserve,
            cluster.pointer(),
            cluster.len(),
            plan.pointer(),
            plan.len(),
            step,
            marks.pointer(),
            marks.len(),
            out.pointer(),
            out.len(),
        )
    }
}

/// As `split`, over watched bytes.
pub fn split_lent(reserve: u64, cluster: &mut Lent, plan: &mut Lent, out: &mut Lent) -> u64 {
    // SAFETY: as in `build_lent`; all three vectors are apart.
    unsafe {
        c::kobdrieft_split_v9(
            reserve,
            cluster.pointer(),
            cluster.len(),
            plan.pointer(),
            plan.len(),
            out.pointer(),
            out.len(),
        )
    }
}

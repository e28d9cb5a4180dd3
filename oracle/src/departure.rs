//! Where the rules depart from the reference (document 02). A departure is
//! taken wherever it decides, and counted; where it is left out, the reference
//! answers by itself.

use std::sync::atomic::{AtomicBool, AtomicU64, Ordering::Relaxed};

#[derive(Clone, Copy, Debug, PartialEq, Eq)]
pub enum Departure {
    /// Paper 5: of the links that yield a stored msg2 the newest answers. It
    /// decides once for each older one.
    NewestLink,
    /// Paper 8: Silent is looked at before Full.
    SilentFirst,
    /// Paper 9: a sum past the last reading gives the last reading.
    LastReading,
}

pub const ALL: [Departure; 3] = [Departure::NewestLink, Departure::SilentFirst, Departure::LastReading];

static LEFT_OUT: [AtomicBool; ALL.len()] = [const { AtomicBool::new(false) }; ALL.len()];
static MET: [AtomicU64; ALL.len()] = [const { AtomicU64::new(0) }; ALL.len()];

impl Departure {
    /// Here it decides: whether it is taken.
    pub fn taken(self) -> bool {
        MET[self as usize].fetch_add(1, Relaxed);
        !LEFT_OUT[self as usize].load(Relaxed)
    }
}

/// How often each decided.
#[derive(Clone, Copy, Default, PartialEq, Eq)]
pub struct Met([u64; ALL.len()]);

impl Met {
    pub fn of(&self, d: Departure) -> u64 {
        self.0[d as usize]
    }
}

/// What `told` gives where these are left out.
pub fn without<T>(which: &[Departure], told: impl FnOnce() -> T) -> T {
    let before = LEFT_OUT.each_ref().map(|l| l.load(Relaxed));
    for d in which {
        LEFT_OUT[*d as usize].store(true, Relaxed);
    }
    let out = told();
    for (l, was) in LEFT_OUT.iter().zip(before) {
        l.store(was, Relaxed);
    }
    out
}

/// What `told` gives, and how often each decided.
pub fn counted<T>(told: impl FnOnce() -> T) -> (T, Met) {
    let now = || MET.each_ref().map(|m| m.load(Relaxed));
    let before = now();
    let out = told();
    let after = now();
    (out, Met(std::array::from_fn(|i| after[i] - before[i])))
}

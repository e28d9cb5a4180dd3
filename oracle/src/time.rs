//! The clock: nanoseconds in a u64. A sum past 2^64 - 1 gives the last
//! reading (document 02, paper 9), under which the reference's `deadline`
//! never halves its step; where that departure is left out it fails, as in
//! document 01.

use crate::departure::Departure;

pub use core::time::Duration;

pub trait Instant: Copy + Ord + core::fmt::Debug {
    fn checked_add(self, d: Duration) -> Option<Self>;
    fn saturating_duration_since(self, earlier: Self) -> Duration;
}

#[derive(Clone, Copy, Debug, PartialEq, Eq, PartialOrd, Ord)]
pub struct Clock(pub u64);

impl Instant for Clock {
    fn checked_add(self, d: Duration) -> Option<Self> {
        let step = u64::try_from(d.as_nanos()).ok();
        step.and_then(|s| self.0.checked_add(s)).or_else(past).map(Clock)
    }

    fn saturating_duration_since(self, earlier: Self) -> Duration {
        Duration::from_nanos(self.0.saturating_sub(earlier.0))
    }
}

/// A sum past the last reading.
#[cold]
fn past() -> Option<u64> {
    Departure::LastReading.taken().then_some(u64::MAX)
}

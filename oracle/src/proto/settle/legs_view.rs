//! What the oracle reads of the legs, and a copy of them; time as they reckon it.

use super::*;

impl<I: Instant> Leg<I> {
    pub fn resends(&self) -> u32 {
        self.sent
    }

    pub fn next(&self) -> Option<I> {
        self.next
    }

    pub fn index(&self) -> u32 {
        self.lease.0
    }

    /// When it next needs a poll.
    pub fn polled(&self) -> I {
        self.wake()
    }

    pub fn overdue(&self, now: I) -> bool {
        due(self.deadline, now)
    }

    pub fn resend_due(&self, now: I) -> bool {
        self.next.is_some_and(|n| due(n, now))
    }

    fn copy(&self) -> Self {
        Leg {
            link: self.link,
            peer: self.peer,
            kind: self.kind.clone(),
            msg1: self.msg1.clone(),
            sent: self.sent,
            next: self.next,
            deadline: self.deadline,
            lease: IndexLease(self.lease.0),
        }
    }
}

impl<I: Instant> Legs<I> {
    /// In the order of links.
    pub fn all(&self) -> impl Iterator<Item = &Leg<I>> {
        self.legs.values()
    }

    pub fn copy(&self) -> Self {
        Legs {
            legs: self.legs.iter().map(|(l, g)| (*l, g.copy())).collect(),
        }
    }
}

pub fn until<I: Instant>(now: I, span: Duration) -> I {
    deadline(now, span)
}

pub fn doubled(exponent: u32, base: Duration, cap: Duration) -> Duration {
    backoff(exponent, base, cap)
}

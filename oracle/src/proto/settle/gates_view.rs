//! What the oracle reads and asks of the gates' memories, and a stamp by itself.

use super::*;

pub struct Remembered<I> {
    pub peer: NodeAddr,
    pub stamp: Option<I>,
    pub replays: Vec<(EphemeralDigest, I)>,
    pub silence: Option<Silenced<I>>,
}

pub struct Silenced<I> {
    pub epoch: Option<Epoch>,
    pub count: u32,
    pub last: I,
    pub until: Option<I>,
    pub counted: Vec<EphemeralDigest>,
}

impl<I: Instant> Gates<I> {
    /// A restart or replacement of a heard peering was accepted.
    pub fn give_up(&mut self, peer: NodeAddr, now: I) {
        self.peers.entry(peer).or_default().stamp = Some(now);
    }

    /// Whether the silences of the peer's memory refuse a msg1 at the epoch.
    pub fn silences(&self, peer: &NodeAddr, epoch: Epoch, now: I) -> bool {
        self.peers.get(peer).is_some_and(|m| m.silencing(Some(epoch), now))
    }

    /// The memories in the order of peers, without those that remember
    /// nothing.
    pub fn memories(&self) -> Vec<Remembered<I>> {
        let blank = Memory::default();
        let some = self.peers.iter().filter(|(_, m)| **m != blank);
        some.map(|(peer, m)| Remembered {
            peer: *peer,
            stamp: m.stamp,
            replays: m.replays.clone(),
            silence: m.silence.as_ref().map(|s| Silenced {
                epoch: s.epoch,
                count: s.count,
                last: s.last,
                until: s.until,
                counted: s.counted.clone(),
            }),
        })
        .collect()
    }
}

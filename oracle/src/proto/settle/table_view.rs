//! What the oracle reads of a table, a copy of it, and the calls by kind; parts
//! of it by themselves, for scripts.

use super::*;
use crate::departure::Departure;
use crate::record::Call;
use crate::time::Clock;

/// An answer leg's entry of the `answered` map.
pub struct Reply {
    pub ephemeral: EphemeralDigest,
    pub epoch: Epoch,
    pub replaces: bool,
    pub sent: bool,
}

impl Table<Clock> {
    pub fn copy(&self) -> Self {
        Table {
            me: self.me,
            params: self.params,
            links: self.links.clone(),
            legs: self.legs.copy(),
            held: self.held.clone(),
            answered: self.answered.clone(),
            gates: self.gates.clone(),
        }
    }

    pub fn me(&self) -> NodeAddr {
        self.me
    }

    pub fn params(&self) -> &Params {
        &self.params
    }

    pub fn holders(&self) -> &BTreeMap<NodeAddr, Held<Clock>> {
        &self.held
    }

    pub fn gates(&self) -> &Gates<Clock> {
        &self.gates
    }

    pub fn reply(&self, link: LinkNo) -> Option<Reply> {
        self.answered.get(&link).map(|a| Reply {
            ephemeral: a.ephemeral,
            epoch: a.epoch,
            replaces: a.replaces,
            sent: a.sent,
        })
    }

    pub fn links_mut(&mut self) -> &mut Links {
        &mut self.links
    }

    pub fn legs_mut(&mut self) -> &mut Legs<Clock> {
        &mut self.legs
    }

    pub fn install(&mut self, peer: NodeAddr, held: Held<Clock>) {
        self.held.insert(peer, held);
    }

    /// An answer leg with its entry.
    pub fn answer_as(&mut self, start: Start, msg2: Vec<u8>, reply: Reply, now: Clock) {
        let Reply { ephemeral, epoch, replaces, sent } = reply;
        self.answered.insert(start.link, Answered { ephemeral, epoch, replaces, sent });
        let old = self.legs.answer(start, msg2, now, &self.params);
        assert!(old.is_none(), "a new link");
    }

    /// A leg goes, its link stays.
    pub fn drop_leg(&mut self, link: LinkNo) {
        self.legs.take(link);
        self.answered.remove(&link);
    }

    /// Document 02, paper 5: the search for what is stored for `bytes` from
    /// `from` goes downwards, so all links that yield an answer give way to the
    /// newest. Here they are the reference's own answers, each found by its own
    /// search with those before it left out of the index.
    pub fn older(&self, from: &Pair, bytes: &[u8]) -> Vec<LinkNo> {
        let mut rest = self.copy();
        let mut found = Vec::new();
        while let Some((link, _)) = rest.stored(from, bytes) {
            rest.links.hide(&[link]);
            found.push(link);
        }
        found.pop();
        found.retain(|_| Departure::NewestLink.taken());
        found
    }

    /// The link of the answer that is stored for `bytes` from `from`.
    pub fn stored_at(&self, from: &Pair, bytes: &[u8]) -> Option<LinkNo> {
        let mut rest = self.copy();
        rest.links.hide(&self.older(from, bytes));
        rest.stored(from, bytes).map(|(link, _)| link)
    }

    /// How many answers are on record; as many as there are answer legs.
    pub fn replies(&self) -> usize {
        self.answered.len()
    }

    /// The method of the call's name.
    pub fn call(&mut self, call: Call, now: Clock) -> Vec<Output> {
        let mut out = Vec::new();
        match call {
            Call::Dial(d) => self.dial(d, now, &mut out),
            Call::Abandon(link) => self.abandon(link, &mut out),
            Call::Arrived(from, bytes) => self.arrived(&from, &bytes, &mut out),
            Call::Msg1(hello, reachable) => self.msg1(hello, reachable, now, &mut out),
            Call::Replacement(hello) => self.admit(Source::Replacement, hello, now, &mut out),
            Call::Sent(link) => self.sent(link, now, &mut out),
            Call::Unsent(link) => self.unsent(link, &mut out),
            Call::Msg2(link, epoch, from) => self.msg2(link, epoch, from, now, &mut out),
            Call::Restarted(peer, epoch) => self.restarted(peer, epoch, now, &mut out),
            Call::Heard(peer, from) => self.heard(peer, from, now, &mut out),
            Call::Remove(peer, why) => self.remove(peer, why, now, &mut out),
            Call::Poll => out = self.poll(now),
            Call::Close => out = self.close(now),
            Call::Path(link, pair, state) => self.links.path(link, pair, state),
            Call::Release(link, pair, keep) => {
                let closes = self.links.release(link, &pair, keep);
                out.push(Output::Release { link, closes });
            }
            Call::Wake => out.push(Output::Wake {
                at: self.next_wake().map(|t| t.0),
            }),
        }
        out
    }
}

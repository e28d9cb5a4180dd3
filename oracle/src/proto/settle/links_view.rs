//! What the oracle reads of the link records, and a link by its number.

use super::*;

impl Links {
    pub fn recs(&self) -> &BTreeMap<LinkNo, LinkRec> {
        &self.recs
    }

    /// How many links were ever opened: the next number.
    pub fn opened(&self) -> u64 {
        self.next
    }

    /// Whether a live record uses the connection at `pair`.
    pub fn used(&self, pair: &Pair) -> bool {
        self.recs.values().any(|r| r.uses(pair))
    }

    /// The index names these links no longer.
    pub fn hide(&mut self, links: &[LinkNo]) {
        self.index.retain(|(_, l)| !links.contains(l));
    }

    /// The index is the derived one again.
    pub fn show(&mut self) {
        self.reindex();
    }

    /// Opens the link with that number.
    pub fn open_as(&mut self, no: LinkNo, setup: Pair, dir: Dir) {
        self.next = no.0;
        self.open(setup, dir, Holder::Leg);
    }
}

impl LinkRec {
    /// Whether this link uses the connection at `pair`.
    pub fn uses_pair(&self, pair: &Pair) -> bool {
        self.uses(pair)
    }
}

//! A table behind its entries: `new` and `call` with the numbered refusals.

use std::collections::BTreeSet;

use crate::departure::Departure;
use crate::identity::NodeAddr;
use crate::proto::settle::gates::{Epoch, Refusal, Source};
use crate::proto::settle::links::{LinkNo, Pair};
use crate::proto::settle::output::{Denial, Output};
use crate::proto::settle::params::Params;
use crate::proto::settle::table::Table;
use crate::record::{self, Call, Record};
use crate::time::Clock;

pub const SETTINGS: u8 = 1;
pub const RECORD: u8 = 3;
pub const NUMBERS: u8 = 4;
pub const LINKS: u8 = 5;
pub const NAMES: u8 = 6;
pub const PATHS: u8 = 7;

const ROOM: usize = 32;
const PATHS_ROOM: usize = 4;
const COUNTED: usize = 8;
const REPLAYS: usize = 8;

pub struct Node {
    pub table: Table<Clock>,
    pub first: u64,
    /// Pairs that Release or Close listed although a live record uses them
    /// when the call ends; document 01 would leave them out.
    pub overlisted: usize,
}

impl Node {
    /// The new entry.
    pub fn new(bytes: &[u8]) -> Result<Node, u8> {
        let Some(Record::New(n)) = record::read(bytes, 0) else {
            return Err(RECORD);
        };
        if !in_range(&n.params) {
            return Err(SETTINGS);
        }
        Ok(Node {
            table: Table::new(n.me, n.params),
            first: n.first,
            overlisted: 0,
        })
    }

    /// The call entry: its outputs, or the number that refuses it. The call
    /// runs on a copy, which takes the table's place if it is not refused.
    pub fn call(&mut self, bytes: &[u8]) -> Result<Vec<Output>, u8> {
        let Some(Record::Call(now, call)) = record::read(bytes, self.first) else {
            return Err(RECORD);
        };
        let asks = self.asks(&call);
        if asks.is_some() && self.last() {
            return Err(NUMBERS);
        }
        let dial = matches!(call, Call::Dial(_));
        if dial && let Some(peer) = asks {
            self.room(peer)?;
        }
        if let Call::Path(link, pair, _) = &call {
            path_room(&self.table, *link, pair)?;
        }
        let ends = matches!(call, Call::Close | Call::Release(..));
        let epoch = hello_epoch(&call);
        let mut next = self.table.copy();
        let mut outputs = self.newest_link(&mut next, call, now);
        if let Some(epoch) = epoch {
            self.silent_first(epoch, now, &mut outputs);
        }
        if !dial && let Some(peer) = asks && self.enters(peer, &outputs) {
            self.room(peer)?;
        }
        if ends {
            self.overlisted += overlisted(&next, &outputs);
        }
        self.table = next;
        Ok(outputs)
    }

    /// The peer for whom the call may take a link number.
    fn asks(&self, call: &Call) -> Option<NodeAddr> {
        match call {
            Call::Dial(d) => Some(d.peer),
            Call::Msg1(h, _) | Call::Replacement(h) => Some(h.peer),
            _ => None,
        }
    }

    /// Whether the next link number is 2^64 - 1.
    fn last(&self) -> bool {
        self.first.wrapping_add(self.table.links().opened()) == u64::MAX
    }

    /// Whether a msg1 or replacement passed admission for a peer not held:
    /// it gave a fresh answer.
    fn enters(&self, peer: NodeAddr, outputs: &[Output]) -> bool {
        let fresh = |o: &Output| matches!(o, Output::Answer { stored: false, .. });
        self.table.held(&peer).is_none() && outputs.iter().any(fresh)
    }

    /// Room for a link and for the peer's place.
    fn room(&self, peer: NodeAddr) -> Result<(), u8> {
        if self.table.links().recs().len() >= ROOM {
            return Err(LINKS);
        }
        let places = self.places();
        if !places.contains(&peer) && places.len() >= ROOM {
            return Err(NAMES);
        }
        Ok(())
    }

    /// The call on a copy of the table. For a msg1, or the arrival of one, the
    /// index names no link that gives way to a newer; where one does, an answer
    /// is stored, and the call changes nothing.
    fn newest_link(&self, next: &mut Table<Clock>, call: Call, now: Clock) -> Vec<Output> {
        let older = match &call {
            Call::Arrived(from, bytes) => self.table.older(from, bytes),
            Call::Msg1(h, _) => self.table.older(&h.from, &h.bytes),
            _ => Vec::new(),
        };
        next.links_mut().hide(&older);
        let outputs = next.call(call, now);
        if !older.is_empty() {
            next.links_mut().show();
        }
        outputs
    }

    /// A Reject whose reason is Full is read as Silent where its source asks
    /// for silence and the reference's own `silencing` holds.
    fn silent_first(&self, epoch: Epoch, now: Clock, outputs: &mut [Output]) {
        for o in outputs {
            if let Output::Reject { peer: Some(peer), source: Some(source), why } = o
                && *why == Denial::Full
                && matches!(source, Source::NotHeld | Source::Replacement)
                && self.table.gates().silences(peer, epoch, now)
                && Departure::SilentFirst.taken()
            {
                *why = Denial::Gate(Refusal::Silent);
            }
        }
    }

    /// The peers that are held, have a leg, or are remembered.
    pub fn places(&self) -> BTreeSet<NodeAddr> {
        let held = self.table.holders().keys().copied();
        let legs = self.table.legs().all().filter_map(|l| l.peer());
        let known = self.table.gates().memories().into_iter().map(|m| m.peer);
        held.chain(legs).chain(known).collect()
    }

    /// What the derived data promises: the index is the derived one, and
    /// each answer leg has one entry.
    pub fn sound(&self) -> bool {
        let links = self.table.links();
        *links.index() == links.derived() && self.table.replies() == self.table.legs().answering()
    }
}

/// The epoch of a msg1 or replacement.
fn hello_epoch(call: &Call) -> Option<Epoch> {
    match call {
        Call::Msg1(h, _) | Call::Replacement(h) => Some(h.epoch),
        _ => None,
    }
}

/// Whether the settings are within document 01's limits.
pub fn in_range(p: &Params) -> bool {
    (1..=COUNTED).contains(&p.counted) && p.replays <= REPLAYS
}

/// Room for the pair among the link's paths.
pub fn path_room(table: &Table<Clock>, link: LinkNo, pair: &Pair) -> Result<(), u8> {
    let Some(r) = table.links().get(link) else {
        return Ok(());
    };
    let known = r.paths.iter().any(|(p, _)| p == pair);
    if !known && r.paths.len() >= PATHS_ROOM {
        return Err(PATHS);
    }
    Ok(())
}

fn overlisted(table: &Table<Clock>, outputs: &[Output]) -> usize {
    let mut n = 0;
    for o in outputs {
        if let Output::Release { closes, .. }
        | Output::Close { closes }
        | Output::Retire { closes, .. } = o
        {
            n += closes.iter().filter(|p| table.links().used(p)).count();
        }
    }
    n
}

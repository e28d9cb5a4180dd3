//! Records in the order of a box's calls: peers, their pairs, links and epochs.

use crate::identity::NodeAddr;
use crate::proto::settle::links::Pair;
use crate::random::Random;
use crate::record::NEW;
use crate::transport::{TransportAddr, TransportId};
use crate::write::{Writer, framed};

pub const FIRST: u64 = 1;
pub const SECOND: u64 = 1_000_000_000;
const STEP: u64 = 100;
const MSG1: usize = 112;
const MSG2: usize = 64;

/// Records one behind the other, each with its length.
#[derive(Default)]
pub struct Batch {
    bytes: Vec<u8>,
    ends: Vec<usize>,
}

impl Batch {
    pub fn records(&self) -> impl Iterator<Item = &[u8]> {
        let starts = std::iter::once(&0).chain(&self.ends);
        starts.zip(&self.ends).map(|(from, to)| &self.bytes[*from..*to])
    }

    pub fn len(&self) -> usize {
        self.ends.len()
    }
}

/// A peer that is held or has a leg.
pub struct Known {
    pub no: usize,
    pub link: u64,
    pub epoch: u64,
    /// Which of its pairs is the current one.
    pub home: usize,
    /// How many of its pairs are paths, and in which state.
    pub paths: usize,
    pub states: [u8; 4],
}

pub struct World {
    pub known: Vec<Known>,
    pub r: Random,
    pub now: u64,
    pub turn: u64,
    next: u64,
    made: u64,
    batch: Batch,
}

impl World {
    /// Begins with the record of new, with the default settings or with other
    /// limits.
    pub fn new(limits: Option<Limits>) -> World {
        let (known, r, batch) = (Vec::new(), Random::new(1), Batch::default());
        let mut w = World { known, r, now: SECOND, turn: 0, next: FIRST, made: 0, batch };
        w.put(NEW, |f| {
            f.run(&[0x80; 16]).u64(FIRST).flag(limits.is_some());
            if let Some(limits) = limits {
                settings(f, limits);
            }
        });
        w
    }

    /// The records since the last time.
    pub fn take(&mut self) -> Batch {
        std::mem::take(&mut self.batch)
    }

    fn put(&mut self, kind: u8, fields: impl FnOnce(&mut Writer)) {
        let mut w = Writer { bytes: Vec::new(), first: 0 };
        w.u64(self.now);
        fields(&mut w);
        framed(kind, &w.bytes, &mut self.batch.bytes);
        self.batch.ends.push(self.batch.bytes.len());
        self.now += STEP;
    }

    fn lease(&mut self) -> u32 {
        self.made += 1;
        self.made as u32
    }

    fn opened(&mut self) -> u64 {
        self.next += 1;
        self.next - 1
    }

    // ---- calls

    /// The link that it opens.
    pub fn dial(&mut self, no: usize) -> u64 {
        let lease = self.lease();
        self.put(1, |f| {
            f.peer(peer(no)).pair(&pair(no, 0)).message(&[1; MSG1]).u32(lease);
        });
        self.opened()
    }

    pub fn abandon(&mut self, link: u64) {
        self.put(2, |f| {
            f.u64(link);
        });
    }

    pub fn arrived(&mut self, from: &Pair) {
        self.put(3, |f| {
            f.pair(from).message(&[1; MSG1]);
        });
    }

    /// A msg1 with a digest of its own.
    pub fn msg1(&mut self, no: usize, from: &Pair, epoch: u64) {
        let lease = self.lease();
        self.put(4, |f| {
            hello(f, no, from, epoch, lease);
            f.flag(true);
        });
    }

    /// A msg1 that gets a fresh answer: the link that it opens.
    pub fn answered(&mut self, no: usize) -> u64 {
        self.msg1(no, &pair(no, 0), 1);
        self.opened()
    }

    pub fn replacement(&mut self, no: usize, from: &Pair, epoch: u64) {
        let lease = self.lease();
        self.put(5, |f| hello(f, no, from, epoch, lease));
    }

    pub fn sent(&mut self, link: u64) {
        self.put(6, |f| {
            f.u64(link);
        });
    }

    pub fn unsent(&mut self, link: u64) {
        self.put(7, |f| {
            f.u64(link);
        });
    }

    pub fn msg2(&mut self, no: usize, link: u64) {
        self.put(8, |f| {
            f.u64(link).u64(1).pair(&pair(no, 0));
        });
    }

    pub fn restarted(&mut self, no: usize, epoch: u64) {
        self.put(9, |f| {
            f.peer(peer(no)).u64(epoch);
        });
    }

    pub fn heard(&mut self, no: usize, from: &Pair) {
        self.put(10, |f| {
            f.peer(peer(no)).pair(from);
        });
    }

    pub fn remove(&mut self, no: usize, why: u8) {
        self.put(11, |f| {
            f.peer(peer(no)).byte(why);
        });
    }

    pub fn poll(&mut self) {
        self.put(12, |_| ());
    }

    pub fn close(&mut self) {
        self.put(13, |_| ());
    }

    pub fn path(&mut self, link: u64, at: &Pair, state: u8) {
        self.put(14, |f| {
            f.u64(link).pair(at).byte(state);
        });
    }

    pub fn release(&mut self, link: u64, at: &Pair) {
        self.put(15, |f| {
            f.u64(link).pair(at).flag(false);
        });
    }

    pub fn wake(&mut self) {
        self.put(16, |_| ());
    }

    // ---- peers

    /// Holds a peer more, every other one by this node's own dial, without
    /// paths.
    pub fn hold(&mut self) -> usize {
        let no = self.known.len();
        let link = if no % 2 == 0 { self.dial(no) } else { self.answered(no) };
        if no % 2 == 0 {
            self.msg2(no, link);
        } else {
            self.sent(link);
            self.heard(no, &pair(no, 0));
        }
        self.known.push(Known { no, link, epoch: 1, home: 0, paths: 0, states: [0; 4] });
        no
    }

    /// Holds so many more, with four paths each.
    pub fn hold_all(&mut self, count: usize) {
        for _ in 0..count {
            let no = self.hold();
            for _ in 0..4 {
                self.add_path(no);
            }
        }
    }

    /// The next pair of a held peer becomes a path of its link.
    pub fn add_path(&mut self, no: usize) {
        let k = &mut self.known[no];
        let (link, at) = (k.link, k.paths);
        k.paths += 1;
        k.states[at] = 0;
        self.path(link, &pair(no, at), 0);
    }

    /// A path of a held peer turns from Live to Acked, or back.
    pub fn turn_path(&mut self, no: usize, at: usize) {
        let k = &mut self.known[no];
        k.states[at] ^= 1;
        let (link, state) = (k.link, k.states[at]);
        self.path(link, &pair(no, at), state);
    }

    /// A held peer is heard where it is.
    pub fn heard_at_home(&mut self, no: usize) {
        self.heard(no, &pair(no, self.known[no].home));
    }

    /// A held peer is heard from another of its pairs.
    pub fn roams(&mut self, no: usize) {
        self.known[no].home ^= 1;
        self.heard_at_home(no);
    }

    /// A held peer is declared dead, comes back by a msg1 and is heard.
    pub fn comes_back(&mut self, no: usize) {
        self.remove(no, 6);
        let link = self.answered(no);
        self.sent(link);
        self.heard(no, &pair(no, 0));
        self.known[no] = Known { no, link, epoch: 1, home: 0, paths: 0, states: [0; 4] };
    }

    /// Some held peer.
    pub fn some(&mut self) -> usize {
        self.r.index(self.known.len())
    }
}

/// Settings that are not the default ones.
#[derive(Clone, Copy)]
pub struct Limits {
    pub resends: u32,
    pub pending: u64,
}

fn settings(f: &mut Writer, limits: Limits) {
    for seconds in [1, 15, 30, 600, 600, 30, 1] {
        f.u64(seconds * SECOND);
    }
    f.u32(3).u32(limits.resends).byte(8).byte(8).u64(limits.pending);
}

fn hello(f: &mut Writer, no: usize, from: &Pair, epoch: u64, lease: u32) {
    let mut digest = [no as u8; 32];
    digest[..4].copy_from_slice(&lease.to_be_bytes());
    f.peer(peer(no)).pair(from).message(&[1; MSG1]).run(&digest).u64(epoch).message(&[2; MSG2]).u32(lease);
}

pub fn peer(no: usize) -> NodeAddr {
    let mut r = Random::new(no as u64);
    let mut bytes = [0; 16];
    bytes[..8].copy_from_slice(&r.next().to_be_bytes());
    bytes[8..].copy_from_slice(&r.next().to_be_bytes());
    NodeAddr(bytes)
}

/// One of a peer's pairs: an address of 16 to 18 bytes on a transport.
pub fn pair(no: usize, at: usize) -> Pair {
    let addr = format!("203.0.113.{no}:{}", 40_000 + 100 * no + at);
    Pair { transport: TransportId(at as u32 + 1), addr: TransportAddr(addr.into_bytes()) }
}

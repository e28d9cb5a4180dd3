//! Outputs as document 01 lays them out. `first` is added back to each link.

use crate::identity::NodeAddr;
use crate::proto::settle::gates::{Refusal, Source};
use crate::proto::settle::links::{LinkNo, Pair};
use crate::proto::settle::output::{Build, Denial, Install, Output, Transition, Why};
use crate::record::{VERSION, WHYS};

/// The bytes of one output record.
pub fn output(o: &Output, first: u64, out: &mut Vec<u8>) {
    let mut w = Writer { bytes: Vec::new(), first };
    let kind = w.fields(o);
    framed(kind, &w.bytes, out);
}

/// Done, after each call's outputs.
pub fn done(number: u8, out: &mut Vec<u8>) {
    framed(0, &[number], out);
}

/// A record of `kind`: length, version, kind, fields.
pub fn framed(kind: u8, fields: &[u8], out: &mut Vec<u8>) {
    let length = u16::try_from(fields.len() + 2).expect("a record's length fits");
    out.extend(length.to_be_bytes());
    out.extend([VERSION, kind]);
    out.extend(fields);
}

/// Fields, big-endian.
pub struct Writer {
    pub bytes: Vec<u8>,
    pub first: u64,
}

impl Writer {
    fn fields(&mut self, o: &Output) -> u8 {
        match o {
            Output::Opened { link } => self.link(*link).kind(1),
            Output::Answer { link, msg2, stored } => {
                self.link(*link).flag(*stored).message(msg2).kind(2)
            }
            Output::Resend { link, bytes } => self.link(*link).message(bytes).kind(3),
            Output::Rekey { peer, arrival } => {
                let both = self.peer(*peer).flag(arrival.on_link);
                both.flag(arrival.reachable).kind(4)
            }
            Output::Install(i) => self.install(i).kind(5),
            Output::Reset { peer, transition } => {
                self.peer(*peer).byte(transition_code(*transition)).kind(6)
            }
            Output::Remove { peer, why } => self.peer(*peer).byte(why_code(*why)).kind(7),
            Output::Retire { link, closes } => self.link(*link).pairs(closes).kind(8),
            Output::Release { link, closes } => self.link(*link).pairs(closes).kind(9),
            Output::Close { closes } => self.pairs(closes).kind(10),
            Output::Free { lease } => self.u32(lease.0).kind(11),
            Output::Retry { peer } => self.peer(*peer).kind(12),
            Output::Reject { peer, source, why } => self.reject(*peer, *source, *why).kind(13),
            Output::Wake { at } => self.option(*at, |w, t| w.u64(t)).kind(14),
        }
    }

    fn install(&mut self, i: &Install) -> &mut Self {
        let build = match i.rekey {
            Build::Fresh => 0,
            Build::FromCarry => 1,
        };
        self.peer(i.peer).link(i.link).pair(&i.pair);
        self.byte(build).flag(i.initiator).u32(i.lease.0)
    }

    fn reject(&mut self, peer: Option<NodeAddr>, source: Option<Source>, why: Denial) -> &mut Self {
        let who = peer.zip(source);
        self.option(who, |w, (p, s)| w.peer(p).byte(source_code(s)));
        self.byte(denial_code(why))
    }

    fn kind(&mut self, kind: u8) -> u8 {
        kind
    }

    pub fn byte(&mut self, b: u8) -> &mut Self {
        self.bytes.push(b);
        self
    }

    pub fn flag(&mut self, f: bool) -> &mut Self {
        self.byte(f.into())
    }

    pub fn run(&mut self, bytes: &[u8]) -> &mut Self {
        self.bytes.extend(bytes);
        self
    }

    pub fn u32(&mut self, n: u32) -> &mut Self {
        self.run(&n.to_be_bytes())
    }

    pub fn u64(&mut self, n: u64) -> &mut Self {
        self.run(&n.to_be_bytes())
    }

    pub fn link(&mut self, link: LinkNo) -> &mut Self {
        self.u64(link.0.wrapping_add(self.first))
    }

    pub fn peer(&mut self, peer: NodeAddr) -> &mut Self {
        self.run(&peer.0)
    }

    pub fn message(&mut self, bytes: &[u8]) -> &mut Self {
        let n = u16::try_from(bytes.len()).expect("a message's length fits");
        self.run(&n.to_be_bytes()).run(bytes)
    }

    pub fn pair(&mut self, p: &Pair) -> &mut Self {
        let addr = p.addr.as_bytes();
        self.u32(p.transport.as_u32()).byte(count(addr.len())).run(addr)
    }

    pub fn pairs(&mut self, list: &[Pair]) -> &mut Self {
        self.byte(count(list.len()));
        for p in list {
            self.pair(p);
        }
        self
    }

    /// A flag, then with 1 the value.
    pub fn option<T>(&mut self, o: Option<T>, put: impl FnOnce(&mut Self, T) -> &mut Self) -> &mut Self {
        self.flag(o.is_some());
        match o {
            Some(x) => put(self, x),
            None => self,
        }
    }
}

pub fn count(n: usize) -> u8 {
    u8::try_from(n).expect("a count fits its byte")
}

pub fn why_code(why: Why) -> u8 {
    count(WHYS.iter().position(|w| *w == why).expect("every Why is listed"))
}

pub fn transition_code(t: Transition) -> u8 {
    match t {
        Transition::Promote => 0,
        Transition::Replace => 1,
        Transition::Move => 2,
        Transition::Keep => 3,
        Transition::Restarted => 4,
        Transition::Roam => 5,
    }
}

pub fn source_code(s: Source) -> u8 {
    match s {
        Source::NotHeld => 0,
        Source::Restart => 1,
        Source::Replacement => 2,
        Source::OwnMsg2 => 3,
        Source::RekeyMsg2 => 4,
    }
}

pub fn denial_code(d: Denial) -> u8 {
    match d {
        Denial::Full => 0,
        Denial::Gate(Refusal::Unheard) => 1,
        Denial::Gate(Refusal::Heard) => 2,
        Denial::Gate(Refusal::Dampened) => 3,
        Denial::Gate(Refusal::Replayed) => 4,
        Denial::Gate(Refusal::ReplayFull) => 5,
        Denial::Gate(Refusal::Silent) => 6,
    }
}

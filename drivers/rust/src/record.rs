//! Records of calls and of new, built field by field (docs/RECORDS.md).

use crate::{Pair, Peer};

/// What a msg1 or a replacement brings.
#[derive(Clone, Copy, Debug)]
pub struct Hello<'a> {
    pub peer: Peer,
    pub from: Pair<'a>,
    pub msg1: &'a [u8],
    pub digest: &'a [u8; 32],
    pub epoch: [u8; 8],
    pub msg2: &'a [u8],
    pub lease: u32,
}

/// Why a held peer goes.
#[derive(Clone, Copy, Debug, PartialEq, Eq)]
pub enum Why {
    Restart,
    Replacement,
    OwnRestart,
    Ended,
    Orphaned,
    Disconnect,
    Dead,
    Admin,
    Closed,
}

/// A path's state.
#[derive(Clone, Copy, Debug, PartialEq, Eq)]
pub enum Proven {
    Live,
    Acked,
    Probing,
}

/// A call, by the name of its method in the original.
#[derive(Clone, Copy, Debug)]
pub enum Call<'a> {
    Dial { peer: Peer, to: Pair<'a>, msg1: &'a [u8], lease: u32 },
    Abandon { link: u64 },
    Arrived { from: Pair<'a>, bytes: &'a [u8] },
    Msg1 { hello: Hello<'a>, reachable: bool },
    Replacement { hello: Hello<'a> },
    Sent { link: u64 },
    Unsent { link: u64 },
    Msg2 { link: u64, epoch: [u8; 8], from: Pair<'a> },
    Restarted { peer: Peer, epoch: [u8; 8] },
    Heard { peer: Peer, from: Pair<'a> },
    Remove { peer: Peer, why: Why },
    Poll,
    Close,
    Path { link: u64, pair: Pair<'a>, state: Proven },
    Release { link: u64, pair: Pair<'a>, keep: bool },
    Wake,
}

/// The settings of form 1; spans in nanoseconds.
#[derive(Clone, Copy, Debug, PartialEq, Eq)]
pub struct Settings {
    pub unheard: u64,
    pub interval: u64,
    pub silentbase: u64,
    pub silentcap: u64,
    pub horizon: u64,
    pub handshake: u64,
    pub resend: u64,
    pub silent: u32,
    pub resends: u32,
    pub replays: u8,
    pub counted: u8,
    pub pending: u64,
}

const ROOM: usize = 400;

/// A record on the stack; the longest, a msg1's, has 387 bytes.
pub struct Record {
    len: usize,
    fits: bool,
    bytes: [u8; ROOM],
}

impl Record {
    fn of(kind: u8, clock: u64) -> Record {
        let mut r = Record { len: 2, fits: true, bytes: [0; ROOM] };
        r.run(&[1, kind]);
        r.run(&clock.to_be_bytes());
        r
    }

    fn run(&mut self, run: &[u8]) -> &mut Self {
        match self.bytes.get_mut(self.len..self.len + run.len()) {
            Some(place) => {
                place.copy_from_slice(run);
                self.len += run.len();
            }
            None => self.fits = false,
        }
        self
    }

    fn link(&mut self, link: u64) -> &mut Self {
        self.run(&link.to_be_bytes())
    }

    fn pair(&mut self, p: &Pair<'_>) -> &mut Self {
        self.fits &= p.addr.len() <= 48;
        self.run(&p.transport.to_be_bytes()).run(&[p.addr.len() as u8]).run(p.addr)
    }

    fn message(&mut self, m: &[u8]) -> &mut Self {
        self.fits &= m.len() <= 128;
        self.run(&(m.len() as u16).to_be_bytes()).run(m)
    }

    fn hello(&mut self, h: &Hello<'_>) -> &mut Self {
        self.run(&h.peer.0).pair(&h.from).message(h.msg1).run(h.digest).run(&h.epoch);
        self.message(h.msg2).run(&h.lease.to_be_bytes())
    }

    fn finish(mut self) -> Record {
        let n = (self.len - 2) as u16;
        self.bytes[..2].copy_from_slice(&n.to_be_bytes());
        self
    }

    pub fn bytes(&self) -> &[u8] {
        &self.bytes[..self.len]
    }
}

/// The record of a call; none if an address or a message is over its limit.
pub fn call(clock: u64, call: &Call<'_>) -> Option<Record> {
    let mut r = Record::of(kind(call), clock);
    match call {
        Call::Dial { peer, to, msg1, lease } => r.run(&peer.0).pair(to).message(msg1).run(&lease.to_be_bytes()),
        Call::Arrived { from, bytes } => r.pair(from).message(bytes),
        Call::Msg1 { hello, reachable } => r.hello(hello).run(&[u8::from(*reachable)]),
        Call::Replacement { hello } => r.hello(hello),
        Call::Abandon { link } | Call::Sent { link } | Call::Unsent { link } => r.link(*link),
        Call::Msg2 { link, epoch, from } => r.link(*link).run(epoch).pair(from),
        Call::Restarted { peer, epoch } => r.run(&peer.0).run(epoch),
        Call::Heard { peer, from } => r.run(&peer.0).pair(from),
        Call::Remove { peer, why } => r.run(&peer.0).run(&[*why as u8]),
        Call::Path { link, pair, state } => r.link(*link).pair(pair).run(&[*state as u8]),
        Call::Release { link, pair, keep } => r.link(*link).pair(pair).run(&[u8::from(*keep)]),
        Call::Poll | Call::Close | Call::Wake => &mut r,
    };
    r.fits.then(|| r.finish())
}

fn kind(call: &Call<'_>) -> u8 {
    match call {
        Call::Dial { .. } => 1,
        Call::Abandon { .. } => 2,
        Call::Arrived { .. } => 3,
        Call::Msg1 { .. } => 4,
        Call::Replacement { .. } => 5,
        Call::Sent { .. } => 6,
        Call::Unsent { .. } => 7,
        Call::Msg2 { .. } => 8,
        Call::Restarted { .. } => 9,
        Call::Heard { .. } => 10,
        Call::Remove { .. } => 11,
        Call::Poll => 12,
        Call::Close => 13,
        Call::Path { .. } => 14,
        Call::Release { .. } => 15,
        Call::Wake => 16,
    }
}

/// The record of new. Its clock is never read.
pub fn new(me: Peer, first: u64, settings: Option<&Settings>) -> Record {
    let mut r = Record::of(17, 0);
    r.run(&me.0).link(first).run(&[u8::from(settings.is_some())]);
    if let Some(s) = settings {
        for span in [s.unheard, s.interval, s.silentbase, s.silentcap, s.horizon, s.handshake, s.resend] {
            r.run(&span.to_be_bytes());
        }
        r.run(&s.silent.to_be_bytes()).run(&s.resends.to_be_bytes());
        r.run(&[s.replays, s.counted]).run(&s.pending.to_be_bytes());
    }
    r.finish()
}

//! Records as document 01 lays them out: version, kind, fields.

use crate::identity::NodeAddr;
use crate::proto::fmp::EphemeralDigest;
use crate::proto::rekey::IndexLease;
use crate::proto::settle::gates::Epoch;
use crate::proto::settle::input::{Dial, Hello};
use crate::proto::settle::links::{LinkNo, Pair, Proven};
use crate::proto::settle::output::Why;
use crate::proto::settle::params::Params;
use crate::time::{Clock, Duration};
use crate::transport::{TransportAddr, TransportId};

pub const VERSION: u8 = 1;
pub const NEW: u8 = 17;
pub const ADDRESS: usize = 48;
pub const MESSAGE: usize = 128;

pub enum Call {
    Dial(Dial),
    Abandon(LinkNo),
    Arrived(Pair, Vec<u8>),
    Msg1(Hello, bool),
    Replacement(Hello),
    Sent(LinkNo),
    Unsent(LinkNo),
    Msg2(LinkNo, Epoch, Pair),
    Restarted(NodeAddr, Epoch),
    Heard(NodeAddr, Pair),
    Remove(NodeAddr, Why),
    Poll,
    Close,
    Path(LinkNo, Pair, Proven),
    Release(LinkNo, Pair, bool),
    Wake,
}

pub struct New {
    pub me: NodeAddr,
    pub first: u64,
    pub params: Params,
}

pub enum Record {
    New(New),
    Call(Clock, Call),
}

/// The record that `bytes` (what follows the length) are, if they are one.
/// The reference counts links from 0: `first` is taken off each link.
pub fn read(bytes: &[u8], first: u64) -> Option<Record> {
    let mut r = Reader { rest: bytes, first };
    if r.byte()? != VERSION {
        return None;
    }
    let kind = r.byte()?;
    let now = Clock(r.u64()?);
    let record = if kind == NEW {
        Record::New(r.new_table()?)
    } else {
        Record::Call(now, r.call(kind)?)
    };
    r.rest.is_empty().then_some(record)
}

struct Reader<'a> {
    rest: &'a [u8],
    first: u64,
}

impl Reader<'_> {
    fn call(&mut self, kind: u8) -> Option<Call> {
        Some(match kind {
            1 => Call::Dial(Dial {
                peer: self.peer()?,
                to: self.pair()?,
                msg1: self.message()?,
                lease: self.lease()?,
            }),
            2 => Call::Abandon(self.link()?),
            3 => Call::Arrived(self.pair()?, self.message()?),
            4 => Call::Msg1(self.hello()?, self.flag()?),
            5 => Call::Replacement(self.hello()?),
            6 => Call::Sent(self.link()?),
            7 => Call::Unsent(self.link()?),
            8 => Call::Msg2(self.link()?, self.array()?, self.pair()?),
            9 => Call::Restarted(self.peer()?, self.array()?),
            10 => Call::Heard(self.peer()?, self.pair()?),
            11 => Call::Remove(self.peer()?, self.why()?),
            12 => Call::Poll,
            13 => Call::Close,
            14 => Call::Path(self.link()?, self.pair()?, self.state()?),
            15 => Call::Release(self.link()?, self.pair()?, self.flag()?),
            16 => Call::Wake,
            _ => return None,
        })
    }

    fn new_table(&mut self) -> Option<New> {
        Some(New {
            me: self.peer()?,
            first: self.u64()?,
            params: match self.byte()? {
                0 => Params::default(),
                1 => self.params()?,
                _ => return None,
            },
        })
    }

    fn params(&mut self) -> Option<Params> {
        Some(Params {
            unheard: self.nanos()?,
            interval: self.nanos()?,
            silentbase: self.nanos()?,
            silentcap: self.nanos()?,
            horizon: self.nanos()?,
            handshake: self.nanos()?,
            resend: self.nanos()?,
            silent: self.u32()?,
            resends: self.u32()?,
            replays: self.byte()?.into(),
            counted: self.byte()?.into(),
            pending: usize::try_from(self.u64()?).ok()?,
        })
    }

    fn hello(&mut self) -> Option<Hello> {
        Some(Hello {
            peer: self.peer()?,
            from: self.pair()?,
            bytes: self.message()?,
            ephemeral: EphemeralDigest(self.array()?),
            epoch: self.array()?,
            msg2: self.message()?,
            lease: self.lease()?,
        })
    }

    fn bytes(&mut self, n: usize) -> Option<&[u8]> {
        let (front, rest) = self.rest.split_at_checked(n)?;
        self.rest = rest;
        Some(front)
    }

    fn array<const N: usize>(&mut self) -> Option<[u8; N]> {
        self.bytes(N)?.try_into().ok()
    }

    fn byte(&mut self) -> Option<u8> {
        Some(self.array::<1>()?[0])
    }

    fn u32(&mut self) -> Option<u32> {
        Some(u32::from_be_bytes(self.array()?))
    }

    fn u64(&mut self) -> Option<u64> {
        Some(u64::from_be_bytes(self.array()?))
    }

    fn nanos(&mut self) -> Option<Duration> {
        Some(Duration::from_nanos(self.u64()?))
    }

    fn flag(&mut self) -> Option<bool> {
        match self.byte()? {
            0 => Some(false),
            1 => Some(true),
            _ => None,
        }
    }

    fn peer(&mut self) -> Option<NodeAddr> {
        Some(NodeAddr(self.array()?))
    }

    fn link(&mut self) -> Option<LinkNo> {
        Some(LinkNo(self.u64()?.wrapping_sub(self.first)))
    }

    fn lease(&mut self) -> Option<IndexLease> {
        Some(IndexLease(self.u32()?))
    }

    fn pair(&mut self) -> Option<Pair> {
        let transport = TransportId(self.u32()?);
        let n = self.byte()?.into();
        if n > ADDRESS {
            return None;
        }
        let addr = TransportAddr(self.bytes(n)?.to_vec());
        Some(Pair { transport, addr })
    }

    fn message(&mut self) -> Option<Vec<u8>> {
        let n = u16::from_be_bytes(self.array()?).into();
        if n > MESSAGE {
            return None;
        }
        Some(self.bytes(n)?.to_vec())
    }

    fn why(&mut self) -> Option<Why> {
        WHYS.get(usize::from(self.byte()?)).copied()
    }

    fn state(&mut self) -> Option<Proven> {
        STATES.get(usize::from(self.byte()?)).copied()
    }
}

pub const WHYS: [Why; 9] = [
    Why::Restart,
    Why::Replacement,
    Why::OwnRestart,
    Why::Ended,
    Why::Orphaned,
    Why::Disconnect,
    Why::Dead,
    Why::Admin,
    Why::Closed,
];

pub const STATES: [Proven; 3] = [Proven::Live, Proven::Acked, Proven::Probing];

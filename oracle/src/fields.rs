//! Cases for readers of records: slices of bytes, and what is read in each.
//! A case is the count of its bytes, in 3 bytes, and the bytes: a record with
//! its length bytes, good or damaged. What is read is two lines in
//! hexadecimal. The call, `-` if it is none: kind, clock and its kind's
//! fields in the record's order, a pair as transport and address, codes and
//! flags as bytes, no bytes as `-`. Then the new: its number, and unless that
//! is 3 me, the first link and the settings.

use crate::dump::nanos;
use crate::node::{RECORD, SETTINGS};
use crate::proto::settle::input::Hello;
use crate::proto::settle::links::{LinkNo, Pair, Proven};
use crate::proto::settle::params::Params;
use crate::record::{self, Call, NEW, New, Record, STATES};
use crate::write::{Writer, count, framed, why_code};

/// Good records of each kind, each damaged at each of its bytes, fields at
/// their limits, and the longest and the shortest slices.
pub fn set() -> Vec<u8> {
    let mut out = Vec::new();
    for good in goods() {
        case(&good, &mut out);
        for at in 0..good.len() {
            case(&flipped(&good, at), &mut out);
            case(&good[..at], &mut out);
            case(&sized(&good[..at]), &mut out);
            case(&longer(&good, at), &mut out);
        }
        case(&longer(&good, good.len()), &mut out);
        case(&[&good[..], &[0]].concat(), &mut out);
    }
    for edge in edges() {
        case(&edge, &mut out);
    }
    case(&sized(&[0; 65_535]), &mut out);
    case(&[], &mut out);
    out
}

/// What is read in each case.
pub fn told(mut cases: &[u8]) -> Option<Vec<u8>> {
    let mut out = String::new();
    while let Some((head, rest)) = cases.split_first_chunk::<3>() {
        let n = u32::from_be_bytes([0, head[0], head[1], head[2]]) as usize;
        let (slice, rest) = rest.split_at_checked(n)?;
        out += &lines(slice);
        cases = rest;
    }
    Some(out.into_bytes())
}

fn case(slice: &[u8], out: &mut Vec<u8>) {
    out.extend(&(slice.len() as u32).to_be_bytes()[1..]);
    out.extend(slice);
}

fn flipped(good: &[u8], at: usize) -> Vec<u8> {
    let mut bytes = good.to_vec();
    bytes[at] ^= 1 << (at % 8);
    bytes
}

/// With its length as it is, if there is room for one.
fn sized(slice: &[u8]) -> Vec<u8> {
    let mut bytes = slice.to_vec();
    if bytes.len() >= 2 {
        let length = (bytes.len() - 2) as u16;
        bytes[..2].copy_from_slice(&length.to_be_bytes());
    }
    bytes
}

fn longer(good: &[u8], at: usize) -> Vec<u8> {
    let mut bytes = good.to_vec();
    bytes.insert(at, 1);
    sized(&bytes)
}

type Put<'a> = &'a dyn Fn(&mut Writer);

/// A record of a kind, with a clock of its own.
fn spelt(kind: u8, put: Put) -> Vec<u8> {
    let mut w = Writer { bytes: Vec::new(), first: 0 };
    w.u64(0x0102_0304_0506_0700 + u64::from(kind));
    put(&mut w);
    let mut out = Vec::new();
    framed(kind, &w.bytes, &mut out);
    out
}

fn run(from: u8, n: u8) -> Vec<u8> {
    (0..n).map(|i| from.wrapping_add(i)).collect()
}

fn peer(w: &mut Writer) -> &mut Writer {
    w.run(&run(0x10, 16))
}

fn pair_of(w: &mut Writer, n: u8) -> &mut Writer {
    w.u32(0x2021_2223).byte(n).run(&run(0x28, n))
}

fn pair(w: &mut Writer) -> &mut Writer {
    pair_of(w, 3)
}

fn message_of(w: &mut Writer, from: u8, n: u8) -> &mut Writer {
    w.message(&run(from, n))
}

fn link(w: &mut Writer) -> &mut Writer {
    w.link(LinkNo(0x3031_3233_3435_3637))
}

fn epoch(w: &mut Writer) -> &mut Writer {
    w.run(&run(0x40, 8))
}

fn lease(w: &mut Writer) -> &mut Writer {
    w.u32(0x5051_5253)
}

fn hello(w: &mut Writer) -> &mut Writer {
    message_of(pair(peer(w)), 0x60, 4).run(&run(0x70, 32));
    lease(message_of(epoch(w), 0x98, 5))
}

fn settings(w: &mut Writer, replays: u8, counted: u8) {
    for i in 0..7 {
        w.u64(0x8000_0000_0000_0000 + i);
    }
    w.u32(0xa1).u32(0xa2).byte(replays).byte(counted).u64(0xa3);
}

fn goods() -> Vec<Vec<u8>> {
    let puts: [Put; 18] = [
        &|w| { lease(message_of(pair(peer(w)), 0x60, 4)); },
        &|w| { link(w); },
        &|w| { message_of(pair(w), 0x60, 4); },
        &|w| { hello(w).flag(true); },
        &|w| { hello(w); },
        &|w| { link(w); },
        &|w| { link(w); },
        &|w| { pair(epoch(link(w))); },
        &|w| { epoch(peer(w)); },
        &|w| { pair(peer(w)); },
        &|w| { peer(w).byte(6); },
        &|_| (),
        &|_| (),
        &|w| { pair(link(w)).byte(2); },
        &|w| { pair(link(w)).flag(true); },
        &|_| (),
        &|w| { link(peer(w)).byte(0); },
        &|w| settings(link(peer(w)).byte(1), 7, 6),
    ];
    let kinds = (1..=16).chain([NEW, NEW]);
    kinds.zip(puts).map(|(kind, put)| spelt(kind, put)).collect()
}

/// Fields at their limits and one past them; versions, kinds and codes.
fn edges() -> Vec<Vec<u8>> {
    let mut out = Vec::new();
    for n in [0, 1, 47, 48, 49, 255] {
        out.push(spelt(10, &|w| { pair_of(peer(w), n); }));
        out.push(spelt(14, &|w| { pair_of(link(w), n).byte(0); }));
    }
    for n in [0, 1, 127, 128, 129, 255] {
        out.push(spelt(3, &|w| { message_of(pair(w), 0, n); }));
        out.push(spelt(4, &|w| {
            message_of(pair(peer(w)), 1, 128).run(&run(0x70, 32));
            lease(message_of(epoch(w), 2, n)).flag(false);
        }));
    }
    for code in 0..=10 {
        out.push(spelt(11, &|w| { peer(w).byte(code); }));
        out.push(spelt(14, &|w| { pair(link(w)).byte(code); }));
        out.push(spelt(15, &|w| { pair(link(w)).byte(code); }));
        out.push(spelt(NEW, &|w| { link(peer(w)).byte(code); }));
        out.push(spelt(NEW, &|w| settings(link(peer(w)).byte(1), code, 8)));
        out.push(spelt(NEW, &|w| settings(link(peer(w)).byte(1), 8, code)));
    }
    for kind in [0, 12, 13, 16, 17, 18, 255] {
        let mut poll = spelt(kind, &|_| ());
        out.push(poll.clone());
        poll[2] = 2;
        out.push(poll);
    }
    out
}

/// The words of a line, in hexadecimal.
struct Words(Vec<String>);

impl Words {
    fn byte(&mut self, v: u8) -> &mut Self {
        self.run(&[v])
    }

    fn word(&mut self, v: u64) -> &mut Self {
        self.run(&v.to_be_bytes())
    }

    fn lease(&mut self, v: u32) -> &mut Self {
        self.run(&v.to_be_bytes())
    }

    fn run(&mut self, bytes: &[u8]) -> &mut Self {
        self.0.push(crate::hex(bytes));
        self
    }

    fn pair(&mut self, p: &Pair) -> &mut Self {
        self.lease(p.transport.0).run(&p.addr.0)
    }

    fn hello(&mut self, h: &Hello) -> &mut Self {
        self.run(&h.peer.0).pair(&h.from).run(&h.bytes);
        self.run(&h.ephemeral.0).run(&h.epoch).run(&h.msg2).lease(h.lease.0)
    }

    /// A call's fields, in the record's order.
    fn fields(&mut self, call: &Call) -> &mut Self {
        match call {
            Call::Dial(d) => self.run(&d.peer.0).pair(&d.to).run(&d.msg1).lease(d.lease.0),
            Call::Abandon(n) | Call::Sent(n) | Call::Unsent(n) => self.word(n.0),
            Call::Arrived(p, m) => self.pair(p).run(m),
            Call::Msg1(h, reachable) => self.hello(h).byte(u8::from(*reachable)),
            Call::Replacement(h) => self.hello(h),
            Call::Msg2(n, e, p) => self.word(n.0).run(e).pair(p),
            Call::Restarted(p, e) => self.run(&p.0).run(e),
            Call::Heard(p, from) => self.run(&p.0).pair(from),
            Call::Remove(p, why) => self.run(&p.0).byte(why_code(*why)),
            Call::Path(n, p, state) => self.word(n.0).pair(p).byte(state_code(*state)),
            Call::Release(n, p, keep) => self.word(n.0).pair(p).byte(u8::from(*keep)),
            Call::Poll | Call::Close | Call::Wake => self,
        }
    }
}

fn state_code(state: Proven) -> u8 {
    let at = STATES.iter().position(|s| *s == state);
    count(at.expect("every state is listed"))
}

fn lines(slice: &[u8]) -> String {
    match whole(slice).and_then(|body| Some((body.get(1)?, record::read(body, 0)?))) {
        Some((kind, Record::Call(now, call))) => {
            format!("{}\n{RECORD:02x}\n", call_line(*kind, now.0, &call))
        }
        Some((_, Record::New(n))) => format!("-\n{}\n", new_line(&n)),
        None => format!("-\n{RECORD:02x}\n"),
    }
}

/// What follows the length bytes, if they say how long it is.
fn whole(slice: &[u8]) -> Option<&[u8]> {
    let (length, body) = slice.split_first_chunk::<2>()?;
    (usize::from(u16::from_be_bytes(*length)) == body.len()).then_some(body)
}

fn call_line(kind: u8, now: u64, call: &Call) -> String {
    let mut words = Words(Vec::new());
    words.byte(kind).word(now).fields(call);
    words.0.join(" ")
}

fn new_line(n: &New) -> String {
    let p = &n.params;
    let out = p.counted == 0 || p.counted > 8 || p.replays > 8;
    let mut words = vec![
        format!("{:02x}", if out { SETTINGS } else { 0 }),
        crate::hex(&n.me.0),
        format!("{:016x}", n.first),
    ];
    words.extend(spans(p).map(|d| format!("{d:016x}")));
    words.push(format!("{:08x} {:08x}", p.silent, p.resends));
    words.push(format!("{:02x} {:02x}", p.replays, p.counted));
    words.push(format!("{:016x}", p.pending));
    words.join(" ")
}

fn spans(p: &Params) -> [u64; 7] {
    [p.unheard, p.interval, p.silentbase, p.silentcap, p.horizon, p.handshake, p.resend].map(nanos)
}

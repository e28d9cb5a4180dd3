//! A table in a canonical form. Integers big-endian; a list is a count byte
//! and its entries, in key order; an option a flag byte and with 1 the value;
//! pairs, messages and flags as in the records; link numbers as on the tape.
//!
//!   me 16; settings in the order of form 1 (7 times 8, silent 4, resends 4,
//!   replays 1, counted 1, pending 8); next link number 8
//!   links:  number 8, setup pair, dir (0 Inbound, 1 Outbound),
//!           holder (0 Leg, 1 Peer and 16), list of (pair, state), released flag
//!   legs:   link 8, option peer, kind (0 Dial, 1 Answer and msg2, digest 32,
//!           epoch 8, replaces flag, sent flag), msg1, sent count 4,
//!           option next 8, deadline 8, lease 4
//!   held:   peer 16, link 8, epoch 8, current pair, heard flag, installed 8,
//!           option last 8, option setup digest 32
//!   memories, without blank ones: peer 16, option stamp 8, list of (digest 32,
//!           seen 8), option silence (option epoch 8, count 4, last 8,
//!           option until 8, list of digest 32)

use crate::node::Node;
use crate::proto::settle::gates::oracle_view::{Remembered, Silenced};
use crate::proto::settle::legs::{Kind, Leg};
use crate::proto::settle::links::{Dir, Holder, LinkNo, LinkRec, Proven};
use crate::proto::settle::params::Params;
use crate::proto::settle::table::Held;
use crate::time::{Clock, Duration};
use crate::write::{Writer, count};
use crate::identity::NodeAddr;

pub fn dump(node: &Node) -> Vec<u8> {
    let t = &node.table;
    let mut w = Writer { bytes: Vec::new(), first: node.first };
    w.peer(t.me());
    settings(&mut w, t.params());
    w.link(LinkNo(t.links().opened()));
    w.byte(count(t.links().recs().len()));
    for (no, rec) in t.links().recs() {
        link(&mut w, *no, rec);
    }
    w.byte(count(t.legs().all().count()));
    for l in t.legs().all() {
        leg(&mut w, node, l);
    }
    w.byte(count(t.holders().len()));
    for (peer, h) in t.holders() {
        held(&mut w, *peer, h);
    }
    let memories = t.gates().memories();
    w.byte(count(memories.len()));
    for m in &memories {
        memory(&mut w, m);
    }
    w.bytes
}

pub fn settings(w: &mut Writer, p: &Params) {
    let spans = [p.unheard, p.interval, p.silentbase, p.silentcap, p.horizon, p.handshake, p.resend];
    for d in spans {
        w.u64(nanos(d));
    }
    w.u32(p.silent).u32(p.resends);
    w.byte(count(p.replays)).byte(count(p.counted)).u64(p.pending as u64);
}

pub fn nanos(d: Duration) -> u64 {
    u64::try_from(d.as_nanos()).expect("a setting fits")
}

fn link(w: &mut Writer, no: LinkNo, r: &LinkRec) {
    w.link(no).pair(&r.setup).flag(r.dir == Dir::Outbound);
    match r.holder {
        Holder::Leg => w.byte(0),
        Holder::Peer(p) => w.byte(1).peer(p),
    };
    w.byte(count(r.paths.len()));
    for (p, state) in &r.paths {
        w.pair(p).byte(match state {
            Proven::Live => 0,
            Proven::Acked => 1,
            Proven::Probing => 2,
        });
    }
    w.flag(r.released);
}

fn leg(w: &mut Writer, node: &Node, l: &Leg<Clock>) {
    w.link(l.link()).option(l.peer(), |w, p| w.peer(p));
    match l.kind() {
        Kind::Dial => {
            w.byte(0);
        }
        Kind::Answer { msg2 } => {
            let a = node.table.reply(l.link()).expect("an answer leg has its entry");
            w.byte(1).message(msg2).run(&a.ephemeral.0).run(&a.epoch);
            w.flag(a.replaces).flag(a.sent);
        }
    }
    w.message(l.msg1()).u32(l.resends()).option(l.next(), |w, t| w.u64(t.0));
    w.u64(l.deadline().0).u32(l.index());
}

fn held(w: &mut Writer, peer: NodeAddr, h: &Held<Clock>) {
    w.peer(peer).link(h.link).run(&h.epoch).pair(&h.current);
    w.flag(h.heard).u64(h.installed.0).option(h.last, |w, t| w.u64(t.0));
    w.option(h.setup, |w, d| w.run(&d.0));
}

fn memory(w: &mut Writer, m: &Remembered<Clock>) {
    w.peer(m.peer).option(m.stamp, |w, t| w.u64(t.0));
    w.byte(count(m.replays.len()));
    for (d, at) in &m.replays {
        w.run(&d.0).u64(at.0);
    }
    w.option(m.silence.as_ref(), silence);
}

fn silence<'a>(w: &'a mut Writer, s: &Silenced<Clock>) -> &'a mut Writer {
    w.option(s.epoch, |w, e| w.run(&e)).u32(s.count).u64(s.last.0);
    w.option(s.until, |w, t| w.u64(t.0)).byte(count(s.counted.len()));
    for d in &s.counted {
        w.run(&d.0);
    }
    w
}

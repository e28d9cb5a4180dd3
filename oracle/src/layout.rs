//! A table in the 45,478 bytes that a lent one has (docs/ARCHITECTURE.md,
//! "The layout"): the head, then links, legs, held and gates, each 32 entries
//! of one width and a count byte, zeros elsewhere.

use crate::dump::settings;
use crate::node::Node;
use crate::identity::NodeAddr;
use crate::proto::settle::gates::oracle_view::Remembered;
use crate::proto::settle::legs::{Kind, Leg};
use crate::proto::settle::links::{Dir, Holder, LinkNo, LinkRec, Pair, Proven};
use crate::proto::settle::table::Held;
use crate::time::Clock;
use crate::write::Writer;

pub fn layout(node: &Node) -> Vec<u8> {
    let t = &node.table;
    let mut w = writer(node);
    w.peer(t.me());
    settings(&mut w, t.params());
    w.link(LinkNo(t.links().opened()));
    let links = t.links().recs().iter().map(|(no, r)| link(node, *no, r)).collect();
    let legs = t.legs().all().map(|l| leg(node, l)).collect();
    let held = t.holders().iter().map(|(p, h)| peer(node, *p, h)).collect();
    let gates = t.gates().memories().iter().map(|m| memory(node, m)).collect();
    for (width, entries) in [(297, links), (351, legs), (136, held), (634, gates)] {
        places(&mut w, 32, width, entries);
    }
    w.bytes
}

fn writer(node: &Node) -> Writer {
    Writer { bytes: Vec::new(), first: node.first }
}

/// `most` entries of one width, zeros past the last, and how many there are.
fn places(w: &mut Writer, most: usize, width: usize, entries: Vec<Vec<u8>>) {
    let end = w.bytes.len() + most * width;
    let count = u8::try_from(entries.len()).expect("a count fits");
    for entry in &entries {
        assert_eq!(entry.len(), width, "an entry has the width of its region");
        w.run(entry);
    }
    assert!(w.bytes.len() <= end, "the entries fit");
    w.bytes.resize(end, 0);
    w.byte(count);
}

/// A flag and a value of so many bytes, zeros where there is none.
fn optional(w: &mut Writer, size: usize, value: Option<&[u8]>) {
    w.flag(value.is_some()).run(value.unwrap_or(&vec![0; size]));
}

/// So many bytes, zeros past the run.
fn padded(w: &mut Writer, size: usize, run: &[u8]) {
    let end = w.bytes.len() + size;
    w.run(run).bytes.resize(end, 0);
}

fn message(w: &mut Writer, m: &[u8]) {
    w.byte(u8::try_from(m.len()).expect("a message fits"));
    padded(w, 128, m);
}

fn pair(w: &mut Writer, p: &Pair) {
    let mut spelt = Writer { bytes: Vec::new(), first: 0 };
    spelt.pair(p);
    padded(w, 53, &spelt.bytes);
}

fn link(node: &Node, no: LinkNo, r: &LinkRec) -> Vec<u8> {
    let mut w = writer(node);
    w.link(no);
    pair(&mut w, &r.setup);
    w.flag(r.dir == Dir::Outbound);
    match r.holder {
        Holder::Leg => w.flag(true).run(&[0; 16]),
        Holder::Peer(p) => w.flag(false).peer(p),
    };
    w.flag(r.released);
    let paths = r.paths.iter().map(|(p, state)| path(node, p, *state)).collect();
    places(&mut w, 4, 54, paths);
    w.bytes
}

fn path(node: &Node, p: &Pair, state: Proven) -> Vec<u8> {
    let mut w = writer(node);
    pair(&mut w, p);
    w.byte(match state {
        Proven::Live => 0,
        Proven::Acked => 1,
        Proven::Probing => 2,
    });
    w.bytes
}

fn leg(node: &Node, l: &Leg<Clock>) -> Vec<u8> {
    let mut w = writer(node);
    w.link(l.link()).u64(l.deadline().0);
    optional(&mut w, 8, l.next().map(|t| t.0.to_be_bytes()).as_ref().map(|b| &b[..]));
    w.u32(l.resends()).u32(l.index());
    let answer = node.table.reply(l.link());
    w.flag(answer.is_some()).flag(l.peer().is_some());
    match l.peer() {
        Some(p) => w.peer(p),
        None => w.run(&[0; 16]),
    };
    match answer {
        Some(a) => w.flag(a.sent).flag(a.replaces).run(&a.epoch).run(&a.ephemeral.0),
        None => w.run(&[0; 42]),
    };
    message(&mut w, l.msg1());
    match l.kind() {
        Kind::Dial => message(&mut w, &[]),
        Kind::Answer { msg2 } => message(&mut w, msg2),
    }
    w.bytes
}

fn peer(node: &Node, p: NodeAddr, h: &Held<Clock>) -> Vec<u8> {
    let mut w = writer(node);
    w.peer(p).link(h.link).run(&h.epoch).u64(h.installed.0).flag(h.heard);
    optional(&mut w, 8, h.last.map(|t| t.0.to_be_bytes()).as_ref().map(|b| &b[..]));
    optional(&mut w, 32, h.setup.as_ref().map(|d| &d.0[..]));
    pair(&mut w, &h.current);
    w.bytes
}

fn memory(node: &Node, m: &Remembered<Clock>) -> Vec<u8> {
    let mut w = writer(node);
    w.peer(m.peer);
    optional(&mut w, 8, m.stamp.map(|t| t.0.to_be_bytes()).as_ref().map(|b| &b[..]));
    w.flag(m.silence.is_some());
    match &m.silence {
        None => padded(&mut w, 287, &[]),
        Some(s) => {
            optional(&mut w, 8, s.epoch.as_ref().map(|e| &e[..]));
            w.u32(s.count).u64(s.last.0);
            optional(&mut w, 8, s.until.map(|t| t.0.to_be_bytes()).as_ref().map(|b| &b[..]));
            places(&mut w, 8, 32, s.counted.iter().map(|d| d.0.to_vec()).collect());
        }
    }
    let replays = m.replays.iter().map(|(d, at)| [&d.0[..], &at.0.to_be_bytes()].concat());
    places(&mut w, 8, 40, replays.collect());
    w.bytes
}

//! Runs of calls about one peer that lead up to a judgement of the gates or
//! through a dial's resends, with the clock on, just before or just after the
//! time that decides; and runs of peers that come from one pair.

use crate::dump::nanos;
use crate::proto::settle::params::Params;
use crate::random::Random;

#[derive(Clone, Copy)]
pub enum Item {
    /// The clock goes on by so much.
    Wait(u64),
    /// The clock goes to one of the next times that decide something.
    Due,
    /// The clock goes to the end of the peer's refusal.
    Over,
    /// The same, or just before.
    Until,
    /// The clock goes to where the peer's silence is forgotten, or just before.
    Horizon,
    /// The clock goes to the next wake.
    Woken,
    Dial,
    /// The last dial's msg2, mostly at the epoch on record.
    Msg2,
    /// The same at the epoch that was planned, or at the next.
    OwnMsg2 { next: bool },
    /// A msg1 at the epoch that was planned, whatever the holder's.
    Former,
    /// A msg1 of a peer that no other item is about.
    Other,
    Poll,
    Wake,
    Heard,
    /// A msg1, or a replacement; at the epoch on record, or at another.
    Hello { replacement: bool, restart: bool, fresh: bool },
    /// The last answer or msg1 is sent.
    Sent,
    Remove,
    /// Another peer, which is not held and has no leg if there is one.
    Next,
    /// A msg1, or a replacement, from the planned pair.
    Again { replacement: bool },
    /// The peer's dial completes.
    Completed,
    /// The peer's answer is sent.
    Answered,
    /// A link with an answer, mostly the newest, has a path at the planned pair.
    Reach,
    /// The newest link with an answer releases the planned pair.
    Leave,
    /// A msg1 arrives from the planned pair, and may then be read.
    Ask { read: bool },
}

/// Holders end unheard until the factor of the refusal no longer fits.
pub fn long_silence(r: &mut Random) -> Vec<Item> {
    let mut items = Vec::new();
    for _ in 0..30 {
        items.extend([Item::Over, new_peer(r, 100), Item::Sent, Item::Remove]);
    }
    for _ in 0..16 {
        items.extend([Item::Until, new_peer(r, 100), Item::Sent, Item::Remove]);
    }
    items
}

/// Holders end unheard until msg1s are refused, answers to others wait up to
/// the limit, and the peer asks: not held, held by its own dial, and at the end
/// of its refusal. Then the answers are reaped.
pub fn crowd(p: &Params, r: &mut Random) -> Vec<Item> {
    let mut items = Vec::new();
    for _ in 0..u64::from(p.silent.max(1)) + r.below(2) {
        items.extend([Item::Over, new_peer(r, 100), Item::Sent, Item::Remove]);
    }
    items.extend(vec![Item::Other; p.pending.min(8) + r.index(2) - r.index(2)]);
    items.extend([new_peer(r, 60), hello(r, true), new_peer(r, 60)]);
    if r.chance(50) {
        items.extend([Item::Until, new_peer(r, 60)]);
    }
    let next = r.chance(40);
    items.extend([Item::Dial, Item::OwnMsg2 { next }]);
    if next {
        items.push(Item::Former);
    }
    for _ in 0..2 + r.below(3) {
        items.push(Item::Hello { replacement: r.chance(75), restart: r.chance(20), fresh: r.chance(60) });
    }
    if r.chance(50) {
        items.extend([Item::Until, Item::Hello { replacement: true, restart: false, fresh: r.chance(60) }]);
    }
    items.extend([Item::Remove, Item::Wait(nanos(p.handshake)), Item::Poll]);
    items
}

/// Peers come from one pair, one after another, so that several links there
/// have answers: waiting, sent, or by a path. Msg1s come from it meanwhile and
/// after. Then, mostly, the answers are reaped.
pub fn reconnects(p: &Params, r: &mut Random) -> Vec<Item> {
    let mut items = Vec::new();
    for _ in 0..2 + r.below(3) {
        let (sent, again) = (r.chance(60), Item::Again { replacement: r.chance(70) });
        items.push(Item::Next);
        items.extend(if sent { vec![Item::Dial, again, Item::Completed, Item::Answered] } else { vec![again] });
        if r.chance(30) {
            items.extend([Item::Next, Item::Former, Item::Reach]);
        }
        if r.chance(40) {
            items.push(ask(r));
        }
    }
    for _ in 0..2 + r.below(4) {
        items.push(ask(r));
        items.push(match r.below(4) {
            0 => Item::Leave,
            1 => Item::Reach,
            2 => Item::Answered,
            _ => ask(r),
        });
    }
    if r.chance(70) {
        items.extend([Item::Wait(nanos(p.handshake)), Item::Poll]);
    }
    items
}

fn ask(r: &mut Random) -> Item {
    Item::Ask { read: r.chance(40) }
}

pub fn draw(p: &Params, r: &mut Random) -> Vec<Item> {
    if r.chance(if p.resends > 30 { 60 } else { 20 }) {
        return resends(p, r);
    }
    let mut items = vec![hello(r, false), Item::Sent];
    match r.below(4) {
        0 => damp(p, r, &mut items),
        1 => silence(p, r, &mut items),
        2 => cross(p, r, &mut items),
        _ => replays(p, r, &mut items),
    }
    items
}

/// Each resend sent when it is due, up to the count and past it.
fn resends(p: &Params, r: &mut Random) -> Vec<Item> {
    let mut items = vec![Item::Dial, Item::Wake];
    if p.resends > 30 {
        items.extend(vec![Item::Sent; 29 + r.index(5)]);
        items.push(Item::Wake);
    }
    for _ in 0..p.resends.min(6) + 1 {
        items.extend([Item::Woken, Item::Poll]);
        if r.chance(90) {
            items.push(Item::Sent);
        }
        items.push(Item::Wake);
    }
    items
}

/// The unheard holder's dial completes: it moves, keeps or is replaced.
fn cross(p: &Params, r: &mut Random, items: &mut Vec<Item>) {
    items.extend([Item::Dial, Item::Msg2]);
    items.push(near(nanos(p.unheard), r));
    items.push(hello(r, true));
    if r.chance(50) {
        items.push(Item::Sent);
    }
    items.extend([Item::Remove, new_peer(r, 90)]);
}

/// A heard holder gives way, then an unheard one soon after.
fn damp(p: &Params, r: &mut Random, items: &mut Vec<Item>) {
    items.push(Item::Heard);
    items.push(near(nanos(p.interval), r));
    items.extend([hello(r, true), Item::Sent]);
    items.push(near(nanos(p.unheard), r));
    items.push(hello(r, true));
    items.push(near(nanos(p.interval).saturating_sub(nanos(p.unheard)), r));
    items.push(hello(r, true));
}

/// Holders end unheard until msg1s are refused, and once that is over.
fn silence(p: &Params, r: &mut Random, items: &mut Vec<Item>) {
    items.push(Item::Remove);
    let fresh = 30 + 60 * r.below(2);
    for _ in 0..u64::from(p.silent.min(6)) + r.below(4) {
        items.extend([new_peer(r, fresh), Item::Sent, Item::Remove]);
    }
    items.push(new_peer(r, fresh));
    for _ in 0..3 {
        items.push(if r.chance(50) { Item::Until } else { Item::Horizon });
        items.extend([new_peer(r, fresh), Item::Sent, Item::Remove, new_peer(r, fresh)]);
    }
}

/// Unheard holders give way to each other up to the limit and past it.
fn replays(p: &Params, r: &mut Random, items: &mut Vec<Item>) {
    for _ in 0..p.replays.min(8) as u64 + r.below(3) {
        if r.chance(50) {
            items.push(Item::Remove);
        } else {
            items.push(near(nanos(p.unheard), r));
        }
        items.extend([hello(r, true), Item::Sent]);
    }
    for _ in 0..2 {
        items.extend([Item::Due, hello(r, true), hello(r, true), Item::Sent]);
    }
}

fn hello(r: &mut Random, restart: bool) -> Item {
    Item::Hello { replacement: r.chance(30), restart: restart && r.chance(80), fresh: r.chance(75) }
}

fn new_peer(r: &mut Random, fresh: u64) -> Item {
    Item::Hello { replacement: r.chance(15), restart: false, fresh: r.chance(fresh) }
}

fn near(span: u64, r: &mut Random) -> Item {
    match r.below(5) {
        0 => Item::Wait(span.saturating_sub(1)),
        1 => Item::Wait(span.saturating_add(1)),
        _ => Item::Wait(span),
    }
}

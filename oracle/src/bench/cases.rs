//! What is measured: a table to begin with, and a run of calls that leaves
//! it as it was, but for link numbers, leases, digests and the clock.

use super::world::{Limits, SECOND, World, pair};

pub struct Case {
    /// In one word, for --count.
    pub key: &'static str,
    pub name: &'static str,
    /// The calls of one turn.
    pub calls: usize,
    /// The kinds of outputs of each call of a turn; none: not said.
    pub told: &'static [&'static [u8]],
    pub setup: fn(usize) -> World,
    pub turn: fn(&mut World),
}

/// No peer of the table.
const STRANGER: usize = 200;

/// So many held links with four paths each.
fn held(links: usize) -> World {
    let mut w = World::new(None);
    w.hold_all(links);
    w
}

/// The same where a turn opens a link more.
fn below(links: usize) -> World {
    held(links.min(31))
}

/// One of the links has no path: its peer comes and goes. It is number 0.
fn bare(links: usize) -> World {
    let mut w = World::new(None);
    w.hold();
    w.hold_all(links - 1);
    w
}

/// One answer may wait, and does, beside the held links.
fn full(links: usize) -> World {
    let mut w = World::new(Some(Limits { resends: 5, pending: 1 }));
    w.hold_all(links.min(31));
    w.answered(STRANGER);
    w
}

/// One of the links is a leg of a stranger, link 1: a dial, or an answer.
fn leg(links: usize, dial: bool, endless: bool) -> World {
    let mut w = World::new(endless.then_some(Limits { resends: u32::MAX, pending: 1000 }));
    if dial {
        w.dial(STRANGER);
    } else {
        w.answered(STRANGER);
    }
    w.hold_all(links - 1);
    w
}

/// The same where the leg, an answer, is the newest link.
fn newest(links: usize) -> World {
    let mut w = World::new(None);
    w.hold_all(links - 1);
    w.answered(STRANGER);
    w
}

fn due(links: usize) -> World {
    let mut w = leg(links, true, false);
    w.now += 2 * SECOND;
    w
}

/// Every link is a dial in flight.
fn legs(links: usize) -> World {
    let mut w = World::new(None);
    for i in 0..links {
        w.dial(STRANGER + i);
    }
    w
}

fn dialed(w: &mut World) {
    let link = w.dial(STRANGER);
    w.abandon(link);
}

fn answered(w: &mut World) {
    let link = w.answered(STRANGER);
    w.abandon(link);
}

fn rekey(w: &mut World) {
    let (no, at) = (w.some(), w.r.index(4));
    w.msg1(no, &pair(no, at), 1);
}

fn restart(w: &mut World) {
    let no = w.some();
    w.msg1(no, &pair(no, 0), 2);
}

fn replaced(w: &mut World) {
    let no = w.some();
    w.replacement(no, &pair(no, 0), 1);
}

fn unknown(w: &mut World) {
    w.msg1(STRANGER + 1, &pair(STRANGER + 1, 0), 1);
}

fn installed(w: &mut World) {
    let link = w.dial(STRANGER);
    w.msg2(STRANGER, link);
    w.remove(STRANGER, 7);
}

fn restarted(w: &mut World) {
    let no = w.some();
    w.known[no].epoch += 1;
    w.restarted(no, w.known[no].epoch);
}

fn heard(w: &mut World) {
    let no = w.some();
    w.heard_at_home(no);
}

fn roams(w: &mut World) {
    let no = w.some();
    w.roams(no);
}

fn path(w: &mut World) {
    let (no, at) = (w.some(), w.r.index(4));
    w.turn_path(no, at);
}

fn released(w: &mut World) {
    let no = w.some();
    let (link, at) = (w.known[no].link, 1 + w.r.index(3));
    w.release(link, &pair(no, at));
    w.path(link, &pair(no, at), 0);
}

const CLOSED: &[u8] = &[7, 8];

/// By kind. Close is apart: nothing brings its table back.
pub const CASES: &[Case] = &[
    case("dial", "dial, abandon", &[&[1], &[11, 8]], below, dialed),
    case("stored", "arrived: stored answer, oldest link", &[&[2]], |n| leg(n, false, false), |w| w.arrived(&pair(STRANGER, 0))),
    case("stored-newest", "arrived: stored answer, newest link", &[&[2]], newest, |w| w.arrived(&pair(STRANGER, 0))),
    case("nothing", "arrived: nothing", &[&[]], held, |w| w.arrived(&pair(STRANGER, 0))),
    case("rekey", "msg1: Rekey", &[&[4, 11]], held, rekey),
    case("reject", "msg1: Reject", &[&[13, 11]], held, restart),
    case("answer", "msg1: fresh answer, abandon", &[&[2], &[11, 8]], below, answered),
    case("replacement", "replacement: Reject", &[&[13, 11]], held, replaced),
    case("full", "msg1: Reject for Full", &[&[13, 11]], full, unknown),
    case("full-restart", "msg1 (Restart): Reject for Full", &[&[13, 11]], full, restart),
    case("full-replacement", "replacement: Reject for Full", &[&[13, 11]], full, replaced),
    case("sent", "sent on a dial", &[&[]], |n| leg(n, true, true), |w| w.sent(1)),
    case("unsent", "unsent on an answer", &[&[]], |n| leg(n, false, false), |w| w.unsent(1)),
    case("msg2", "dial, msg2, remove", &[&[1], &[5, 6], CLOSED], below, installed),
    case("restarted", "restarted", &[&[6]], held, restarted),
    case("heard", "heard, same pair", &[&[]], held, heard),
    case("roam", "heard, roaming", &[&[6]], held, roams),
    case("remove", "remove, msg1, sent, heard", &[&[7, 8, 12], &[2], &[5, 6], &[]], bare, |w| w.comes_back(0)),
    case("poll", "poll, no leg", &[&[]], held, World::poll),
    case("poll-legs", "poll, all legs, none due", &[&[]], legs, World::poll),
    case("resend", "poll with a resend", &[&[3]], due, World::poll),
    case("wake", "wake, no leg", &[&[14]], held, World::wake),
    case("wake-legs", "wake, all legs", &[&[14]], legs, World::wake),
    case("path", "path, state change", &[&[]], held, path),
    case("release", "release, path again", &[&[9], &[]], held, released),
];

const fn case(
    key: &'static str,
    name: &'static str,
    told: &'static [&'static [u8]],
    setup: fn(usize) -> World,
    turn: fn(&mut World),
) -> Case {
    Case { key, name, calls: told.len(), told, setup, turn }
}

pub const CLOSE: Case = Case { key: "close", name: "close", calls: 1, told: &[], setup: held, turn: World::close };

/// 200 calls: 140 heard (2 roaming), 30 poll, 10 wake, 8 path, 8 msg1 (5
/// Rekey, 2 Reject, 1 fresh), and a sent, remove, dial and abandon. One dial
/// is in flight throughout; one peer goes, comes back and gets its four paths
/// again.
pub const MIXED: Case = Case { key: "mixed", name: "mixed traffic", calls: 200, told: &[], setup: below, turn: deck };

fn deck(w: &mut World) {
    let dial = w.dial(STRANGER);
    let gone = (w.turn as usize) % w.known.len();
    w.turn += 1;
    w.comes_back(gone);
    for act in shuffled(w) {
        match act {
            Act::Heard => heard(w),
            Act::Roam => roams(w),
            Act::Poll => w.poll(),
            Act::Wake => w.wake(),
            Act::Path if w.known[gone].paths < 4 => w.add_path(gone),
            Act::Path => path(w),
            Act::Rekey => rekey(w),
            Act::Reject => restart(w),
        }
    }
    w.abandon(dial);
}

#[derive(Clone, Copy)]
enum Act {
    Heard,
    Roam,
    Poll,
    Wake,
    Path,
    Rekey,
    Reject,
}

fn shuffled(w: &mut World) -> Vec<Act> {
    let counts = [
        (Act::Heard, 137),
        (Act::Roam, 2),
        (Act::Poll, 30),
        (Act::Wake, 10),
        (Act::Path, 8),
        (Act::Rekey, 5),
        (Act::Reject, 2),
    ];
    let mut acts: Vec<Act> = counts.iter().flat_map(|(a, n)| std::iter::repeat_n(*a, *n)).collect();
    for i in (1..acts.len()).rev() {
        acts.swap(i, w.r.index(i + 1));
    }
    acts
}

//! Random tapes. The reference runs alongside, so that most calls name
//! links, peers, pairs and epochs that are live, and clock readings fall on
//! and beside the times that decide something.

use std::collections::VecDeque;

use crate::damage;
use crate::dump::nanos;
use crate::identity::NodeAddr;
use crate::node::Node;
use crate::proto::settle::gates::Epoch;
use crate::proto::settle::legs::{Kind, Leg};
use crate::proto::settle::links::{LinkNo, Pair};
use crate::plan::{self, Item};
use crate::profile::{self, Pace, Profile, Settings};
use crate::random::Random;
use crate::record::{NEW, VERSION};
use crate::proto::settle::output::Output;
use crate::tape::{Step, Tape};
use crate::time::Clock;
use crate::transport::{TransportAddr, TransportId};
use crate::write::{Writer, framed};

/// A tape of the profile `name`: the same for the same seed and number of
/// calls.
pub fn tape(name: &str, seed: u64, calls: Option<usize>) -> Option<Vec<u8>> {
    let mut r = Random::new(seed);
    let profile = profile::named(name, &mut r)?;
    let calls = calls.unwrap_or(profile.calls);
    if profile.damage > 0 && r.chance(4) {
        return Some(Vec::new());
    }
    let mut g = Generator::new(r, profile);
    let mut bytes = Vec::new();
    let mut record = g.new_record();
    for _ in 0..=calls {
        if g.r.chance(g.profile.damage) && (!bytes.is_empty() || g.r.chance(40)) {
            record = damage::record(&record, &mut g.r);
        }
        let steps = g.tape.feed(&record);
        bytes.extend(&record);
        record = g.next(&steps);
    }
    if g.profile.damage > 0 && g.r.chance(40) {
        let keep = bytes.len() - g.r.index(bytes.len().min(60));
        bytes.truncate(keep);
    }
    Some(bytes)
}

struct Generator {
    r: Random,
    profile: Profile,
    tape: Tape,
    now: u64,
    lease: u32,
    /// A run of calls about one peer, while it lasts.
    plan: VecDeque<Item>,
    about: NodeAddr,
    /// The pair of a run of peers.
    here: Pair,
    epoch_planned: u64,
    made: u8,
}

impl Generator {
    fn new(r: Random, profile: Profile) -> Self {
        let tape = Tape::default();
        let (plan, about, here) = (VecDeque::new(), peer_no(1), own_pair(0));
        Generator { r, profile, tape, now: 0, lease: 0, plan, about, here, epoch_planned: 0, made: 0 }
    }

    // ---- new

    fn new_record(&mut self) -> Vec<u8> {
        self.now = self.start();
        let mut w = self.begin();
        let me = peer_no(self.r.pick(&[0, 2, 2, 255]).unwrap_or(0));
        let first = match self.profile.near_last {
            Some(n) => u64::MAX - n,
            None => self.r.pick(&[0, 1, 1, 2, 1000, u64::from(u32::MAX), 1 << 63]).unwrap_or(0),
        };
        w.peer(me).u64(first);
        if self.profile.settings == Settings::Default {
            w.byte(0);
        } else {
            w.byte(1);
            self.settings(&mut w);
        }
        finish(NEW, w)
    }

    fn start(&mut self) -> u64 {
        if let Some(left) = self.profile.clock_left {
            return u64::MAX - left;
        }
        match self.profile.pace {
            Pace::Wild => self.wild(),
            Pace::Near | Pace::Slow => self.r.pick(&[0, 0, 1, 1_000_000_000, 1 << 40]).unwrap_or(0),
        }
    }

    fn settings(&mut self, w: &mut Writer) {
        let kind = self.profile.settings;
        for i in 0..7 {
            let n = self.span(kind, i);
            w.u64(n);
        }
        let (silent, resends) = match kind {
            Settings::Extreme => (self.end32(), self.end32()),
            Settings::Gates => (self.r.below(3) as u32, self.r.below(5) as u32),
            Settings::Reconnects => (1000, self.r.below(5) as u32),
            _ => (self.r.below(4) as u32, self.r.below(5) as u32),
        };
        let (replays, counted) = match kind {
            Settings::Extreme if self.r.chance(30) => self.limits(),
            _ if self.r.chance(3) => self.limits(),
            _ => (self.r.below(9).min(self.r.below(9)), 1 + self.r.below(8).min(self.r.below(8))),
        };
        let pending = match kind {
            Settings::Long => self.r.pick(&[1000, 1000, 1000, 40, 31, 16]).unwrap_or(0),
            Settings::Silences => 1000,
            Settings::Crowded => 1 + self.r.below(4),
            Settings::Reconnects => self.r.pick(&[1000, 1000, 5, 3]).unwrap_or(0),
            Settings::Extreme => self.r.pick(&[0, 1, 2, 3, u64::MAX]).unwrap_or(0),
            Settings::Gates => self.r.pick(&[2, 5, 1000, 1000]).unwrap_or(0),
            _ => self.r.pick(&[0, 1, 2, 3, 3, 1000, 1000, u64::MAX]).unwrap_or(0),
        };
        w.u32(silent).u32(resends).byte(replays as u8).byte(counted as u8).u64(pending);
    }

    /// Replays and counted at and past their limits.
    fn limits(&mut self) -> (u64, u64) {
        let replays = self.r.pick(&[0, 1, 8, 8, 9, 255]).unwrap_or(0);
        (replays, self.r.pick(&[0, 0, 1, 8, 8, 9, 255]).unwrap_or(0))
    }

    /// One of the seven intervals.
    fn span(&mut self, kind: Settings, i: usize) -> u64 {
        match kind {
            Settings::Long if i == 5 => 1 << 50,
            Settings::Long => self.r.below(1000),
            Settings::Extreme if i == 5 && self.r.chance(40) => u64::MAX >> 1,
            Settings::Extreme if i == 6 && self.r.chance(40) => 1 + self.r.below(4),
            Settings::Extreme => self.wild(),
            Settings::Silences if i == 0 => 0,
            Settings::Silences if i == 1 => self.r.below(40),
            Settings::Silences if i == 2 => 1 + self.r.below(3),
            Settings::Silences if i == 3 => self.r.pick(&[5, 1 << 33, 1 << 40, u64::MAX]).unwrap_or(0),
            Settings::Silences => 1 << 50,
            Settings::Crowded if i == 2 => 100 + self.r.below(1000),
            Settings::Crowded if i == 3 => 1 << 20,
            Settings::Crowded | Settings::Reconnects if i == 5 => 1 << 12,
            Settings::Gates if i == 2 => 2 + self.r.below(30),
            Settings::Gates if i == 3 => self.r.below(200),
            Settings::Gates if i == 4 => self.r.below(80),
            _ if i == 5 => 10 + self.r.below(400),
            _ if i == 0 => self.r.below(12),
            _ if i == 1 => 4 + self.r.below(40),
            _ => self.r.below(30),
        }
    }

    fn end32(&mut self) -> u32 {
        self.r.pick(&[0, 1, 2, 5, 31, 32, 33, u32::MAX - 1, u32::MAX]).unwrap_or(0)
    }

    /// A value near an end, near the ceiling, or anywhere.
    fn wild(&mut self) -> u64 {
        let ceiling = 100 * 365 * 24 * 60 * 60 * 1_000_000_000;
        let near = self.r.below(5);
        match self.r.below(8) {
            0 => 0,
            1 => near,
            2 => u64::MAX - near,
            3 => u64::MAX - ceiling + near,
            4 => ceiling - 2 + near,
            5 => u64::MAX >> self.r.below(64),
            6 => 1_000_000_000 * near,
            _ => self.r.next(),
        }
    }

    // ---- calls

    /// What is planned, the sending of a fresh answer (or its failure), or any
    /// call.
    fn next(&mut self, steps: &[Step]) -> Vec<u8> {
        let first = self.made == 0 && self.lease == 0 && self.profile.settings == Settings::Extreme;
        let chance = if first { 50 } else { self.profile.plan };
        if self.plan.is_empty() && self.r.chance(chance) {
            self.about = self.peer();
            self.epoch_planned = self.r.below(self.profile.epochs);
            if self.profile.settings == Settings::Reconnects {
                self.here = self.pair();
            }
            if let Some(node) = &self.tape.node {
                self.plan = match self.profile.settings {
                    Settings::Silences => plan::long_silence(&mut self.r),
                    Settings::Crowded => plan::crowd(node.table.params(), &mut self.r),
                    Settings::Reconnects => plan::reconnects(node.table.params(), &mut self.r),
                    _ => plan::draw(node.table.params(), &mut self.r),
                }
                .into();
            }
        }
        while let Some(item) = self.plan.pop_front() {
            if let Some(record) = self.planned(item) {
                return record;
            }
        }
        let outputs = steps.iter().flat_map(|s| s.result.iter().flatten());
        let fresh = outputs.filter_map(|o| match o {
            Output::Answer { link, stored: false, .. } => Some(*link),
            _ => None,
        });
        match fresh.last() {
            Some(link) if self.r.chance(self.profile.follow) => {
                let mut w = self.begin();
                w.link(link);
                finish(if self.r.chance(12) { 7 } else { 6 }, w)
            }
            _ => self.call(),
        }
    }

    /// The record of a plan's item, unless it only moves the clock.
    fn planned(&mut self, item: Item) -> Option<Vec<u8>> {
        if let Some(now) = self.planned_time(item) {
            self.now = now;
            return None;
        }
        if let Item::Next = item {
            self.about = self.newcomer();
            return None;
        }
        let (mut w, about) = (self.begin(), self.about);
        let kind = match item {
            Item::Dial => {
                self.dial(&mut w, about);
                1
            }
            Item::Msg2 => {
                let same = if self.r.chance(80) { 100 } else { 0 };
                let (epoch, from) = (self.epoch(about, same), self.pair());
                w.link(self.last_link()).run(&epoch).pair(&from);
                8
            }
            Item::OwnMsg2 { next } => {
                let from = self.pair();
                w.link(self.last_link()).u64(self.epoch_planned + u64::from(next)).pair(&from);
                8
            }
            Item::Other => {
                let other = peer_no(OTHERS + u64::from(self.made % 8));
                self.planned_hello(&mut w, other, self.epoch_planned, true);
                w.flag(self.r.chance(50));
                4
            }
            Item::Former => {
                self.planned_hello(&mut w, about, self.epoch_planned, true);
                w.flag(self.r.chance(50));
                4
            }
            Item::Poll => 12,
            Item::Wake => 16,
            Item::Heard => {
                let from = self.pair();
                w.peer(about).pair(&from);
                10
            }
            Item::Remove => {
                w.peer(about).byte(self.r.below(9) as u8);
                11
            }
            Item::Hello { replacement, restart, fresh } => {
                let held = self.node().and_then(|n| Some(n.table.held(&about)?.epoch));
                let epoch = held.map_or(self.epoch_planned, u64::from_be_bytes);
                self.planned_hello(&mut w, about, epoch.wrapping_add(restart.into()), fresh);
                if !replacement {
                    w.flag(self.r.chance(50));
                }
                if replacement { 5 } else { 4 }
            }
            Item::Sent => self.planned_sent(&mut w),
            _ => self.planned_here(item, &mut w),
        };
        Some(finish(kind, w))
    }

    /// The items of a run of peers at one pair.
    fn planned_here(&mut self, item: Item, w: &mut Writer) -> u8 {
        let (about, here) = (self.about, self.here.clone());
        match item {
            Item::Again { replacement } => {
                self.hello_from(w, about, &here, self.epoch_planned, true);
                if !replacement {
                    w.flag(self.r.chance(50));
                }
                if replacement { 5 } else { 4 }
            }
            Item::Completed => {
                let from = self.pair();
                w.link(self.leg_of(about, true)).u64(self.epoch_planned).pair(&from);
                8
            }
            Item::Answered => {
                w.link(self.leg_of(about, false));
                6
            }
            Item::Reach => {
                let newest = self.r.chance(60);
                let link = if newest { self.newest_answer() } else { self.link_no(Wants::AnswerOnly) };
                w.link(link).pair(&here).byte(self.r.weighed(&[4, 2, 3]) as u8);
                14
            }
            Item::Leave => {
                w.link(self.newest_answer()).pair(&here).flag(self.r.chance(30));
                15
            }
            Item::Ask { read: true } => {
                let (peer, epoch) = (self.peer(), self.epoch_planned);
                self.hello_from(w, peer, &here, epoch, true);
                w.flag(self.r.chance(50));
                4
            }
            _ => {
                w.pair(&here);
                self.message(w);
                3
            }
        }
    }

    /// A peer that is not held and has no leg, if one is soon drawn.
    fn newcomer(&mut self) -> NodeAddr {
        let mut peer = self.peer();
        for _ in 0..8 {
            let known = self.node().is_some_and(|n| {
                n.table.held(&peer).is_some() || n.table.legs().all().any(|l| l.peer() == Some(peer))
            });
            if known {
                peer = self.peer();
            }
        }
        peer
    }

    /// The last leg of the peer, a dial or an answer; without one the last link.
    fn leg_of(&self, peer: NodeAddr, dial: bool) -> LinkNo {
        let its = |l: &&Leg<Clock>| l.peer() == Some(peer) && (*l.kind() == Kind::Dial) == dial;
        let leg = self.node().and_then(|n| n.table.legs().all().filter(its).last());
        leg.map_or(self.last_link(), |l| l.link())
    }

    /// The newest link with an answer, without one the last.
    fn newest_answer(&self) -> LinkNo {
        let answers = |l: &&Leg<Clock>| *l.kind() != Kind::Dial;
        let leg = self.node().and_then(|n| n.table.legs().all().filter(answers).last());
        leg.map_or(self.last_link(), |l| l.link())
    }

    fn planned_time(&mut self, item: Item) -> Option<u64> {
        match item {
            Item::Wait(by) => Some(self.now.saturating_add(by)),
            Item::Due => Some(self.later_due()),
            Item::Over => Some(self.silence_end(false)),
            Item::Until => Some(self.silence_end(false).saturating_sub(self.r.chance(35).into())),
            Item::Horizon => Some(self.silence_end(true).saturating_sub(self.r.chance(35).into())),
            Item::Woken => {
                let at = self.node().and_then(|n| n.table.next_wake());
                Some(at.map_or(self.now, |t| t.0))
            }
            _ => None,
        }
    }

    /// The last link is sent; now and then that fails first.
    fn planned_sent(&mut self, w: &mut Writer) -> u8 {
        w.link(self.last_link());
        if self.r.chance(4) {
            self.plan.push_front(Item::Sent);
            return 7;
        }
        6
    }

    fn last_link(&self) -> LinkNo {
        let opened = self.node().map_or(0, |n| n.table.links().opened());
        LinkNo(opened.wrapping_sub(1))
    }

    /// A msg1 that no stored answer swallows: it comes from a pair of its own.
    fn planned_hello(&mut self, w: &mut Writer, peer: NodeAddr, epoch: u64, fresh: bool) {
        let from = own_pair(self.made.wrapping_add(1));
        self.hello_from(w, peer, &from, epoch, fresh);
    }

    fn hello_from(&mut self, w: &mut Writer, peer: NodeAddr, from: &Pair, epoch: u64, fresh: bool) {
        self.made = self.made.wrapping_add(1);
        let mut digest = self.digest();
        if fresh {
            digest[30] = self.made;
        }
        w.peer(peer).pair(from);
        self.message(w);
        w.run(&digest).u64(epoch);
        self.message(w);
        self.take_lease(w);
    }

    fn call(&mut self) -> Vec<u8> {
        self.now = self.tick();
        let kind = self.r.weighed(&self.profile.weights) as u8 + 1;
        let mut w = self.begin();
        match kind {
            1 => {
                let peer = self.peer();
                self.dial(&mut w, peer);
            }
            2 => self.link(&mut w, Wants::Leg),
            3 => self.arrived(&mut w),
            4 => self.hello(&mut w, true),
            5 => self.hello(&mut w, false),
            6 => self.link(&mut w, Wants::Answer),
            7 => self.link(&mut w, Wants::Unsent),
            8 => self.msg2(&mut w),
            9 => self.restarted(&mut w),
            10 => self.heard(&mut w),
            11 => self.remove(&mut w),
            14 => self.path(&mut w),
            15 => self.release(&mut w),
            _ => {}
        }
        finish(kind, w)
    }

    fn begin(&self) -> Writer {
        let mut w = Writer { bytes: Vec::new(), first: self.tape.first() };
        w.u64(self.now);
        w
    }

    fn dial(&mut self, w: &mut Writer, peer: NodeAddr) {
        let to = self.pair();
        w.peer(peer).pair(&to);
        self.message(w);
        self.take_lease(w);
    }

    fn arrived(&mut self, w: &mut Writer) {
        let from = self.answered_pair();
        w.pair(&from);
        self.message(w);
    }

    fn hello(&mut self, w: &mut Writer, flag: bool) {
        let peer = self.peer();
        let from = if self.r.chance(15) { self.answered_pair() } else { self.pair() };
        w.peer(peer).pair(&from);
        self.message(w);
        let digest = self.digest();
        let epoch = self.epoch(peer, if flag { self.profile.same } else { 75 });
        w.run(&digest).run(&epoch);
        self.message(w);
        self.take_lease(w);
        if flag {
            w.flag(self.r.chance(50));
        }
    }

    fn link(&mut self, w: &mut Writer, wants: Wants) {
        let link = self.link_no(wants);
        w.link(link);
    }

    fn msg2(&mut self, w: &mut Writer) {
        let link = self.link_no(Wants::Dial);
        let peer = self.node().and_then(|n| n.table.legs().get(link)?.peer());
        let peer = peer.unwrap_or(peer_no(9));
        let epoch = self.epoch(peer, 70);
        let from = self.pair();
        w.link(link).run(&epoch).pair(&from);
    }

    fn restarted(&mut self, w: &mut Writer) {
        let peer = self.held_peer();
        let epoch = self.epoch(peer, 40);
        w.peer(peer).run(&epoch);
    }

    fn heard(&mut self, w: &mut Writer) {
        let peer = self.held_peer();
        let current = self.node().and_then(|n| Some(n.table.held(&peer)?.current.clone()));
        let from = match current {
            Some(p) if self.r.chance(50) => p,
            _ => self.pair(),
        };
        w.peer(peer).pair(&from);
    }

    fn remove(&mut self, w: &mut Writer) {
        let peer = self.held_peer();
        let why = self.r.below(9) as u8;
        w.peer(peer).byte(why);
    }

    fn path(&mut self, w: &mut Writer) {
        let link = self.path_link();
        let pair = self.pair();
        let state = self.r.weighed(&[4, 2, 3]) as u8;
        w.link(link).pair(&pair).byte(state);
    }

    fn release(&mut self, w: &mut Writer) {
        let link = self.path_link();
        let own = self.node().and_then(|n| {
            let rec = n.table.links().get(link)?;
            Some(rec.paths.iter().map(|(p, _)| p.clone()).chain([rec.setup.clone()]).collect())
        });
        let own: Vec<Pair> = own.unwrap_or_default();
        let pair = match self.r.pick(&own) {
            Some(p) if self.r.chance(80) => p,
            _ => self.pair(),
        };
        w.link(link).pair(&pair).flag(self.r.chance(30));
    }

    // ---- names

    fn node(&self) -> Option<&Node> {
        self.tape.node.as_ref()
    }

    /// A peer of the pool, which has names below and above `me`.
    fn peer(&mut self) -> NodeAddr {
        let mut peer = peer_no(1 + self.r.below(self.profile.peers));
        if self.r.chance(self.profile.fresh) {
            let places = self.node().map(|n| n.places()).unwrap_or_default();
            for _ in 0..8 {
                if places.contains(&peer) {
                    peer = peer_no(1 + self.r.below(self.profile.peers));
                }
            }
        }
        peer
    }

    fn held_peer(&mut self) -> NodeAddr {
        let held: Vec<NodeAddr> =
            self.node().map(|n| n.table.holders().keys().copied().collect()).unwrap_or_default();
        match self.r.pick(&held) {
            Some(p) if self.r.chance(92) => p,
            _ => self.peer(),
        }
    }

    fn pair(&mut self) -> Pair {
        let n = self.r.below(self.profile.pairs);
        let addr = match n % 8 {
            0 => Vec::new(),
            6 if self.r.chance(30) => vec![7; 48],
            _ => vec![n as u8; 1 + (n % 3) as usize],
        };
        Pair { transport: TransportId((n % 5) as u32), addr: TransportAddr(addr) }
    }

    /// The setup of an answer leg, mostly.
    fn answered_pair(&mut self) -> Pair {
        let link = self.link_no(Wants::AnswerOnly);
        let setup = self.node().and_then(|n| Some(n.table.links().get(link)?.setup.clone()));
        match setup {
            Some(p) if self.r.chance(80) => p,
            _ => self.pair(),
        }
    }

    fn epoch(&mut self, peer: NodeAddr, same: u64) -> Epoch {
        let held = self.node().and_then(|n| Some(n.table.held(&peer)?.epoch));
        match held {
            Some(e) if self.r.chance(same) => e,
            _ => self.r.below(self.profile.epochs).to_be_bytes(),
        }
    }

    fn digest(&mut self) -> [u8; 32] {
        let mut d = [0; 32];
        d[31] = self.r.below(self.profile.digests) as u8;
        d
    }

    fn message(&mut self, w: &mut Writer) {
        let n = self.r.below(self.profile.messages) as u8;
        let length = if self.r.chance(1) { 128 } else { usize::from(n % 5) };
        w.message(&vec![n; length]);
    }

    fn take_lease(&mut self, w: &mut Writer) {
        self.lease += 1;
        w.u32(if self.r.chance(2) { u32::MAX } else { self.lease });
    }

    /// A link that suits the call, mostly; now and then one that is not live.
    fn link_no(&mut self, wants: Wants) -> LinkNo {
        let legs = self.node().map(|n| wants.among(n)).unwrap_or_default();
        match self.r.pick(&legs) {
            Some(link) if self.r.chance(94) => link,
            _ => self.stray_link(),
        }
    }

    /// Any live link, the busiest first in half of the draws.
    fn path_link(&mut self) -> LinkNo {
        let Some(n) = self.node() else {
            return LinkNo(0);
        };
        let mut links: Vec<(usize, LinkNo)> =
            n.table.links().recs().iter().map(|(l, r)| (r.paths.len(), *l)).collect();
        links.sort();
        if self.r.chance(50) && let Some((_, link)) = links.last() {
            return *link;
        }
        match self.r.pick(&links) {
            Some((_, link)) if self.r.chance(94) => link,
            _ => self.stray_link(),
        }
    }

    /// A number that was, will be, or never is a link's.
    fn stray_link(&mut self) -> LinkNo {
        let opened = self.node().map_or(0, |n| n.table.links().opened());
        if self.r.chance(20) {
            let n = self.wild();
            return LinkNo(n.wrapping_sub(self.tape.first()));
        }
        LinkNo(self.r.below(opened + 2))
    }

    // ---- clock

    /// Where a clock that started close to its end has come to it, it now and
    /// then goes back.
    fn tick(&mut self) -> u64 {
        if let Some(left) = self.profile.clock_left && self.now == u64::MAX && self.r.chance(30) {
            return u64::MAX - self.r.below(left + 1);
        }
        let step = |n: u64, by: u64| n.saturating_add(by);
        let slow = self.profile.pace == Pace::Slow;
        match self.r.below(if slow { 100 } else { 20 }) {
            0 | 1 => self.due(),
            2..=4 => step(self.now, 1),
            5 => {
                let by = self.r.below(40);
                step(self.now, by)
            }
            6 if self.profile.pace == Pace::Wild => self.wild(),
            6 => self.now.saturating_sub(self.r.below(20)),
            7 if !slow => {
                let by = self.r.below(3_000_000_000);
                step(self.now, by)
            }
            8 | 9 if self.profile.pace == Pace::Wild => self.due(),
            8..=10 if !slow => self.later_due(),
            _ => self.now,
        }
    }

    /// Where the refusal of the planned peer ends, or its silence is
    /// forgotten.
    fn silence_end(&self, horizon: bool) -> u64 {
        let at = self.node().and_then(|n| {
            let mut known = n.table.gates().memories().into_iter();
            let silence = known.find(|m| m.peer == self.about)?.silence?;
            let after = if horizon { nanos(n.table.params().horizon) } else { 0 };
            Some(silence.until.unwrap_or(silence.last).0.saturating_add(after))
        });
        at.unwrap_or(self.now)
    }

    /// A time that decides something, or one beside it.
    fn due(&mut self) -> u64 {
        let times = self.node().map(times).unwrap_or_default();
        let at = self.r.pick(&times).unwrap_or(self.now);
        match self.r.below(4) {
            0 => at.saturating_sub(1),
            1 => at.saturating_add(1),
            _ => at,
        }
    }

    /// The soonest such times not yet come.
    fn later_due(&mut self) -> u64 {
        let now = self.now;
        let mut times: Vec<u64> = self.node().map(times).unwrap_or_default();
        times.retain(|t| *t > now);
        times.sort();
        times.dedup();
        times.truncate(3);
        let at = self.r.pick(&times).unwrap_or(now);
        if self.r.chance(25) { at.saturating_sub(1) } else { at }
    }
}

/// The first of the names that are only another's.
const OTHERS: u64 = 100;

fn peer_no(n: u64) -> NodeAddr {
    let mut name = [0x20; 16];
    name[15] = n as u8;
    NodeAddr(name)
}

/// A pair that only one msg1 comes from.
fn own_pair(made: u8) -> Pair {
    Pair { transport: TransportId(9), addr: TransportAddr(vec![made]) }
}

/// The record of `kind` with the fields of `w`.
fn finish(kind: u8, w: Writer) -> Vec<u8> {
    let mut out = Vec::new();
    framed(kind, &w.bytes, &mut out);
    out
}

#[derive(Clone, Copy, PartialEq, Eq)]
enum Wants {
    Leg,
    Dial,
    Answer,
    Unsent,
    AnswerOnly,
}

impl Wants {
    /// The legs that suit, more often the more they suit.
    fn among(self, n: &Node) -> Vec<LinkNo> {
        let mut out = Vec::new();
        for leg in n.table.legs().all() {
            let dial = *leg.kind() == Kind::Dial;
            let held = leg.peer().is_some_and(|p| n.table.held(&p).is_some());
            let marked = n.table.reply(leg.link()).is_some_and(|a| a.sent);
            let times = match self {
                Wants::Leg => 1,
                Wants::Unsent => 1 + usize::from(!dial) + 4 * usize::from(marked),
                Wants::Dial => usize::from(dial) * 6 + usize::from(!dial),
                Wants::Answer => 1 + usize::from(!dial) * if held { 2 } else { 8 },
                Wants::AnswerOnly => usize::from(!dial),
            };
            out.extend((0..times).map(|_| leg.link()));
        }
        out
    }
}

/// The clock readings at which the table answers otherwise.
fn times(n: &Node) -> Vec<u64> {
    let (t, p) = (&n.table, n.table.params());
    let mut at = Vec::new();
    for leg in t.legs().all() {
        at.push(leg.deadline().0);
        at.extend(leg.next().map(|c| c.0));
    }
    for h in t.holders().values() {
        let last = h.last.unwrap_or(h.installed);
        at.push(h.installed.0.saturating_add(nanos(p.unheard)));
        at.push(last.0.saturating_add(nanos(p.interval)));
    }
    for m in t.gates().memories() {
        let seen = m.replays.iter().map(|(_, c)| *c).chain(m.stamp);
        at.extend(seen.map(|c: Clock| c.0.saturating_add(nanos(p.interval))));
        if let Some(s) = m.silence {
            at.extend(s.until.map(|c| c.0));
            at.push(s.until.unwrap_or(s.last).0.saturating_add(nanos(p.horizon)));
        }
    }
    at
}

//! Links and legs on chosen values.

use super::{Module, Words, digest, epoch, node, pair, settings};
use crate::node::path_room;
use crate::proto::rekey::IndexLease;
use crate::proto::settle::legs::{Kind, Leg, Start};
use crate::proto::settle::links::{Dir, Holder, LinkNo, Pair, Proven};
use crate::proto::settle::params::Params;
use crate::proto::settle::table::Table;
use crate::proto::settle::table::oracle_view::Reply;
use crate::record::Call;
use crate::time::Clock;

const TRANSPORT: u64 = 7;
const DIALED: u64 = 34;
const ANSWERED: u64 = 51;

pub struct Linking(Table<Clock>);

impl Module for Linking {
    fn step(&mut self, letter: u8, numbers: [u64; 5], words: &mut Words) {
        self.change_links(letter, numbers, words);
        self.show_links(letter, numbers, words);
        self.change_legs(letter, numbers);
        self.show_legs(letter, numbers, words);
    }
}

impl Linking {
    pub fn new() -> Self {
        Linking(Table::new(node(0), settings()))
    }

    fn change_links(&mut self, letter: u8, [a, b, c, ..]: [u64; 5], words: &mut Words) {
        let (no, at) = (LinkNo(a), pair(TRANSPORT, b));
        let room = path_room(&self.0, no, &at).is_ok();
        let links = self.0.links_mut();
        match letter {
            b'o' => links.open_as(no, at, Dir::Outbound),
            b'p' => {
                words.truth(!room);
                if room {
                    links.path(no, at, Proven::Acked);
                }
            }
            b'h' => links.hold(no, Holder::Peer(node(b))),
            b'r' => words.truth(!links.release(no, &at, c != 0).is_empty()),
            b'd' => words.number(links.retire(no).len() as u64),
            _ => {}
        }
    }

    fn show_links(&self, letter: u8, [a, b, ..]: [u64; 5], words: &mut Words) {
        let links = self.0.links();
        match letter {
            b'c' => words.number(links.recs().len() as u64),
            b'f' => words.place(links.recs().keys().position(|l| *l == LinkNo(a))),
            b'u' => words.truth(links.used(&pair(TRANSPORT, a))),
            b'a' => {
                let Some((no, r)) = links.recs().iter().nth(a as usize) else {
                    return;
                };
                let at: Pair = pair(TRANSPORT, b);
                words.truth(r.uses_pair(&at));
                words.truth(links.index().contains(&(at, *no)));
            }
            _ => {}
        }
    }

    fn change_legs(&mut self, letter: u8, [a, b, c, ..]: [u64; 5]) {
        match letter {
            b'D' => self.dial(LinkNo(a), Clock(b), c as u32),
            b'A' => self.answer(LinkNo(a), Clock(b)),
            b'G' => self.0.drop_leg(LinkNo(a)),
            b'R' | b'S' | b'U' => {
                let Some((link, answers)) = self.nth(a as usize).map(|l| (l.link(), answers(l))) else {
                    return;
                };
                match letter {
                    b'R' => self.0.legs_mut().resent(link, Clock(b), &settings()),
                    b'U' => drop(self.0.call(Call::Unsent(link), Clock(0))),
                    _ if answers => self.sent(link),
                    _ => {}
                }
            }
            _ => {}
        }
    }

    fn dial(&mut self, link: LinkNo, now: Clock, resends: u32) {
        let start = Start { link, peer: Some(node(DIALED)), msg1: vec![65], lease: IndexLease(11) };
        let params = Params { resends, ..settings() };
        assert!(self.0.legs_mut().dial(start, now, &params).is_none(), "a new link");
    }

    fn answer(&mut self, link: LinkNo, now: Clock) {
        let start = Start { link, peer: Some(node(ANSWERED)), msg1: vec![66], lease: IndexLease(12) };
        let reply = Reply { ephemeral: digest(9), epoch: epoch(5), replaces: true, sent: false };
        self.0.answer_as(start, vec![67], reply, now);
    }

    /// An answer is marked as sent; its peer is held then, or it would be
    /// installed.
    fn sent(&mut self, link: LinkNo) {
        self.0.install(node(ANSWERED), super::params_held::unheard(0));
        drop(self.0.call(Call::Sent(link), Clock(0)));
    }

    fn nth(&self, i: usize) -> Option<&Leg<Clock>> {
        self.0.legs().all().nth(i)
    }

    fn show_legs(&self, letter: u8, [a, b, ..]: [u64; 5], words: &mut Words) {
        let mut legs = self.0.legs().all();
        match letter {
            b'C' => {
                words.number(legs.count() as u64);
                words.number(self.0.legs().answering() as u64);
            }
            b'F' => words.place(legs.position(|l| l.link() == LinkNo(a))),
            b'L' => self.leg(a as usize, words),
            b'W' => words.perhaps(self.0.next_wake().map(|t| t.0)),
            b'O' => words.place(legs.position(|l| l.overdue(Clock(a)))),
            b'P' => {
                let due = |(_, l): &(usize, &Leg<Clock>)| l.resend_due(Clock(b));
                words.place(legs.enumerate().skip(a as usize).find(due).map(|(i, _)| i));
            }
            b'Y' => {
                let link = self.0.stored_at(&pair(TRANSPORT, a), &[b as u8]);
                words.place(link.and_then(|n| legs.position(|l| l.link() == n)));
            }
            _ => {}
        }
    }

    /// Its times, then what it is.
    fn leg(&self, i: usize, words: &mut Words) {
        let Some(l) = self.nth(i) else {
            return;
        };
        words.number(l.index().into());
        words.number(l.deadline().0);
        words.truth(l.next().is_some());
        words.number(l.next().map_or(0, |t| t.0));
        words.number(l.polled().0);
        let reply = self.0.reply(l.link());
        words.truth(l.peer().is_some());
        words.truth(answers(l));
        words.number(reply.as_ref().map_or(0, |a| u64::from_be_bytes(a.epoch)));
        words.truth(reply.as_ref().is_some_and(|a| a.sent));
        words.truth(reply.as_ref().is_some_and(|a| a.replaces));
    }
}

fn answers(l: &Leg<Clock>) -> bool {
    matches!(l.kind(), Kind::Answer { .. })
}

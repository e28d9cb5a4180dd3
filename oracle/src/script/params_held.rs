//! Addresses, settings, time and held peers on chosen values.

use super::{Module, Words, epoch, node, pair};
use crate::node::in_range;
use crate::proto::settle::legs::oracle_view::{doubled, until};
use crate::proto::settle::links::LinkNo;
use crate::proto::settle::output::Why;
use crate::proto::settle::params::Params;
use crate::proto::settle::table::{Held, Table};
use crate::record::Call;
use crate::time::{Clock, Duration, Instant};

const TRANSPORT: u64 = 7;

pub struct Holding(Table<Clock>);

impl Module for Holding {
    fn step(&mut self, letter: u8, numbers: [u64; 5], words: &mut Words) {
        plain(letter, numbers, words);
        times(letter, numbers, words);
        self.change(letter, numbers, words);
        self.show(letter, numbers, words);
    }
}

impl Holding {
    pub fn new() -> Self {
        Holding(Table::new(node(0), Params::default()))
    }

    fn change(&mut self, letter: u8, [a, b, c, ..]: [u64; 5], words: &mut Words) {
        let peer = node(a);
        match letter {
            b'I' => self.0.install(peer, unheard(b)),
            b'H' if self.0.held(&peer).is_some() => {
                let roamed = self.0.call(Call::Heard(peer, pair(TRANSPORT, c)), Clock(b));
                words.truth(roamed.is_empty());
            }
            b'R' => drop(self.0.call(Call::Restarted(peer, epoch(b)), Clock(0))),
            b'D' => drop(self.0.call(Call::Remove(peer, Why::Dead), Clock(0))),
            _ => {}
        }
    }

    fn show(&self, letter: u8, [a, b, ..]: [u64; 5], words: &mut Words) {
        let holders = self.0.holders();
        match letter {
            b'C' => words.number(holders.len() as u64),
            b'F' => words.place(holders.keys().position(|p| *p == node(a))),
            b'P' => {
                let Some(h) = holders.values().nth(a as usize) else {
                    return;
                };
                words.truth(h.heard);
                words.truth(h.last.is_some());
                words.number(h.last.map_or(0, |t| t.0));
                words.number(u64::from_be_bytes(h.epoch));
                words.truth(h.current == pair(TRANSPORT, b));
            }
            _ => {}
        }
    }
}

/// A peer that was dialed, not heard yet.
pub fn unheard(link: u64) -> Held<Clock> {
    Held {
        link: LinkNo(link),
        epoch: epoch(1),
        current: pair(TRANSPORT, 65),
        heard: false,
        installed: Clock(0),
        last: None,
        setup: None,
    }
}

fn plain(letter: u8, [a, b, c, d, _]: [u64; 5], words: &mut Words) {
    match letter {
        b'n' => {
            words.truth(node(a) == node(b));
            words.truth(node(a) < node(b));
        }
        b'p' => words.truth(pair(a, b) == pair(c, d)),
        b's' => settings(words),
        b'i' => {
            let params = Params { counted: a as usize, replays: b as usize, ..Params::default() };
            words.truth(in_range(&params));
        }
        _ => {}
    }
}

fn settings(words: &mut Words) {
    let p = Params::default();
    for d in [p.unheard, p.interval] {
        words.number(nanos(d));
    }
    for n in [p.replays as u64, p.silent.into(), p.counted as u64, p.resends.into()] {
        words.number(n);
    }
    for d in [p.silentbase, p.silentcap, p.horizon, p.handshake, p.resend] {
        words.number(nanos(d));
    }
    words.number(p.pending as u64);
}

fn times(letter: u8, [a, b, c, ..]: [u64; 5], words: &mut Words) {
    let span = Duration::from_nanos;
    match letter {
        b'f' => words.number(nanos(doubled(a as u32, span(1), Duration::MAX))),
        b'b' => words.number(nanos(doubled(a as u32, span(b), span(c)))),
        b'd' => words.number(until(Clock(a), span(b)).0),
        b'r' => words.number(until(Clock(a), doubled(b as u32, span(c), Duration::MAX)).0),
        b'a' => words.number(nanos(Clock(a).saturating_duration_since(Clock(b)))),
        b'y' => words.truth(Clock(b).saturating_duration_since(Clock(c)) < span(a)),
        _ => {}
    }
}

fn nanos(d: Duration) -> u64 {
    u64::try_from(d.as_nanos()).expect("a span fits")
}

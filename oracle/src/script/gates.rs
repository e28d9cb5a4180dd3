//! The gates on chosen values.

use super::{Module, Words, digest, epoch, node, settings};
use crate::proto::settle::gates::{Ask, Gates, Liveness, Source};
use crate::time::Clock;

const SOURCES: [Source; 5] =
    [Source::NotHeld, Source::Restart, Source::Replacement, Source::OwnMsg2, Source::RekeyMsg2];

pub struct Gating {
    gates: Gates<Clock>,
    live: Option<Liveness<Clock>>,
}

impl Module for Gating {
    fn step(&mut self, letter: u8, numbers: [u64; 5], words: &mut Words) {
        let [a, b, c, d, e] = numbers;
        match letter {
            b'p' => self.gates.promoted(node(a), digest(b), Clock(c), &settings()),
            b'e' => {
                let setup = (c != 0).then(|| digest(d));
                self.gates.ended(node(a), Some(epoch(b)), setup, Clock(e), &settings());
            }
            b's' => self.gates.give_up(node(a), Clock(b)),
            b'h' => self.gates.heard(&node(a)),
            b'c' => words.number(self.gates.memories().len() as u64),
            b'f' => words.place(self.gates.memories().iter().position(|m| m.peer == node(a))),
            b'm' => self.memory(a, words),
            b'l' => self.live = live(a, b, c),
            b'a' => self.ask(numbers, words),
            _ => {}
        }
    }
}

impl Gating {
    pub fn new() -> Self {
        Gating { gates: Gates::new(), live: None }
    }

    fn memory(&self, peer: u64, words: &mut Words) {
        let memories = self.gates.memories();
        let m = memories.iter().find(|m| m.peer == node(peer));
        let silence = m.and_then(|m| m.silence.as_ref());
        words.perhaps(m.and_then(|m| m.stamp).map(|t| t.0));
        words.number(m.map_or(0, |m| m.replays.len()) as u64);
        words.perhaps(silence.and_then(|s| s.epoch).map(u64::from_be_bytes));
        words.perhaps(silence.map(|s| s.count.into()));
        words.perhaps(silence.and_then(|s| s.until).map(|t| t.0));
        words.number(silence.map_or(0, |s| s.counted.len()) as u64);
    }

    /// The judgement alone: what it stamps is not kept.
    fn ask(&self, [peer, source, ephemeral, at, now]: [u64; 5], words: &mut Words) {
        let ask = Ask {
            source: SOURCES[source as usize],
            held: self.live,
            ephemeral: Some(digest(ephemeral)),
            epoch: Some(epoch(at)),
        };
        match self.gates.clone().gate(node(peer), ask, Clock(now), &settings()) {
            Some(refusal) => words.word(&format!("{refusal:?}")),
            None => words.word("Pass"),
        }
    }
}

fn live(holder: u64, installed: u64, last: u64) -> Option<Liveness<Clock>> {
    (holder > 0).then(|| Liveness {
        heard: holder > 1,
        installed: Clock(installed),
        last: (holder > 2).then_some(Clock(last)),
    })
}

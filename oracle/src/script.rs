//! The scripts of test_gates, test_links_legs and test_params_held, run on the
//! reference: each line, and behind it the words of its answer. A line is a
//! word, of which the first letter counts, and up to five numbers, each behind
//! one space; the main.rt of each crate says what they mean.

mod gates;
mod links_legs;
mod params_held;

use crate::identity::NodeAddr;
use crate::proto::fmp::EphemeralDigest;
use crate::proto::settle::gates::Epoch;
use crate::proto::settle::links::Pair;
use crate::proto::settle::params::Params;
use crate::time::Duration;
use crate::transport::{TransportAddr, TransportId};

trait Module {
    fn step(&mut self, letter: u8, numbers: [u64; 5], words: &mut Words);
}

/// What the crate `name` writes for a script.
pub fn told(name: &str, script: &[u8]) -> Option<Vec<u8>> {
    let mut module: Box<dyn Module> = match name {
        "test_gates" => Box::new(gates::Gating::new()),
        "test_links_legs" => Box::new(links_legs::Linking::new()),
        "test_params_held" => Box::new(params_held::Holding::new()),
        _ => return None,
    };
    let mut out = String::new();
    for line in std::str::from_utf8(script).ok()?.lines() {
        let mut words = Words::default();
        module.step(*line.as_bytes().first()?, numbers(line), &mut words);
        out += &format!("{line}{}\n", words.0);
    }
    Some(out.into_bytes())
}

/// The numbers behind the first word; 0 for one that is not there.
fn numbers(line: &str) -> [u64; 5] {
    let mut rest = line.find(' ').map_or("", |at| &line[at..]);
    std::array::from_fn(|_| {
        let Some(number) = rest.strip_prefix(' ') else {
            return 0;
        };
        let end = number.find(|c: char| !c.is_ascii_digit()).unwrap_or(number.len());
        rest = &number[end..];
        number[..end].parse().unwrap_or(0)
    })
}

/// The words of an answer, each behind a space.
#[derive(Default)]
struct Words(String);

impl Words {
    fn word(&mut self, word: &str) {
        self.0 += &format!(" {word}");
    }

    fn number(&mut self, n: u64) {
        self.word(&n.to_string());
    }

    fn truth(&mut self, b: bool) {
        self.number(b.into());
    }

    fn perhaps(&mut self, n: Option<u64>) {
        match n {
            Some(n) => self.number(n),
            None => self.word("-"),
        }
    }

    fn place(&mut self, i: Option<usize>) {
        self.perhaps(i.map(|i| i as u64));
    }
}

// ---- values told apart by a number, of which the last byte counts

fn node(v: u64) -> NodeAddr {
    NodeAddr([v as u8; 16])
}

fn digest(v: u64) -> EphemeralDigest {
    EphemeralDigest([v as u8; 32])
}

fn pair(transport: u64, v: u64) -> Pair {
    Pair { transport: TransportId(transport as u32), addr: TransportAddr(vec![v as u8]) }
}

fn epoch(v: u64) -> Epoch {
    v.to_be_bytes()
}

fn settings() -> Params {
    let span = Duration::from_nanos;
    Params {
        unheard: span(10),
        interval: span(100),
        replays: 2,
        silent: 2,
        silentbase: span(30),
        silentcap: span(100),
        horizon: span(500),
        counted: 2,
        handshake: span(100),
        resend: span(10),
        resends: 3,
        pending: 1000,
    }
}

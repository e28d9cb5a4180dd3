//! The program settle-tape, fed with bytes as they come.
//!
//! `run` and `tables` also run each tape without the departures of document 02:
//! where none decides, the reference says the same by itself.

use crate::departure::{self, ALL, Met};
use crate::node::{Node, RECORD};
use crate::proto::settle::output::Output;
use crate::write;

/// What a record came to: its kind byte if it has one, and the outputs or
/// the number that refuses it.
pub struct Step {
    pub kind: Option<u8>,
    pub result: Result<Vec<Output>, u8>,
    /// Of a call not refused, how often each departure decided.
    pub met: Met,
}

#[derive(Default)]
pub struct Tape {
    pub node: Option<Node>,
    rest: Vec<u8>,
    ended: bool,
}

impl Tape {
    /// Every whole record of `bytes`, after what an earlier feed left over.
    pub fn feed(&mut self, bytes: &[u8]) -> Vec<Step> {
        self.rest.extend(bytes);
        std::iter::from_fn(|| self.next()).collect()
    }

    /// The next whole record.
    fn next(&mut self) -> Option<Step> {
        if self.ended {
            return None;
        }
        let body = self.cut()?;
        Some(self.step(&body))
    }

    /// The input ends: a cut last record gives 3.
    pub fn end(&mut self) -> Option<Step> {
        if self.ended || self.rest.is_empty() {
            return None;
        }
        self.ended = true;
        Some(Step { kind: None, result: Err(RECORD), met: Met::default() })
    }

    /// Whether the program has ended, or reads a record that is not whole.
    pub fn lost(&self) -> bool {
        self.ended || !self.rest.is_empty()
    }

    pub fn first(&self) -> u64 {
        self.node.as_ref().map_or(0, |n| n.first)
    }

    fn cut(&mut self) -> Option<Vec<u8>> {
        let length = u16::from_be_bytes(self.rest.get(..2)?.try_into().ok()?);
        let end = 2 + usize::from(length);
        let body = self.rest.get(2..end)?.to_vec();
        self.rest.drain(..end);
        Some(body)
    }

    fn step(&mut self, body: &[u8]) -> Step {
        let (result, met) = departure::counted(|| self.settle(body));
        let met = if result.is_ok() { met } else { Met::default() };
        Step { kind: body.get(1).copied(), result, met }
    }

    fn settle(&mut self, body: &[u8]) -> Result<Vec<Output>, u8> {
        if let Some(node) = &mut self.node {
            return node.call(body);
        }
        let made = Node::new(body);
        self.ended = made.is_err();
        self.node = Some(made?);
        Ok(Vec::new())
    }
}

/// Every step of a tape.
pub fn steps(bytes: &[u8]) -> (Tape, Vec<Step>) {
    let mut tape = Tape::default();
    let mut steps = tape.feed(bytes);
    steps.extend(tape.end());
    (tape, steps)
}

/// What `told` makes of the table after each record, a cut last one too, one
/// behind another. Nothing where there is no table.
pub fn tables(bytes: &[u8], told: fn(&Node) -> Vec<u8>) -> Vec<u8> {
    settled(bytes, |bytes| left(bytes, told))
}

/// What the program writes.
pub fn run(bytes: &[u8]) -> Vec<u8> {
    settled(bytes, written)
}

/// What `told` makes of a tape.
fn settled(bytes: &[u8], told: impl Fn(&[u8]) -> Vec<u8>) -> Vec<u8> {
    let out = told(bytes);
    let plain = steps(bytes).1.iter().all(|s| s.met == Met::default());
    let same = !plain || out == departure::without(&ALL, || told(bytes));
    assert!(same, "where no departure decides, the reference agrees");
    out
}

fn left(bytes: &[u8], told: fn(&Node) -> Vec<u8>) -> Vec<u8> {
    let mut tape = Tape { rest: bytes.to_vec(), ..Tape::default() };
    let mut out = Vec::new();
    while tape.next().or_else(|| tape.end()).is_some() {
        out.extend(tape.node.as_ref().map(told).unwrap_or_default());
    }
    out
}

fn written(bytes: &[u8]) -> Vec<u8> {
    let (tape, steps) = steps(bytes);
    let mut out = Vec::new();
    for s in &steps {
        for o in s.result.iter().flatten() {
            write::output(o, tape.first(), &mut out);
        }
        write::done(*s.result.as_ref().err().unwrap_or(&0), &mut out);
    }
    out
}

//! Both sides on the same records: compared, timed, counted.

use std::hint::black_box;
use std::time::Instant;

use super::cases::Case;
use super::library::Ours;
use super::world::{Batch, FIRST, World};
use crate::node::Node;
use crate::proto::settle::table::Table;
use crate::record::{self, Call, Record};
use crate::time::Clock;
use crate::write;

/// Calls of a run, and turns that are prepared for a count.
const RUN: usize = 1024;
pub const MOST: usize = 1200;
/// Copies of a table that a run of close uses up.
const COPIES: usize = 8;
const CHECKED: usize = 300;

/// A table of each side after the same records.
pub struct Both {
    pub ours: Ours,
    pub theirs: Table<Clock>,
}

impl Both {
    /// After the records of a world, the first of which is a new.
    fn after(world: &mut World) -> Both {
        let batch = world.take();
        let mut records = batch.records();
        let new = records.next().expect("a record of new");
        let ours = Ours::new(new).expect("a table");
        let theirs = Node::new(&new[2..]).ok().expect("a table").table;
        let mut both = Both { ours, theirs };
        for record in records {
            both.step(record);
        }
        both
    }

    /// One call on both, with equal outputs: their bytes.
    fn step(&mut self, record: &[u8]) -> Vec<u8> {
        let (now, call) = parsed(record);
        let mut told = Vec::new();
        for o in self.theirs.call(call, now) {
            write::output(&o, FIRST, &mut told);
        }
        let a = self.ours.call(record);
        let same = a.number == 0 && self.ours.told(a.len) == told;
        assert!(same, "the sides differ: number {}, {:02x?} for {record:02x?}", a.number, self.ours.told(a.len));
        told
    }
}

fn parsed(record: &[u8]) -> (Clock, Call) {
    match record::read(&record[2..], FIRST) {
        Some(Record::Call(now, call)) => (now, call),
        _ => panic!("not the record of a call"),
    }
}

fn turns(case: &Case, world: &mut World, count: usize) -> Batch {
    for _ in 0..count {
        (case.turn)(world);
    }
    let batch = world.take();
    assert_eq!(batch.len(), count * case.calls, "{}: calls of a turn", case.name);
    batch
}

/// How many calls were compared; each told what the case says.
pub fn check(case: &Case, links: usize) -> usize {
    let mut world = (case.setup)(links);
    let mut both = Both::after(&mut world);
    let batch = turns(case, &mut world, CHECKED.div_ceil(case.calls));
    for (i, record) in batch.records().enumerate() {
        let told = kinds(&both.step(record));
        let said = case.told.get(i % case.calls);
        assert!(said.is_none_or(|s| *s == told), "{}: outputs {told:?}", case.name);
    }
    batch.len()
}

/// The kind of each output.
fn kinds(mut told: &[u8]) -> Vec<u8> {
    let mut all = Vec::new();
    while let [a, b, _, kind, ..] = told {
        all.push(*kind);
        told = &told[2 + usize::from(u16::from_be_bytes([*a, *b]))..];
    }
    all
}

#[inline(never)]
fn run_ours<'a>(ours: &mut Ours, records: impl Iterator<Item = &'a [u8]>) {
    for record in records {
        black_box(ours.call(record).len);
    }
}

/// The calls are moved in and the outputs dropped.
#[inline(never)]
fn run_theirs(theirs: &mut Table<Clock>, calls: impl Iterator<Item = (Clock, Call)>) {
    for (now, call) in calls {
        black_box(theirs.call(call, now));
    }
}

/// Nanoseconds for a turn, the best of so many runs: ours, theirs.
pub fn time(case: &Case, links: usize, runs: usize) -> (f64, f64) {
    let mut world = (case.setup)(links);
    let mut both = Both::after(&mut world);
    let count = RUN.div_ceil(case.calls);
    let mut best = (f64::MAX, f64::MAX);
    for run in 0..runs + runs / 10 + 1 {
        let batch = turns(case, &mut world, count);
        let mut calls: Vec<_> = batch.records().map(parsed).collect();
        let from = Instant::now();
        run_ours(&mut both.ours, batch.records());
        let ours = from.elapsed().as_nanos() as f64 / count as f64;
        let from = Instant::now();
        run_theirs(&mut both.theirs, calls.drain(..));
        let theirs = from.elapsed().as_nanos() as f64 / count as f64;
        if run > runs / 10 {
            best = (best.0.min(ours), best.1.min(theirs));
        }
    }
    best
}

/// The same for a call that nothing undoes: each on a copy of the table,
/// made before the clock starts.
pub fn time_copies(case: &Case, links: usize, runs: usize) -> (f64, f64) {
    let mut world = (case.setup)(links);
    let both = Both::after(&mut world);
    let batch = turns(case, &mut world, 1);
    let record = batch.records().next().expect("a call");
    let mut best = (f64::MAX, f64::MAX);
    for _ in 0..runs {
        let mut ours = vec![both.ours.clone(); COPIES];
        let mut theirs: Vec<_> = (0..COPIES).map(|_| (both.theirs.copy(), parsed(record))).collect();
        let from = Instant::now();
        for o in &mut ours {
            black_box(o.call(record).len);
        }
        let a = from.elapsed().as_nanos() as f64 / COPIES as f64;
        let from = Instant::now();
        for (table, call) in &mut theirs {
            let (now, call) = std::mem::replace(call, (Clock(0), Call::Poll));
            black_box(table.call(call, now));
        }
        let b = from.elapsed().as_nanos() as f64 / COPIES as f64;
        best = (best.0.min(a), best.1.min(b));
    }
    best
}

/// Runs so many turns on one side, of as many prepared ones for every count:
/// two runs differ by the calls alone.
pub fn count(case: &Case, links: usize, ours: bool, turned: usize) {
    let mut world = (case.setup)(links);
    let mut both = Both::after(&mut world);
    let batch = turns(case, &mut world, MOST);
    let mut calls = batch.records().map(parsed).collect::<Vec<_>>().into_iter();
    let take = turned.min(MOST) * case.calls;
    if ours {
        run_ours(&mut both.ours, batch.records().take(take));
    } else {
        run_theirs(&mut both.theirs, calls.by_ref().take(take));
    }
    std::mem::forget((calls, both));
}

//! What the tapes of a profile reach, counted.

use std::collections::BTreeMap;

use crate::departure::{self, ALL, Departure, Met};
use crate::dump;
use crate::generate;
use crate::profile::NAMES;
use crate::proto::settle::output::{Build, Output};
use crate::tape::{self, Step, Tape};
use crate::write::{denial_code, source_code, transition_code, why_code};

const CALLS: [&str; 18] = [
    "-", "dial", "abandon", "arrived", "msg1", "replacement", "sent", "unsent", "msg2",
    "restarted", "heard", "remove", "poll", "close", "path", "release", "wake", "new",
];
const OUTPUTS: [&str; 15] = [
    "-", "Opened", "Answer", "Resend", "Rekey", "Install", "Reset", "Remove", "Retire",
    "Release", "Close", "Free", "Retry", "Reject", "Wake",
];
const TRANSITIONS: [&str; 6] = ["Promote", "Replace", "Move", "Keep", "Restarted", "Roam"];
const WHYS: [&str; 9] = [
    "Restart", "Replacement", "OwnRestart", "Ended", "Orphaned", "Disconnect", "Dead", "Admin",
    "Closed",
];
const SOURCES: [&str; 5] = ["NotHeld", "Restart", "Replacement", "OwnMsg2", "RekeyMsg2"];
const DENIALS: [&str; 7] =
    ["Full", "Unheard", "Heard", "Dampened", "Replayed", "ReplayFull", "Silent"];

#[derive(Default)]
struct Counts(BTreeMap<String, u64>);

/// The counts over the seeds `from..to` of one profile, or of all.
pub fn table(name: &str, from: u64, to: u64, calls: Option<usize>) -> Option<Vec<u8>> {
    let names: Vec<&str> = if name == "all" { NAMES.to_vec() } else { vec![name] };
    let mut counts = Counts::expected();
    for name in names {
        for seed in from..to {
            let bytes = generate::tape(name, seed, calls)?;
            counts.tape(&bytes);
        }
    }
    Some(counts.text().into_bytes())
}

/// The same of given tapes.
pub fn of(tapes: &[&[u8]]) -> Vec<u8> {
    let mut counts = Counts::expected();
    for bytes in tapes {
        counts.tape(bytes);
    }
    counts.text().into_bytes()
}

impl Counts {
    /// What must occur, at nought.
    fn expected() -> Self {
        let mut c = Counts::default();
        let rows = |head: &str, names: &[&str]| -> Vec<String> {
            names.iter().filter(|n| **n != "-").map(|n| format!("{head} {n}")).collect()
        };
        let numbers = ["1", "3", "4", "5", "6", "7"];
        let mut all = rows("call", &CALLS);
        all.extend(rows("output", &OUTPUTS));
        all.extend(rows("transition", &TRANSITIONS));
        all.extend(rows("why", &WHYS));
        all.extend(rows("refusal", &numbers));
        all.extend(rows("reject nobody", &["Full"]));
        all.extend(rows("reject NotHeld", &["Full", "Silent"]));
        all.extend(rows("reject Restart", &DENIALS[..6]));
        all.extend(rows("reject Replacement", &DENIALS));
        all.extend(rows("SilentFirst", &["msg1 NotHeld", "replacement NotHeld", "replacement Replacement"]));
        all.extend(["arrived", "msg1"].iter().flat_map(|c| rows(&format!("NewestLink {c}"), &["2", "3", "4 or more"])));
        all.extend(rows("build", &["Fresh", "FromCarry"]));
        all.extend(rows("wake", &["0", "1"]));
        for row in all {
            c.0.insert(row, 0);
        }
        c
    }

    fn add(&mut self, row: String, n: u64) {
        *self.0.entry(row).or_default() += n;
    }

    fn tape(&mut self, bytes: &[u8]) {
        let (tape, steps) = tape::steps(bytes);
        self.add("tapes".into(), 1);
        self.add("records".into(), steps.len() as u64);
        for s in &steps {
            self.step(s);
        }
        self.add("plain tapes".into(), steps.iter().all(|s| s.met == Met::default()).into());
        for d in ALL {
            if steps.iter().any(|s| s.met.of(d) > 0) {
                self.beside(d, bytes);
            }
        }
        self.end(&tape);
    }

    /// A tape in which a departure decides: whether the reference without it
    /// writes otherwise, and whether it leaves other tables.
    fn beside(&mut self, d: Departure, bytes: &[u8]) {
        self.add(format!("{d:?} tapes"), 1);
        let dumps = || tape::tables(bytes, dump::dump);
        let outputs = tape::run(bytes) != departure::without(&[d], || tape::run(bytes));
        let tables = dumps() != departure::without(&[d], dumps);
        assert!(d == Departure::LastReading || !tables, "neither Full nor Silent nor a stored Answer alters the table");
        self.add(format!("{d:?} tapes, other outputs"), outputs.into());
        self.add(format!("{d:?} tapes, other tables"), tables.into());
    }

    fn step(&mut self, s: &Step) {
        let kind = s.kind.and_then(|k| CALLS.get(usize::from(k)));
        match &s.result {
            Ok(outputs) => {
                let name = kind.expect("an accepted record has a kind");
                self.add(format!("call {name}"), 1);
                if outputs.is_empty() {
                    self.add(format!("silent {name}"), 1);
                }
                let (silent, past) = (s.met.of(Departure::SilentFirst), s.met.of(Departure::LastReading));
                let older = s.met.of(Departure::NewestLink);
                if older > 0 {
                    let links = if older > 2 { "4 or more".into() } else { (older + 1).to_string() };
                    self.add(format!("NewestLink {name} {links}"), 1);
                }
                if past > 0 {
                    self.add(format!("LastReading {name}"), past);
                }
                for o in outputs {
                    if let (Output::Reject { source: Some(by), .. }, true) = (o, silent > 0) {
                        let by = SOURCES[usize::from(source_code(*by))];
                        self.add(format!("SilentFirst {name} {by}"), 1);
                    }
                    self.output(o);
                }
            }
            Err(number) => {
                self.add(format!("refusal {number}"), 1);
                if let (Some(name), true) = (kind, *number != 3) {
                    self.add(format!("refusal {number} {name}"), 1);
                }
            }
        }
    }

    fn output(&mut self, o: &Output) {
        let kind = match o {
            Output::Opened { .. } => 1,
            Output::Answer { stored, .. } => {
                self.add(format!("answer stored {}", u8::from(*stored)), 1);
                2
            }
            Output::Resend { .. } => 3,
            Output::Rekey { arrival, .. } => {
                self.add(format!("rekey on_link {}", u8::from(arrival.on_link)), 1);
                4
            }
            Output::Install(i) => {
                let build = if i.rekey == Build::Fresh { "Fresh" } else { "FromCarry" };
                self.add(format!("build {build}"), 1);
                5
            }
            Output::Reset { transition, .. } => {
                let name = TRANSITIONS[usize::from(transition_code(*transition))];
                self.add(format!("transition {name}"), 1);
                6
            }
            Output::Remove { why, .. } => {
                self.add(format!("why {}", WHYS[usize::from(why_code(*why))]), 1);
                7
            }
            Output::Retire { closes, .. } => self.list("Retire", closes.len(), 8),
            Output::Release { closes, .. } => self.list("Release", closes.len(), 9),
            Output::Close { closes } => self.list("Close", closes.len(), 10),
            Output::Free { .. } => 11,
            Output::Retry { .. } => 12,
            Output::Reject { source, why, .. } => {
                let by = source.map_or("nobody", |s| SOURCES[usize::from(source_code(s))]);
                let why = DENIALS[usize::from(denial_code(*why))];
                self.add(format!("reject {by} {why}"), 1);
                13
            }
            Output::Wake { at } => {
                self.add(format!("wake {}", u8::from(at.is_some())), 1);
                14
            }
        };
        self.add(format!("output {}", OUTPUTS[kind]), 1);
    }

    fn list(&mut self, name: &str, n: usize, kind: usize) -> usize {
        self.add(format!("list {name} {}", if n > 2 { "3 or more".into() } else { n.to_string() }), 1);
        kind
    }

    fn end(&mut self, tape: &Tape) {
        let Some(node) = &tape.node else {
            return self.add("end no table".into(), 1);
        };
        assert!(node.sound(), "the index is derived, each answer leg has its entry");
        self.add("overlisted pairs".into(), node.overlisted as u64);
        for (row, n) in [
            ("end links", node.table.links().recs().len()),
            ("end places", node.places().len()),
        ] {
            if n == 32 {
                self.add(format!("{row} 32"), 1);
            }
        }
        let silent = node.table.params().silent;
        let exponents = node.table.gates().memories().into_iter().filter_map(|m| m.silence?.count.checked_sub(silent));
        for exponent in exponents.filter(|e| *e > 30) {
            self.add(format!("end silence exponent {}", if exponent > 31 { "32 or more" } else { "31" }), 1);
        }
    }

    fn text(&self) -> String {
        self.0.iter().map(|(row, n)| format!("{n:>9}  {row}\n")).collect()
    }
}

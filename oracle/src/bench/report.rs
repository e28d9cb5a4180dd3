//! docs/BENCHMARKS.md, but for the instructions.

use super::LINKS;
use super::cases::{Case, MIXED};
use super::library::SIZE;
use super::stack::Depths;

type Times = [(f64, f64); 3];

pub struct Report {
    pub runs: usize,
    pub compared: usize,
    pub depths: Depths,
    pub rows: Vec<(&'static Case, Times)>,
    pub mixed: Times,
}

const KINDS: [&str; 17] = [
    "refused", "dial", "abandon", "arrived", "msg1", "replacement", "sent", "unsent", "msg2", "restarted", "heard",
    "remove", "poll", "close", "path", "release", "wake",
];

const STACK: usize = 16 * 1024;

impl Report {
    pub fn page(&self, machine: &str, code: &str) -> String {
        let parts = [intro(machine), self.goals(), self.kinds(), self.mixed_part(), self.memory(code)];
        parts.join("\n")
    }

    // ---- goals

    fn goals(&self) -> String {
        let mut s = String::from("## Goals\n\n| Goal | Measured | |\n|---|---|---|\n");
        for (at, least, links) in [(0, 3.0, "1 link"), (2, 10.0, "32 links")] {
            let r = ratio(self.mixed[at]);
            s += &goal(&format!("mixed traffic at {links} at least {least} times as fast"), &times(r), r >= least);
        }
        let slow = self.slower(&[1, 2], |_| true);
        s += &goal("no call kind slower than the reference at 8 and 32 links", &listed(&slow), slow.is_empty());
        let often = |key: &str| ["heard", "roam", "poll", "poll-legs"].contains(&key);
        let slow = self.slower(&[0, 1, 2], often);
        s += &goal("heard and an idle poll not slower at any", &listed(&slow), slow.is_empty());
        let deep = self.deepest();
        s += &goal("deepest stack below 16 KiB", &format!("{} bytes", grouped(deep)), deep < STACK);
        s
    }

    /// Which rows are slower than the reference, and at how many links.
    fn slower(&self, at: &[usize], among: fn(&str) -> bool) -> Vec<String> {
        let mut all = Vec::new();
        for (case, row) in self.rows.iter().filter(|(c, _)| among(c.key)) {
            let slow = at.iter().filter(|i| ratio(row[**i]) < 1.0);
            let told: Vec<String> = slow.map(|i| format!("{} at {}", times(ratio(row[*i])), LINKS[*i])).collect();
            if !told.is_empty() {
                all.push(format!("{} ({})", case.name, told.join(", ")));
            }
        }
        all
    }

    fn deepest(&self) -> usize {
        self.depths.deepest.into_iter().max().unwrap_or(0)
    }

    // ---- tables

    fn kinds(&self) -> String {
        let mut s = format!("## Time by kind\n\n{KINDS_TEXT}\n{HEAD}");
        for (case, row) in &self.rows {
            s += &line(case.name, *row);
        }
        s
    }

    fn mixed_part(&self) -> String {
        let each = self.mixed.map(|(a, b)| (a / MIXED.calls as f64, b / MIXED.calls as f64));
        let checked = format!(
            "Best of {} runs of about 1,000 calls each, after a tenth as many to warm up. Before anything was timed, {} calls of these \
             inputs and {} records of the stored tapes (crates/tape_replay) gave the same output bytes on both sides.\n",
            self.runs,
            grouped(self.compared),
            grouped(self.depths.records)
        );
        format!("## Mixed traffic\n\n{MIXED_TEXT}\n{HEAD}{}\n{checked}", line("a call", each))
    }

    fn memory(&self, code: &str) -> String {
        let by_kind: Vec<(usize, &str)> = self.depths.deepest.into_iter().zip(KINDS).collect();
        let told: Vec<String> = by_kind.iter().map(|(d, k)| format!("{k} {}", grouped(*d))).collect();
        format!(
            "## Memory\n\n| | Bytes |\n|---|---|\n| a table, lent | {} |\n| code of libsettle.a | {code} |\n\
             | deepest stack of settle_call | {} |\n\nDeepest stack by kind: {}. It is read off a painted stack of its own: the lowest \
             byte written, over the {} records of the stored tapes, with the return address.\n",
            grouped(SIZE),
            grouped(self.deepest()),
            told.join(", "),
            grouped(self.depths.records)
        )
    }
}

fn intro(machine: &str) -> String {
    format!(
        "# Benchmarks\n\nThe library and the Rust that it is a port of, in one process and on the same inputs. Written by `oracle/bench`, on a \
         {machine} machine.\n\n\
         - The library: `settle_call` with a record's bytes, a table and a buffer: the record is read, the outputs are written. The buffer was \
         not cleared between calls.\n\
         - The Rust: the reference `Table` alone, with `-C opt-level=3`, no `target-cpu` and the standard allocator. Its calls are read before \
         the clock starts and moved in (about 65 instructions); the outputs are a `Vec`, dropped before the next call. Nothing checks limits \
         or makes bytes.\n\n\
         So the library's figures have the reading of records and the writing of outputs in them, and the Rust's have not. Figures are \
         nanoseconds; \"times\" is the Rust's by the library's: above 1 the library is faster.\n"
    )
}

const KINDS_TEXT: &str = "A row is its calls together: where a call changes the table, the others bring it back. Held links have four paths each, \
half of them dialed and half answered; peers and paths are picked at random. Where a row opens a link, 32 links are 31 and that one. In the rows \
of arrived (stored), sent, unsent and the resend one of the links is a leg, the oldest if not said otherwise, in those with \"all legs\" each is a dial in flight; in those of Full \
an answer waits beside the held links, of which 32 are 31. The peer \
that is removed and comes back has no path. Sent is timed with 2^32 - 1 resends in the settings, so that each sets the next, Full with a pending of 1; all \
else has the default settings. A close runs on a copy of the table, made before the clock starts: eight in a run, all their links held.
";

const MIXED_TEXT: &str = "Of 200 calls in random order: 140 heard (2 of them roaming), 30 poll, 10 wake, 8 path (4 new, 4 of another state), 8 msg1 (5 Rekey, \
2 Reject, 1 answered), and one each of sent, remove, dial and abandon. A dial is in flight throughout, and one peer goes and comes back.
";

const HEAD: &str = "| | 1 link: library | Rust | times | 8 links: library | Rust | times | 32 links: library | Rust | times |
|---|--:|--:|--:|--:|--:|--:|--:|--:|--:|
";

fn line(name: &str, row: Times) -> String {
    let cells: Vec<String> = row.iter().map(|t| format!("{} | {} | {}", nanos(t.0), nanos(t.1), times(ratio(*t)))).collect();
    format!("| {name} | {} |\n", cells.join(" | "))
}

fn goal(text: &str, measured: &str, met: bool) -> String {
    format!("| {text} | {measured} | {} |\n", if met { "met" } else { "not met" })
}

fn listed(slow: &[String]) -> String {
    if slow.is_empty() { "none is".into() } else { slow.join("; ") }
}

fn ratio((ours, theirs): (f64, f64)) -> f64 {
    theirs / ours
}

fn times(r: f64) -> String {
    if r < 9.95 { format!("{r:.2}") } else { format!("{r:.1}") }
}

fn nanos(t: f64) -> String {
    if t < 99.5 { format!("{t:.1}") } else { grouped(t.round() as usize) }
}

/// Digits in threes.
pub fn grouped(n: usize) -> String {
    let digits = n.to_string();
    let mut s = String::new();
    for (i, d) in digits.chars().enumerate() {
        if i > 0 && (digits.len() - i) % 3 == 0 {
            s.push(',');
        }
        s.push(d);
    }
    s
}

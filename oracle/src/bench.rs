//! The linked library beside the reference, in one process and on the same
//! records. Compiled with `--cfg settle_library` alone (oracle/bench).

mod cases;
mod library;
mod measure;
mod report;
mod stack;
mod world;

use crate::stored;
use cases::{CASES, CLOSE, Case, MIXED};
use report::Report;

const LINKS: [usize; 3] = [1, 8, 32];

/// report RUNS MACHINE CODE < tapes: the page, but for the instructions.
/// count library|rust KEY LINKS TURNS: runs so many turns on one side.
/// copied KEY LINKS TURNS: the bytes that the library copied in so many turns
/// and what came before them (in the build that counts).
pub fn run(words: &[&str]) -> Option<Vec<u8>> {
    match words {
        ["report", runs, machine, code] => {
            let compared = check();
            let input = crate::input();
            let depths = stack::of(&stored::tapes(&input)?);
            let report = times(runs.parse().ok()?, compared, depths);
            Some(report.page(machine, code).into_bytes())
        }
        ["count", side, key, links, turns] => {
            let ours = ["rust", "library"].iter().position(|s| s == side)? == 1;
            let case = all().find(|c| c.key == *key)?;
            measure::count(case, links.parse().ok()?, ours, turns.parse().ok()?);
            Some(Vec::new())
        }
        #[cfg(settle_counted)]
        ["copied", key, links, turns] => {
            let case = all().find(|c| c.key == *key)?;
            measure::count(case, links.parse().ok()?, true, turns.parse().ok()?);
            let copied = library::counted::COPIED.load(std::sync::atomic::Ordering::Relaxed);
            Some(format!("{copied}\n").into_bytes())
        }
        _ => None,
    }
}

fn all() -> impl Iterator<Item = &'static Case> {
    CASES.iter().chain([&CLOSE, &MIXED])
}

/// How many calls gave the same bytes on both sides; ends the program if one
/// did not.
fn check() -> usize {
    let mut compared = 0;
    for links in LINKS {
        compared += all().map(|c| measure::check(c, links)).sum::<usize>();
    }
    compared
}

fn times(runs: usize, compared: usize, depths: stack::Depths) -> Report {
    let mut rows: Vec<_> = CASES.iter().map(|c| (c, LINKS.map(|n| measure::time(c, n, runs)))).collect();
    rows.push((&CLOSE, LINKS.map(|n| measure::time_copies(&CLOSE, n, runs))));
    let mixed = LINKS.map(|n| measure::time(&MIXED, n, runs));
    Report { runs, compared, depths, rows, mixed }
}

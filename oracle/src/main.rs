//! The reference settle table behind the records, limits and refusals of
//! document 01, with a tape generator and counts of what its tapes reach.
#![allow(dead_code, unused_imports, mismatched_lifetime_syntaxes)]

extern crate alloc;

// Every fault switch of the reference reads false.
macro_rules! fault {
    ($f:ident) => {
        false
    };
}
macro_rules! node_fault {
    ($f:ident) => {
        false
    };
}

mod identity;
mod time;
mod transport;
mod proto {
    pub mod fmp;
    pub mod rekey;
    pub mod settle {
        pub mod gates;
        pub mod input;
        pub mod legs;
        pub mod links;
        pub mod output;
        pub mod params;
        pub mod table;
    }
}

#[cfg(settle_library)]
mod bench;
mod cover;
mod damage;
mod departure;
mod dump;
mod fields;
mod generate;
mod layout;
mod node;
mod plan;
mod profile;
mod random;
mod record;
mod script;
mod stored;
mod tape;
mod write;

use std::io::{ErrorKind, Read, Write};
use std::process::ExitCode;

const USAGE: &str = "usage: oracle run < tape > out
       oracle table < tape > dumps  (of the table after each record)
       oracle layout < tape > tables  (the same in the bytes of a lent table)
       oracle generate PROFILE SEED [CALLS] > tape
       oracle cover PROFILE|all FROM TO [CALLS]
       oracle cases PROFILE FROM TO CALLS  (a line for each seed: seed, tape, output, dumps in hexadecimal)
       oracle profiles
       oracle replay-set > tapes  (stored tapes)
       oracle replay < tapes > what settle-tape writes for each
       oracle replay-cover < tapes > what they reach
       oracle fields-set > cases  (slices for readers of records)
       oracle fields < cases > what is read in each
       oracle script CRATE < script > each line with its answer  (test_gates, test_links_legs, test_params_held)
       oracle unchanged ...  (any of these without the departures of document 02)";

fn main() -> ExitCode {
    let args: Vec<String> = std::env::args().skip(1).collect();
    let words: Vec<&str> = args.iter().map(String::as_str).collect();
    match run(&words) {
        Some(out) => finish(&out),
        None => {
            eprintln!("{USAGE}");
            ExitCode::from(2)
        }
    }
}

/// Who reads the output may stop before its end.
fn finish(out: &[u8]) -> ExitCode {
    match std::io::stdout().write_all(out) {
        Ok(()) => ExitCode::SUCCESS,
        Err(e) if e.kind() == ErrorKind::BrokenPipe => ExitCode::FAILURE,
        Err(e) => panic!("standard output: {e}"),
    }
}

fn run(words: &[&str]) -> Option<Vec<u8>> {
    match words {
        ["unchanged", rest @ ..] => departure::without(&departure::ALL, || run(rest)),
        ["run"] => Some(tape::run(&input())),
        ["table"] => Some(tape::tables(&input(), dump::dump)),
        ["layout"] => Some(tape::tables(&input(), layout::layout)),
        #[cfg(settle_library)]
        ["bench", rest @ ..] => bench::run(rest),
        ["replay-set"] => stored::set(),
        ["replay"] => stored::run(&input()),
        ["replay-cover"] => stored::reached(&input()),
        ["script", name] => script::told(name, &input()),
        ["fields-set"] => Some(fields::set()),
        ["fields"] => fields::told(&input()),
        ["profiles"] => Some(format!("{}\n", profile::NAMES.join(" ")).into_bytes()),
        ["generate", name, seed] => generate::tape(name, seed.parse().ok()?, None),
        ["generate", name, seed, calls] => {
            generate::tape(name, seed.parse().ok()?, Some(calls.parse().ok()?))
        }
        ["cover", name, from, to] => cover::table(name, from.parse().ok()?, to.parse().ok()?, None),
        ["cover", name, from, to, calls] => {
            let calls = calls.parse().ok()?;
            cover::table(name, from.parse().ok()?, to.parse().ok()?, Some(calls))
        }
        ["cases", name, from, to, calls] => {
            cases(name, from.parse().ok()?, to.parse().ok()?, calls.parse().ok()?)
        }
        _ => None,
    }
}

/// One line for each seed of `from..to`: its tape, output and the tables.
fn cases(name: &str, from: u64, to: u64, calls: usize) -> Option<Vec<u8>> {
    let mut out = String::new();
    for seed in from..to {
        let bytes = generate::tape(name, seed, Some(calls))?;
        let told = tape::run(&bytes);
        let left = tape::tables(&bytes, dump::dump);
        out += &format!("{seed} {} {} {}\n", hex(&bytes), hex(&told), hex(&left));
    }
    Some(out.into_bytes())
}

/// Hexadecimal, `-` for no bytes.
fn hex(bytes: &[u8]) -> String {
    if bytes.is_empty() {
        return "-".into();
    }
    bytes.iter().map(|b| format!("{b:02x}")).collect()
}

fn input() -> Vec<u8> {
    let mut bytes = Vec::new();
    std::io::stdin().read_to_end(&mut bytes).expect("standard input");
    bytes
}

//! The stored tapes of crates/tape_replay through the wrapper: the bytes are those that the original table wrote.
use settle::{OUT, Output, Table};
use std::io::Write;
use std::path::{Path, PathBuf};
use std::process::{Command, Stdio};
use std::{fs, thread};

fn stored(name: &str) -> Vec<u8> {
    let file = PathBuf::from(env!("CARGO_MANIFEST_DIR")).join("../../crates/tape_replay").join(name);
    fs::read(file).expect("the stored tapes are in the repository")
}

fn done(number: u8) -> [u8; 5] {
    [0, 3, 1, 0, number]
}

/// The first record of a tape, a cut one as it is, and the rest.
fn first(tape: &[u8]) -> (&[u8], &[u8]) {
    let size = match tape {
        [a, b, ..] => 2 + usize::from(u16::from_be_bytes([*a, *b])),
        _ => tape.len(),
    };
    tape.split_at(size.min(tape.len()))
}

/// What settle-tape writes.
fn run(tape: &[u8], told: &mut Vec<u8>) {
    if tape.is_empty() {
        return;
    }
    let (record, mut rest) = first(tape);
    let mut table = match Table::from_record(record) {
        Ok(table) => table,
        Err(e) => return told.extend(done(e.number())),
    };
    told.extend(done(0));
    let mut out = vec![0; OUT];
    while !rest.is_empty() {
        let (record, more) = first(rest);
        rest = more;
        let before = table.bytes().to_vec();
        match table.call_record(record, &mut out) {
            Ok(outputs) => {
                told.extend(outputs.bytes());
                assert!(outputs.clone().all(|o| !matches!(o, Output::Unknown { .. })), "each output is known");
                told.extend(done(0));
            }
            Err(e) => {
                assert!(before == table.bytes(), "a refusal changes nothing");
                told.extend(done(e.number()));
            }
        }
    }
}

#[test]
fn the_original_answers_the_same() {
    let set = stored("stdin");
    let mut rest = &set[..];
    let (mut told, mut tapes) = (Vec::new(), 0);
    while let Some((head, more)) = rest.split_first_chunk::<4>() {
        let (tape, more) = more.split_at(u32::from_be_bytes(*head) as usize);
        run(tape, &mut told);
        tapes += 1;
        rest = more;
    }
    assert!(tapes > 0 && rest.is_empty(), "whole tapes");
    assert!(told == stored("stdout"), "the bytes differ");
}

/// The original table itself, where it was compiled (oracle/build): fresh tapes of every profile.
#[test]
fn the_original_beside_it() {
    let oracle = PathBuf::from(env!("CARGO_MANIFEST_DIR")).join("../../target/oracle/oracle");
    if !oracle.exists() {
        return eprintln!("no oracle: nothing compared");
    }
    let profiles = String::from_utf8(asked(&oracle, &["profiles"], &[])).expect("names");
    for profile in profiles.split_whitespace() {
        for seed in 0..10 {
            let tape = asked(&oracle, &["generate", profile, &seed.to_string()], &[]);
            let mut told = Vec::new();
            run(&tape, &mut told);
            assert!(told == asked(&oracle, &["run"], &tape), "{profile} {seed} differs");
        }
    }
}

fn asked(oracle: &Path, words: &[&str], input: &[u8]) -> Vec<u8> {
    let mut child = Command::new(oracle).args(words).stdin(Stdio::piped()).stdout(Stdio::piped()).spawn().expect("the oracle runs");
    let mut stdin = child.stdin.take().expect("a pipe");
    let bytes = input.to_vec();
    let feeder = thread::spawn(move || stdin.write_all(&bytes));
    let out = child.wait_with_output().expect("the oracle ends").stdout;
    let _ = feeder.join();
    out
}

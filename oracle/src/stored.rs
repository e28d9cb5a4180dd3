//! The stored tapes of crates/tape_replay: each the count of its bytes in 4 bytes,
//! big-endian, and then the bytes.

use crate::cover;
use crate::generate;
use crate::profile::NAMES;
use crate::tape;

/// 30 tapes of 30 calls from each profile, and longer ones where 30 calls do
/// not reach: the limits of a full table, silences of a held peer, silences
/// whose factor no longer fits, silences while Full holds, and several answers
/// stored at one pair.
pub fn set() -> Option<Vec<u8>> {
    let mut out = Vec::new();
    for name in NAMES {
        for seed in 0..30 {
            add(&mut out, &generate::tape(name, seed, Some(30))?);
        }
    }
    for seed in 0..6 {
        add(&mut out, &generate::tape("full", seed, None)?);
    }
    for seed in 30..50 {
        add(&mut out, &generate::tape("gates", seed, None)?);
    }
    for name in ["silences", "crowded", "reconnects"] {
        for seed in 0..6 {
            add(&mut out, &generate::tape(name, seed, None)?);
        }
    }
    Some(out)
}

fn add(out: &mut Vec<u8>, tape: &[u8]) {
    let size = u32::try_from(tape.len()).expect("a tape's size fits");
    out.extend(size.to_be_bytes());
    out.extend(tape);
}

/// The tapes of a set.
pub fn tapes(mut set: &[u8]) -> Option<Vec<&[u8]>> {
    let mut all = Vec::new();
    while !set.is_empty() {
        let (head, rest) = set.split_first_chunk::<4>()?;
        let (tape, more) = rest.split_at_checked(u32::from_be_bytes(*head) as usize)?;
        all.push(tape);
        set = more;
    }
    Some(all)
}

/// What settle-tape writes for each.
pub fn run(set: &[u8]) -> Option<Vec<u8>> {
    Some(tapes(set)?.into_iter().flat_map(tape::run).collect())
}

/// What they reach.
pub fn reached(set: &[u8]) -> Option<Vec<u8>> {
    Some(cover::of(&tapes(set)?))
}

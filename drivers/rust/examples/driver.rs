//! A driver in small: it answers a msg1, hears the peer on another pair, loses it and closes, and says what it would do.
use settle::{Call, Hello, OUT, Output, Pair, Peer, Refusal, Table, Why};

const SECOND: u64 = 1_000_000_000;

fn main() -> Result<(), Refusal> {
    let mut table = Table::new(Peer([0; 16]), 1, None)?;
    let peer = Peer([0x22; 16]);
    let north = Pair { transport: 7, addr: b"north" };
    let east = Pair { transport: 8, addr: b"east" };
    let hello = Hello { peer, from: north, msg1: b"hello", digest: &[5; 32], epoch: [1; 8], msg2: b"welcome", lease: 9 };

    let calls = [
        (0, Call::Arrived { from: north, bytes: b"hello" }),
        (0, Call::Msg1 { hello, reachable: true }),
        (0, Call::Sent { link: 1 }),
        (SECOND, Call::Heard { peer, from: east }),
        (2 * SECOND, Call::Poll),
        (3 * SECOND, Call::Remove { peer, why: Why::Dead }),
        (4 * SECOND, Call::Close),
    ];
    let mut out = [0; OUT];
    for (clock, call) in calls {
        let words = format!("{call:?}");
        println!("at {} s: {}", clock / SECOND, words.split(' ').next().unwrap_or_default());
        for output in table.call(clock, &call, &mut out)? {
            act(output);
        }
    }
    if let Err(refused) = table.call(0, &Call::Poll, &mut []) {
        println!("without a buffer: {refused}");
    }
    Ok(())
}

fn act(output: Output<'_>) {
    match output {
        Output::Answer { link, msg2, .. } => println!("  send {} bytes on link {link}, then say sent", msg2.len()),
        Output::Install { link, lease, .. } => println!("  install the peer on link {link}; lease {lease} is the session's"),
        Output::Free { lease } => println!("  give lease {lease} back"),
        Output::Retire { link, closes } => {
            println!("  retire link {link}");
            closes.for_each(|p| println!("    close {p:?}"));
        }
        Output::Unknown { record } => println!("  not known, so not done: {record:02x?}"),
        other => println!("  {other:?}"),
    }
}

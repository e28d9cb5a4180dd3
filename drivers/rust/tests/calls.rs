//! What the wrapper adds: refusals by name, limits, and buffers.
use settle::{Call, OUT, Output, Pair, Peer, Refusal, Settings, Table};

const PEER: Peer = Peer([2; 16]);
const NORTH: Pair<'static> = Pair { transport: 7, addr: b"north" };

fn settings(counted: u8) -> Settings {
    Settings {
        unheard: 1,
        interval: 1,
        silentbase: 1,
        silentcap: 1,
        horizon: 1,
        handshake: 1,
        resend: 1,
        silent: 1,
        resends: 1,
        replays: 1,
        counted,
        pending: 1,
    }
}

#[test]
fn settings_out_of_range() {
    assert!(Table::new(PEER, 0, Some(&settings(8))).is_ok());
    assert_eq!(Table::new(PEER, 0, Some(&settings(9))).err(), Some(Refusal::Settings));
}

#[test]
fn too_long_is_no_record() {
    let mut table = Table::new(Peer([0; 16]), 1, None).unwrap();
    let mut out = [0; OUT];
    for n in [128, 129, 70_000] {
        let bytes = vec![0; n];
        let call = Call::Arrived { from: NORTH, bytes: &bytes };
        let refused = table.call(0, &call, &mut out).err();
        assert_eq!(refused, (n > 128).then_some(Refusal::Record));
    }
    assert_eq!(table.call(0, &Call::Poll, &mut out[1..]).err(), Some(Refusal::Buffer));
}

#[test]
fn no_number_is_left() {
    let mut table = Table::new(Peer([0; 16]), u64::MAX, None).unwrap();
    let mut out = [0; OUT];
    let dial = Call::Dial { peer: PEER, to: NORTH, msg1: b"", lease: 1 };
    assert_eq!(table.call(0, &dial, &mut out).err(), Some(Refusal::Numbers));
    assert_eq!(Refusal::Numbers.number(), 4);
}

#[test]
fn bytes_beyond_are_kept() {
    let mut table = Table::new(Peer([0; 16]), 1, None).unwrap();
    let mut out = [0xaa; OUT + 3];
    let outputs = table.call(0, &Call::Wake, &mut out).unwrap();
    assert_eq!(outputs.clone().collect::<Vec<_>>(), [Output::Wake { at: None }]);
    let n = outputs.bytes().len();
    assert!(out[n..].iter().all(|b| *b == 0xaa));
}

#[test]
fn a_table_has_the_size_that_the_documents_say() {
    let table = Table::new(PEER, 1, None).unwrap();
    assert_eq!(table.bytes().len(), 45_478);
}

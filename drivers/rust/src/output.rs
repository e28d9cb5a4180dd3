//! Outputs, read from the bytes that a call wrote (docs/RECORDS.md).

use crate::{Pair, Peer, Why};

/// How a session is built.
#[derive(Clone, Copy, Debug, PartialEq, Eq)]
pub enum Build {
    Fresh,
    FromCarry,
}

/// What becomes of a held peer's session.
#[derive(Clone, Copy, Debug, PartialEq, Eq)]
pub enum Transition {
    Promote,
    Replace,
    Move,
    Keep,
    Restarted,
    Roam,
}

/// What asked.
#[derive(Clone, Copy, Debug, PartialEq, Eq)]
pub enum Source {
    NotHeld,
    Restart,
    Replacement,
    OwnMsg2,
    RekeyMsg2,
}

/// Why a msg1 or a replacement is rejected. Where several hold, `Silent` is told
/// before `Full`, and `Full` before the others.
#[derive(Clone, Copy, Debug, PartialEq, Eq)]
pub enum Reason {
    Full,
    Unheard,
    Heard,
    Dampened,
    Replayed,
    ReplayFull,
    Silent,
}

/// What the driver is to do.
#[non_exhaustive]
#[derive(Clone, Copy, Debug, PartialEq, Eq)]
pub enum Output<'a> {
    Opened { link: u64 },
    /// `stored`: the msg2 was made before, and is that of the newest link at the pair that has one for this msg1.
    Answer { link: u64, stored: bool, msg2: &'a [u8] },
    Resend { link: u64, message: &'a [u8] },
    Rekey { peer: Peer, on_link: bool, reachable: bool },
    Install { peer: Peer, link: u64, pair: Pair<'a>, build: Build, initiator: bool, lease: u32 },
    Reset { peer: Peer, transition: Transition },
    Remove { peer: Peer, why: Why },
    Retire { link: u64, closes: Pairs<'a> },
    Release { link: u64, closes: Pairs<'a> },
    Close { closes: Pairs<'a> },
    Free { lease: u32 },
    Retry { peer: Peer },
    Reject { asker: Option<(Peer, Source)>, why: Reason },
    /// When the next poll is due: a clock reading, at most 2^64 - 1, which stands for every later time too.
    Wake { at: Option<u64> },
    /// A record that reads as none of these, whole: the linked library is another version. What it asks for stays undone.
    Unknown { record: &'a [u8] },
}

/// The outputs of a call, in the order in which they are to be done.
#[must_use = "outputs are to be done: with a Free that is dropped a lease is lost"]
#[derive(Clone, Debug)]
pub struct Outputs<'a> {
    rest: &'a [u8],
}

/// Pairs of a list.
#[derive(Clone, Copy, Debug, PartialEq, Eq)]
pub struct Pairs<'a> {
    left: u8,
    rest: &'a [u8],
}

impl<'a> Outputs<'a> {
    pub(crate) fn of(written: &'a [u8]) -> Self {
        Outputs { rest: written }
    }

    /// The bytes as they were written.
    pub fn bytes(&self) -> &'a [u8] {
        self.rest
    }
}

impl<'a> Iterator for Outputs<'a> {
    type Item = Output<'a>;

    fn next(&mut self) -> Option<Output<'a>> {
        if self.rest.is_empty() {
            return None;
        }
        let (record, rest) = first(self.rest);
        self.rest = rest;
        Some(Fields(record).output().unwrap_or(Output::Unknown { record }))
    }
}

impl<'a> Iterator for Pairs<'a> {
    type Item = Pair<'a>;

    fn next(&mut self) -> Option<Pair<'a>> {
        self.left = self.left.checked_sub(1)?;
        let mut fields = Fields(self.rest);
        let pair = fields.pair()?;
        self.rest = fields.0;
        Some(pair)
    }
}

/// The first record and the rest; all are one if its length is not that of a record here.
fn first(written: &[u8]) -> (&[u8], &[u8]) {
    let size = match written {
        [a, b, ..] => 2 + usize::from(u16::from_be_bytes([*a, *b])),
        _ => written.len(),
    };
    written.split_at_checked(size).unwrap_or((written, &[]))
}

/// What is left to read of a record. A reader gives nothing if its field is not there.
struct Fields<'a>(&'a [u8]);

impl<'a> Fields<'a> {
    fn run(&mut self, n: usize) -> Option<&'a [u8]> {
        let (run, rest) = self.0.split_at_checked(n)?;
        self.0 = rest;
        Some(run)
    }

    fn array<const N: usize>(&mut self) -> Option<[u8; N]> {
        let (array, rest) = self.0.split_first_chunk()?;
        self.0 = rest;
        Some(*array)
    }

    fn byte(&mut self) -> Option<u8> {
        self.array().map(u8::from_be_bytes)
    }

    fn link(&mut self) -> Option<u64> {
        self.array().map(u64::from_be_bytes)
    }

    fn lease(&mut self) -> Option<u32> {
        self.array().map(u32::from_be_bytes)
    }

    fn peer(&mut self) -> Option<Peer> {
        self.array().map(Peer)
    }

    fn pair(&mut self) -> Option<Pair<'a>> {
        let transport = self.array().map(u32::from_be_bytes)?;
        let n = self.byte()?;
        Some(Pair { transport, addr: self.run(n.into())? })
    }

    fn message(&mut self) -> Option<&'a [u8]> {
        let n = self.array().map(u16::from_be_bytes)?;
        self.run(n.into())
    }

    /// A list, walked through once to see that its pairs are there.
    fn pairs(&mut self) -> Option<Pairs<'a>> {
        let pairs = Pairs { left: self.byte()?, rest: self.0 };
        (0..pairs.left).try_for_each(|_| self.pair().map(drop))?;
        Some(pairs)
    }

    fn of<T: Copy>(&mut self, cases: &[T]) -> Option<T> {
        cases.get(usize::from(self.byte()?)).copied()
    }

    fn flag(&mut self) -> Option<bool> {
        self.of(&[false, true])
    }

    /// An output: length, version 1, kind, and its fields with nothing after them.
    fn output(&mut self) -> Option<Output<'a>> {
        let [_, _, 1, kind] = self.array()? else { return None };
        let output = match kind {
            1 => Output::Opened { link: self.link()? },
            2 => Output::Answer { link: self.link()?, stored: self.flag()?, msg2: self.message()? },
            3 => Output::Resend { link: self.link()?, message: self.message()? },
            4 => Output::Rekey { peer: self.peer()?, on_link: self.flag()?, reachable: self.flag()? },
            5 => self.install()?,
            6 => Output::Reset { peer: self.peer()?, transition: self.of(&TRANSITIONS)? },
            7 => Output::Remove { peer: self.peer()?, why: self.of(&WHYS)? },
            8 => Output::Retire { link: self.link()?, closes: self.pairs()? },
            9 => Output::Release { link: self.link()?, closes: self.pairs()? },
            10 => Output::Close { closes: self.pairs()? },
            11 => Output::Free { lease: self.lease()? },
            12 => Output::Retry { peer: self.peer()? },
            13 => self.reject()?,
            14 => Output::Wake { at: if self.flag()? { Some(self.link()?) } else { None } },
            _ => return None,
        };
        self.0.is_empty().then_some(output)
    }

    fn install(&mut self) -> Option<Output<'a>> {
        Some(Output::Install {
            peer: self.peer()?,
            link: self.link()?,
            pair: self.pair()?,
            build: self.of(&[Build::Fresh, Build::FromCarry])?,
            initiator: self.flag()?,
            lease: self.lease()?,
        })
    }

    fn reject(&mut self) -> Option<Output<'a>> {
        let asker = if self.flag()? { Some((self.peer()?, self.of(&SOURCES)?)) } else { None };
        Some(Output::Reject { asker, why: self.of(&REASONS)? })
    }
}

const TRANSITIONS: [Transition; 6] = [
    Transition::Promote,
    Transition::Replace,
    Transition::Move,
    Transition::Keep,
    Transition::Restarted,
    Transition::Roam,
];

const WHYS: [Why; 9] = [
    Why::Restart,
    Why::Replacement,
    Why::OwnRestart,
    Why::Ended,
    Why::Orphaned,
    Why::Disconnect,
    Why::Dead,
    Why::Admin,
    Why::Closed,
];

const SOURCES: [Source; 5] =
    [Source::NotHeld, Source::Restart, Source::Replacement, Source::OwnMsg2, Source::RekeyMsg2];

const REASONS: [Reason; 7] = [
    Reason::Full,
    Reason::Unheard,
    Reason::Heard,
    Reason::Dampened,
    Reason::Replayed,
    Reason::ReplayFull,
    Reason::Silent,
];

#[cfg(test)]
mod tests {
    use super::*;

    const FREE: [u8; 8] = [0, 6, 1, 11, 0, 0, 0, 9];

    fn read(written: &[u8]) -> Vec<Output<'_>> {
        Outputs::of(written).collect()
    }

    #[test]
    fn what_follows_an_unknown_one_is_read() {
        let other = [0, 3, 1, 99, 7];
        assert_eq!(read(&[&other[..], &FREE].concat()), [Output::Unknown { record: &other }, Output::Free { lease: 9 }]);
    }

    #[test]
    fn what_does_not_read_is_unknown() {
        let reset = [&[0, 19, 1, 6][..], &[2; 16], &[6]].concat();
        let records: [&[u8]; 10] = [
            &[0, 3, 1, 0, 0],                           // Done, which settle-tape writes
            &[0, 6, 2, 11, 0, 0, 0, 9],                 // version 2
            &reset,                                     // a transition of code 6
            &[0, 5, 1, 11, 0, 0, 9],                    // a lease of 3 bytes
            &[0, 7, 1, 11, 0, 0, 0, 9, 0],              // a byte too many
            &[0, 3, 1, 14, 2],                          // a flag of 2
            &[0, 8, 1, 10, 2, 0, 0, 0, 7, 0],           // a list of 2 with 1 pair
            &[0, 10, 1, 10, 1, 0, 0, 0, 7, 4, b'e', 0], // an address cut short
            &[0, 1, 1],                                 // no kind
            &[0, 0],
        ];
        for record in records {
            assert_eq!(read(&[record, &FREE].concat()), [Output::Unknown { record }, Output::Free { lease: 9 }]);
        }
    }

    #[test]
    fn what_cannot_be_cut_is_one() {
        for record in [&FREE[..7], &[0]] {
            assert_eq!(read(record), [Output::Unknown { record }]);
        }
        assert_eq!(read(&[]), []);
    }

    #[test]
    fn a_list_has_its_pairs() {
        let close = [0, 14, 1, 10, 2, 0, 0, 0, 7, 1, b'n', 0, 0, 0, 8, 0];
        let [Output::Close { closes }] = read(&close)[..] else { panic!("one Close") };
        let pairs = [Pair { transport: 7, addr: b"n" }, Pair { transport: 8, addr: b"" }];
        assert_eq!(closes.collect::<Vec<_>>(), pairs);
    }
}

//! The settle table for Rust drivers: a [`Table`], [`Call`]s in, [`Output`]s out.
//!
//! The table says which peer is held on which link. It has no clock, no sockets and no memory but its own 45,478 bytes; the driver
//! sends, dials, closes connections and gives leases back as the outputs say. What holds for every order of calls is proved of the
//! linked library: see `crates/settle/specs/Promise.antt` in the repository.
//!
//! ```
//! use settle::{Call, Output, Pair, Peer, Table, OUT};
//!
//! let mut table = Table::new(Peer([0; 16]), 1, None)?;
//! let mut out = [0; OUT];
//! let to = Pair { transport: 7, addr: b"north" };
//! let dial = Call::Dial { peer: Peer([2; 16]), to, msg1: b"hello", lease: 9 };
//! let mut outputs = table.call(0, &dial, &mut out)?;
//! assert_eq!(outputs.next(), Some(Output::Opened { link: 1 }));
//! assert_eq!(outputs.next(), None);
//! let outputs: Vec<_> = table.call(0, &Call::Abandon { link: 1 }, &mut out)?.collect();
//! assert_eq!(outputs[0], Output::Free { lease: 9 });
//! # Ok::<(), settle::Refusal>(())
//! ```
#![forbid(unsafe_op_in_unsafe_fn)]

mod output;
mod record;

pub use output::{Build, Output, Outputs, Pairs, Reason, Source, Transition};
pub use record::{Call, Hello, Proven, Settings, Why};

use std::fmt;

/// Bytes of buffer that are enough for every call; fewer are refused.
pub const OUT: usize = 10_240;

/// What the library answers to a call: the refusal's number, 0 for none, and how many bytes of the buffer are outputs.
#[repr(C)]
struct Answer {
    number: u8,
    len: usize,
}

unsafe extern "C" {
    fn settle_table_size() -> usize;
    fn settle_new(table: *mut u8, size: usize, record: *const u8, n: usize) -> u8;
    fn settle_call(table: *mut u8, size: usize, record: *const u8, n: usize, out: *mut u8, m: usize) -> Answer;
}

/// The address of a node.
#[derive(Clone, Copy, PartialEq, Eq, PartialOrd, Ord, Hash)]
pub struct Peer(pub [u8; 16]);

impl fmt::Debug for Peer {
    fn fmt(&self, f: &mut fmt::Formatter<'_>) -> fmt::Result {
        self.0.iter().try_for_each(|b| write!(f, "{b:02x}"))
    }
}

/// A connection: a transport and an address of at most 48 bytes on it.
#[derive(Clone, Copy, PartialEq, Eq)]
pub struct Pair<'a> {
    pub transport: u32,
    pub addr: &'a [u8],
}

impl fmt::Debug for Pair<'_> {
    fn fmt(&self, f: &mut fmt::Formatter<'_>) -> fmt::Result {
        write!(f, "{}:{}", self.transport, self.addr.escape_ascii())
    }
}

/// Why a call or a new was refused. It has then changed nothing, and its lease remains the caller's.
#[non_exhaustive]
#[derive(Clone, Copy, Debug, PartialEq, Eq)]
pub enum Refusal {
    Settings,
    Buffer,
    Record,
    Numbers,
    Links,
    Names,
    Paths,
    /// A number without a name here: the linked library is another version.
    Other(u8),
}

impl Refusal {
    /// The number of docs/RECORDS.md.
    pub fn number(self) -> u8 {
        match self {
            Refusal::Settings => 1,
            Refusal::Buffer => 2,
            Refusal::Record => 3,
            Refusal::Numbers => 4,
            Refusal::Links => 5,
            Refusal::Names => 6,
            Refusal::Paths => 7,
            Refusal::Other(number) => number,
        }
    }

    /// The refusal of a number that is not 0.
    fn of(number: u8) -> Refusal {
        match number {
            1 => Refusal::Settings,
            2 => Refusal::Buffer,
            3 => Refusal::Record,
            4 => Refusal::Numbers,
            5 => Refusal::Links,
            6 => Refusal::Names,
            7 => Refusal::Paths,
            _ => Refusal::Other(number),
        }
    }
}

impl fmt::Display for Refusal {
    fn fmt(&self, f: &mut fmt::Formatter<'_>) -> fmt::Result {
        f.write_str(match self {
            Refusal::Settings => "the settings are out of range",
            Refusal::Buffer => "the buffer is under 10,240 bytes",
            Refusal::Record => "not a record of a call",
            Refusal::Numbers => "no link number is left",
            Refusal::Links => "32 links are live",
            Refusal::Names => "32 peers have a place, and this one has none",
            Refusal::Paths => "the link has four paths",
            Refusal::Other(number) => return write!(f, "refused by number {number}, which has no name here"),
        })
    }
}

impl std::error::Error for Refusal {}

/// A settle table. Its bytes are reached by its calls alone, which is what the library asks of a driver.
pub struct Table {
    bytes: Box<[u8]>,
}

impl Table {
    /// A node that holds nothing. `settings` of `None` takes the default ones.
    pub fn new(me: Peer, first_link: u64, settings: Option<&Settings>) -> Result<Table, Refusal> {
        Table::from_record(record::new(me, first_link, settings).bytes())
    }

    /// The same from the bytes of a record of new.
    pub fn from_record(record: &[u8]) -> Result<Table, Refusal> {
        // SAFETY: no argument.
        let size = unsafe { settle_table_size() };
        let mut bytes = vec![0; size].into_boxed_slice();
        // SAFETY: two slices that do not overlap, lent for the call; the table has the size that the library asks for.
        let number = unsafe { settle_new(bytes.as_mut_ptr(), size, record.as_ptr(), record.len()) };
        if number != 0 {
            return Err(Refusal::of(number));
        }
        Ok(Table { bytes })
    }

    /// Answers one call at a clock reading in nanoseconds.
    pub fn call<'b>(&mut self, clock: u64, call: &Call<'_>, out: &'b mut [u8]) -> Result<Outputs<'b>, Refusal> {
        match record::call(clock, call) {
            Some(record) => self.call_record(record.bytes(), out),
            None if out.len() < OUT => Err(Refusal::Buffer),
            None => Err(Refusal::Record),
        }
    }

    /// The same from the bytes of a record.
    pub fn call_record<'b>(&mut self, record: &[u8], out: &'b mut [u8]) -> Result<Outputs<'b>, Refusal> {
        let (table, size) = (self.bytes.as_mut_ptr(), self.bytes.len());
        // SAFETY: three slices that do not overlap, lent for the call; the table was made by settle_new, and only settle_call has
        // changed it since.
        let a = unsafe { settle_call(table, size, record.as_ptr(), record.len(), out.as_mut_ptr(), out.len()) };
        if a.number != 0 {
            return Err(Refusal::of(a.number));
        }
        // The contract keeps len within the buffer; a library that broke it has written beyond, and this panics.
        Ok(Outputs::of(&out[..a.len]))
    }

    /// The table's bytes: equal tables have equal bytes.
    pub fn bytes(&self) -> &[u8] {
        &self.bytes
    }
}

#[cfg(test)]
mod tests {
    use super::Refusal;

    #[test]
    fn each_number_is_kept() {
        for number in 1..=u8::MAX {
            let refusal = Refusal::of(number);
            assert_eq!(refusal.number(), number);
            assert_eq!(refusal == Refusal::Other(number), number > 7);
        }
        assert_eq!(Refusal::of(8).to_string(), "refused by number 8, which has no name here");
    }
}

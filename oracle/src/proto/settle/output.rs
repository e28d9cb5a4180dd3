//! Stand-ins for the output types, in document 01's order. `Wake` is ours.

use super::gates::{Refusal, Source};
use super::links::{LinkNo, Pair};
use crate::identity::NodeAddr;
use crate::proto::rekey::{Arrival, IndexLease};

#[derive(Clone, Copy, Debug, PartialEq, Eq)]
pub enum Build {
    Fresh,
    FromCarry,
}

#[derive(Clone, Copy, Debug, PartialEq, Eq)]
pub enum Transition {
    Promote,
    Replace,
    Move,
    Keep,
    Restarted,
    Roam,
}

#[derive(Clone, Copy, Debug, PartialEq, Eq)]
pub enum Why {
    Restart,
    Replacement,
    OwnRestart,
    Ended,
    Orphaned,
    Disconnect,
    Dead,
    Admin,
    Closed,
}

#[derive(Clone, Copy, Debug, PartialEq, Eq)]
pub enum Denial {
    Full,
    Gate(Refusal),
}

#[derive(Debug, PartialEq, Eq)]
pub struct Install {
    pub peer: NodeAddr,
    pub link: LinkNo,
    pub pair: Pair,
    pub rekey: Build,
    pub initiator: bool,
    pub lease: IndexLease,
}

#[derive(Debug, PartialEq, Eq)]
pub enum Output {
    Opened { link: LinkNo },
    Answer { link: LinkNo, msg2: Vec<u8>, stored: bool },
    Resend { link: LinkNo, bytes: Vec<u8> },
    Rekey { peer: NodeAddr, arrival: Arrival },
    Install(Install),
    Reset { peer: NodeAddr, transition: Transition },
    Remove { peer: NodeAddr, why: Why },
    Retire { link: LinkNo, closes: Vec<Pair> },
    Release { link: LinkNo, closes: Vec<Pair> },
    Close { closes: Vec<Pair> },
    Free { lease: IndexLease },
    Retry { peer: NodeAddr },
    Reject { peer: Option<NodeAddr>, source: Option<Source>, why: Denial },
    Wake { at: Option<u64> },
}

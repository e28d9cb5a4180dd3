//! Stand-in for the node identifier: 16 bytes, ordered as an array.

#[derive(Clone, Copy, Debug, PartialEq, Eq, PartialOrd, Ord, Hash)]
pub struct NodeAddr(pub [u8; 16]);

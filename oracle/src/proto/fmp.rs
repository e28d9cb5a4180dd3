//! Stand-in for a msg1's ephemeral.

#[derive(Clone, Copy, Debug, PartialEq, Eq)]
pub struct EphemeralDigest(pub [u8; 32]);

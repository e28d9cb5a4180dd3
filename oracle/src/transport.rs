//! Stand-ins for a transport's number and an address on it.

#[derive(Clone, Copy, Debug, PartialEq, Eq, Hash)]
pub struct TransportId(pub u32);

impl TransportId {
    pub fn as_u32(&self) -> u32 {
        self.0
    }
}

#[derive(Clone, Debug, PartialEq, Eq, Hash)]
pub struct TransportAddr(pub Vec<u8>);

impl TransportAddr {
    pub fn as_bytes(&self) -> &[u8] {
        &self.0
    }
}

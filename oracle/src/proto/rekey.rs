//! Stand-ins for a session index lease and where a msg1 arrived. A lease is
//! moved, never copied, as in the source.

#[derive(Debug, PartialEq, Eq)]
pub struct IndexLease(pub u32);

#[derive(Clone, Copy, Debug, PartialEq, Eq)]
pub struct Arrival {
    pub on_link: bool,
    pub reachable: bool,
}

//! The parts of a replica's memory in one value that owns them.

use crate::ffi::{Counts, Group, Turn, Txn};
use crate::{Window, BLOCK, ITEMS, QUEUE, REPLICAS, SNAPSHOTS, TABLE, WRITTEN};

/// A replica's memory. Each call is defined on any content, so the fields are open to a host that
/// stores and restores them; what the calls promise holds of a memory that only calls have changed.
#[derive(Clone, Debug, PartialEq, Eq)]
pub struct Memory {
    /// The open transactions; a free row has ticket 0.
    pub table: [Txn; TABLE],
    /// What it knows of its group.
    pub group: Group,
    /// The slot that is processed next, and its marks.
    pub turn: Turn,
    /// The numbers of the replica.
    pub counts: Counts,
    /// Row r's written items, rising, from 8·r on.
    pub items: [u8; WRITTEN],
    /// The value beside each item.
    pub writes: [i32; WRITTEN],
    /// Row r's copy of the values at its begin, from 128·r on.
    pub snapshots: [i32; SNAPSHOTS],
    /// The tickets asked and not yet sent, in the order asked, zeros behind.
    pub queue: [u32; QUEUE],
    /// The values committed so far.
    pub values: [i32; ITEMS],
    /// Per item the commit count just after its last write.
    pub stamps: [u32; ITEMS],
    /// Per item its conflict class, 1 to 8; all 0 where no table is loaded, and so all of one class.
    pub classes: [u8; ITEMS],
    /// The block that waits at each place, 512 bytes for each replica; its first byte is 0 where none
    /// waits.
    pub places: Box<[u8]>,
    /// The block sent last.
    pub outbox: [u8; BLOCK],
    /// The last 64 blocks that the turn has left.
    pub window: Window,
}

impl Memory {
    /// All zero, with places for `n` replicas: what a make fills. An `n` out of range is refused whatever
    /// the places are.
    pub(crate) fn zero(n: u32) -> Memory {
        Memory {
            table: [Txn::default(); TABLE],
            group: Group::default(),
            turn: Turn::default(),
            counts: Counts::default(),
            items: [0; WRITTEN],
            writes: [0; WRITTEN],
            snapshots: [0; SNAPSHOTS],
            queue: [0; QUEUE],
            values: [0; ITEMS],
            stamps: [0; ITEMS],
            classes: [0; ITEMS],
            places: vec![0; BLOCK * REPLICAS.min(n as usize)].into_boxed_slice(),
            outbox: [0; BLOCK],
            window: Window::new(),
        }
    }
}

//! A replica of the proved engine, for Rust.
//!
//! [`Replica`] has document 01's ten calls, document 02's restart and load, its two notices, out and back, and
//! its giving. A refused call gives a [`Refusal`] and changes nothing, but for [`Refusal::Stale`], which ends its
//! transaction. A group has 2 to 6 replicas, numbered from 0; each holds 128 values, of the items 0 to 127.
//!
//! Who has several replicas moves the blocks. Slot s belongs to replica s mod n, and only its owner may
//! send for it: when [`Replica::is_turn`] holds, what [`Replica::send`] gives goes to every replica of
//! the group, the sender too, and each takes it with [`Replica::take`]. A replica at which nothing was
//! asked sends too: until it does, the whole group waits.
//!
//! ```
//! use stemline::{Refusal, Replica, ITEMS};
//!
//! fn main() -> Result<(), Refusal> {
//!     let start = [0; ITEMS];
//!     let mut group = [Replica::new(2, 0, &start)?, Replica::new(2, 1, &start)?];
//!     let ticket = group[1].begin()?;
//!     group[1].write(ticket, 5, 40)?;
//!     group[1].ask(ticket)?;
//!     // Slot 0 is replica 0's, which sends with nothing asked; slot 1 is replica 1's.
//!     for k in 0..2 {
//!         assert!(group[k].is_turn());
//!         let block = group[k].send()?;
//!         for replica in &mut group {
//!             replica.take(&block)?;
//!         }
//!     }
//!     assert_eq!(group[0].values()[5], 40);
//!     Ok(())
//! }
//! ```
//!
//! A [`Station`] holds the same values and only reads; its calls are those of a replica without write,
//! send, load and restart, and it takes no turn.
//!
//! A replica that is to outlive its machine's power keeps a journal: [`Durable`] does so, in a file. Who
//! keeps one by other means appends the block of each [`Replica::send`] and makes it durable before he
//! hands it out, and before the next of these the blocks of all slots that the turn has left, in order, from
//! [`Replica::window`].
//! [`Replica::restart`] makes a replica from a journal. `host/README.md` ("The journal") has all steps,
//! also for a disk that fails and a journal that is damaged.
//!
//! A [`driver::Driver`] is a replica with its journal, or a station, with all that a host must do around it but links,
//! clock and clients; [`testing`] plays groups of them.
//!
//! To look at what is sent and kept: [`Block`] is a block with its slot, sender and records, [`Blocks`] those
//! of a journal. Blocks and [`Report`]s print as one line.
//!
//! A [`Recorder`] is a replica that writes its calls and answers down, a [`StationRecorder`] such a station,
//! so that what it answered can be compared with what the proved program `replay` answers.

#![warn(missing_docs)]

mod answers;
mod block;
mod blocks;
mod calls;
mod digest;
mod disk;
pub mod driver;
mod durable;
mod failure;
pub mod ffi;
mod head;
mod journal;
mod map;
mod memory;
mod notice;
mod notices;
mod outcome;
mod recorder;
mod refusal;
mod reopened;
mod repeats;
mod replica;
mod round;
mod station;
mod tally;
pub mod testing;
mod window;

pub use answers::{Asked, Given, Restarted, Step, Taken, Work};
pub use block::{Block, DigitsError, Record};
pub use blocks::{Blocks, Stop};
pub use calls::Calls;
pub use digest::Digest;
pub use durable::Durable;
pub use failure::Failure;
pub use ffi::{Entry, Report};
pub use head::{Head, HEAD};
pub use journal::DiskError;
pub use memory::Memory;
pub use notice::Notice;
pub use notices::notices_path;
pub use outcome::Outcome;
pub use recorder::{Recorder, StationRecorder};
pub use refusal::Refusal;
pub use reopened::Reopened;
pub use replica::Replica;
pub use station::Station;
pub use window::Window;

// The limits, by the names and with the numbers that they have in C (`STEMLINE_` in front).

/// The most replicas of a group. The fewest are 2.
pub const REPLICAS: usize = 6;
/// Slots of a run, numbered from 0. A replica at this turn has processed them all.
pub const SLOTS: u32 = 100_000_000;
/// Rows of the table: the most open transactions.
pub const TABLE: usize = 6;
/// Tickets of the queue: those asked and not yet sent.
pub const QUEUE: usize = 6;
/// Items of a replica, numbered from 0; as many values, stamps, classes and values to start with.
pub const ITEMS: usize = 128;
/// Conflict classes of items, numbered from 1.
pub const CLASSES: u8 = 8;
/// Written items of all rows, 8 for each; as many values beside them.
pub const WRITTEN: usize = 48;
/// Values of all snapshots, 128 for each row.
pub const SNAPSHOTS: usize = 768;
/// Bytes of a block. The places have so many for each replica of the group.
pub const BLOCK: usize = 512;
/// The most steps of one [`Replica::take`]: 6 blocks wait at most, of 6 writesets each, and 5 slots that are
/// out may come behind them. Where more are out, it waits still: work on.
pub const STEPS: usize = 41;
/// The most slots that one [`Replica::take`] leaves, so: 6 with a block, and 5 that are out.
pub const LEFT: usize = 11;
/// In the place of an own number: a station, which has none.
pub const NO_NUMBER: u8 = 255;
/// Blocks of a window: the last that the turn has left.
pub const KEPT: usize = 64;
/// Bytes of a window.
pub const WINDOW: usize = 32_768;
/// In the place of a turn that is told: its replica is down.
pub const DOWN: u32 = 4_294_967_295;

/// Whose slot it is in a group of `n`: the number of the replica that sends for it.
///
/// ```
/// assert_eq!([6, 7, 8, 9].map(|slot| stemline::owner(slot, 3)), [0, 1, 2, 0]);
/// ```
#[inline]
pub fn owner(slot: u32, n: u32) -> u32 {
    // Only in altered memory is n 0; a slot mod 0 is then the slot itself.
    slot.checked_rem(n).unwrap_or(slot)
}

/// `Ok` of a value for 0, the refusal for any other number.
#[inline]
fn accepted<T>(number: u8, value: T) -> Result<T, Refusal> {
    match Refusal::from_number(number) {
        None => Ok(value),
        Some(refusal) => Err(refusal),
    }
}

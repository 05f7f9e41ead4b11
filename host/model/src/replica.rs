//! A replica and its calls: [`Replica::make`], [`Replica::restart`] from a journal, and the eleven that
//! a made replica takes, the client's in `client`, those that move the turn in `turn`, the load of
//! conflict classes in `classes`, and the notices of a membership service in `notices`. How it is given
//! what it missed is in [`crate::giving`].
//!
//! A [`Replica::station`] (document 02, Req 05) takes the same calls without a number of its own, so
//! that every sender is another to it: write and send are refused there before all else, and it is
//! neither restarted nor loaded with classes.
//!
//! A refused call gives the number of [`crate::refusal`] whose condition is the first to hold, in
//! the order that the call's comment names, and changes nothing. Only a write refused by 9 changes
//! something: its transaction ends as aborted.

mod classes;
mod client;
mod notices;
mod restart;
mod turn;

use std::collections::BTreeMap;

use crate::block::{Message, BLOCK, MAX_SLOT, RECORDS};
use crate::notice::Notice;
use crate::refusal::{OUT_OF_RANGE, WRONG_LENGTH};
use crate::window::Window;

pub use self::restart::Restarted;

/// The items of a replica, numbered from 0.
pub const ITEMS: usize = 128;
/// The most open transactions. A block has room for all their writesets.
pub const OPEN: usize = RECORDS;
/// The highest class of an item; the lowest is 1.
pub const CLASSES: u8 = 8;
/// The turn once every slot is processed.
pub const SLOTS: u32 = MAX_SLOT + 1;

/// One replica of a group, or a station beside it. Its fields are public for the tests that compare them or set them.
#[derive(Clone, Debug, PartialEq, Eq)]
pub struct Replica {
    /// Its number in the group; `None` at a station.
    pub own: Option<u8>,
    /// The values committed so far.
    pub values: [i32; ITEMS],
    /// Per item the commit count just after its last write (document 01's stamps).
    pub stamps: [u32; ITEMS],
    /// Per item its class, 1 to 8; all 0 where no table is loaded, and so all of one class.
    pub classes: [u8; ITEMS],
    /// The writesets committed, own and others'.
    pub commits: u32,
    /// The slot that is processed next (document 01's turn).
    pub turn: u32,
    /// The block sent for the turn. Document 01's sent mark is on where there is one.
    pub outbox: Option<[u8; BLOCK]>,
    /// The messages that wait, that of slot s at index s mod N (document 01's places).
    pub inbox: Vec<Option<Message>>,
    /// The notices taken, in order. None is ever forgotten.
    pub notices: Vec<Notice>,
    /// The blocks of the last slots that the turn has left. A station has them too, and is not asked.
    pub window: Window,
    /// The writesets of the turn's message that are committed.
    pub done: usize,
    /// Whether a message of another replica is committed in part (document 01's applying mark).
    pub applying: bool,
    /// Rising by ticket.
    pub open: Vec<Transaction>,
    /// The tickets that wait for the next own block (document 01's asked list).
    pub queue: Vec<u32>,
    /// The tickets given: the last one given.
    pub tickets: u32,
    /// Own transactions that ended with their writeset committed.
    pub committed: u32,
    /// Own transactions that ended with nothing written.
    pub read_only: u32,
    /// Own transactions that were aborted.
    pub aborted: u32,
    /// Own transactions that were withdrawn.
    pub withdrawn: u32,
}

/// An open transaction.
#[derive(Clone, Debug, PartialEq, Eq)]
pub struct Transaction {
    /// Its number, from 1 on.
    pub ticket: u32,
    /// How far it is.
    pub stage: Stage,
    /// The commit count when it began.
    pub snapshot: u32,
    /// The values when it began.
    pub values: Box<[i32; ITEMS]>,
    /// The writeset. Its items are locked until the transaction ends.
    pub writes: BTreeMap<u8, i32>,
}

/// How far an open transaction is.
#[derive(Clone, Copy, Debug, PartialEq, Eq)]
pub enum Stage {
    /// Its client reads and writes.
    Active,
    /// It waits for the next own block.
    Asked,
    /// It stands in the own block that was sent.
    Sent,
}

/// What [`Replica::report`] gives.
#[derive(Clone, Copy, Debug, Default, PartialEq, Eq)]
pub struct Report {
    /// The slot that is processed next.
    pub turn: u32,
    /// The writesets committed, own and others'.
    pub commits: u32,
    /// The tickets given: as many as `open` and the four endings together.
    pub tickets: u32,
    /// The open transactions.
    pub open: u32,
    /// Own transactions that ended with their writeset committed.
    pub committed: u32,
    /// Own transactions that ended with nothing written.
    pub read_only: u32,
    /// Own transactions that were aborted.
    pub aborted: u32,
    /// Own transactions that were withdrawn.
    pub withdrawn: u32,
}

/// What one [`Replica::work`] did.
#[derive(Clone, Debug, PartialEq, Eq)]
pub struct Work {
    /// The replica whose message stands at the turn, or whose slot that is where it is out.
    pub sender: u8,
    /// The ticket of the writeset committed, 0 for a message without records and for an out slot.
    pub ticket: u32,
    /// Whether the turn went up.
    pub moved: bool,
    /// The own transactions aborted, rising.
    pub aborted: Vec<u32>,
}

impl Replica {
    /// A replica of `n`, 2 to 6, with its own number below `n`. Refused by 1, 2.
    pub fn make(n: u32, own: u32, values: &[i32]) -> Result<Replica, u8> {
        let mut replica = Replica::station(n, values)?;
        if own >= n {
            return Err(OUT_OF_RANGE);
        }
        replica.own = Some(own as u8);
        Ok(replica)
    }

    /// A station beside a group of `n`, 2 to 6. Refused by 1, 2.
    pub fn station(n: u32, values: &[i32]) -> Result<Replica, u8> {
        let values: [i32; ITEMS] = values.try_into().map_err(|_| WRONG_LENGTH)?;
        if !(2..=6).contains(&n) {
            return Err(OUT_OF_RANGE);
        }
        Ok(Replica {
            own: None,
            values,
            stamps: [0; ITEMS],
            classes: [0; ITEMS],
            commits: 0,
            turn: 0,
            outbox: None,
            inbox: vec![None; n as usize],
            notices: Vec::new(),
            window: Window::empty(0),
            done: 0,
            applying: false,
            open: Vec::with_capacity(OPEN),
            queue: Vec::with_capacity(OPEN),
            tickets: 0,
            committed: 0,
            read_only: 0,
            aborted: 0,
            withdrawn: 0,
        })
    }

    /// Whether it only reads, without a turn of its own.
    pub fn is_station(&self) -> bool {
        self.own.is_none()
    }

    /// The values committed so far.
    pub fn values(&self) -> &[i32; ITEMS] {
        &self.values
    }

    /// The commit count just after the last write of an item, 0 if it has none.
    pub fn stamp(&self, item: usize) -> u32 {
        self.stamps[item]
    }

    /// The tickets of the active transactions, rising.
    pub fn active_tickets(&self) -> Vec<u32> {
        let active = self.open.iter().filter(|t| t.stage == Stage::Active);
        active.map(|t| t.ticket).collect()
    }

    /// For tests: a replica just made, as it would be after so many slots, all without records, and
    /// so many transactions, all withdrawn; but with nothing in its window, as nothing is in its journal.
    #[doc(hidden)]
    pub fn fast_forward(mut self, slots: u32, tickets: u32) -> Replica {
        self.turn += slots;
        self.window = Window::empty(self.turn);
        self.tickets += tickets;
        self.withdrawn += tickets;
        self
    }
}

#[cfg(test)]
mod tests;

//! The calls of a client (document 01's "What a client may do").

use std::collections::BTreeMap;

use super::{Replica, Report, Stage, Transaction, ITEMS, OPEN};
use crate::block::{ENTRIES, MAX_TICKET};
use crate::refusal::{
    ALL_OPEN, APPLYING, LOCKED, NOT_ACTIVE, NOT_OPEN, OUT_OF_RANGE, STALE, STATION_ONLY_READS,
    TICKETS_SPENT, WRITESET_FULL,
};

impl Replica {
    /// Opens a transaction and gives its ticket. Refused by 5, 6.
    pub fn begin(&mut self) -> Result<u32, u8> {
        if self.open.len() == OPEN {
            return Err(ALL_OPEN);
        }
        if self.tickets == MAX_TICKET {
            return Err(TICKETS_SPENT);
        }
        self.tickets += 1;
        self.open.push(Transaction {
            ticket: self.tickets,
            stage: Stage::Active,
            snapshot: self.commits,
            values: Box::new(self.values),
            writes: BTreeMap::new(),
        });
        Ok(self.tickets)
    }

    /// What the transaction wrote last to the item, else the item's value at its snapshot. Refused
    /// by 2, 3, 4.
    pub fn read(&self, ticket: u32, item: u32) -> Result<i32, u8> {
        let item = in_range(item)?;
        let transaction = &self.open[self.active(ticket)?];
        let written = transaction.writes.get(&item).copied();
        Ok(written.unwrap_or(transaction.values[usize::from(item)]))
    }

    /// Puts the item with its value into the writeset. Refused by 25, 2, 3, 4, 7 and, if the
    /// transaction does not hold the item already, by 9, 8, 10 (document 02, Req 07).
    pub fn write(&mut self, ticket: u32, item: u32, value: i32) -> Result<(), u8> {
        if self.is_station() {
            return Err(STATION_ONLY_READS);
        }
        let item = in_range(item)?;
        let at = self.active(ticket)?;
        if self.must_wait(item) {
            return Err(APPLYING);
        }
        if let Some(held) = self.open[at].writes.get_mut(&item) {
            *held = value;
            return Ok(());
        }
        // Whoever holds the item, waiting for it would be in vain.
        if self.stamps[usize::from(item)] > self.open[at].snapshot {
            self.open.remove(at);
            self.aborted += 1;
            return Err(STALE);
        }
        // The transaction does not hold the item, so whoever does is another.
        if self.open.iter().any(|t| t.writes.contains_key(&item)) {
            return Err(LOCKED);
        }
        let transaction = &mut self.open[at];
        if transaction.writes.len() == ENTRIES {
            return Err(WRITESET_FULL);
        }
        transaction.writes.insert(item, value);
        Ok(())
    }

    /// Requests commit. A transaction without writes commits and ends on the spot; then the answer
    /// is true. Any other waits for the next own block. Refused by 3, 4.
    pub fn ask(&mut self, ticket: u32) -> Result<bool, u8> {
        let at = self.active(ticket)?;
        let read_only = self.open[at].writes.is_empty();
        if read_only {
            self.open.remove(at);
            self.read_only += 1;
        } else {
            self.open[at].stage = Stage::Asked;
            self.queue.push(ticket);
        }
        Ok(read_only)
    }

    /// Ends an active transaction. Refused by 3, 4.
    pub fn withdraw(&mut self, ticket: u32) -> Result<(), u8> {
        let at = self.active(ticket)?;
        self.open.remove(at);
        self.withdrawn += 1;
        Ok(())
    }

    /// The counts of the calls so far. Never refused.
    pub fn report(&self) -> Report {
        Report {
            turn: self.turn,
            commits: self.commits,
            tickets: self.tickets,
            open: self.open.len() as u32,
            committed: self.committed,
            read_only: self.read_only,
            aborted: self.aborted,
            withdrawn: self.withdrawn,
        }
    }

    /// Where an active transaction is. Refused by 3, 4.
    fn active(&self, ticket: u32) -> Result<usize, u8> {
        let at = self.open.iter().position(|t| t.ticket == ticket);
        let at = at.ok_or(NOT_OPEN)?;
        match self.open[at].stage {
            Stage::Active => Ok(at),
            Stage::Asked | Stage::Sent => Err(NOT_ACTIVE),
        }
    }
}

fn in_range(item: u32) -> Result<u8, u8> {
    if (item as usize) < ITEMS {
        Ok(item as u8)
    } else {
        Err(OUT_OF_RANGE)
    }
}

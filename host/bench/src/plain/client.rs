//! The calls of a client.

use model::block::{ENTRIES, MAX_TICKET};
use model::refusal::{
    ALL_OPEN, APPLYING, LOCKED, NOT_ACTIVE, NOT_OPEN, OUT_OF_RANGE, STALE, STATION_ONLY_READS,
    TICKETS_SPENT, WRITESET_FULL,
};
use model::replica::ITEMS;

use super::{Replica, Stage};

impl Replica {
    /// Opens a transaction and gives its ticket.
    pub fn begin(&mut self) -> Result<u32, u8> {
        let free = self.rows.iter_mut().find(|row| !row.is_open());
        let row = free.ok_or(ALL_OPEN)?;
        if self.tickets == MAX_TICKET {
            return Err(TICKETS_SPENT);
        }
        self.tickets += 1;
        row.ticket = self.tickets;
        row.snapshot = self.commits;
        row.stage = Stage::Active;
        row.count = 0;
        row.values = self.values;
        Ok(self.tickets)
    }

    /// What the item is to the transaction.
    pub fn read(&self, ticket: u32, item: u32) -> Result<i32, u8> {
        let item = in_range(item)?;
        let row = &self.rows[self.active(ticket)?];
        Ok(match row.items().iter().position(|&held| held == item) {
            Some(at) => row.writes[at],
            None => row.values[usize::from(item)],
        })
    }

    /// Puts the item with its value into the writeset.
    pub fn write(&mut self, ticket: u32, item: u32, value: i32) -> Result<(), u8> {
        if self.is_station() {
            return Err(STATION_ONLY_READS);
        }
        let item = in_range(item)?;
        let r = self.active(ticket)?;
        if self.applying && self.is_to_come(item) {
            return Err(APPLYING);
        }
        let row = &mut self.rows[r];
        if let Some(at) = row.items().iter().position(|&held| held == item) {
            row.writes[at] = value;
            return Ok(());
        }
        if self.stamps[usize::from(item)] > row.snapshot {
            row.end();
            self.aborted += 1;
            return Err(STALE);
        }
        // A free row has no items, and the transaction's own row has not this one.
        if self.rows.iter().any(|other| other.items().contains(&item)) {
            return Err(LOCKED);
        }
        let row = &mut self.rows[r];
        if row.count == ENTRIES {
            return Err(WRITESET_FULL);
        }
        let at = row.items().partition_point(|&held| held < item);
        row.items.copy_within(at..row.count, at + 1);
        row.writes.copy_within(at..row.count, at + 1);
        row.items[at] = item;
        row.writes[at] = value;
        row.count += 1;
        Ok(())
    }

    /// Whether it had no writes and so ended.
    pub fn ask(&mut self, ticket: u32) -> Result<bool, u8> {
        let at = self.active(ticket)?;
        let row = &mut self.rows[at];
        if row.count == 0 {
            row.end();
            self.read_only += 1;
            return Ok(true);
        }
        row.stage = Stage::Asked;
        self.queue[self.queued] = ticket;
        self.queued += 1;
        Ok(false)
    }

    /// Ends an active transaction.
    pub fn withdraw(&mut self, ticket: u32) -> Result<(), u8> {
        let at = self.active(ticket)?;
        self.rows[at].end();
        self.withdrawn += 1;
        Ok(())
    }

    /// The row of an active transaction.
    fn active(&self, ticket: u32) -> Result<usize, u8> {
        if ticket == 0 {
            return Err(NOT_OPEN);
        }
        let at = self.rows.iter().position(|row| row.ticket == ticket);
        let at = at.ok_or(NOT_OPEN)?;
        match self.rows[at].stage {
            Stage::Active => Ok(at),
            Stage::Asked | Stage::Sent => Err(NOT_ACTIVE),
        }
    }
}

fn in_range(item: u32) -> Result<u8, u8> {
    if (item as usize) < ITEMS {
        Ok(item as u8)
    } else {
        Err(OUT_OF_RANGE)
    }
}

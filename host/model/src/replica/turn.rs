//! The calls that move the turn (document 01's "What moves the turn").

use super::{Replica, Stage, Transaction, Work, ITEMS, SLOTS};
use crate::block::{self, Header, Record, BLOCK, NEXT, TO_COMMIT};
use crate::refusal::{
    ALREADY_SENT, FAR_SLOT, NOTHING_WAITS, NOT_OUR_TURN, NOT_SENT, PAST_SLOT, SLOTS_SPENT,
    SLOT_OUT, SLOT_TAKEN, STATION_ONLY_READS, WRONG_GROUP, WRONG_LENGTH,
};

impl Replica {
    /// The block for the own slot, with the writesets of all transactions asked so far, in the
    /// order asked. Refused by 25, 13, 11, 29, 12.
    pub fn send(&mut self) -> Result<[u8; BLOCK], u8> {
        let own = self.own.ok_or(STATION_ONLY_READS)?;
        if self.turn == SLOTS {
            return Err(SLOTS_SPENT);
        }
        if self.owner(self.turn) != usize::from(own) {
            return Err(NOT_OUR_TURN);
        }
        if self.is_out(self.turn) {
            return Err(SLOT_OUT);
        }
        if self.outbox.is_some() {
            return Err(ALREADY_SENT);
        }
        let count = self.queue.len() as u8;
        let header = Header {
            kind: if count == 0 { NEXT } else { TO_COMMIT },
            sender: own,
            replicas: self.inbox.len() as u8,
            count,
            slot: self.turn,
        };
        // Every ticket in the queue is found: one that ends leaves the queue.
        let records = self.queue.iter().filter_map(|&ticket| {
            let transaction = self.open.iter().find(|t| t.ticket == ticket)?;
            let entries = transaction.writes.iter().map(|(&item, &v)| (item, v));
            Some((ticket, entries))
        });
        let mut block = [0; BLOCK];
        block::encode_records(&header, records, &mut block);
        for transaction in &mut self.open {
            if transaction.stage == Stage::Asked {
                transaction.stage = Stage::Sent;
            }
        }
        self.queue.clear();
        self.outbox = Some(block);
        Ok(block)
    }

    /// As [`Replica::send`], into bytes of the caller. Refused by 25, 1, 13, 11, 29, 12.
    pub fn send_into(&mut self, bytes: &mut [u8]) -> Result<(), u8> {
        if self.is_station() {
            return Err(STATION_ONLY_READS);
        }
        let bytes: &mut [u8; BLOCK] = bytes.try_into().map_err(|_| WRONG_LENGTH)?;
        *bytes = self.send()?;
        Ok(())
    }

    /// Keeps the message of a block until its slot is the turn. Refused by 1, 14, 15, 16, 17, 29,
    /// 18, 19, 20.
    pub fn deliver(&mut self, bytes: &[u8]) -> Result<(), u8> {
        let header = block::read(bytes)?;
        let replicas = self.inbox.len();
        if usize::from(header.replicas) != replicas {
            return Err(WRONG_GROUP);
        }
        if header.slot < self.turn {
            return Err(PAST_SLOT);
        }
        if self.is_out(header.slot) {
            return Err(SLOT_OUT);
        }
        if header.slot >= self.turn + replicas as u32 {
            return Err(FAR_SLOT);
        }
        // The whole block is compared, also when some of its writesets are committed already.
        if self.is_own(header.sender) && self.outbox.as_ref().is_none_or(|sent| sent != bytes) {
            return Err(NOT_SENT);
        }
        let owner = self.owner(header.slot);
        let waiting = &mut self.inbox[owner];
        if waiting.is_some() {
            return Err(SLOT_TAKEN);
        }
        *waiting = Some(block::message(&header, bytes));
        Ok(())
    }

    /// Takes one step at the turn's message: commits its next writeset, or passes over a message
    /// without records. An out slot is passed as by such a message, and needs none. Refused by 21.
    pub fn work(&mut self) -> Result<Work, u8> {
        if self.is_out(self.turn) {
            return Ok(self.pass_out());
        }
        let Some(message) = &self.inbox[self.owner(self.turn)] else {
            return Err(NOTHING_WAITS);
        };
        let mut work = Work {
            sender: message.sender,
            ticket: 0,
            moved: true,
            aborted: Vec::new(),
        };
        let Some(record) = message.records.get(self.done) else {
            self.advance();
            return Ok(work);
        };
        work.ticket = record.ticket;
        work.moved = self.done + 1 == message.records.len();
        if self.is_own(work.sender) {
            let sent = |t: &Transaction| t.ticket == record.ticket && t.stage == Stage::Sent;
            // On an altered state alone there is none, and nobody ends.
            if let Some(at) = self.open.iter().position(sent) {
                self.open.remove(at);
                self.committed += 1;
            }
        } else {
            let hit = |t: &Transaction| {
                let written = |item| t.writes.contains_key(item);
                t.stage != Stage::Sent && record.entries.iter().any(|e| written(&e.item))
            };
            let aborted = &mut work.aborted;
            aborted.extend(self.open.iter().filter(|t| hit(t)).map(|t| t.ticket));
            self.open.retain(|t| !aborted.contains(&t.ticket));
            self.queue.retain(|ticket| !aborted.contains(ticket));
            self.aborted += aborted.len() as u32;
            self.applying = true;
        }
        self.commits += 1;
        put(record, self.commits, &mut self.values, &mut self.stamps);
        self.done += 1;
        if work.moved {
            self.advance();
        }
        Ok(work)
    }

    /// As [`Replica::work`]; and beside the answer, if the turn left the slot of another, that one's
    /// block, or of an out slot the *next*, which is to be appended to the journal. An own block stands
    /// there since its send, but not the *next* of an own slot that is out; and a station has no journal.
    pub fn work_journaled(&mut self) -> Result<(Work, Option<[u8; BLOCK]>), u8> {
        let out = self.is_out(self.turn);
        let work = self.work()?;
        let is_new = !self.is_station() && (out || !self.is_own(work.sender));
        let left = self.window.last().filter(|_| work.moved && is_new);
        let left = left.copied();
        Ok((work, left))
    }

    /// The block that waits for the turn, if one does: the bytes that were delivered.
    pub fn waiting(&self) -> Option<[u8; BLOCK]> {
        self.inbox[self.owner(self.turn)]
            .as_ref()
            .map(block::encode)
    }

    /// The replica that a slot belongs to. Its message waits at that index of the inbox.
    pub(crate) fn owner(&self, slot: u32) -> usize {
        slot as usize % self.inbox.len()
    }

    /// Whether it is this replica that sends under a number. At a station every sender is another.
    pub(super) fn is_own(&self, sender: u8) -> bool {
        self.own == Some(sender)
    }

    /// Leaves the slot of the message that waits. It has one block, so the bytes are those that were delivered.
    fn advance(&mut self) {
        let owner = self.owner(self.turn);
        if let Some(message) = self.inbox[owner].take() {
            self.leave_slot(&block::encode(&message));
        }
    }

    /// Ends the turn, and keeps the block of the slot that it was.
    pub(super) fn leave_slot(&mut self, block: &[u8; BLOCK]) {
        self.window.keep(*block);
        self.turn += 1;
        self.outbox = None;
        self.done = 0;
        self.applying = false;
    }
}

/// Gives the items of a writeset their values, and as their stamps the commit count just after it.
pub(super) fn put(
    writeset: &Record,
    commits: u32,
    values: &mut [i32; ITEMS],
    stamps: &mut [u32; ITEMS],
) {
    for entry in &writeset.entries {
        values[usize::from(entry.item)] = entry.value;
        stamps[usize::from(entry.item)] = commits;
    }
}

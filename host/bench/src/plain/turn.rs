//! The calls that move the turn.

use model::block::{self, Header, BLOCK, NEXT, TO_COMMIT};
use model::refusal::{
    ALREADY_SENT, FAR_SLOT, NOTHING_WAITS, NOT_OUR_TURN, NOT_SENT, PAST_SLOT, SLOTS_SPENT,
    SLOT_OUT, SLOT_TAKEN, STATION_ONLY_READS, WRONG_GROUP,
};
use model::replica::SLOTS;

use super::{Replica, Stage, Work, KEPT, OPEN};

impl Replica {
    /// The block for the own slot at the turn.
    pub fn send(&mut self) -> Result<[u8; BLOCK], u8> {
        if self.is_station() {
            return Err(STATION_ONLY_READS);
        }
        if self.turn == SLOTS {
            return Err(SLOTS_SPENT);
        }
        if self.place(self.turn) != usize::from(self.own) {
            return Err(NOT_OUR_TURN);
        }
        if self.is_out(self.turn) {
            return Err(SLOT_OUT);
        }
        if self.sent {
            return Err(ALREADY_SENT);
        }
        let header = Header {
            kind: if self.queued == 0 { NEXT } else { TO_COMMIT },
            sender: self.own,
            replicas: self.n,
            count: self.queued as u8,
            slot: self.turn,
        };
        let records = self.queue[..self.queued].iter().filter_map(|&ticket| {
            let row = self.rows.iter().find(|row| row.ticket == ticket)?;
            let values = row.writes.iter().copied();
            Some((ticket, row.items().iter().copied().zip(values)))
        });
        block::encode_records(&header, records, &mut self.outbox);
        for row in &mut self.rows {
            if row.stage == Stage::Asked {
                row.stage = Stage::Sent;
            }
        }
        self.queued = 0;
        self.sent = true;
        Ok(self.outbox)
    }

    /// Keeps a block in its place.
    pub fn deliver(&mut self, bytes: &[u8]) -> Result<(), u8> {
        let header = block::read(bytes)?;
        if header.replicas != self.n {
            return Err(WRONG_GROUP);
        }
        if header.slot < self.turn {
            return Err(PAST_SLOT);
        }
        if self.is_out(header.slot) {
            return Err(SLOT_OUT);
        }
        if header.slot - self.turn >= u32::from(self.n) {
            return Err(FAR_SLOT);
        }
        if header.sender == self.own && !(self.sent && self.outbox[..] == *bytes) {
            return Err(NOT_SENT);
        }
        // The sender is the owner of the slot, and its place is by its number.
        let place = &mut self.places[usize::from(header.sender)];
        if place[0] != 0 {
            return Err(SLOT_TAKEN);
        }
        place.copy_from_slice(bytes);
        Ok(())
    }

    /// One step with the block at the turn.
    pub fn work(&mut self) -> Result<Work, u8> {
        let at = self.place(self.turn);
        let place = &self.places[at];
        if self.is_out(self.turn) && self.turn < SLOTS {
            return Ok(self.pass());
        }
        if place[0] == 0 {
            return Err(NOTHING_WAITS);
        }
        let header = block::header(place);
        let mut work = Work {
            sender: header.sender,
            ticket: 0,
            moved: true,
            aborted: [0; OPEN],
            count: 0,
            append: false,
        };
        if header.kind == NEXT {
            work.append = self.advance(at);
            return Ok(work);
        }
        let record = usize::from(self.done);
        let head = block::record_head(place, record);
        let entries = (0..usize::from(head.writes)).map(|e| block::entry(place, record, e));
        if header.sender == self.own {
            let mut rows = self.rows.iter_mut();
            let own = rows.find(|row| row.ticket == head.ticket && row.stage == Stage::Sent);
            if let Some(row) = own {
                row.end();
                self.committed += 1;
            }
        } else {
            for row in &mut self.rows {
                let hit = |item| row.items().contains(&item);
                if row.is_open() && row.stage != Stage::Sent && entries.clone().any(|e| hit(e.item))
                {
                    work.aborted[work.count] = row.ticket;
                    work.count += 1;
                    row.end();
                }
            }
            self.applying = true;
        }
        self.commits += 1;
        for entry in entries {
            self.values[usize::from(entry.item)] = entry.value;
            self.stamps[usize::from(entry.item)] = self.commits;
        }
        if work.count > 0 {
            work.aborted[..work.count].sort_unstable();
            self.leave_queue(&work.aborted[..work.count]);
            self.aborted += work.count as u32;
        }
        work.ticket = head.ticket;
        self.done += 1;
        work.moved = self.done == header.count;
        if work.moved {
            work.append = self.advance(at);
        }
        Ok(work)
    }

    /// Takes ended transactions out of the queue.
    fn leave_queue(&mut self, ended: &[u32]) {
        let mut kept = 0;
        for at in 0..self.queued {
            let ticket = self.queue[at];
            if !ended.contains(&ticket) {
                self.queue[kept] = ticket;
                kept += 1;
            }
        }
        self.queued = kept;
    }

    pub(super) fn place(&self, slot: u32) -> usize {
        (slot % u32::from(self.n)) as usize
    }

    /// Ends the turn, and gives whether it leaves another's slot.
    fn advance(&mut self, place: usize) -> bool {
        let left = &mut self.places[place];
        self.window[self.turn as usize % KEPT].copy_from_slice(left);
        left[0] = 0;
        self.turn += 1;
        self.done = 0;
        self.sent = false;
        self.applying = false;
        place != usize::from(self.own)
    }
}

//! The calls that move the turn, worked out of the history.

use model::block::{self, Entry, Message, Record, BLOCK, NEXT, TO_COMMIT};
use model::replica::{Work, SLOTS};

use super::{Fault, Historical, State};

impl Historical {
    pub(super) fn send(&mut self) -> Result<[u8; BLOCK], u8> {
        let (turn, own) = (self.turn(), self.own.ok_or(25)?);
        if turn == SLOTS {
            return Err(13);
        }
        if turn % self.n != own {
            return Err(11);
        }
        if self.is_out(turn) {
            return Err(29);
        }
        if self.present_block().is_some() {
            return Err(12);
        }
        let records = self.take_queue();
        let block = block::encode(&Message {
            kind: if records.is_empty() { NEXT } else { TO_COMMIT },
            sender: own as u8,
            replicas: self.n as u8,
            slot: turn,
            records,
        });
        self.sent.push(block);
        Ok(block)
    }

    /// The records of what is asked, which becomes sent.
    fn take_queue(&mut self) -> Vec<Record> {
        if self.fault == Fault::AlwaysNext {
            return Vec::new();
        }
        let queue = self.queue();
        let records = queue.iter().map(|&t| self.by_ticket(t).record()).collect();
        for t in self.begun.iter_mut().filter(|t| queue.contains(&t.ticket)) {
            t.state = State::Sent;
        }
        records
    }

    pub(super) fn deliver(&mut self, bytes: &[u8]) -> Result<(), u8> {
        let mut message = block::decode(bytes)?;
        let turn = self.turn();
        if u32::from(message.replicas) != self.n {
            return Err(16);
        }
        if message.slot < turn {
            return Err(17);
        }
        if self.is_out(message.slot) {
            return Err(29);
        }
        if message.slot >= turn + self.n {
            return Err(18);
        }
        let own = Some(u32::from(message.sender)) == self.own;
        if own && self.present_block().is_none_or(|block| block != bytes) {
            return Err(19);
        }
        if self.received.iter().any(|m| m.slot == message.slot) {
            return Err(20);
        }
        if own && self.fault == Fault::LateIntoBlock {
            let late = self.take_queue();
            message.records.extend(late);
        }
        self.received.push(message);
        Ok(())
    }

    pub(super) fn work(&mut self) -> Result<Work, u8> {
        if self.is_out(self.turn()) {
            let work = Work {
                sender: (self.turn() % self.n) as u8,
                ticket: 0,
                moved: true,
                aborted: Vec::new(),
            };
            self.works.push(work.clone());
            return Ok(work);
        }
        let message = self.waiting().ok_or(21)?.clone();
        let mut work = Work {
            sender: message.sender,
            ticket: 0,
            moved: true,
            aborted: Vec::new(),
        };
        let (done, classes) = (self.done(), self.classes());
        let by_class = self.fault == Fault::AbortsByClass;
        let conflict = |item: u32, other: u8| match by_class {
            true => classes[item as usize] == classes[usize::from(other)],
            false => item == u32::from(other),
        };
        let record = message.records.get(done);
        if let Some(record) = record.filter(|_| self.fault != Fault::DropsBlocks) {
            work.ticket = record.ticket;
            work.moved = done + 1 == message.records.len() || self.fault == Fault::FirstOnly;
            let own = Some(u32::from(message.sender)) == self.own;
            for t in &mut self.begun {
                let spared = t.state == State::Asked && self.fault == Fault::SparesAsked;
                let in_reach = matches!(t.state, State::Active | State::Asked) && !spared;
                let written = |e: &Entry| t.writes.iter().any(|w| conflict(w.0, e.item));
                if own && t.ticket == record.ticket {
                    t.state = State::Committed;
                } else if !own && in_reach && record.entries.iter().any(written) {
                    t.state = State::Aborted;
                    work.aborted.push(t.ticket);
                }
            }
            self.commits.push(record.entries.clone());
        }
        self.works.push(work.clone());
        Ok(work)
    }
}

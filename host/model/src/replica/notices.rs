//! Notices (document 02, Req 10): which slots are passed without a block.

use super::{Replica, Work};
use crate::block::{self, Message, BLOCK, MAX_SLOT};
use crate::notice::{self, Kind, Notice};
use crate::refusal::{NOTICE_REFUSED, OUT_OF_RANGE};

impl Replica {
    /// Takes a notice. Nothing but the list of those taken changes. Refused by 2, 28.
    pub fn notice(&mut self, notice: Notice) -> Result<(), u8> {
        if notice.about as usize >= self.inbox.len() || notice.slot > MAX_SLOT {
            return Err(OUT_OF_RANGE);
        }
        let fits = match notice.kind {
            Kind::Out => self.may_go_out(notice),
            Kind::Back => self.may_come_back(notice),
        };
        if self.turn > notice.slot || !fits {
            return Err(NOTICE_REFUSED);
        }
        self.notices.push(notice);
        Ok(())
    }

    /// It is not out already, be it only from a slot ahead on; it is back by now, if it was out; and
    /// there is no block of it for a slot that would be out.
    fn may_go_out(&self, Notice { about, slot, .. }: Notice) -> bool {
        let free = match self.last_about(about) {
            Some(last) => last.kind == Kind::Back && last.slot <= self.turn,
            None => true,
        };
        let of_it = |message: &&Message| u32::from(message.sender) == about;
        let mut placed = self.inbox.iter().flatten().filter(of_it);
        // A block half applied is still at its place.
        let placed = placed.any(|message| message.slot >= slot);
        let sent = self.own.map(u32::from) == Some(about) && self.outbox.is_some();
        free && !placed && !(sent && self.turn >= slot)
    }

    /// It is out, and from a slot below on.
    fn may_come_back(&self, Notice { about, slot, .. }: Notice) -> bool {
        let last = self.last_about(about);
        last.is_some_and(|last| last.kind == Kind::Out && slot > last.slot)
    }

    fn last_about(&self, replica: u32) -> Option<&Notice> {
        notice::about(&self.notices, replica).next_back()
    }

    /// Whether a slot is out, by all notices taken.
    pub fn is_out(&self, slot: u32) -> bool {
        notice::puts_out(&self.notices, self.inbox.len() as u32, slot)
    }

    /// The *next* of the turn's slot, if that is out: what a work would pass it by.
    pub fn out_next(&self) -> Option<[u8; BLOCK]> {
        let next = || block::encode(&self.next_of_turn());
        self.is_out(self.turn).then(next)
    }

    fn next_of_turn(&self) -> Message {
        notice::next_of(self.inbox.len() as u32, self.turn)
    }

    /// A work on an out slot. No place is touched: none holds a block of it.
    pub(super) fn pass_out(&mut self) -> Work {
        let next = self.next_of_turn();
        let work = Work {
            sender: next.sender,
            ticket: 0,
            moved: true,
            aborted: Vec::new(),
        };
        self.leave_slot(&block::encode(&next));
        work
    }
}

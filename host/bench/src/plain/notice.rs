//! Notices.

use model::block::{self, Header, NEXT};
use model::notice::{Kind, Notice};
use model::refusal::{NOTICE_REFUSED, OUT_OF_RANGE};
use model::replica::SLOTS;

use super::{Replica, Work, KEPT, OPEN};

impl Replica {
    /// Takes a notice.
    pub fn notice(&mut self, notice: Notice) -> Result<(), u8> {
        let Notice { kind, about, slot } = notice;
        if about >= u32::from(self.n) || slot >= SLOTS {
            return Err(OUT_OF_RANGE);
        }
        let k = about as usize;
        let fits = match kind {
            Kind::Out => {
                let header = block::header(&self.places[k]);
                let placed = header.kind != 0 && header.slot >= slot;
                let sent = k == usize::from(self.own) && self.sent && self.turn >= slot;
                // It is neither out nor comes back later.
                self.until[k] <= self.turn && !placed && !sent
            }
            Kind::Back => self.until[k] == SLOTS && slot > self.from[k],
        };
        if self.turn > slot || !fits {
            return Err(NOTICE_REFUSED);
        }
        self.put(notice);
        Ok(())
    }

    /// Puts a notice in force.
    pub(super) fn put(&mut self, notice: Notice) {
        let k = notice.about as usize;
        match notice.kind {
            Kind::Out => (self.from[k], self.until[k]) = (notice.slot, SLOTS),
            Kind::Back => self.until[k] = notice.slot,
        }
    }

    /// Whether a slot from the turn on is out.
    pub(super) fn is_out(&self, slot: u32) -> bool {
        let k = self.place(slot);
        self.from[k] <= slot && slot < self.until[k]
    }

    /// Passes the slot at the turn, which is out.
    pub(super) fn pass(&mut self) -> Work {
        let sender = self.place(self.turn) as u8;
        let header = Header {
            kind: NEXT,
            sender,
            replicas: self.n,
            count: 0,
            slot: self.turn,
        };
        let next = &mut self.window[self.turn as usize % KEPT];
        block::encode_records(&header, NONE.into_iter(), next);
        self.turn += 1;
        Work {
            sender,
            ticket: 0,
            moved: true,
            aborted: [0; OPEN],
            count: 0,
            append: true,
        }
    }
}

/// No records.
const NONE: [(u32, std::iter::Empty<(u8, i32)>); 0] = [];

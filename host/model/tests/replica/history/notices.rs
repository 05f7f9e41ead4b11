//! Notices, worked out of the history by another reading than the model's: the last outage of each replica
//! says which slots from the turn on are out.

use model::notice::{Kind, Notice};
use model::replica::SLOTS;

use super::Historical;

impl Historical {
    /// The slots of a replica's last outage: from one, up to one from which on they count again.
    fn outage(&self, replica: u32) -> (u32, u32) {
        let about = self.notices.iter().filter(|n| n.about == replica);
        about.fold((0, 0), |(from, _), notice| match notice.kind {
            Kind::Out => (notice.slot, SLOTS),
            Kind::Back => (from, notice.slot),
        })
    }

    /// Whether a slot from the turn on is out.
    pub(super) fn is_out(&self, slot: u32) -> bool {
        let (from, until) = self.outage(slot % self.n);
        from <= slot && slot < until
    }

    pub(super) fn notice(&mut self, notice: Notice) -> Result<(), u8> {
        let (turn, slot) = (self.turn(), notice.slot);
        if notice.about >= self.n || slot >= SLOTS {
            return Err(2);
        }
        let (from, until) = self.outage(notice.about);
        let of_it = self
            .received
            .iter()
            .filter(|m| u32::from(m.sender) == notice.about);
        // What is received and not worked off.
        let placed = { of_it }.any(|m| m.slot >= turn && m.slot >= slot);
        let sent = self.own == Some(notice.about) && self.present_block().is_some() && turn >= slot;
        let fits = match notice.kind {
            Kind::Out => turn >= until && !placed && !sent,
            Kind::Back => until == SLOTS && slot > from,
        };
        if turn > slot || !fits {
            return Err(28);
        }
        self.notices.push(notice);
        Ok(())
    }
}

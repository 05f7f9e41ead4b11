//! Coming back after a holiday: the choice of the giver, and the giving.

use super::Replica;
use crate::ffi::{self, GiveReply};
use crate::{accepted, Given, Refusal, Window};

impl Replica {
    /// Who is to give, by the turn of each replica of the group, [`crate::DOWN`] for one that is down: the other
    /// one that is up with the highest turn, of equal ones the first behind this one, counting upward and round.
    /// The own turn is not looked at. Refused by 25, 1 where it is not told of n, 30 where nobody else is up.
    pub fn giver(&self, turns: &[u32]) -> Result<u8, Refusal> {
        let reply = ffi::giver(&self.memory.group, turns);
        accepted(reply.number, reply.giver)
    }

    /// Takes what it missed: told each replica's turn, as [`Replica::giver`] is, and lent the window of the one
    /// that this names, or one with its blocks of the slots from this turn on up to that one's. They are taken slot
    /// by slot, as by [`Replica::take_slot`]. Where this one is level with the giver or ahead, nothing is done,
    /// and the window is not looked at.
    ///
    /// Before it this replica takes the notices that the giver has taken. Then it comes to the giver's turn as
    /// told, with the values that the giver had there, and the blocks of the slots that it left go to the
    /// journal, in order.
    ///
    /// Refused by 25, 1, 30, and by 31 where the window lacks a block of these slots, by the first and the last
    /// of them. Where a deliver is refused, as with other notices, or a work, as with a window that lacks a block
    /// in between, that ends it ([`Given::ended`]), and what went before stands.
    pub fn give(&mut self, turns: &[u32], window: &Window) -> Result<Given, Refusal> {
        Given::of(&self.given(turns, window))
    }

    /// A giving with all that it answers.
    pub(crate) fn given(&mut self, turns: &[u32], window: &Window) -> GiveReply {
        let m = &mut *self.memory;
        ffi::give(
            &mut m.table,
            &m.group,
            &mut m.turn,
            &mut m.counts,
            &mut m.queue,
            &m.items,
            &mut m.values,
            &mut m.stamps,
            &mut m.places,
            &m.outbox,
            m.window.lent(),
            turns,
            window.bytes(),
        )
    }
}

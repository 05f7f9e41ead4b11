//! What a replica does with a block that arrives, or that a journal has for its turn.

use super::Replica;
use crate::{Refusal, Taken, LEFT, STEPS};

/// The most steps of a take and the most slots that it leaves; and those of one slot, a block's writesets.
pub(crate) const WAITING: (usize, usize) = (STEPS, LEFT);
pub(crate) const ONE_SLOT: (usize, usize) = (6, 1);

impl Replica {
    /// What a replica does with a block that arrives: delivers it, then works until nothing waits for the
    /// turn. Gives the steps in their order: none where the block is early and has to wait; those of
    /// blocks that waited already too, where this is the one that they waited for. The blocks of the slots that
    /// they leave go to the journal, but for an own one, which is there since its send.
    ///
    /// Refused by 1, 14, 15, 16, 17, 29, 18, 19, 20, as the deliver is: nothing is worked, and what waits
    /// already goes on waiting. So it is with a block that comes a second time (17 or 20), which a
    /// host may pass over.
    ///
    /// Where [`STEPS`] steps or [`LEFT`] slots are not enough, as on altered memory, or with many slots out
    /// one behind the other, something waits still: work while it does.
    pub fn take(&mut self, bytes: &[u8]) -> Result<Taken, Refusal> {
        self.deliver(bytes)?;
        Ok(self.works(WAITING))
    }

    /// Takes the turn's slot, with its block as another's journal has it: delivers that, unless the slot is out
    /// or a block is in place, and works until the turn has left the slot. What is behind it waits, so that a
    /// notice can be taken before.
    ///
    /// Refused as the deliver is. Where nothing is in place, a block of another slot is kept as by a deliver, and
    /// nothing is worked.
    pub fn take_slot(&mut self, bytes: &[u8]) -> Result<Taken, Refusal> {
        if !self.waits() {
            self.deliver(bytes)?;
        }
        Ok(self.works(ONE_SLOT))
    }

    fn works(&mut self, most: (usize, usize)) -> Taken {
        works(self, most, Replica::waits, Replica::work, |work| work.moved)
    }
}

/// The works behind a deliver: as long as a block waits for the turn, or its slot is out, and up to so many steps
/// and slots.
pub(crate) fn works<R, W>(
    replica: &mut R,
    (most_steps, most_slots): (usize, usize),
    waits: impl Fn(&R) -> bool,
    mut work: impl FnMut(&mut R) -> Result<W, Refusal>,
    moved: impl Fn(&W) -> bool,
) -> Taken<W> {
    let (mut steps, mut left) = (Vec::new(), 0);
    while steps.len() < most_steps && left < most_slots && waits(replica) {
        // Only at altered memory is it refused.
        let Ok(step) = work(replica) else { break };
        left += usize::from(moved(&step));
        steps.push(step);
    }
    Taken { steps }
}

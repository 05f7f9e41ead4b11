//! Conflict classes (document 02, Req 02): which items wait while a block of another is applied.

use super::{Replica, CLASSES, ITEMS};
use crate::refusal::{LOAD_WHILE_APPLYING, OUT_OF_RANGE, WRONG_LENGTH};

impl Replica {
    /// Puts these classes, one for each item, in the place of those that were there. Refused by 1, 2,
    /// 23.
    pub fn load(&mut self, classes: &[u8]) -> Result<(), u8> {
        let classes: [u8; ITEMS] = classes.try_into().map_err(|_| WRONG_LENGTH)?;
        if classes.iter().any(|class| !(1..=CLASSES).contains(class)) {
            return Err(OUT_OF_RANGE);
        }
        if self.applying {
            return Err(LOAD_WHILE_APPLYING);
        }
        self.classes = classes;
        Ok(())
    }

    /// Whether a write of the item is refused by 7: another's message is committed in part, and a
    /// writeset of it that is still to be applied has an item of this one's class.
    pub(super) fn must_wait(&self, item: u8) -> bool {
        let Some(message) = &self.inbox[self.owner(self.turn)] else {
            return false;
        };
        let class = |item: u8| self.classes[usize::from(item)];
        let to_come = message.records.iter().skip(self.done);
        let mut entries = to_come.flat_map(|record| &record.entries);
        self.applying && entries.any(|entry| class(entry.item) == class(item))
    }
}

//! Conflict classes, worked out of the history.

use model::replica::ITEMS;

use super::{Fault, Historical};

impl Historical {
    /// The table loaded last; without one all items have one class.
    pub fn classes(&self) -> [u8; ITEMS] {
        self.loads.last().copied().unwrap_or([0; ITEMS])
    }

    pub(super) fn load(&mut self, classes: &[u8]) -> Result<(), u8> {
        let classes: [u8; ITEMS] = classes.try_into().map_err(|_| 1)?;
        if classes.iter().any(|&class| class == 0 || class > 8) {
            return Err(2);
        }
        if self.applying() {
            return Err(23);
        }
        self.loads.push(classes);
        Ok(())
    }

    /// Whether the item's class holds an item of a writeset that is still to be applied.
    pub(super) fn must_wait(&self, item: u32) -> bool {
        let (done, classes) = (self.done(), self.classes());
        let (skipped, taken) = match self.fault {
            Fault::NextOnly => (done, 1),
            Fault::AppliedToo => (0, usize::MAX),
            _ => (done, usize::MAX),
        };
        let message = self.waiting().filter(|_| self.applying());
        let records = message.iter().flat_map(|message| &message.records);
        let mut entries = records.skip(skipped).take(taken).flat_map(|r| &r.entries);
        entries.any(|entry| classes[usize::from(entry.item)] == classes[item as usize])
    }
}

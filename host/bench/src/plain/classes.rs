//! Conflict classes.

use model::block;
use model::refusal::{LOAD_WHILE_APPLYING, OUT_OF_RANGE, WRONG_LENGTH};
use model::replica::{CLASSES, ITEMS};

use super::Replica;

impl Replica {
    /// Gives each item a class.
    pub fn load(&mut self, classes: &[u8]) -> Result<(), u8> {
        let classes: [u8; ITEMS] = classes.try_into().map_err(|_| WRONG_LENGTH)?;
        if classes.iter().any(|class| !(1..=CLASSES).contains(class)) {
            return Err(OUT_OF_RANGE);
        }
        if self.applying {
            return Err(LOAD_WHILE_APPLYING);
        }
        self.classes = classes;
        Ok(())
    }

    /// While another's block is applied: whether an item of this one's class is still to come in it.
    pub(super) fn is_to_come(&self, item: u8) -> bool {
        let place = &self.places[self.place(self.turn)];
        let class = |item: u8| self.classes[usize::from(item)];
        let mut to_come = usize::from(self.done)..usize::from(block::header(place).count);
        to_come.any(|record| {
            let mut entries = 0..usize::from(block::record_head(place, record).writes);
            entries.any(|e| class(block::entry(place, record, e).item) == class(item))
        })
    }
}

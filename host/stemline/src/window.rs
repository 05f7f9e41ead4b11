//! A window: the last blocks that a replica's turn has left, for one that comes back.

use std::fmt;
use std::ops::Range;

use crate::digest::{digest, START};
use crate::{Block, BLOCK, KEPT, WINDOW};

/// Blocks of up to 64 slots, one behind the other: that of slot s at place s mod 64, zeros where there is none.
///
/// Every replica keeps the last 64 that its turn has left, as its journal has them: own blocks, others', and the
/// *next* of each slot that was out ([`crate::Replica::window`]). Who comes back is lent the giver's by
/// [`crate::Replica::give`]. Where that is on another machine, its host sends the blocks one by one, and they are
/// put into a window made for that:
///
/// ```
/// use stemline::{Refusal, Replica, Window, BLOCK, DOWN, ITEMS};
///
/// /// What the giver's host answers to a returner at this turn, which was told that the giver is at the other.
/// fn send(giver: &Replica, from: u32, to: u32) -> Option<Vec<[u8; BLOCK]>> {
///     (from..to).map(|slot| giver.window().block(slot).copied()).collect()
/// }
///
/// fn main() -> Result<(), Refusal> {
///     let start = [0; ITEMS];
///     let (mut giver, mut returner) = (Replica::new(2, 0, &start)?, Replica::new(2, 1, &start)?);
///     // Replica 1 is closed from slot 1 on, and knows of that when it comes back.
///     giver.out(1, 1)?;
///     for _ in 0..5 {
///         let block = giver.send()?;
///         giver.take(&block)?;
///     }
///     returner.out(1, 1)?;
///     let turns = [giver.report().turn, DOWN];
///     assert_eq!(returner.giver(&turns), Ok(0));
///     // Up to here the turns came over the line, and now the blocks.
///     let mut window = Window::new();
///     for (block, slot) in send(&giver, 0, turns[0]).unwrap().iter().zip(0..) {
///         assert!(window.put(slot, block));
///     }
///     let given = returner.give(&turns, &window)?;
///     assert_eq!((given.giver, given.ended), (0, None));
///     assert_eq!(returner.report().turn, 10);
///     Ok(())
/// }
/// ```
#[derive(Clone, PartialEq, Eq)]
pub struct Window {
    bytes: Box<[u8; WINDOW]>,
}

impl Window {
    /// Without any block.
    pub fn new() -> Window {
        Window::from_bytes(&[0; WINDOW])
    }

    /// Of bytes that were a window's.
    pub fn from_bytes(bytes: &[u8; WINDOW]) -> Window {
        let bytes = Box::new(*bytes);
        Window { bytes }
    }

    /// All of its bytes.
    pub fn bytes(&self) -> &[u8; WINDOW] {
        &self.bytes
    }

    /// Its bytes, for a call that is lent them.
    pub(crate) fn lent(&mut self) -> &mut [u8; WINDOW] {
        &mut self.bytes
    }

    /// The block of a slot, if it has one. A replica's has those of the last 64 slots that its turn has left.
    pub fn block(&self, slot: u32) -> Option<&[u8; BLOCK]> {
        let block = self.at(slot);
        // A block begins with its kind, 1 or 2; its slot is in bytes 4 to 7.
        let is_there = block[0] != 0 && block[4..8] == slot.to_le_bytes();
        is_there.then_some(block)
    }

    /// What stands where the block of a slot would.
    pub(crate) fn at(&self, slot: u32) -> &[u8; BLOCK] {
        &self.bytes.as_chunks().0[place(slot)]
    }

    /// Puts the block of a slot in its place, over that of another. Gives whether it did: not where the bytes are
    /// no good block, or another slot's.
    pub fn put(&mut self, slot: u32, bytes: &[u8]) -> bool {
        let good = Block::read(bytes).is_ok_and(|block| block.slot() == slot);
        if good {
            self.bytes[BLOCK * place(slot)..][..BLOCK].copy_from_slice(bytes);
        }
        good
    }

    /// The first of these slots of which it has no block: to be asked for.
    pub fn lacks(&self, mut slots: Range<u32>) -> Option<u32> {
        // It has 64 at most, so this ends soon.
        slots.find(|&slot| self.block(slot).is_none())
    }
}

/// Which of the blocks is that of a slot.
fn place(slot: u32) -> usize {
    slot as usize % KEPT
}

impl Default for Window {
    fn default() -> Window {
        Window::new()
    }
}

/// The slots of its blocks in their order, and a digest of all its bytes, of which there are too many to show.
impl fmt::Debug for Window {
    fn fmt(&self, f: &mut fmt::Formatter) -> fmt::Result {
        let blocks = self.bytes.as_chunks::<BLOCK>().0;
        let mut slots: Vec<u32> = blocks
            .iter()
            .filter(|block| block[0] != 0)
            .map(|block| u32::from_le_bytes([block[4], block[5], block[6], block[7]]))
            .collect();
        slots.sort_unstable();
        let digest = digest(START, &self.bytes[..]);
        f.debug_struct("Window")
            .field("slots", &slots)
            .field("digest", &digest)
            .finish()
    }
}

#[cfg(test)]
mod tests {
    use super::*;
    use crate::{Replica, ITEMS};

    /// The blocks of slots 0 to 69 of a group of two, of which replica 1 is out, and the replica that left them.
    fn left() -> (Replica, Vec<[u8; BLOCK]>) {
        let mut replica = Replica::new(2, 0, &[0; ITEMS]).unwrap();
        replica.out(1, 1).unwrap();
        let mut blocks = Vec::new();
        for slot in (0..70).step_by(2) {
            let own = replica.send().unwrap();
            replica.take(&own).unwrap();
            blocks.push(own);
            blocks.push(*replica.window().block(slot + 1).unwrap());
        }
        (replica, blocks)
    }

    #[test]
    fn the_last_64() {
        let (replica, blocks) = left();
        let window = replica.window();
        for (slot, block) in blocks.iter().enumerate() {
            let due = (slot >= 6).then_some(block);
            assert_eq!(window.block(slot as u32), due, "{slot}");
        }
        // Neither slots to come, nor others at the same places.
        assert_eq!(
            [70, 71, 133, 70 + 64, u32::MAX].map(|slot| window.block(slot)),
            [None; 5]
        );
        assert_eq!(window.lacks(6..70), None);
        assert_eq!(window.lacks(5..70), Some(5));
        assert_eq!(window.lacks(6..u32::MAX), Some(70));
        assert_eq!(window.lacks(70..70), None);
    }

    #[test]
    fn block_by_block() {
        let (replica, blocks) = left();
        let mut window = Window::new();
        assert_eq!(window.block(0), None, "zeros");
        for slot in 6..70 {
            assert_eq!(window.lacks(6..70), Some(slot));
            let block = &blocks[slot as usize];
            let mut damaged = *block;
            damaged[9] ^= 1;
            for bytes in [&damaged[..], &block[1..], &blocks[slot as usize - 1], &[]] {
                assert!(!window.put(slot, bytes));
            }
            assert_eq!(window.block(slot), None);
            assert!(window.put(slot, block));
        }
        assert!(window == *replica.window());
        assert!(Window::from_bytes(window.bytes()) == window);
        // A block takes the place of that of 64 slots before.
        let mut other = window.clone();
        assert!(other.put(5, &blocks[5]));
        assert_eq!((other.block(5), other.block(69)), (Some(&blocks[5]), None));
    }

    #[test]
    fn shown() {
        let mut window = Window::new();
        let (_, blocks) = left();
        window.put(65, &blocks[65]);
        window.put(3, &blocks[3]);
        let shown = format!("{window:?}");
        assert!(
            shown.starts_with("Window { slots: [3, 65], digest: "),
            "{shown}"
        );
        assert!(format!("{:?}", Window::default()) != shown);
    }
}

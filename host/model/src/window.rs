//! The window of a replica (document 02, Req 11): the blocks of the last slots that its turn has left, as
//! journaled. From it one that comes back is given what it missed.

use std::collections::VecDeque;
use std::ops::Range;

use crate::block::BLOCK;

/// The most blocks that a window has.
pub const WINDOW: usize = 64;

/// The blocks of the last slots, one for each.
#[derive(Clone, Debug, PartialEq, Eq)]
pub struct Window {
    /// The slot of the first block.
    first: u32,
    blocks: VecDeque<[u8; BLOCK]>,
}

impl Window {
    /// Of a replica that has left no slot since its turn was this.
    pub fn empty(turn: u32) -> Window {
        Window::of(turn, [])
    }

    /// Of these blocks, from a slot on. It is for tests that there are 64 at most.
    pub fn of(first: u32, blocks: impl IntoIterator<Item = [u8; BLOCK]>) -> Window {
        let blocks = blocks.into_iter().collect();
        Window { first, blocks }
    }

    /// Keeps the block of the slot behind the last one. Where there is no room, the first one goes.
    pub fn keep(&mut self, block: [u8; BLOCK]) {
        if self.blocks.len() == WINDOW {
            self.blocks.pop_front();
            self.first += 1;
        }
        self.blocks.push_back(block);
    }

    /// The slots that it has blocks for.
    pub fn slots(&self) -> Range<u32> {
        self.first..self.first + self.blocks.len() as u32
    }

    /// Whether it has a block for each of these slots. There are four billion at most: the ends tell it.
    pub fn has(&self, slots: Range<u32>) -> bool {
        let own = self.slots();
        slots.is_empty() || own.start <= slots.start && slots.end <= own.end
    }

    /// The block of a slot.
    pub fn block(&self, slot: u32) -> Option<&[u8; BLOCK]> {
        let at = slot.checked_sub(self.first)?;
        self.blocks.get(at as usize)
    }

    /// The block of the slot that was left last.
    pub fn last(&self) -> Option<&[u8; BLOCK]> {
        self.blocks.back()
    }

    /// All blocks, by slot.
    pub fn blocks(&self) -> impl ExactSizeIterator<Item = &[u8; BLOCK]> {
        self.blocks.iter()
    }
}

#[cfg(test)]
mod tests {
    use super::*;

    fn block(byte: u8) -> [u8; BLOCK] {
        [byte; BLOCK]
    }

    #[test]
    fn the_last_ones() {
        let mut window = Window::empty(7);
        assert_eq!(window.slots(), 7..7);
        assert_eq!(window.last(), None);
        for slot in 7..7 + 64 {
            window.keep(block(slot as u8));
        }
        assert_eq!(window.slots(), 7..71);
        assert_eq!(window.block(7), Some(&block(7)));
        window.keep(block(71));
        assert_eq!(window.slots(), 8..72);
        let [before, first, last, behind] = [7, 8, 71, 72].map(|slot| window.block(slot).copied());
        assert_eq!([before, behind], [None, None]);
        assert_eq!((first, last), (Some(block(8)), Some(block(71))));
        assert_eq!(window.last(), Some(&block(71)));
        let all = window.blocks().copied();
        assert_eq!(Window::of(8, all), window);
    }

    #[test]
    fn what_it_has() {
        let window = Window::of(8, (8..72).map(block));
        let has = |from, to| window.has(from..to);
        assert!(has(8, 72) && has(8, 9) && has(71, 72) && has(30, 40));
        assert!(!has(7, 72) && !has(8, 73) && !has(7, 8) && !has(72, 73));
        assert!(!has(8, u32::MAX) && !has(0, u32::MAX) && !has(u32::MAX - 1, u32::MAX));
        // Of no slots nothing is lacking.
        assert!(has(0, 0) && has(200, 200) && has(200, 100));
    }
}

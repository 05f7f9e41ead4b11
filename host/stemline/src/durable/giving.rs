//! Coming back after a holiday, with a journal.

use std::io::Read;
use std::ops::Range;

use crate::journal::place;
use crate::{Block, Calls, Digest, Durable, Failure, Given, Memory, Refusal, Window, BLOCK, KEPT};

impl<R: Calls> Durable<R> {
    /// As [`crate::Replica::window`]. What its host sends of it to one that comes back is durable at who handed it
    /// out, if not here.
    pub fn window(&self) -> &Window {
        self.replica.replica().window()
    }

    /// As [`crate::Replica::giver`].
    pub fn giver(&self, turns: &[u32]) -> Result<u8, Refusal> {
        self.replica.replica().giver(turns)
    }

    /// As [`crate::Replica::give`]; the blocks of the slots that it leaves are appended, in order, also where a
    /// deliver's refusal ended it, and durable where one of these is out. Where a cut ends it, the next open finds
    /// a first part of them, as if so many slots had been given.
    pub fn give(&mut self, turns: &[u32], window: &Window) -> Result<Given, Failure> {
        let before = self.replica.replica().memory();
        let (first, done) = (before.turn.slot, before.counts.done);
        let given = self.going()?.give(turns, window)?;
        let memory = self.replica.replica().memory();
        let left = (first..memory.turn.slot).filter_map(|slot| memory.window.block(slot));
        let left: Vec<Block> = left.filter_map(|block| Block::read(block).ok()).collect();
        self.outcomes.given(&given, &left, done);
        self.follow()?;
        Ok(given)
    }

    /// The blocks of these slots as the journal has them, for one that lacks more than a window has, or a station:
    /// 64 at most, and of slots that the turn has left, which others may have. An error where one cannot be read or
    /// is damaged; the journal goes on.
    pub fn blocks(&mut self, slots: Range<u32>) -> Result<Vec<[u8; BLOCK]>, Failure> {
        let most = slots.start.saturating_add(KEPT as u32);
        let end = slots.end.min(most).min(self.memory().turn.slot);
        let count = end.saturating_sub(slots.start) as usize;
        let mut bytes = vec![0; BLOCK * count];
        let source = self.journal.disk.reader(place(slots.start));
        let read = source.and_then(|mut source| source.read_exact(&mut bytes));
        let error = |words: String| Failure::Disk(self.journal.error("read", &words));
        read.map_err(|failed| error(failed.to_string()))?;
        let blocks = bytes.as_chunks::<BLOCK>().0;
        let due = |bytes: &[u8], slot| Block::read(bytes).is_ok_and(|block| block.slot() == slot);
        match blocks
            .iter()
            .zip(slots)
            .find(|(block, slot)| !due(*block, *slot))
        {
            Some((_, slot)) => Err(error(format!("its block {slot} is damaged"))),
            None => Ok(blocks.to_vec()),
        }
    }

    /// The replica's memory, to look at.
    pub(crate) fn memory(&self) -> &Memory {
        self.replica.replica().memory()
    }

    /// What was committed by a turn, if that is still known.
    pub(crate) fn digest_at(&self, turn: u32) -> Option<Digest> {
        self.journal.digests.at(turn)
    }
}

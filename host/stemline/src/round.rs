//! The copies in a journal's head: of the last two rounds, each up to an own block.
//!
//! A copy has all blocks behind an own one up to the next own one, and is written with that, to be durable
//! by the same fsync. The own block alone would not do: a cut may lose the blocks of others in front of it
//! and keep the copy, and then nothing would say whether it was handed out. With all of them the journal is
//! mended either way. Two copies take turns: a torn one leaves that of the round before.
//!
//! A round that is not over has a copy of what there is of it where that may not be lost: a slot that is out
//! was passed, or a notice taken. The *next* of an own slot that is out ends a round as an own block does.
//!
//! Its bytes, numbers with the lowest byte first: digest of the rest (8), first slot (4), number of blocks
//! (1), number of notices taken by then (3, the highest for more), the blocks.

use crate::digest::{digest, START};
use crate::head::PAGE;
use crate::{owner, Block, BLOCK, SLOTS};

/// The bytes in front of the blocks.
const FRONT: usize = 16;
/// The most notices that a copy counts.
const NOTICES: u32 = 0xff_ffff;

/// The blocks of consecutive slots behind an own one, up to the next own one at most.
#[derive(Clone, Debug, PartialEq, Eq)]
pub(crate) struct Round {
    pub first: u32,
    pub blocks: Vec<[u8; BLOCK]>,
    /// The notices taken by then.
    pub notices: u32,
}

impl Round {
    /// The slot behind the last block.
    pub fn end(&self) -> u32 {
        self.first + self.blocks.len() as u32
    }

    /// Its block of a slot, if it has one.
    pub fn block(&self, slot: u32) -> Option<&[u8; BLOCK]> {
        let at = slot.checked_sub(self.first)?;
        self.blocks.get(at as usize)
    }

    pub fn bytes(&self) -> Vec<u8> {
        let mut bytes = vec![0; 8];
        bytes.extend(self.first.to_le_bytes());
        let counts = self.blocks.len() as u32 | self.notices.min(NOTICES) << 8;
        bytes.extend(counts.to_le_bytes());
        bytes.extend(self.blocks.as_flattened());
        let check = digest(START, &bytes[8..]);
        bytes[..8].copy_from_slice(&check.to_le_bytes());
        bytes
    }

    /// The copy at a place of the head, if it is whole and one of replica `own` of `n`.
    pub fn read(page: &[u8], place: u64, n: u32, own: u32) -> Option<Round> {
        let number = |at: usize| Some(u32::from_le_bytes(*page.get(at..)?.first_chunk()?));
        let (first, counts) = (number(8)?, number(12)?);
        let (count, notices) = (counts & 0xff, counts >> 8);
        let begins = first == 0 || first <= SLOTS && owner(first - 1, n) == own;
        let most = if first == 0 { own + 1 } else { n };
        if !begins || count > most {
            return None;
        }
        let bytes = page.get(..FRONT + BLOCK * count as usize)?;
        if digest(START, &bytes[8..]).to_le_bytes() != bytes[..8] {
            return None;
        }
        let (blocks, _) = bytes[FRONT..].as_chunks();
        let good = blocks.iter().zip(first..).all(|(bytes, slot)| {
            Block::read(bytes)
                .is_ok_and(|block| (block.slot(), u32::from(block.replicas())) == (slot, n))
        });
        let round = Round {
            first,
            blocks: blocks.to_vec(),
            notices,
        };
        (good && round.place(n, own) == place).then_some(round)
    }

    /// Where it stands in the head of replica `own` of `n`: by turns.
    pub fn place(&self, n: u32, own: u32) -> u64 {
        // The own slots before it, of which the last is the one in front of it.
        let before = (self.first + n - 1 - own) / n;
        places()[(before % 2) as usize]
    }
}

/// The places of the two copies.
pub(crate) fn places() -> [u64; 2] {
    [PAGE as u64, 2 * PAGE as u64]
}

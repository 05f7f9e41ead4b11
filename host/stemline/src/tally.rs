//! What the good blocks of a journal amount to, as an open reads them.

use crate::digest::Digests;
use crate::head::Head;
use crate::round::Round;
use crate::{Block, BLOCK};

/// What is read of the blocks of a replica's journal, from the first on.
#[derive(Debug)]
pub(crate) struct Tally {
    own: u32,
    /// How many blocks there are: the slot that comes next.
    pub turn: u32,
    /// What they have committed.
    pub digests: Digests,
    /// The own tickets among these, each with its place in the sequence, counted from 1.
    pub committed: Vec<(u32, u32)>,
    /// The blocks up to the last own slot, from behind the one before.
    pub last: Option<Round>,
    /// The blocks behind the last own slot.
    pub since: Vec<[u8; BLOCK]>,
}

impl Tally {
    pub fn new(head: &Head) -> Tally {
        Tally {
            own: head.own(),
            turn: 0,
            digests: Digests::new(head),
            committed: Vec::new(),
            last: None,
            since: Vec::new(),
        }
    }

    /// The block of the slot that comes next.
    pub fn add(&mut self, block: &Block) {
        let own = u32::from(block.sender()) == self.own;
        if own && !block.is_next() {
            let places = self.digests.last().commits + 1..;
            let tickets = block.records().map(|record| record.ticket);
            self.committed.extend(tickets.zip(places));
        }
        self.digests.add(block);
        self.since.push(*block.bytes());
        self.turn += 1;
        if own {
            let blocks = std::mem::take(&mut self.since);
            let first = self.turn - blocks.len() as u32;
            self.last = Some(Round {
                first,
                blocks,
                notices: 0,
            });
        }
    }
}

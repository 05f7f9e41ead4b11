//! The blocks of a journal one by one, and why a restart stops where it does.

use std::fmt;
use std::io::{self, Read};

use crate::{Block, Refusal, BLOCK};

/// The good blocks of a journal, in their order: those that a [`crate::Replica::restart`] commits in a
/// group of the size that the first one names. They go up to the first that is torn, fails its check or
/// form, is of a group of another size or is not of the next slot.
#[derive(Debug)]
pub struct Blocks<R> {
    source: R,
    /// How many were good, which is the slot that comes next.
    good: u32,
    /// The size of the group.
    replicas: Option<u8>,
    /// The bytes read behind the good blocks.
    behind: usize,
}

/// Why the good blocks of a journal stop. Both `{}` and `{:?}` write the words.
#[derive(Clone, Copy, PartialEq, Eq)]
pub enum Stop {
    /// There is nothing behind them.
    End,
    /// So many bytes are behind them, fewer than a block has.
    Torn(usize),
    /// The next block is refused: by 14 or 15.
    Refused(Refusal),
    /// The next block is of a group of `found` replicas, and the first one, or the head, of `due`.
    Group {
        /// The size that the block names.
        found: u8,
        /// The size of the group.
        due: u8,
    },
    /// The next block is of slot `found`, in the place of `due`.
    Slot {
        /// The slot that the block names.
        found: u32,
        /// The slot that comes next.
        due: u32,
    },
}

impl<R: Read> Blocks<R> {
    /// Of the bytes that this reader gives, from slot 0 on, without a head.
    pub fn new(source: R) -> Blocks<R> {
        Blocks {
            source,
            good: 0,
            replicas: None,
            behind: 0,
        }
    }

    /// Of a reader that stands at this slot of the journal of a group of `n`: 0 behind its head.
    pub fn of(source: R, n: u32, slot: u32) -> Blocks<R> {
        Blocks {
            source,
            good: slot,
            replicas: Some(n as u8),
            behind: 0,
        }
    }

    /// The next good block, or why there is none. Behind that nothing counts any more, and this is not to
    /// be called again.
    pub fn next_block(&mut self) -> io::Result<Result<Block, Stop>> {
        let mut bytes = Vec::with_capacity(BLOCK);
        let mut part = self.source.by_ref().take(BLOCK as u64);
        self.behind = part.read_to_end(&mut bytes)?;
        Ok(match self.behind {
            0 => Err(Stop::End),
            BLOCK => self.good(&bytes),
            torn => Err(Stop::Torn(torn)),
        })
    }

    /// How many bytes are behind the good blocks, once they have stopped.
    pub fn left(mut self) -> io::Result<u64> {
        let unread = io::copy(&mut self.source, &mut io::sink())?;
        Ok(self.behind as u64 + unread)
    }

    /// The block of these bytes, if it is the journal's next.
    fn good(&mut self, bytes: &[u8]) -> Result<Block, Stop> {
        let block = Block::read(bytes).map_err(Stop::Refused)?;
        let found = block.replicas();
        let due = *self.replicas.get_or_insert(found);
        if found != due {
            return Err(Stop::Group { found, due });
        }
        let (found, due) = (block.slot(), self.good);
        if found != due {
            return Err(Stop::Slot { found, due });
        }
        self.good += 1;
        Ok(block)
    }
}

impl fmt::Display for Stop {
    fn fmt(&self, f: &mut fmt::Formatter) -> fmt::Result {
        match self {
            Stop::End => write!(f, "nothing is behind it"),
            Stop::Torn(bytes) => write!(f, "the block is torn: {bytes} of {BLOCK} bytes"),
            Stop::Refused(refusal) => refusal.fmt(f),
            Stop::Group { found, due } => {
                write!(
                    f,
                    "the block is of a group of {found}, the journal of one of {due}"
                )
            }
            Stop::Slot { found, due } => {
                write!(
                    f,
                    "the block is of slot {found}, in the place of slot {due}"
                )
            }
        }
    }
}

impl fmt::Debug for Stop {
    fn fmt(&self, f: &mut fmt::Formatter) -> fmt::Result {
        fmt::Display::fmt(self, f)
    }
}

//! A restart from the journal on the replica's disk (document 02, Req 01), and the notices kept beside
//! it (Req 10).

use super::turn::put;
use super::Replica;
use crate::block::{self, Message, BLOCK};
use crate::journal;
use crate::notice::{self, Notice};

/// The answer to an accepted [`Replica::restart`].
#[derive(Clone, Debug, PartialEq, Eq)]
pub struct Restarted {
    /// The blocks committed. The journal goes on behind them; the rest is to be cut off.
    pub count: u32,
    /// The last own block among them whose slot is not out, to be handed out once more; 512 zeros if
    /// there is none.
    pub block: Box<[u8; BLOCK]>,
}

impl Restarted {
    /// Whether it gave a block back: no block is 512 zeros.
    pub fn gave_back(&self) -> bool {
        *self.block != [0; BLOCK]
    }
}

impl Replica {
    /// A replica as [`Replica::make`] gives it, which then commits the blocks of a journal up to the
    /// one at which [`journal::blocks`] stops, own ones from their bytes. Refused as a make, by 1, 2;
    /// a journal may have any length.
    ///
    /// The notices are all that were taken, in order. They are in force without a test, and are not
    /// compared with the blocks; the block given back is of a slot that none of them puts out.
    ///
    /// Nothing is open, asked, sent or waiting then, and no table of classes is loaded; the window has the
    /// last blocks committed. The tickets up to the highest in an own block count as given, those in own
    /// blocks as committed and the others as aborted.
    pub fn restart(
        n: u32,
        own: u32,
        values: &[i32],
        journal: &[u8],
        notices: &[Notice],
    ) -> Result<(Replica, Restarted), u8> {
        let mut replica = Replica::make(n, own, values)?;
        let mut last_own = [0; BLOCK];
        for bytes in journal::blocks(n, journal) {
            replica.commit_block(bytes);
            let header = block::header(bytes);
            // By the whole list: an own slot may be out by an outage before the last one.
            if replica.is_own(header.sender) && !notice::puts_out(notices, n, header.slot) {
                last_own = *bytes;
            }
        }
        replica.notices = notices.to_vec();
        // More own writesets than tickets: a journal that a cut alone does not leave.
        replica.aborted = replica.tickets.saturating_sub(replica.committed);
        let restarted = Restarted {
            count: replica.turn,
            block: Box::new(last_own),
        };
        Ok((replica, restarted))
    }

    /// Commits a well-formed block of the turn, with all its writesets.
    fn commit_block(&mut self, bytes: &[u8; BLOCK]) {
        let Message {
            sender, records, ..
        } = block::message(&block::header(bytes), bytes);
        for record in records {
            self.commits += 1;
            put(&record, self.commits, &mut self.values, &mut self.stamps);
            if self.is_own(sender) {
                self.tickets = self.tickets.max(record.ticket);
                self.committed += 1;
            }
        }
        self.window.keep(*bytes);
        self.turn += 1;
    }
}

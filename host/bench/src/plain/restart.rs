//! A restart from a journal.

use model::block::{self, BLOCK, ENTRY, HEADER, RECORD, RECORD_HEAD};
use model::notice::{self, Notice};
use model::replica::ITEMS;

use super::{Replica, KEPT};

/// What a restart took up.
#[derive(Clone, Debug, PartialEq, Eq)]
pub struct Restarted {
    /// The blocks committed.
    pub blocks: u32,
    /// The last own block.
    pub last: Option<[u8; BLOCK]>,
}

impl Replica {
    /// A replica from a journal and all notices taken.
    pub fn restart(
        n: u32,
        own: u32,
        values: &[i32; ITEMS],
        journal: &[u8],
        notices: &[Notice],
    ) -> Result<(Replica, Restarted), u8> {
        let mut replica = Replica::make(n, own, values)?;
        let mut last = None;
        let (blocks, _) = journal.as_chunks();
        for block in blocks {
            if !replica.commit_next(block) {
                break;
            }
            let header = block::header(block);
            if header.sender == replica.own && !notice::puts_out(notices, n, header.slot) {
                last = Some(block);
            }
        }
        notices.iter().for_each(|&notice| replica.put(notice));
        replica.aborted = replica.tickets.saturating_sub(replica.committed);
        let restarted = Restarted {
            blocks: replica.turn,
            last: last.copied(),
        };
        Ok((replica, restarted))
    }

    /// Commits a block if it is a good one of the turn, and says whether.
    fn commit_next(&mut self, block: &[u8; BLOCK]) -> bool {
        let Ok(header) = block::read(block) else {
            return false;
        };
        if header.replicas != self.n || header.slot != self.turn {
            return false;
        }
        let (records, _) = block[HEADER..].as_chunks::<RECORD>();
        for record in &records[..usize::from(header.count)] {
            let [a, b, c, d, writes, ..] = *record;
            self.commits += 1;
            let (entries, _) = record[RECORD_HEAD..].as_chunks::<ENTRY>();
            for &[item, _, _, _, e, f, g, h] in &entries[..usize::from(writes)] {
                let item = usize::from(item);
                self.values[item] = i32::from_le_bytes([e, f, g, h]);
                self.stamps[item] = self.commits;
            }
            if header.sender == self.own {
                let ticket = u32::from_le_bytes([a, b, c, d]);
                self.tickets = self.tickets.max(ticket);
                self.committed += 1;
            }
        }
        self.window[self.turn as usize % KEPT] = *block;
        self.turn += 1;
        true
    }
}

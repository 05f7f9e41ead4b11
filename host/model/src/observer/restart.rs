//! What a restart does to the sheet (document 02, Req 01), and what it may be lent.

use super::{holds, Observer, Standing};
use crate::block::{self, Header, BLOCK, NEXT, TO_COMMIT};
use crate::journal::{self, Journal};
use crate::replica::Restarted;
use crate::trace::Restart;

impl Observer {
    /// Takes in a restart of a replica and its answer. A call that the cut before it ended is not fed.
    pub fn feed_restart(
        &mut self,
        replica: usize,
        restart: &Restart,
        answer: &Result<Restarted, u8>,
    ) {
        let Ok(restarted) = answer else {
            return;
        };
        self.premise &= self.may_be_lent(replica, restart);
        if restarted.gave_back() {
            self.feed_given_back(replica, &restarted.block);
        }
        self.queues[replica].clear();
        let blocks: Vec<_> = journal::blocks(restart.n, &restart.journal).collect();
        self.standings[replica] = Standing {
            turn: blocks.len() as u32,
            notices: restart.notices.clone(),
        };
        self.commits[replica] = blocks.into_iter().flat_map(writesets).collect();
        self.journals[replica].feed_restart(restart, answer);
    }

    /// What was appended on a replica's disk, by the calls so far.
    pub fn journal(&self, replica: usize) -> &Journal {
        &self.journals[replica]
    }

    /// A block that is handed out once more. If the cut ended its send, the restart puts it down.
    fn feed_given_back(&mut self, replica: usize, block: &[u8; BLOCK]) {
        let slot = block::header(block).slot;
        match self.sent.get(&slot) {
            None => self.feed_block(replica, block),
            Some(writesets) if !holds(block, writesets) => self.broken.push(format!(
                "replica {replica}: the block of slot {slot} that was given back does not hold what \
                 was sent"
            )),
            Some(_) => {
                self.blocks.insert(Box::from(block.as_slice()));
            }
        }
    }

    /// Whether a restart is lent what its make was, the notices taken, and a journal that a cut can
    /// leave: a first part, not below the floor, of what was appended. The last of that may be by a call
    /// that the cut ended, one at most.
    fn may_be_lent(&self, replica: usize, restart: &Restart) -> bool {
        let journal = &self.journals[replica];
        let mut appended = journal.bytes().to_vec();
        appended.extend(self.next_appended(replica).iter().flatten());
        (restart.n as usize, restart.own as usize) == (self.queues.len(), replica)
            && restart.values == self.values
            && restart.notices == self.standings[replica].notices
            && restart.journal.len() >= journal.floor()
            && appended.starts_with(&restart.journal)
    }

    /// What the one call that can append something now would append.
    fn next_appended(&self, replica: usize) -> Option<[u8; BLOCK]> {
        let journal = &self.journals[replica];
        let slot = journal.own_slot(self.queues.len() as u32);
        // For an out slot nothing is sent, and nothing waits.
        self.out_next(replica)
            .or(slot.map(|slot| self.next_sent(replica, slot)))
            .or(journal.next_left().copied())
    }

    /// The block of what a replica has asked for and not sent.
    fn next_sent(&self, replica: usize, slot: u32) -> [u8; BLOCK] {
        let queue = &self.queues[replica];
        let header = Header {
            kind: if queue.is_empty() { NEXT } else { TO_COMMIT },
            sender: replica as u8,
            replicas: self.queues.len() as u8,
            count: queue.len() as u8,
            slot,
        };
        let records = queue.iter().map(|&ticket| {
            let writes = self.transactions[&(replica, ticket)].writes.iter();
            (ticket, writes.map(|(&item, &value)| (item as u8, value)))
        });
        let mut block = [0; BLOCK];
        block::encode_records(&header, records, &mut block);
        block
    }
}

/// Sender and ticket of each writeset of a well-formed block.
fn writesets(block: &[u8; BLOCK]) -> Vec<(usize, u32)> {
    let message = block::message(&block::header(block), block);
    let sender = usize::from(message.sender);
    let tickets = message.records.iter().map(|record| record.ticket);
    tickets.map(|ticket| (sender, ticket)).collect()
}

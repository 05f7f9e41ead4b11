//! A journal that is longer than a line of the list: the calls that write it once more.

use std::collections::BTreeSet;
use std::io::Write;

use super::Recorder;
use crate::{Block, Notice, Replica, BLOCK};

/// The most blocks of a journal that the program keeps, and the most notices.
const KEPT: usize = 128;
const NOTICES: usize = 32;
/// The most tickets, of those that no own block has, that are begun to come to the others.
const MISSING: usize = 1_000_000;

impl<C: Write, A: Write> Recorder<C, A> {
    /// Brings a replica just made, in the list too, to where a restart from these blocks and notices leaves
    /// one, which answered this.
    pub(super) fn take_up(
        &mut self,
        journal: &[u8],
        notices: &[Notice],
        restarted: &Replica,
        answer: &str,
    ) {
        let (blocks, _) = journal.as_chunks();
        if let Err(words) = self.write_again(blocks, notices) {
            self.stop(words);
        } else if blocks.len() <= KEPT && notices.len() <= NOTICES {
            let lent = format!(" {} {}", journal.len(), self.list.value);
            self.list.record('Z', &lent, answer);
        } else if self.is_like(restarted) {
            self.list.reports = self.replica.report() == restarted.report();
        } else {
            self.stop("the list's replica is not like the restarted one".to_string());
        }
    }

    fn stop(&mut self, words: String) {
        self.list.stopped.get_or_insert(words);
    }

    /// Whether all that decides later answers is the same, but for how tickets ended.
    fn is_like(&self, other: &Replica) -> bool {
        let (a, b) = (self.replica.memory(), other.memory());
        let [x, y] = [self.replica.report(), other.report()];
        (x.turn, x.commits, x.tickets, x.open_count) == (y.turn, y.commits, y.tickets, y.open_count)
            && (a.values, a.stamps, a.classes, a.group) == (b.values, b.stamps, b.classes, b.group)
    }

    /// Takes the notices and the blocks of others, and sends the own ones; or says why not.
    ///
    /// When each notice was taken is not known, and no matter: it is taken as soon as it can be, since slots
    /// are out by its slot alone.
    fn write_again(&mut self, blocks: &[[u8; BLOCK]], notices: &[Notice]) -> Result<(), String> {
        let none = |at| {
            let words = "is none that a replica writes, so that no list says it";
            format!("block {at} of the journal {words}")
        };
        let read = blocks.iter().enumerate();
        let read = read.map(|(at, bytes)| Block::read(bytes).map_err(|_| none(at)));
        let blocks: Vec<Block> = read.collect::<Result<_, _>>()?;
        let own = self.replica.memory().group.own;
        let sent = blocks.iter().filter(|block| block.sender() == own);
        let tickets: BTreeSet<u32> = sent.flat_map(Block::records).map(|r| r.ticket).collect();
        let highest = tickets.last().map_or(0, |&ticket| ticket as usize);
        if highest - tickets.len() > MISSING {
            return Err(format!(
                "more than {MISSING} tickets are not in the journal"
            ));
        }
        let mut notices = notices.iter().copied().peekable();
        for (at, block) in blocks.iter().enumerate() {
            while let Some(notice) = notices.next_if(|&notice| self.is_due(notice)) {
                self.take_notice(notice)?;
            }
            let is_own = block.sender() == own && !self.replica.memory().group.is_out(block.slot());
            let sent = match is_own {
                true => self.send_again(block, &tickets),
                false => Some(()),
            };
            sent.and_then(|()| self.takes(block))
                .ok_or_else(|| none(at))?;
        }
        notices.try_for_each(|notice| self.take_notice(notice))
    }

    /// Whether the turn has come to where a notice can be taken: an Out is, once its replica is back.
    fn is_due(&self, notice: Notice) -> bool {
        let memory = self.replica.memory();
        match notice {
            Notice::Out { replica, .. } => {
                let back = memory.group.until.get(replica as usize);
                back.is_none_or(|&back| back <= memory.turn.slot)
            }
            Notice::Back { .. } => true,
        }
    }

    fn take_notice(&mut self, notice: Notice) -> Result<(), String> {
        let taken = match notice {
            Notice::Out { replica, slot } => self.out(replica, slot),
            Notice::Back { replica, slot } => self.back(replica, slot),
        };
        let none = |_| {
            format!("the notice {notice} is none that a replica takes, so that no list says it")
        };
        taken.map_err(none)
    }

    /// Takes the block of the turn, or passes its slot where that is out; this is then in the journal.
    fn takes(&mut self, block: &Block) -> Option<()> {
        self.take_slot(block.bytes()).ok()?;
        (self.replica.window().block(block.slot())? == block.bytes()).then_some(())
    }

    /// Sends a block with the writesets of this one. Tickets that no block has are withdrawn at once.
    fn send_again(&mut self, block: &Block, tickets: &BTreeSet<u32>) -> Option<()> {
        for record in block.records() {
            while self.replica.memory().counts.tickets < record.ticket {
                let begun = self.begin().ok()?;
                if !tickets.contains(&begun) {
                    self.withdraw(begun).ok()?;
                }
            }
            for entry in record.entries {
                self.write(record.ticket, entry.item.into(), entry.value)
                    .ok()?;
            }
            self.ask(record.ticket).ok()?;
        }
        (self.send().ok()? == *block.bytes()).then_some(())
    }
}

//! The journal of a replica (document 02, Req 01): the blocks that it appended to its disk, in slot
//! order.

use std::collections::BTreeMap;

use crate::block::{self, BLOCK};
use crate::notice::{self, Notice};
use crate::replica::{Restarted, SLOTS};
use crate::trace::{Answer, Call, Restart};

/// The blocks of a journal before the one at which a restart in a group of `n` stops: the first that
/// is torn, fails its check or form, has another N, or is not of the next slot.
pub fn blocks(n: u32, journal: &[u8]) -> impl Iterator<Item = &[u8; BLOCK]> {
    let (whole, _) = journal.as_chunks::<BLOCK>();
    let next = move |(i, block): &(usize, &[u8; BLOCK])| {
        let header = block::read(*block);
        header.is_ok_and(|h| u32::from(h.replicas) == n && h.slot as usize == *i)
    };
    let taken = whole.iter().enumerate().take_while(next);
    taken.map(|(_, block)| block)
}

/// Whether a call lets a cut lose nothing of what is appended by now: a block was handed out, a notice
/// taken, or a slot passed that is `out` (document 02, Req 10).
pub fn fixes(call: &Call, answer: &Result<Answer, u8>, out: bool) -> bool {
    match (call, answer) {
        (_, Ok(Answer::Block(_))) | (Call::Notice(_), Ok(_)) => true,
        (_, Ok(Answer::Work(_))) => out,
        _ => false,
    }
}

/// The bytes that a cut leaves at least after an accepted restart, if before it they were `floor`. A
/// block given back counts as handed out; and a slot that is out and behind the restart is passed, also
/// where the work on it was ended by the cut.
pub fn floor_after(floor: usize, restart: &Restart, answer: &Restarted) -> usize {
    let count = blocks(restart.n, &restart.journal).count();
    if answer.gave_back() {
        return BLOCK * count;
    }
    // Below the floor it is lent by no cut.
    let floor = floor.min(BLOCK * count);
    floor.max(out_end(restart.n, count, &restart.notices))
}

/// The bytes of a journal of so many blocks up to the last one of an out slot, and with it.
fn out_end(n: u32, count: usize, notices: &[Notice]) -> usize {
    let mut slots = (0..count).rev();
    let last = slots.find(|&slot| notice::puts_out(notices, n, slot as u32));
    last.map_or(0, |slot| BLOCK * (slot + 1))
}

/// The journal of one replica by a list of calls: what the calls and their answers say that was
/// appended, with nothing from the replica itself.
#[derive(Clone, Debug)]
pub struct Journal {
    own: u32,
    bytes: Vec<u8>,
    floor: usize,
    /// The accepted blocks that the turn has not left, by slot. While a work is accepted, the first
    /// is that of the turn.
    waiting: BTreeMap<u32, Box<[u8; BLOCK]>>,
    /// The writesets committed of the turn's block.
    done: usize,
    /// Whether the last block is an own one that the turn has not left.
    sent: bool,
}

impl Journal {
    /// Of a replica just made.
    pub fn new(own: u32) -> Journal {
        Journal {
            own,
            bytes: Vec::new(),
            floor: 0,
            waiting: BTreeMap::new(),
            done: 0,
            sent: false,
        }
    }

    /// All that was appended.
    pub fn bytes(&self) -> &[u8] {
        &self.bytes
    }

    /// The blocks of the slots that the turn has left.
    pub fn left(&self) -> &[[u8; BLOCK]] {
        let (blocks, _) = self.bytes.as_chunks();
        &blocks[..self.turn() as usize]
    }

    /// The accepted block of a slot that the turn has not left.
    pub fn waiting(&self, slot: u32) -> Option<&[u8; BLOCK]> {
        self.waiting.get(&slot).map(|block| &**block)
    }

    /// The writesets committed of the turn's block.
    pub fn done(&self) -> usize {
        self.done
    }

    /// The bytes that a cut leaves at least: those that were there when the last own block was handed
    /// out, be it by a send or by a restart, when the last notice was taken, and when the last out slot
    /// was passed.
    pub fn floor(&self) -> usize {
        self.floor
    }

    /// The slot that an own block could be sent for now, if the turn is an own slot of a group of
    /// `n` and nothing was sent for it.
    pub fn own_slot(&self, n: u32) -> Option<u32> {
        let turn = self.turn();
        (!self.sent && turn < SLOTS && turn % n == self.own).then_some(turn)
    }

    /// What a work now would append: the block of another whose slot it leaves.
    pub fn next_left(&self) -> Option<&[u8; BLOCK]> {
        let block = self.waiting.get(&self.turn())?;
        let leaves = self.done + 1 >= usize::from(block::header(block).count);
        (leaves && !self.is_own(block)).then_some(block)
    }

    /// Takes in one call and its answer. `out` is the *next* of the turn's slot, where the notices taken
    /// put that out.
    pub fn feed(&mut self, call: &Call, answer: &Result<Answer, u8>, out: Option<&[u8; BLOCK]>) {
        match (call, answer) {
            (_, Ok(Answer::Block(block))) => {
                self.bytes.extend_from_slice(&**block);
                self.sent = true;
            }
            (Call::Deliver { bytes }, Ok(_)) => {
                if let Ok(block) = <[u8; BLOCK]>::try_from(bytes.as_slice()) {
                    let slot = block::header(&block).slot;
                    self.waiting.insert(slot, Box::new(block));
                }
            }
            (_, Ok(Answer::Work(work))) if work.moved => match out {
                // No block waits for it, and an own one was not sent.
                Some(next) => self.bytes.extend_from_slice(next),
                None => self.leave(),
            },
            (_, Ok(Answer::Work(_))) => self.done += 1,
            _ => {}
        }
        if fixes(call, answer, out.is_some()) {
            self.floor = self.bytes.len();
        }
    }

    /// Takes in a restart.
    pub fn feed_restart(&mut self, restart: &Restart, answer: &Result<Restarted, u8>) {
        let Ok(answer) = answer else {
            return;
        };
        let whole = blocks(restart.n, &restart.journal);
        self.bytes = whole.flatten().copied().collect();
        self.floor = floor_after(self.floor, restart, answer);
        self.waiting.clear();
        self.done = 0;
        self.sent = false;
    }

    /// The turn leaves its slot. The own block is there since its send.
    fn leave(&mut self) {
        let left = self.waiting.pop_first().map(|(_, block)| block);
        match left {
            Some(block) if !self.is_own(&block) => self.bytes.extend_from_slice(&*block),
            _ => self.sent = false,
        }
        self.done = 0;
    }

    /// The slot behind the blocks appended, an own one that the turn has not left apart.
    fn turn(&self) -> u32 {
        (self.bytes.len() / BLOCK) as u32 - u32::from(self.sent)
    }

    fn is_own(&self, block: &[u8; BLOCK]) -> bool {
        u32::from(block::header(block).sender) == self.own
    }
}

//! Calls and answers as values, for lists of calls that are recorded, compared or observed.

use crate::block::BLOCK;
use crate::notice::Notice;
use crate::replica::{Replica, Report, Restarted, Work};

/// A call at a replica that is made.
#[derive(Clone, Debug, PartialEq, Eq)]
pub enum Call {
    /// Opens a transaction.
    Begin,
    /// What an item is to a transaction.
    Read {
        /// Of the transaction.
        ticket: u32,
        /// The item.
        item: u32,
    },
    /// Puts an item with its value into the writeset.
    Write {
        /// Of the transaction.
        ticket: u32,
        /// The item.
        item: u32,
        /// Its new value.
        value: i32,
    },
    /// Requests commit.
    Ask {
        /// Of the transaction.
        ticket: u32,
    },
    /// Ends an active transaction.
    Withdraw {
        /// Of the transaction.
        ticket: u32,
    },
    /// The counts of the calls so far.
    Report,
    /// Makes the block for the replica's own slot.
    Send,
    /// Hands the replica a block.
    Deliver {
        /// Of any length.
        bytes: Vec<u8>,
    },
    /// One step with the block at the turn.
    Work,
    /// Gives the items conflict classes.
    Load {
        /// Of any length.
        classes: Vec<u8>,
    },
    /// Tells of a replica that is out, or back.
    Notice(Notice),
}

/// What a restart is lent. The journal may have any length.
#[derive(Clone, Debug, PartialEq, Eq)]
pub struct Restart {
    /// The replicas of the group.
    pub n: u32,
    /// The replica's number in it.
    pub own: u32,
    /// The values that the group started with.
    pub values: Vec<i32>,
    /// The journal's bytes.
    pub journal: Vec<u8>,
    /// The notices taken, in order.
    pub notices: Vec<Notice>,
}

/// The answer to an accepted call.
#[derive(Clone, Debug, PartialEq, Eq)]
pub enum Answer {
    /// Write, withdraw, deliver, load, notice: accepted, and no more.
    Done,
    /// Begin.
    Ticket(u32),
    /// Read.
    Value(i32),
    /// Ask: whether the transaction had no writes and so ended.
    ReadOnly(bool),
    /// Report.
    Report(Report),
    /// Send.
    Block(Box<[u8; BLOCK]>),
    /// Work.
    Work(Work),
}

impl Replica {
    /// Runs one call.
    pub fn call(&mut self, call: &Call) -> Result<Answer, u8> {
        Ok(match *call {
            Call::Begin => Answer::Ticket(self.begin()?),
            Call::Read { ticket, item } => Answer::Value(self.read(ticket, item)?),
            Call::Write {
                ticket,
                item,
                value,
            } => {
                self.write(ticket, item, value)?;
                Answer::Done
            }
            Call::Ask { ticket } => Answer::ReadOnly(self.ask(ticket)?),
            Call::Withdraw { ticket } => {
                self.withdraw(ticket)?;
                Answer::Done
            }
            Call::Report => Answer::Report(self.report()),
            Call::Send => Answer::Block(Box::new(self.send()?)),
            Call::Deliver { ref bytes } => {
                self.deliver(bytes)?;
                Answer::Done
            }
            Call::Work => Answer::Work(self.work()?),
            Call::Load { ref classes } => {
                self.load(classes)?;
                Answer::Done
            }
            Call::Notice(notice) => {
                self.notice(notice)?;
                Answer::Done
            }
        })
    }

    /// Runs one call, and appends to a journal what is appended by it: by a send its block, by a work
    /// that of another whose slot it leaves, or the *next* of an out slot.
    pub fn call_journaled(&mut self, call: &Call, journal: &mut Vec<u8>) -> Result<Answer, u8> {
        if *call == Call::Work {
            let (work, left) = self.work_journaled()?;
            journal.extend(left.iter().flatten());
            return Ok(Answer::Work(work));
        }
        let answer = self.call(call)?;
        if let Answer::Block(block) = &answer {
            journal.extend_from_slice(&**block);
        }
        Ok(answer)
    }
}

impl Restart {
    /// Runs the restart, and puts its replica in the place of another. A refused one leaves that.
    pub fn run(&self, replica: &mut Replica) -> Result<Restarted, u8> {
        let Restart { n, own, .. } = *self;
        let (new, restarted) =
            Replica::restart(n, own, &self.values, &self.journal, &self.notices)?;
        *replica = new;
        Ok(restarted)
    }
}

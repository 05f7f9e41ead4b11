//! What the calls of a replica give where they are accepted.

use crate::ffi::{GiveReply, WorkReply};
use crate::{accepted, Refusal, BLOCK, TABLE};

/// What became of a transaction that asked for commit.
#[derive(Clone, Copy, Debug, PartialEq, Eq)]
pub enum Asked {
    /// It waits for the next own block.
    Waiting,
    /// It had no writes: it has committed and ended.
    ReadOnly,
}

/// What one [`crate::Replica::work`] did.
#[derive(Clone, Copy, Debug, PartialEq, Eq)]
pub struct Work {
    /// The replica whose block stands at the turn, or whose slot is out.
    pub sender: u8,
    /// The ticket of the writeset committed, 0 for a block without records and for a slot that is out.
    pub ticket: u32,
    /// Whether the turn went up.
    pub moved: bool,
    /// Whether the journal is to get the block of the slot that the turn left, which is in
    /// [`crate::Replica::window`]: another's, or the *next* of a slot that is out, be it an own one, which is
    /// durable before anything goes on. An own block stands in the journal since its send.
    pub append: bool,
    aborted: [u32; TABLE],
    count: u8,
}

impl Work {
    /// Of a reply.
    #[inline]
    pub(crate) fn of(reply: &WorkReply) -> Result<Work, Refusal> {
        let work = Work {
            sender: reply.sender,
            ticket: reply.ticket,
            moved: reply.moved,
            append: reply.append,
            aborted: reply.aborted,
            count: reply.count,
        };
        accepted(reply.number, work)
    }

    /// The own transactions aborted, rising.
    pub fn aborted(&self) -> &[u32] {
        &self.aborted[..TABLE.min(usize::from(self.count))]
    }
}

/// What one [`crate::Replica::give`] did.
#[must_use = "a deliver may have ended it"]
#[derive(Clone, Copy, Debug, PartialEq, Eq)]
pub struct Given {
    /// The replica that gave.
    pub giver: u8,
    /// Why a deliver of it was refused, which ended it: what went before stands. `None` where all went through.
    pub ended: Option<Refusal>,
    aborted: [u32; TABLE],
    count: u8,
}

impl Given {
    /// Of a reply. Where the giving itself is refused, nothing was delivered.
    pub(crate) fn of(reply: &GiveReply) -> Result<Given, Refusal> {
        let ended = Refusal::from_number(reply.number);
        let given = Given {
            giver: reply.giver,
            ended,
            aborted: reply.aborted,
            count: reply.count,
        };
        match ended {
            Some(refusal) if refusal.is_turned_away() => Err(refusal),
            _ => Ok(given),
        }
    }

    /// The own transactions aborted, rising.
    pub fn aborted(&self) -> &[u32] {
        &self.aborted[..TABLE.min(usize::from(self.count))]
    }
}

/// What a [`crate::Replica::restart`] took up.
#[must_use = "the journal is to be cut, and the last block to be handed out once more"]
#[derive(Clone, Debug, PartialEq, Eq)]
pub struct Restarted {
    /// The blocks of the journal that are committed. It goes on behind them; the rest is to be cut off.
    pub blocks: u32,
    /// The last own block among them whose slot is not out. It is to be handed out once more: the cut may
    /// have come before it first was.
    pub last: Option<[u8; BLOCK]>,
}

/// What one [`crate::Station::work`] did. It aborts nobody, and has no journal to append to.
#[derive(Clone, Copy, Debug, PartialEq, Eq)]
pub struct Step {
    /// The replica whose block stands at the turn, or whose slot is out.
    pub sender: u8,
    /// The ticket of the writeset committed, 0 for a block without records and for a slot that is out.
    pub ticket: u32,
    /// Whether the turn went up.
    pub moved: bool,
}

impl Step {
    /// Of a reply at a station, which has no journal.
    #[inline]
    pub(crate) fn of(reply: &WorkReply) -> Result<Step, Refusal> {
        let step = Step {
            sender: reply.sender,
            ticket: reply.ticket,
            moved: reply.moved,
        };
        accepted(reply.number, step)
    }
}

/// What one [`crate::Replica::take`] did, or one [`crate::Station::take`], by [`Step`]s.
#[derive(Clone, Debug, PartialEq, Eq)]
pub struct Taken<W = Work> {
    /// The steps, in their order.
    pub steps: Vec<W>,
}

//! What goes into a driver and what comes out of it.

use std::fmt;
use std::sync::Arc;

use super::{Frame, Peer};
use crate::{Digest, Notice, Refusal};

/// What a host hands to [`super::Driver::handle`].
#[derive(Clone, Debug, PartialEq, Eq)]
pub enum Input {
    /// There is a link to this peer, be it again. Who it is the host knows for sure.
    Up(Peer),
    /// The link to this peer is gone.
    Down(Peer),
    /// A frame came over a link.
    Frame {
        /// The other end of the link.
        from: Peer,
        /// What came.
        frame: Frame,
    },
    /// The membership service says this. What was said before is passed over.
    Notice(Notice),
    /// A client wants these contents to be set in one transaction, `None` for an item to be cleared. The driver
    /// begins, writes and asks, waits for room and for items that others hold, and begins anew where another's
    /// writeset aborts it, up to so many tries in all. It is told once ([`Output::Tell`]).
    Transact {
        /// Whom to tell: any number, which is the host's.
        client: u64,
        /// Items with their new contents; of an item that is there twice the last one counts.
        writes: Vec<(u32, Option<i32>)>,
        /// The most tries; 0 is taken for 1.
        tries: u32,
    },
    /// A client is gone: it is told nothing more, and what it has not asked yet is dropped.
    Gone {
        /// Its number.
        client: u64,
    },
}

/// What a host is to do, by [`super::Driver::flush`].
#[derive(Clone, Debug, PartialEq, Eq)]
pub enum Output {
    /// To send these bytes over the link to a peer: one whole frame. What is lost is sent again later.
    Send {
        /// The other end of the link.
        to: Peer,
        /// The frame, its length in front.
        bytes: Arc<[u8]>,
    },
    /// To tell a client how its transaction has ended.
    Tell {
        /// The number that the host gave it.
        client: u64,
        /// How it has ended.
        answer: Answer,
    },
    /// To tell a client that its whole transaction is put off, and goes on by itself: 5 where six are open, 8 where
    /// another here holds an item, 9 where another's writeset came before and it is begun anew. It comes once for
    /// each time that it is another reason.
    Waits {
        /// The number that the host gave it.
        client: u64,
        /// Why.
        refusal: Refusal,
    },
    /// A writeset is committed here. They come in the group's order.
    Committed(Change),
    /// To close the link to a peer: it is not of this group.
    Close(Peer),
    /// To say something to the people who look after the host.
    Say(Event),
}

/// How a transaction has ended. What is told is true.
#[derive(Clone, Debug, PartialEq, Eq)]
pub enum Answer {
    /// It is committed, here and for good, and durable.
    Committed {
        /// The ticket that it had.
        ticket: u32,
        /// Its place among all writesets of the group, from 1 on.
        place: u32,
        /// How many tries it took.
        tries: u32,
    },
    /// It had no writes.
    ReadOnly {
        /// The ticket that it had.
        ticket: u32,
    },
    /// Another's writeset came before. It is not committed and never will be.
    Aborted {
        /// The ticket that it had last.
        ticket: u32,
        /// How many tries it took.
        tries: u32,
    },
    /// Nothing was asked, and nothing will be committed.
    Refused(CallError),
    /// The driver has stopped before it was known: it may be committed or not. After the next open
    /// [`crate::Reopened::committed`] has its ticket, if it is.
    Unknown {
        /// The ticket that it had.
        ticket: u32,
    },
}

/// A writeset that was committed.
#[derive(Clone, Debug, PartialEq, Eq)]
pub struct Change {
    /// Its place among all writesets of the group, from 1 on.
    pub place: u32,
    /// The slot of its block.
    pub slot: u32,
    /// The replica that sent it.
    pub replica: u32,
    /// The ticket of the transaction there.
    pub ticket: u32,
    /// What it set, by rising items.
    pub writes: Vec<(u32, Option<i32>)>,
}

/// Why a client's call gives nothing. `{}` writes it in one line.
#[derive(Clone, Debug, PartialEq, Eq)]
pub enum CallError {
    /// The replica refuses the call.
    Refused(Refusal),
    /// An item was to be cleared, and this version has no cleared items.
    NoClearing,
    /// A transaction without writes has nothing to commit.
    Empty,
    /// The driver has stopped, in words why.
    Stopped(String),
}

impl CallError {
    /// The refusal, if it is one.
    pub fn refusal(&self) -> Option<Refusal> {
        match self {
            CallError::Refused(refusal) => Some(*refusal),
            _ => None,
        }
    }
}

impl From<Refusal> for CallError {
    fn from(refusal: Refusal) -> CallError {
        CallError::Refused(refusal)
    }
}

impl fmt::Display for CallError {
    fn fmt(&self, f: &mut fmt::Formatter) -> fmt::Result {
        match self {
            CallError::Refused(refusal) => refusal.fmt(f),
            CallError::NoClearing => f.write_str("items cannot be cleared by this version"),
            CallError::Empty => f.write_str("a transaction without writes has nothing to commit"),
            CallError::Stopped(why) => write!(f, "it has stopped: {why}"),
        }
    }
}

impl std::error::Error for CallError {}

/// What the people who look after a host are told. `{}` writes it in one line.
#[derive(Clone, Debug, PartialEq, Eq)]
#[non_exhaustive]
pub enum Event {
    /// A peer has committed something else by the same turn: the copies differ for good. The driver has stopped.
    Differ {
        /// The peer.
        peer: Peer,
        /// What it has.
        theirs: Digest,
        /// What is here.
        ours: Option<Digest>,
    },
    /// The disk has failed. The driver has stopped, and is to be opened anew.
    Disk(String),
    /// The replica refuses a call that only altered memory refuses. The driver has stopped.
    Broken(Refusal),
    /// What comes from a peer is of another group, size, start or number. Its link is to be closed.
    OtherGroup {
        /// The peer.
        peer: Peer,
        /// What differs.
        words: String,
    },
    /// A block is refused, and not because it comes again or early.
    Refused {
        /// Who sent it.
        peer: Peer,
        /// Its slot, if it is a good block.
        slot: Option<u32>,
        /// Why it is refused.
        refusal: Refusal,
    },
    /// A block came over a link that is not its sender's. It is dropped.
    NotTheSender {
        /// The other end of the link.
        peer: Peer,
        /// Whom the block names.
        sender: u32,
        /// Its slot.
        slot: u32,
    },
    /// Blocks came that were not asked for. They are dropped.
    Unasked {
        /// Who sent them.
        peer: Peer,
    },
    /// A notice is taken.
    Noticed(Notice),
    /// A notice cannot be taken here. Where it is about this replica, or was said before it was opened, the driver
    /// has stopped.
    NoticeRefused {
        /// The notice.
        notice: Notice,
        /// Why.
        refusal: Refusal,
        /// Whether the driver has stopped.
        fatal: bool,
    },
    /// This one is behind, and has asked a peer for blocks.
    Asked {
        /// The peer.
        peer: Peer,
        /// The first slot.
        from: u32,
        /// The one behind the last.
        to: u32,
    },
    /// It was given blocks that it had asked for, and its turn went up.
    Given {
        /// The peer.
        peer: Peer,
        /// The turn before.
        from: u32,
        /// The turn behind them.
        to: u32,
    },
    /// A block of the journal that a peer asked for cannot be read.
    Unread {
        /// The peer.
        peer: Peer,
        /// What the disk said.
        words: String,
    },
}

impl Event {
    /// Whether the driver has stopped.
    pub fn is_fatal(&self) -> bool {
        match self {
            Event::Differ { .. } | Event::Disk(_) | Event::Broken(_) => true,
            Event::NoticeRefused { fatal, .. } => *fatal,
            _ => false,
        }
    }
}

impl fmt::Display for Event {
    fn fmt(&self, f: &mut fmt::Formatter) -> fmt::Result {
        match self {
            Event::Differ { peer, theirs, ours } => {
                write!(
                    f,
                    "the copies differ for good: {peer} has {theirs}; here is "
                )?;
                match ours {
                    Some(ours) => ours.fmt(f),
                    None => f.write_str("another"),
                }
            }
            Event::Disk(words) => write!(f, "the disk failed: {words}"),
            Event::Broken(refusal) => write!(f, "the replica's memory is altered: {refusal}"),
            Event::OtherGroup { peer, words } => write!(f, "{peer} does not belong here: {words}"),
            Event::Refused {
                peer,
                slot: Some(slot),
                refusal,
            } => write!(
                f,
                "a block of slot {slot} from {peer} is dropped: {refusal}"
            ),
            Event::Refused { peer, refusal, .. } => {
                write!(f, "a block from {peer} is dropped: {refusal}")
            }
            Event::NotTheSender { peer, sender, slot } => write!(
                f,
                "a block of slot {slot} of replica {sender} came from {peer} and is dropped"
            ),
            Event::Unasked { peer } => write!(f, "blocks that nobody asked for came from {peer}"),
            Event::Noticed(notice) => write!(f, "{notice} is taken"),
            Event::NoticeRefused {
                notice, refusal, ..
            } => write!(f, "{notice} cannot be taken here: {refusal}"),
            Event::Asked { peer, from, to } => {
                write!(
                    f,
                    "behind: the blocks of slots {from} to {} are asked of {peer}",
                    to - 1
                )
            }
            Event::Given { peer, from, to } => {
                write!(f, "{peer} gave the blocks of slots {from} to {}", to - 1)
            }
            Event::Unread { peer, words } => {
                write!(f, "blocks that {peer} asked for cannot be read: {words}")
            }
        }
    }
}

//! What the calls are lent beside slices, and what they answer.

use std::fmt;

use crate::{REPLICAS, TABLE};

/// An open transaction. Ticket 0 is a free row. Stage 0 is active, 1 asked, 2 sent.
#[repr(C)]
#[derive(Clone, Copy, Debug, Default, PartialEq, Eq)]
pub struct Txn {
    /// Its number, from 1 on.
    pub ticket: u32,
    /// 0, 1 or 2.
    pub stage: u32,
    /// The commit count when it began.
    pub snapshot: u32,
    /// How many items it has written.
    pub writes: u32,
}

/// The slot that is processed next, and two marks: whether the own block for it was sent, and whether
/// a block of another replica is committed in part. A mark is off where it is 0, on where it is any
/// other number.
#[repr(C)]
#[derive(Clone, Copy, Debug, Default, PartialEq, Eq)]
pub struct Turn {
    /// The slot.
    pub slot: u32,
    /// The mark that the own block was sent.
    pub sent: u8,
    /// The mark that a block of another is committed in part.
    pub applying: u8,
}

/// What a replica knows of its group. A make, a restart or a notice sets it, and no other call.
#[repr(C)]
#[derive(Clone, Copy, Debug, Default, PartialEq, Eq)]
pub struct Group {
    /// The replicas of the group, n.
    pub replicas: u8,
    /// The replica's own number, below n; [`crate::NO_NUMBER`] for a station.
    pub own: u8,
    /// The last outage of each replica: its slots from this one on are out,
    pub from: [u32; REPLICAS],
    /// and from this one on they count again: [`crate::SLOTS`] where no Back was taken yet, 0 where no Out was.
    pub until: [u32; REPLICAS],
}

/// The numbers of a replica, lent as the turn is.
#[repr(C)]
#[derive(Clone, Copy, Debug, Default, PartialEq, Eq)]
pub struct Counts {
    /// The writesets committed, own and others'.
    pub commits: u32,
    /// The writesets committed of the block at the turn.
    pub done: u8,
    /// The tickets given.
    pub tickets: u32,
    /// Own transactions that ended with their writeset committed.
    pub committed: u32,
    /// Own transactions that ended with nothing written.
    pub read_only: u32,
    /// Own transactions that were aborted.
    pub aborted: u32,
    /// Own transactions that were withdrawn.
    pub withdrawn: u32,
}

/// What a report says. `{}` writes it in one line.
#[repr(C)]
#[derive(Clone, Copy, Debug, Default, PartialEq, Eq)]
pub struct Report {
    /// The slot that is processed next.
    pub turn: u32,
    /// The writesets committed, own and others'.
    pub commits: u32,
    /// The tickets given: as many as `open_count` and the four endings together.
    pub tickets: u32,
    /// The open transactions.
    pub open_count: u32,
    /// Own transactions that ended with their writeset committed.
    pub committed: u32,
    /// Own transactions that ended with nothing written.
    pub read_only: u32,
    /// Own transactions that were aborted.
    pub aborted: u32,
    /// Own transactions that were withdrawn.
    pub withdrawn: u32,
}

/// `turn 7, commits 12; tickets 9: open 2, committed 4, read-only 1, aborted 1, withdrawn 1`
impl fmt::Display for Report {
    fn fmt(&self, f: &mut fmt::Formatter) -> fmt::Result {
        let (turn, commits, tickets) = (self.turn, self.commits, self.tickets);
        write!(f, "turn {turn}, commits {commits}; tickets {tickets}: ")?;
        let (open, committed, read_only) = (self.open_count, self.committed, self.read_only);
        write!(
            f,
            "open {open}, committed {committed}, read-only {read_only}, "
        )?;
        write!(f, "aborted {}, withdrawn {}", self.aborted, self.withdrawn)
    }
}

/// What a begin answers. Number 0 is accepted; so in the replies below, which are zero in all else where the
/// call is refused.
#[repr(C)]
#[derive(Clone, Copy, Debug, Default, PartialEq, Eq)]
pub struct BeginReply {
    /// 0, or why the call is refused.
    pub number: u8,
    /// The ticket of the new transaction.
    pub ticket: u32,
}

/// What a read answers.
#[repr(C)]
#[derive(Clone, Copy, Debug, Default, PartialEq, Eq)]
pub struct ReadReply {
    /// 0, or why the call is refused.
    pub number: u8,
    /// The item's value to the transaction.
    pub value: i32,
}

/// What an ask answers.
#[repr(C)]
#[derive(Clone, Copy, Debug, Default, PartialEq, Eq)]
pub struct AskReply {
    /// 0, or why the call is refused.
    pub number: u8,
    /// Whether the transaction had no writes and so ended.
    pub read_only: bool,
}

/// What a report answers.
#[repr(C)]
#[derive(Clone, Copy, Debug, Default, PartialEq, Eq)]
pub struct ReportReply {
    /// 0, or why the call is refused.
    pub number: u8,
    /// The counts.
    pub report: Report,
}

/// What a work answers.
#[repr(C)]
#[derive(Clone, Copy, Debug, Default, PartialEq, Eq)]
pub struct WorkReply {
    /// 0, or why the call is refused.
    pub number: u8,
    /// The replica whose block stands at the turn.
    pub sender: u8,
    /// Whether the turn moved.
    pub moved: bool,
    /// How many tickets of `aborted` count.
    pub count: u8,
    /// The ticket of the writeset committed, 0 for a block without records.
    pub ticket: u32,
    /// Rising, zeros behind the first `count`.
    pub aborted: [u32; TABLE],
    /// Whether the turn left another's slot, or any that is out: the journal is to get its block then, or its
    /// *next*, from the window.
    pub append: bool,
}

/// Who is to give.
#[repr(C)]
#[derive(Clone, Copy, Debug, Default, PartialEq, Eq)]
pub struct GiverReply {
    /// 0, or why nobody is.
    pub number: u8,
    /// The replica whose window is to be lent.
    pub giver: u8,
}

/// What a giving answers. Where it is refused by 31, the giver is named; where a deliver's refusal ended it, the
/// tickets too.
#[repr(C)]
#[derive(Clone, Copy, Debug, Default, PartialEq, Eq)]
pub struct GiveReply {
    /// 0, or why the call is refused, or its last deliver was.
    pub number: u8,
    /// The replica whose window is to be lent.
    pub giver: u8,
    /// How many tickets of `aborted` count.
    pub count: u8,
    /// Rising, zeros behind the first `count`.
    pub aborted: [u32; TABLE],
}

/// What a restart answers.
#[repr(C)]
#[derive(Clone, Copy, Debug, Default, PartialEq, Eq)]
pub struct RestartReply {
    /// 0, or why the call is refused.
    pub number: u8,
    /// How many blocks of the journal are committed. It goes on behind them; the rest is to be cut off.
    pub count: u32,
}

/// The first eight bytes of a block. Kind 1 is a *next*, without records; 2 has `count` records.
#[repr(C)]
#[derive(Clone, Copy, Debug, Default, PartialEq, Eq)]
pub struct Header {
    /// 1 or 2.
    pub kind: u8,
    /// The number of the replica that sent it.
    pub sender: u8,
    /// The size of the group.
    pub replicas: u8,
    /// How many records it has.
    pub count: u8,
    /// The slot that it is for.
    pub slot: u32,
}

/// What reading a block answers.
#[repr(C)]
#[derive(Clone, Copy, Debug, Default, PartialEq, Eq)]
pub struct BlockReply {
    /// 0, or why the block is refused: 1, 14, 15.
    pub number: u8,
    /// Its header, zeros where it is refused.
    pub header: Header,
}

/// A record's ticket and how many entries it has.
#[repr(C)]
#[derive(Clone, Copy, Debug, Default, PartialEq, Eq)]
pub struct RecordHead {
    /// The ticket, at the replica that sent the block.
    pub ticket: u32,
    /// How many entries it has.
    pub writes: u8,
}

/// An item of a writeset and the value that it is set to.
#[repr(C)]
#[derive(Clone, Copy, Debug, Default, PartialEq, Eq)]
pub struct Entry {
    /// The item, 0 to 127.
    pub item: u8,
    /// Its value.
    pub value: i32,
}

/// `5 = 84` for item 5 set to 84.
impl fmt::Display for Entry {
    fn fmt(&self, f: &mut fmt::Formatter) -> fmt::Result {
        write!(f, "{} = {}", self.item, self.value)
    }
}

// A wrong size would be memory that the library writes and Rust does not own.
const _: () = {
    assert!(size_of::<Txn>() == 16);
    assert!(size_of::<Turn>() == 8);
    assert!(size_of::<Group>() == 52);
    assert!(size_of::<Counts>() == 28);
    assert!(size_of::<Report>() == 32);
    assert!(size_of::<BeginReply>() == 8);
    assert!(size_of::<ReadReply>() == 8);
    assert!(size_of::<AskReply>() == 2);
    assert!(size_of::<ReportReply>() == 36);
    assert!(size_of::<WorkReply>() == 36);
    assert!(size_of::<GiverReply>() == 2);
    assert!(size_of::<GiveReply>() == 28);
    assert!(size_of::<RestartReply>() == 8);
    assert!(size_of::<Header>() == 8);
    assert!(size_of::<BlockReply>() == 12);
    assert!(size_of::<RecordHead>() == 8);
    assert!(size_of::<Entry>() == 8);
};

//! What an open of a journal did.

use crate::{Stop, BLOCK};

/// What a [`crate::Durable::open`] found and did.
///
/// **Tickets.** Transactions that were open or asked when the power was cut are gone. Their tickets, where
/// they are above [`Reopened::tickets`], are given again to others: who has noted tickets of before looks
/// them up in [`Reopened::committed`], or by [`crate::Durable::outcome`] before the first begin, and forgets
/// those that are not there.
#[must_use = "its last block is to be handed out once more"]
#[derive(Clone, Debug, PartialEq, Eq)]
pub struct Reopened {
    /// The blocks of the journal that are taken up.
    pub blocks: u32,
    /// The last own block among them whose slot is not out. It is to be handed out once more: the cut may
    /// have come before it first was.
    pub last: Option<[u8; BLOCK]>,
    /// How many bytes were behind them, and are cut off.
    pub cut: u64,
    /// Why the blocks stop there; [`Stop::End`] where nothing was behind them.
    pub why: Stop,
    /// How many of the blocks were damaged or missing and are put back from the copies in the head. The cut
    /// came before all was durable, or the disk has lost bytes that were: look after it.
    pub mended: u32,
    /// The own tickets whose writesets are in the journal, and so committed, in the order of the sequence.
    pub committed: Vec<u32>,
    /// The highest ticket of them, 0 where there is none. Tickets go on above it.
    pub tickets: u32,
}

//! The numbers that refuse a call: document 01's table ("Answers when a call is turned away"), and 23,
//! 25 and 28 to 31 of document 02. Those of [`crate::week`] are there.

pub use crate::block::{WRONG_CHECK, WRONG_FORM, WRONG_LENGTH};

/// N, own number, item, class, or a notice's replica or slot out of range.
pub const OUT_OF_RANGE: u8 = 2;
/// No open transaction has this ticket.
pub const NOT_OPEN: u8 = 3;
/// The transaction is asked or sent already.
pub const NOT_ACTIVE: u8 = 4;
/// 6 transactions are open.
pub const ALL_OPEN: u8 = 5;
/// 100,000,000 tickets are given.
pub const TICKETS_SPENT: u8 = 6;
/// A block of another replica is committed in part, and a writeset still to come has an item of the
/// item's class.
pub const APPLYING: u8 = 7;
/// Another open transaction holds the item.
pub const LOCKED: u8 = 8;
/// The item changed after the snapshot; the transaction ends as aborted.
pub const STALE: u8 = 9;
/// It would be a ninth item.
pub const WRITESET_FULL: u8 = 10;
/// The turn is another's slot.
pub const NOT_OUR_TURN: u8 = 11;
/// Sent already for this slot.
pub const ALREADY_SENT: u8 = 12;
/// The turn is 100,000,000.
pub const SLOTS_SPENT: u8 = 13;
/// The block's N is not ours.
pub const WRONG_GROUP: u8 = 16;
/// The block's slot is below the turn.
pub const PAST_SLOT: u8 = 17;
/// The block's slot is at or above turn + N.
pub const FAR_SLOT: u8 = 18;
/// The sender is this replica, and it did not send this block for its present turn.
pub const NOT_SENT: u8 = 19;
/// A message waits for the block's slot already.
pub const SLOT_TAKEN: u8 = 20;
/// No message waits for the turn.
pub const NOTHING_WAITS: u8 = 21;
// 22 was an own writeset whose ticket is not open as sent, until document 02's Req 08. No other takes it.
/// A load of classes while a block of another replica is committed in part.
pub const LOAD_WHILE_APPLYING: u8 = 23;
/// A station only reads: it does not write or send.
pub const STATION_ONLY_READS: u8 = 25;
/// A notice that comes too late, or does not follow on those about its replica, or puts a slot out for
/// which a block of it is here.
pub const NOTICE_REFUSED: u8 = 28;
/// The slot is out: nothing is sent or delivered for it.
pub const SLOT_OUT: u8 = 29;
/// No other replica is up, that could give what was missed.
pub const NOBODY_UP: u8 = 30;
/// The giver's window lacks a block for a slot that is to be given.
pub const NOT_IN_WINDOW: u8 = 31;

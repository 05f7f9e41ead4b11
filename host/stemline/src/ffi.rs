//! The static library as Rust sees it: its structs, and its functions as safe ones over slices, parameter
//! by parameter those of `crates/replica_make`, `replica_station`, `replica_client`, `replica_write`,
//! `replica_turn`, `replica_notice`, `replica_give` and `replica_block`: the calls at a replica, and three that
//! read a block.
//! `host/include/stemline_calls.h` says the same in C; tests compare the layouts, and the parameters of all
//! three.
//!
//! Most hosts want [`crate::Replica`] and [`crate::Station`], which own what the calls are lent, and
//! [`crate::Block`].

mod structs;

pub use self::structs::{
    AskReply, BeginReply, BlockReply, Counts, Entry, GiveReply, GiverReply, Group, Header,
    ReadReply, RecordHead, Report, ReportReply, RestartReply, Turn, Txn, WorkReply,
};

/// Declares the library's functions and makes each a safe one. A slice crosses as its pointer and its
/// length, `mut` where the call may change it and `ref` where it only looks; all else crosses as it is,
/// a reference as a pointer.
/// A call is defined on slices of any length and content, and the borrows keep them apart.
macro_rules! calls {
    ($($(#[$says:meta])* fn $name:ident = $symbol:ident(
        $($part:ident: $(mut [$changed:ty])? $(ref [$seen:ty])? $($value:ty)?),*
    ) -> $reply:ty;)*) => {
        extern "C" {
            $(fn $symbol(
                $($part: $(*mut $changed, _: usize)? $(*const $seen, _: usize)? $($value)?),*
            ) -> $reply;)*
        }
        $($(#[$says])*
        #[allow(clippy::too_many_arguments)]
        #[inline]
        pub fn $name($($part: $(&mut [$changed])? $(&[$seen])? $($value)?),*) -> $reply {
            // SAFETY: each pointer comes with the length of its own slice, borrowed for the call.
            unsafe {
                $symbol($($part
                    $(.as_mut_ptr() as *mut $changed, $part.len())?
                    $(.as_ptr() as *const $seen, $part.len())?),*)
            }
        })*
    };
}

calls! {
    /// Fills the parts, whatever they held: replica `own` of `n`, with 128 values to start with. Refused
    /// by 1, 2; with an `n` out of range the places may have any length.
    fn make = stemline_make(
        table: mut [Txn], group: &mut Group, turn: &mut Turn, counts: &mut Counts, n: u32, own: u32,
        start: ref [i32], queue: mut [u32], items: mut [u8], writes: mut [i32], snapshots: mut [i32],
        values: mut [i32], stamps: mut [u32], classes: mut [u8], places: mut [u8], outbox: mut [u8],
        window: mut [u8]
    ) -> u8;

    /// As a make, of a station in a group of `n`, which has no number. Refused by 1, 2.
    fn make_station = stemline_make_station(
        table: mut [Txn], group: &mut Group, turn: &mut Turn, counts: &mut Counts, n: u32,
        start: ref [i32], queue: mut [u32], items: mut [u8], writes: mut [i32], snapshots: mut [i32],
        values: mut [i32], stamps: mut [u32], classes: mut [u8], places: mut [u8], outbox: mut [u8],
        window: mut [u8]
    ) -> u8;

    /// As a make; then the blocks of the journal are committed, up to the first that is torn, fails its
    /// check or form, has another `n` or is not the next slot's. The notices, three numbers each, are put
    /// in force untested: replica, 1 for Out or 0 for Back, slot. Fills the block with the last own one
    /// committed whose slot is not out by them, with zeros if there is none; the window gets the last 64
    /// committed. Refused by 1, 2; a journal may have any length, and there are three numbers for each notice.
    fn restart = stemline_restart(
        table: mut [Txn], group: &mut Group, turn: &mut Turn, counts: &mut Counts, n: u32, own: u32,
        start: ref [i32], queue: mut [u32], items: mut [u8], writes: mut [i32], snapshots: mut [i32],
        values: mut [i32], stamps: mut [u32], classes: mut [u8], places: mut [u8], outbox: mut [u8],
        window: mut [u8], journal: ref [u8], notices: ref [u32], block: mut [u8]
    ) -> RestartReply;

    /// The slots of a replica from this one on are passed by work, as a *next*. Refused by 1, 2, 28.
    fn out = stemline_out(
        group: &mut Group, turn: &Turn, places: ref [u8], replica: u32, slot: u32
    ) -> u8;

    /// The slots of a replica from this one on count again. Refused by 1, 2, 28.
    fn back = stemline_back(
        group: &mut Group, turn: &Turn, places: ref [u8], replica: u32, slot: u32
    ) -> u8;

    /// Opens a transaction. Refused by 1, 5, 6.
    fn begin = stemline_begin(
        table: mut [Txn], counts: &mut Counts, values: ref [i32], snapshots: mut [i32]
    ) -> BeginReply;

    /// What a transaction reads of an item. Refused by 1, 2, 3, 4.
    fn read = stemline_read(
        table: ref [Txn], ticket: u32, items: ref [u8], writes: ref [i32], snapshots: ref [i32],
        item: u32
    ) -> ReadReply;

    /// Puts an item and its value into a writeset. Refused by 25, 1, 2, 3, 4, 7, 9, 8, 10.
    fn write = stemline_write(
        table: mut [Txn], group: &Group, turn: &Turn, counts: &mut Counts, ticket: u32,
        items: mut [u8], writes: mut [i32], stamps: ref [u32], classes: ref [u8], places: ref [u8],
        item: u32, value: i32
    ) -> u8;

    /// Requests commit. Refused by 1, 3, 4.
    fn ask = stemline_ask(
        table: mut [Txn], counts: &mut Counts, ticket: u32, queue: mut [u32]
    ) -> AskReply;

    /// Ends an active transaction. Refused by 1, 3, 4.
    fn withdraw = stemline_withdraw(table: mut [Txn], counts: &mut Counts, ticket: u32) -> u8;

    /// The replica's report. Refused by 1.
    fn report = stemline_report(table: ref [Txn], turn: &Turn, counts: &Counts) -> ReportReply;

    /// Writes the block for the own slot. Refused by 25, 1, 13, 11, 29, 12.
    fn send = stemline_send(
        table: mut [Txn], group: &Group, turn: &mut Turn, queue: mut [u32], items: ref [u8],
        writes: ref [i32], outbox: mut [u8], block: mut [u8]
    ) -> u8;

    /// Keeps a block until its slot is the turn. Refused by 1, 14, 15, 16, 17, 29, 18, 19, 20.
    fn deliver = stemline_deliver(
        group: &Group, turn: &Turn, places: mut [u8], outbox: ref [u8], bytes: ref [u8]
    ) -> u8;

    /// Takes one step at the block of the turn, or passes a slot that is out. Where the turn leaves a slot, the
    /// window gets its block, or the *next* of one that is out; else it is not touched. Refused by 1, 21.
    fn work = stemline_work(
        table: mut [Txn], group: &Group, turn: &mut Turn, counts: &mut Counts, queue: mut [u32],
        items: ref [u8], values: mut [i32], stamps: mut [u32], places: mut [u8], window: mut [u8]
    ) -> WorkReply;

    /// Whose window a giving is to be lent, by the turns told of the replicas, 4,294,967,295 for one that is
    /// down. Refused by 25, 1, 30.
    fn giver = stemline_giver(group: &Group, turns: ref [u32]) -> GiverReply;

    /// Delivers and works the blocks of the giver's window from the turn up to the giver's, as told. Refused by
    /// 25, 1, 30, 31; else by the first refusal of a deliver, and what went before stands.
    fn give = stemline_give(
        table: mut [Txn], group: &Group, turn: &mut Turn, counts: &mut Counts, queue: mut [u32],
        items: ref [u8], values: mut [i32], stamps: mut [u32], places: mut [u8], outbox: ref [u8],
        window: mut [u8], turns: ref [u32], lent: ref [u8]
    ) -> GiveReply;

    /// Puts the 128 classes given, each 1 to 8, in the place of those there. Refused by 1, 2, 23.
    fn load = stemline_load(turn: &Turn, classes: mut [u8], given: ref [u8]) -> u8;

    /// The header of a block, or why the bytes are none: refused by 1, 14, 15.
    fn block_header = stemline_block_header(bytes: ref [u8]) -> BlockReply;

    /// Record `j` of a block, from 0, as the bytes stand. Zeros past the sixth, and where the bytes are
    /// not 512.
    fn block_record = stemline_block_record(bytes: ref [u8], j: u32) -> RecordHead;

    /// Entry `e` of record `j`, from 0, as the bytes stand. Zeros past the eighth or the sixth record, and
    /// where the bytes are not 512.
    fn block_entry = stemline_block_entry(bytes: ref [u8], j: u32, e: u32) -> Entry;
}

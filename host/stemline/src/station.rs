//! A station, which only reads.

use crate::ffi;
use crate::replica::{works, ONE_SLOT, WAITING};
use crate::{accepted, Memory, Refusal, Replica, Report, Step, Taken, ITEMS, NO_NUMBER};

/// A station of a group: it holds the group's values and lets transactions read them. It has no number and
/// takes no turn, so it neither writes nor sends, and no replica waits for it.
///
/// It needs every block of the group from slot 0 on, and [`Station::take`] says what to do with one that
/// comes too early. It has no journal and no restart: after a cut of the power it is made anew, with the
/// values that the group started with, and needs all blocks again. The journal of a replica, as far as it
/// is durable, has them in order; block `turn` of it is what a station takes next, by [`Station::take_slot`],
/// where `turn` is that of its [`Station::report`]. The station takes the notices too, each before its slot.
///
/// ```
/// use stemline::{Refusal, Replica, Station, Step, ITEMS};
///
/// fn main() -> Result<(), Refusal> {
///     let start = [0; ITEMS];
///     let mut group = [Replica::new(2, 0, &start)?, Replica::new(2, 1, &start)?];
///     let mut station = Station::new(2, &start)?;
///     let ticket = group[1].begin()?;
///     group[1].write(ticket, 5, 40)?;
///     group[1].ask(ticket)?;
///     // The group goes on by itself; what it hands out is kept for the station.
///     let mut kept = Vec::new();
///     for k in [0, 1, 0] {
///         let block = group[k].send()?;
///         for replica in &mut group {
///             replica.take(&block)?;
///         }
///         kept.push(block);
///     }
///     // Slot 2 is too far ahead for it, and is offered again later.
///     assert_eq!(station.take(&kept[2]), Err(Refusal::FarSlot));
///     let begun = station.begin()?;
///     for block in &kept {
///         station.take(block)?;
///     }
///     assert_eq!(station.values()[5], 40);
///     // A transaction reads what was there when it began.
///     assert_eq!(station.read(begun, 5), Ok(0));
///     station.ask(begun)
/// }
/// ```
///
/// A call that a station has not is an error of the compiler, be it write, send, load, restart or giving:
///
/// ```compile_fail,E0599
/// # let mut station = stemline::Station::new(2, &[0; 128]).unwrap();
/// # let ticket = station.begin().unwrap();
/// station.write(ticket, 5, 40);
/// ```
///
/// ```compile_fail,E0599
/// # let mut station = stemline::Station::new(2, &[0; 128]).unwrap();
/// station.send();
/// ```
///
/// ```compile_fail,E0599
/// # let mut station = stemline::Station::new(2, &[0; 128]).unwrap();
/// station.load(&[1; 128]);
/// ```
///
/// ```compile_fail,E0599
/// stemline::Station::restart(2, 0, &[0; 128], &[], &[]);
/// ```
///
/// ```compile_fail,E0599
/// # let mut station = stemline::Station::new(2, &[0; 128]).unwrap();
/// station.give(&[0, 7], &stemline::Window::new());
/// ```
#[derive(Clone, Debug, PartialEq, Eq)]
pub struct Station {
    /// A memory without a number. Of its calls those are left out that a station has not.
    pub(crate) replica: Replica,
}

impl Station {
    /// A station of a group of `n`, 2 to 6, with the values that the group starts with. Refused by 2.
    pub fn new(n: u32, values: &[i32; ITEMS]) -> Result<Station, Refusal> {
        let mut memory = Box::new(Memory::zero(n));
        let m = &mut *memory;
        let number = ffi::make_station(
            &mut m.table,
            &mut m.group,
            &mut m.turn,
            &mut m.counts,
            n,
            values,
            &mut m.queue,
            &mut m.items,
            &mut m.writes,
            &mut m.snapshots,
            &mut m.values,
            &mut m.stamps,
            &mut m.classes,
            &mut m.places,
            &mut m.outbox,
            m.window.lent(),
        );
        let replica = Replica { memory };
        accepted(number, Station { replica })
    }

    /// A station of a memory that was taken from one before; `None` where it is a replica's, which has a
    /// number. Where its places have another length than its group says, deliver and work are refused by 1.
    pub fn from_memory(memory: Memory) -> Option<Station> {
        let has_none = memory.group.own == NO_NUMBER;
        has_none.then(|| Station {
            replica: Replica::from_memory(memory),
        })
    }

    /// All that the station holds.
    pub fn memory(&self) -> &Memory {
        self.replica.memory()
    }

    /// The values committed so far.
    pub fn values(&self) -> &[i32; ITEMS] {
        self.replica.values()
    }

    /// As [`Replica::begin`]. Refused by 5, 6.
    #[inline]
    pub fn begin(&mut self) -> Result<u32, Refusal> {
        self.replica.begin()
    }

    /// The item's value at the transaction's begin. Refused by 2, 3.
    #[inline]
    pub fn read(&self, ticket: u32, item: u32) -> Result<i32, Refusal> {
        self.replica.read(ticket, item)
    }

    /// Ends a transaction as read-only: it has written nothing, so there is nothing to wait for. Refused
    /// by 3.
    #[inline]
    pub fn ask(&mut self, ticket: u32) -> Result<(), Refusal> {
        self.replica.ask(ticket).map(|_| ())
    }

    /// As [`Replica::withdraw`]. Refused by 3.
    #[inline]
    pub fn withdraw(&mut self, ticket: u32) -> Result<(), Refusal> {
        self.replica.withdraw(ticket)
    }

    /// As [`Replica::report`]. The commits are those of the group; none of its own transactions is ever
    /// committed or aborted.
    #[inline]
    pub fn report(&self) -> Report {
        self.replica.report()
    }

    /// Keeps a block until its slot is the turn. Refused by 1, 14, 15, 16, 17, 29, 18, 20; of 18
    /// [`Station::take`] says more.
    #[inline]
    pub fn deliver(&mut self, bytes: &[u8]) -> Result<(), Refusal> {
        self.replica.deliver(bytes)
    }

    /// Takes one step at the block of the turn: commits its next writeset, or passes over a block without
    /// records, or over a slot that is out. Refused by 1, 21.
    #[inline]
    pub fn work(&mut self) -> Result<Step, Refusal> {
        Step::of(&self.replica.step())
    }

    /// As [`Replica::waits`].
    #[inline]
    pub fn waits(&self) -> bool {
        self.replica.waits()
    }

    /// As [`Replica::out`]. A station takes the notices of its group too. Refused by 2, 28.
    pub fn out(&mut self, replica: u32, slot: u32) -> Result<(), Refusal> {
        self.replica.out(replica, slot)
    }

    /// As [`Replica::back`]. Refused by 2, 28.
    pub fn back(&mut self, replica: u32, slot: u32) -> Result<(), Refusal> {
        self.replica.back(replica, slot)
    }

    /// What a station does with a block that arrives, as [`Replica::take`]: delivers it, then works until
    /// nothing waits for the turn.
    ///
    /// Refused as the deliver is. Nobody waits for a station, so it may fall behind and refuse by 18 a block
    /// that was handed out. The host keeps that block and offers it again when the turn has come nearer: its
    /// sender will not hand it out for ever.
    pub fn take(&mut self, bytes: &[u8]) -> Result<Taken<Step>, Refusal> {
        self.deliver(bytes)?;
        Ok(self.works(WAITING))
    }

    /// As [`Replica::take_slot`]: takes the turn's slot, with its block as a replica's journal has it.
    pub fn take_slot(&mut self, bytes: &[u8]) -> Result<Taken<Step>, Refusal> {
        if !self.waits() {
            self.deliver(bytes)?;
        }
        Ok(self.works(ONE_SLOT))
    }

    fn works(&mut self, most: (usize, usize)) -> Taken<Step> {
        works(self, most, Station::waits, Station::work, |step| step.moved)
    }
}

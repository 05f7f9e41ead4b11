//! One replica, over the memory that the calls are lent.

mod giving;
mod taking;

pub(crate) use self::taking::{works, ONE_SLOT, WAITING};
use crate::ffi::{self, WorkReply};
use crate::{
    accepted, owner, Asked, Memory, Notice, Refusal, Report, Restarted, Window, Work, BLOCK, ITEMS,
    NO_NUMBER, SLOTS,
};

/// One replica of a group.
#[derive(Clone, Debug, PartialEq, Eq)]
pub struct Replica {
    pub(crate) memory: Box<Memory>,
}

impl Replica {
    /// Replica `own` of `n`, 2 to 6, with these values to start with. Refused by 2.
    pub fn new(n: u32, own: u32, values: &[i32; ITEMS]) -> Result<Replica, Refusal> {
        let mut memory = Box::new(Memory::zero(n));
        let m = &mut *memory;
        let number = ffi::make(
            &mut m.table,
            &mut m.group,
            &mut m.turn,
            &mut m.counts,
            n,
            own,
            values,
            &mut m.queue,
            &mut m.items,
            &mut m.writes,
            &mut m.snapshots,
            &mut m.values,
            &mut m.stamps,
            &mut m.classes,
            &mut m.places,
            &mut m.outbox,
            m.window.lent(),
        );
        accepted(number, Replica { memory })
    }

    /// As [`Replica::new`], with the group's values to start with; then commits the blocks of a
    /// journal, up to the first that is torn, fails its check or form, has another `n` or is not of the
    /// next slot. Transactions that were open are gone; tickets go on above the highest in its own
    /// blocks; classes are to be loaded anew; the window has the last 64 blocks committed. Refused by 2; the
    /// journal may have any length.
    ///
    /// The notices are all that were taken, in order, and are put in force untested. The block given back
    /// is the last own one whose slot they do not put out.
    ///
    /// Before the block given back is handed out, the journal is cut behind the blocks committed and
    /// made durable.
    pub fn restart(
        n: u32,
        own: u32,
        values: &[i32; ITEMS],
        journal: &[u8],
        notices: &[Notice],
    ) -> Result<(Replica, Restarted), Refusal> {
        let mut memory = Box::new(Memory::zero(n));
        let mut block = [0; BLOCK];
        let m = &mut *memory;
        let reply = ffi::restart(
            &mut m.table,
            &mut m.group,
            &mut m.turn,
            &mut m.counts,
            n,
            own,
            values,
            &mut m.queue,
            &mut m.items,
            &mut m.writes,
            &mut m.snapshots,
            &mut m.values,
            &mut m.stamps,
            &mut m.classes,
            &mut m.places,
            &mut m.outbox,
            m.window.lent(),
            journal,
            &notices
                .iter()
                .flat_map(|notice| notice.numbers())
                .collect::<Vec<_>>(),
            &mut block,
        );
        let restarted = Restarted {
            blocks: reply.count,
            // No block begins with 0.
            last: (block[0] != 0).then_some(block),
        };
        accepted(reply.number, (Replica { memory }, restarted))
    }

    /// A replica of a memory that was taken from one before. Where its places have another length
    /// than its group says, write, deliver and work are refused by 1. Of a station's memory, which has no
    /// number, write and send are refused by 25, and [`crate::Station::from_memory`] makes a station.
    pub fn from_memory(memory: Memory) -> Replica {
        Replica {
            memory: Box::new(memory),
        }
    }

    /// All that the replica holds.
    pub fn memory(&self) -> &Memory {
        &self.memory
    }

    /// The values committed so far.
    pub fn values(&self) -> &[i32; ITEMS] {
        &self.memory.values
    }

    /// The last 64 blocks that the turn has left, as the journal is to have them.
    pub fn window(&self) -> &Window {
        &self.memory.window
    }

    /// Opens a transaction on the values as they are now and gives its ticket. Refused by 5, 6.
    #[inline]
    pub fn begin(&mut self) -> Result<u32, Refusal> {
        let m = &mut *self.memory;
        let reply = ffi::begin(&mut m.table, &mut m.counts, &m.values, &mut m.snapshots);
        accepted(reply.number, reply.ticket)
    }

    /// What the transaction wrote last to the item, else the item's value at its begin. Refused by
    /// 2, 3, 4.
    #[inline]
    pub fn read(&self, ticket: u32, item: u32) -> Result<i32, Refusal> {
        let m = &*self.memory;
        let reply = ffi::read(&m.table, ticket, &m.items, &m.writes, &m.snapshots, item);
        accepted(reply.number, reply.value)
    }

    /// Puts the item with its value into the writeset and locks it. While a block of another is applied,
    /// 7 if an item of its class is still to come (see [`Replica::load`]). Refused by 25, 1, 2, 3, 4, 7 and,
    /// unless the transaction holds the item, 9, 8, 10.
    #[inline]
    pub fn write(&mut self, ticket: u32, item: u32, value: i32) -> Result<(), Refusal> {
        let m = &mut *self.memory;
        let number = ffi::write(
            &mut m.table,
            &m.group,
            &m.turn,
            &mut m.counts,
            ticket,
            &mut m.items,
            &mut m.writes,
            &m.stamps,
            &m.classes,
            &m.places,
            item,
            value,
        );
        accepted(number, ())
    }

    /// Requests commit. Refused by 3, 4.
    #[inline]
    pub fn ask(&mut self, ticket: u32) -> Result<Asked, Refusal> {
        let m = &mut *self.memory;
        let reply = ffi::ask(&mut m.table, &mut m.counts, ticket, &mut m.queue);
        let asked = match reply.read_only {
            true => Asked::ReadOnly,
            false => Asked::Waiting,
        };
        accepted(reply.number, asked)
    }

    /// Ends an active transaction. Refused by 3, 4.
    #[inline]
    pub fn withdraw(&mut self, ticket: u32) -> Result<(), Refusal> {
        let m = &mut *self.memory;
        let number = ffi::withdraw(&mut m.table, &mut m.counts, ticket);
        accepted(number, ())
    }

    /// The counts of the calls so far. The table has its length, so this is never refused.
    #[inline]
    pub fn report(&self) -> Report {
        let m = &*self.memory;
        ffi::report(&m.table, &m.turn, &m.counts).report
    }

    /// Whether a [`Replica::send`] would be accepted now: the turn is a slot of this replica that is not
    /// out, its block for that slot is not sent yet, and slots are left.
    #[inline]
    pub fn is_turn(&self) -> bool {
        let (group, turn) = (&self.memory.group, &self.memory.turn);
        let is_owner = owner(turn.slot, group.replicas.into()) == group.own.into();
        let is_free = group.own != NO_NUMBER && turn.sent == 0;
        turn.slot < SLOTS && is_owner && is_free && !group.is_out(turn.slot)
    }

    /// The block for the own slot, with the writesets of all transactions asked so far, be it none. It
    /// goes to every replica of the group, this one too; where there is a journal, once it stands there
    /// and is durable. Refused by 25, 13, 11, 29, 12.
    #[inline]
    pub fn send(&mut self) -> Result<[u8; BLOCK], Refusal> {
        let mut block = [0; BLOCK];
        let m = &mut *self.memory;
        let number = ffi::send(
            &mut m.table,
            &m.group,
            &mut m.turn,
            &mut m.queue,
            &m.items,
            &m.writes,
            &mut m.outbox,
            &mut block,
        );
        accepted(number, block)
    }

    /// Keeps a block until its slot is the turn. Refused by 1, 14, 15, 16, 17, 29, 18, 19, 20.
    #[inline]
    pub fn deliver(&mut self, bytes: &[u8]) -> Result<(), Refusal> {
        let m = &mut *self.memory;
        let number = ffi::deliver(&m.group, &m.turn, &mut m.places, &m.outbox, bytes);
        accepted(number, ())
    }

    /// Takes one step at the block of the turn: commits its next writeset, or passes over a block
    /// without records, or over a slot that is out. Where the turn leaves a slot, its block goes into the
    /// window. Refused by 1, 21.
    #[inline]
    pub fn work(&mut self) -> Result<Work, Refusal> {
        Work::of(&self.step())
    }

    /// A work with all that it answers.
    #[inline]
    pub(crate) fn step(&mut self) -> WorkReply {
        let m = &mut *self.memory;
        ffi::work(
            &mut m.table,
            &m.group,
            &mut m.turn,
            &mut m.counts,
            &mut m.queue,
            &m.items,
            &mut m.values,
            &mut m.stamps,
            &mut m.places,
            m.window.lent(),
        )
    }

    /// Whether a block waits for the turn, or its slot is out: where neither is, and only there, a
    /// [`Replica::work`] is refused by 21.
    #[inline]
    pub fn waits(&self) -> bool {
        let m = &*self.memory;
        let n = m.group.replicas;
        if m.group.is_out(m.turn.slot) {
            return true;
        }
        // Only in altered memory have the places another length, and is n 0.
        let refused_by_1 = m.places.len() != BLOCK * usize::from(n);
        let place = m.turn.slot.checked_rem(n.into());
        let first = place.and_then(|place| m.places.get(BLOCK * place as usize));
        refused_by_1 || first.is_some_and(|&kind| kind != 0)
    }

    /// Gives each of the 128 items a conflict class, 1 to [`crate::CLASSES`], in the place of the ones that it
    /// had. While a block of another is applied, writeset by writeset, only items wait (7) whose class
    /// holds an item of a writeset still to be applied. After [`Replica::new`] and after
    /// [`Replica::restart`] all items are of one class. Classes are the host's own matter: they go into no
    /// block and no journal, and each replica of a group may have others. Refused by 1, 2, 23.
    pub fn load(&mut self, classes: &[u8]) -> Result<(), Refusal> {
        let m = &mut *self.memory;
        accepted(ffi::load(&m.turn, &mut m.classes, classes), ())
    }

    /// Takes the notice *Out `replica` from `slot`*: from that slot on its slots need no block, and
    /// [`Replica::work`] passes them as a *next*, which goes to the journal. Refused by 2, 28.
    ///
    /// Behind it the turn may stand at a slot that is out: [`Replica::waits`].
    pub fn out(&mut self, replica: u32, slot: u32) -> Result<(), Refusal> {
        let m = &mut *self.memory;
        let number = ffi::out(&mut m.group, &m.turn, &m.places, replica, slot);
        accepted(number, ())
    }

    /// Takes the notice *Back `replica` at `slot`*: from that slot on its slots count again. Refused by 2,
    /// 28.
    pub fn back(&mut self, replica: u32, slot: u32) -> Result<(), Refusal> {
        let m = &mut *self.memory;
        let number = ffi::back(&mut m.group, &m.turn, &m.places, replica, slot);
        accepted(number, ())
    }
}

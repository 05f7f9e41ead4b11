//! The replica in plain C of `plain/`: what `scripts/instructions` holds the library's instructions to. Here it
//! is for tests, with the calls that [`crate::plain::Replica`] has.

use std::ffi::c_void;

use model::block::BLOCK;
use model::notice::{Kind, Notice};
use model::replica::{Report, Restarted, Work, ITEMS};
use stemline::ffi::{AskReply, BeginReply, ReadReply, ReportReply, RestartReply, WorkReply};

/// A `plain_replica` of `plain/plain.h`.
pub struct Replica {
    memory: Box<[u64]>,
}

extern "C" {
    fn plain_size() -> usize;
    fn plain_make(r: *mut c_void, n: u32, own: u32, start: *const i32) -> u8;
    fn plain_make_station(r: *mut c_void, n: u32, start: *const i32) -> u8;
    fn plain_restart(
        r: *mut c_void,
        n: u32,
        own: u32,
        start: *const i32,
        journal: *const u8,
        length: usize,
        notices: *const [u32; 3],
        count: usize,
        block: *mut u8,
    ) -> RestartReply;
    fn plain_out(r: *mut c_void, replica: u32, slot: u32) -> u8;
    fn plain_back(r: *mut c_void, replica: u32, slot: u32) -> u8;
    fn plain_begin(r: *mut c_void) -> BeginReply;
    fn plain_read(r: *const c_void, ticket: u32, item: u32) -> ReadReply;
    fn plain_write(r: *mut c_void, ticket: u32, item: u32, value: i32) -> u8;
    fn plain_ask(r: *mut c_void, ticket: u32) -> AskReply;
    fn plain_withdraw(r: *mut c_void, ticket: u32) -> u8;
    fn plain_report(r: *const c_void) -> ReportReply;
    fn plain_send(r: *mut c_void, block: *mut u8) -> u8;
    fn plain_deliver(r: *mut c_void, bytes: *const u8, length: usize) -> u8;
    fn plain_work(r: *mut c_void) -> WorkReply;
    fn plain_kept(r: *const c_void, slot: u32) -> *const u8;
    fn plain_load(r: *mut c_void, classes: *const u8, length: usize) -> u8;
    fn plain_values(r: *const c_void) -> *const i32;
    fn plain_fast_forward(r: *mut c_void, slots: u32, tickets: u32);
}

// SAFETY, in all of them: the memory is as long as a plain_replica and aligned to 8 bytes, and after a make it
// is one; arrays beside it have the lengths that plain.h names, or come with their own.
impl Replica {
    fn zero() -> Replica {
        let words = unsafe { plain_size() }.div_ceil(8);
        Replica {
            memory: vec![0; words].into_boxed_slice(),
        }
    }

    fn here(&mut self) -> *mut c_void {
        self.memory.as_mut_ptr().cast()
    }

    fn there(&self) -> *const c_void {
        self.memory.as_ptr().cast()
    }

    /// Replica `own` of `n`.
    pub fn make(n: u32, own: u32, values: &[i32; ITEMS]) -> Result<Replica, u8> {
        let mut made = Replica::zero();
        let number = unsafe { plain_make(made.here(), n, own, values.as_ptr()) };
        accepted(number, made)
    }

    /// A station of a group of `n`.
    pub fn station(n: u32, values: &[i32; ITEMS]) -> Result<Replica, u8> {
        let mut made = Replica::zero();
        let number = unsafe { plain_make_station(made.here(), n, values.as_ptr()) };
        accepted(number, made)
    }

    /// A replica from a journal and all notices taken.
    pub fn restart(
        n: u32,
        own: u32,
        values: &[i32; ITEMS],
        journal: &[u8],
        notices: &[Notice],
    ) -> Result<(Replica, Restarted), u8> {
        let mut made = Replica::zero();
        let mut block = Box::new([0; BLOCK]);
        let (start, bytes) = (values.as_ptr(), journal.as_ptr());
        let notices: Vec<[u32; 3]> = notices
            .iter()
            .map(|n| [n.about, u32::from(n.kind == Kind::Out), n.slot])
            .collect();
        let reply = unsafe {
            plain_restart(
                made.here(),
                n,
                own,
                start,
                bytes,
                journal.len(),
                notices.as_ptr(),
                notices.len(),
                block.as_mut_ptr(),
            )
        };
        let count = reply.count;
        accepted(reply.number, (made, Restarted { count, block }))
    }

    /// The values committed so far.
    pub fn values(&self) -> &[i32; ITEMS] {
        unsafe { &*plain_values(self.there()).cast() }
    }

    /// The counts of the calls so far.
    pub fn report(&self) -> Report {
        let said = unsafe { plain_report(self.there()) }.report;
        Report {
            turn: said.turn,
            commits: said.commits,
            tickets: said.tickets,
            open: said.open_count,
            committed: said.committed,
            read_only: said.read_only,
            aborted: said.aborted,
            withdrawn: said.withdrawn,
        }
    }

    /// Opens a transaction and gives its ticket.
    pub fn begin(&mut self) -> Result<u32, u8> {
        let reply = unsafe { plain_begin(self.here()) };
        accepted(reply.number, reply.ticket)
    }

    /// What the item is to the transaction.
    pub fn read(&self, ticket: u32, item: u32) -> Result<i32, u8> {
        let reply = unsafe { plain_read(self.there(), ticket, item) };
        accepted(reply.number, reply.value)
    }

    /// Puts the item with its value into the writeset.
    pub fn write(&mut self, ticket: u32, item: u32, value: i32) -> Result<(), u8> {
        accepted(unsafe { plain_write(self.here(), ticket, item, value) }, ())
    }

    /// Whether it had no writes and so ended.
    pub fn ask(&mut self, ticket: u32) -> Result<bool, u8> {
        let reply = unsafe { plain_ask(self.here(), ticket) };
        accepted(reply.number, reply.read_only)
    }

    /// Ends an active transaction.
    pub fn withdraw(&mut self, ticket: u32) -> Result<(), u8> {
        accepted(unsafe { plain_withdraw(self.here(), ticket) }, ())
    }

    /// The block for the own slot at the turn.
    pub fn send(&mut self) -> Result<[u8; BLOCK], u8> {
        let mut block = [0xa5; BLOCK];
        let number = unsafe { plain_send(self.here(), block.as_mut_ptr()) };
        accepted(number, block)
    }

    /// Keeps a block in its place.
    pub fn deliver(&mut self, bytes: &[u8]) -> Result<(), u8> {
        let number = unsafe { plain_deliver(self.here(), bytes.as_ptr(), bytes.len()) };
        accepted(number, ())
    }

    /// What the window has where the block of a slot would be.
    pub fn kept(&self, slot: u32) -> &[u8; BLOCK] {
        unsafe { &*plain_kept(self.there(), slot).cast() }
    }

    /// One step with the block at the turn, and whether the journal is to get the block of the slot that it left.
    pub fn work(&mut self) -> Result<(Work, bool), u8> {
        let reply = unsafe { plain_work(self.here()) };
        let work = Work {
            sender: reply.sender,
            ticket: reply.ticket,
            moved: reply.moved,
            aborted: reply.aborted[..usize::from(reply.count)].to_vec(),
        };
        accepted(reply.number, (work, reply.append))
    }

    /// Gives each item a class.
    pub fn load(&mut self, classes: &[u8]) -> Result<(), u8> {
        let number = unsafe { plain_load(self.here(), classes.as_ptr(), classes.len()) };
        accepted(number, ())
    }

    /// Takes a notice.
    pub fn notice(&mut self, notice: Notice) -> Result<(), u8> {
        let Notice { kind, about, slot } = notice;
        let number = match kind {
            Kind::Out => unsafe { plain_out(self.here(), about, slot) },
            Kind::Back => unsafe { plain_back(self.here(), about, slot) },
        };
        accepted(number, ())
    }

    /// For tests, as the model's.
    #[doc(hidden)]
    pub fn fast_forward(mut self, slots: u32, tickets: u32) -> Replica {
        unsafe { plain_fast_forward(self.here(), slots, tickets) };
        self
    }
}

fn accepted<T>(number: u8, value: T) -> Result<T, u8> {
    match number {
        0 => Ok(value),
        _ => Err(number),
    }
}

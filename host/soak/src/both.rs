//! A replica or station of the library and one of the model that get the same calls. After each call the
//! answers are compared, what is appended to the journal, and all memory that the interface shows.

mod giving;
mod station;

use std::io::Write;

use model::block::{self, BLOCK};
use model::drive::{Powered, Subject};
use model::journal;
use model::notice::{self, Kind};
use model::replica::{self as second, Restarted, Stage, ITEMS};
use model::trace::{Answer, Call, Restart};
use stemline::{
    Asked, Memory, Notice, Recorder, Refusal, Replica, Report, Station, Work, NO_NUMBER, REPLICAS,
    SLOTS,
};

pub use self::giving::{answered, append, lent, Journaled};
pub use self::station::stepped;
use crate::lines::Named;

/// The pair.
#[derive(Clone)]
pub struct Both {
    /// The library's replica. Where the pair is a station, a replica over its memory, which has also the
    /// calls that a station has not.
    pub library: Replica,
    /// The library's station, where the pair is one. It holds what `library` does.
    pub station: Option<Station>,
    /// The model's.
    pub model: second::Replica,
    /// The library's memory before the call.
    before: Memory,
    /// The journal, and what of it a cut leaves at least.
    disk: Vec<u8>,
    floor: usize,
}

impl Both {
    /// Replica `own` of `n` with these values to start with, made twice.
    pub fn new(n: u32, own: u32, values: &[i32; ITEMS]) -> Both {
        let library = Replica::new(n, own, values).unwrap();
        let model = second::Replica::make(n, own, values).unwrap();
        Both::of(library, model)
    }

    /// A station of a group of `n` with these values to start with, made twice.
    pub fn station(n: u32, values: &[i32; ITEMS]) -> Both {
        let library = Station::new(n, values).unwrap();
        let model = second::Replica::station(n, values).unwrap();
        Both::of(Replica::from_memory(library.memory().clone()), model)
    }

    /// Of two replicas that are the same.
    pub fn of(library: Replica, model: second::Replica) -> Both {
        let both = Both {
            before: library.memory().clone(),
            station: Station::from_memory(library.memory().clone()),
            library,
            model,
            disk: Vec::new(),
            floor: 0,
        };
        same(&both.model, both.library.memory());
        both
    }

    /// Puts another memory in the place of the library's.
    pub fn put(&mut self, memory: Memory) {
        self.station = Station::from_memory(memory.clone());
        self.library = Replica::from_memory(memory);
    }

    /// Both after so many slots without records and so many transactions withdrawn.
    pub fn late(self, slots: u32, tickets: u32) -> Both {
        let mut memory = self.library.memory().clone();
        memory.turn.slot += slots;
        memory.counts.tickets += tickets;
        memory.counts.withdrawn += tickets;
        let model = self.model.fast_forward(slots, tickets);
        Both::of(Replica::from_memory(memory), model)
    }
}

impl Subject for Both {
    fn call(&mut self, call: &Call) -> Result<Answer, u8> {
        self.before.clone_from(self.library.memory());
        let _named = Named::of(&self.model, call);
        let (is_turn, waits) = (self.library.is_turn(), self.library.waits());
        let out = self.model.out_next();
        let waiting = out.or(self.model.waiting());
        let (mut appended, mut due_appended) = (Vec::new(), Vec::new());
        let answer = play(&mut self.library, call, &mut appended);
        let due = self.model.call_journaled(call, &mut due_appended);
        assert_eq!(answer, due, "{call:?}: the library's answer, the model's");
        if self.station.is_some() {
            self.same_station(call, &answer);
            // Whoever sent it, the block whose slot the turn leaves is given; there is no journal for it.
            let left = matches!(&answer, Ok(Answer::Work(work)) if work.moved);
            let given = waiting.filter(|_| left).map_or(Vec::new(), Vec::from);
            assert!(appended == given, "{call:?}: what is given at a station");
            appended.clear();
        }
        assert!(appended == due_appended, "{call:?}: what is appended");
        self.disk.append(&mut appended);
        if journal::fixes(call, &answer, out.is_some()) {
            self.floor = self.disk.len();
        }
        same(&self.model, self.library.memory());
        assert!(*call != Call::Send || is_turn == answer.is_ok(), "is_turn");
        assert!(*call != Call::Work || waits == answer.is_ok(), "waits");
        // The interface shows more than the model has: what is left in free rows, and the like.
        if answer.is_err() && answer != Err(9) || matches!(call, Call::Read { .. } | Call::Report) {
            let after = self.library.memory();
            assert!(*after == self.before, "changed by {call:?}, {answer:?}");
        }
        answer
    }

    fn report(&self) -> second::Report {
        report(self.library.report())
    }

    fn values(&self) -> [i32; ITEMS] {
        *self.library.values()
    }
}

impl Powered for Both {
    fn disk(&self) -> &[u8] {
        &self.disk
    }

    fn floor(&self) -> usize {
        self.floor
    }

    fn restart(&mut self, restart: &Restart) -> Result<Restarted, u8> {
        let answer = restarted(&mut self.library, restart);
        let due = restart.run(&mut self.model);
        assert_eq!(answer, due, "restart: the library's answer, the model's");
        same(&self.model, self.library.memory());
        if let Ok(restarted) = &answer {
            self.disk = restart.journal[..BLOCK * restarted.count as usize].to_vec();
            self.floor = journal::floor_after(self.floor, restart, restarted);
        }
        answer
    }

    fn ended(&mut self, call: &Call) {
        let floor = self.floor;
        let _ = self.call(call);
        self.floor = floor;
    }
}

/// A restart by the library, its answer as the model's. A refused one leaves the replica.
pub fn restarted(replica: &mut Replica, restart: &Restart) -> Result<Restarted, u8> {
    let values = restart.values[..].try_into().expect("128 values");
    let notices: Vec<Notice> = restart.notices.iter().map(told).collect();
    let given = Replica::restart(restart.n, restart.own, values, &restart.journal, &notices);
    let (new, restarted) = given.map_err(Refusal::number)?;
    *replica = new;
    Ok(Restarted {
        count: restarted.blocks,
        block: Box::new(restarted.last.unwrap_or([0; BLOCK])),
    })
}

/// A notice of the model, as the library has it.
pub fn told(notice: &notice::Notice) -> Notice {
    let (replica, slot) = (notice.about, notice.slot);
    match notice.kind {
        Kind::Out => Notice::Out { replica, slot },
        Kind::Back => Notice::Back { replica, slot },
    }
}

/// A report, as the model gives it.
pub fn report(report: Report) -> second::Report {
    second::Report {
        turn: report.turn,
        commits: report.commits,
        tickets: report.tickets,
        open: report.open_count,
        committed: report.committed,
        read_only: report.read_only,
        aborted: report.aborted,
        withdrawn: report.withdrawn,
    }
}

/// One call at a replica, or at what has its calls; its answer as the model's. Appends what the journal is
/// to get.
#[macro_export]
macro_rules! played {
    ($replica:expr, $call:expr, $journal:expr) => {{
        let played: Result<Answer, Refusal> = match *$call {
            Call::Begin => $replica.begin().map(Answer::Ticket),
            Call::Read { ticket, item } => $replica.read(ticket, item).map(Answer::Value),
            Call::Write {
                ticket,
                item,
                value,
            } => $replica.write(ticket, item, value).map(|()| Answer::Done),
            Call::Ask { ticket } => {
                let asked = $replica.ask(ticket);
                asked.map(|asked| Answer::ReadOnly(asked == Asked::ReadOnly))
            }
            Call::Withdraw { ticket } => $replica.withdraw(ticket).map(|()| Answer::Done),
            Call::Report => Ok(Answer::Report(report($replica.report()))),
            Call::Send => $replica.send().map(|block| {
                $journal.extend(block);
                Answer::Block(Box::new(block))
            }),
            Call::Deliver { ref bytes } => $replica.deliver(bytes).map(|()| Answer::Done),
            Call::Work => $replica.work().map(|work| {
                $journal.extend($crate::both::left(&work, &*$replica));
                Answer::Work(worked(&work))
            }),
            Call::Load { ref classes } => $replica.load(classes).map(|()| Answer::Done),
            Call::Notice(notice) => $crate::noticed!($replica, notice),
        };
        played.map_err(Refusal::number)
    }};
}

/// What shows a replica's memory.
pub trait Shows {
    /// All that it holds.
    fn shown(&self) -> &Memory;
}

impl Shows for Replica {
    fn shown(&self) -> &Memory {
        self.memory()
    }
}

impl<C: Write, A: Write> Shows for Recorder<C, A> {
    fn shown(&self) -> &Memory {
        self.replica().memory()
    }
}

/// What the journal is to get behind a work: the window's block of the slot that the turn left, if it says so.
pub fn left(work: &Work, replica: &impl Shows) -> Vec<u8> {
    let memory = replica.shown();
    let slot = memory.turn.slot.wrapping_sub(1);
    let block = memory.window.block(slot).filter(|_| work.append);
    assert_eq!(block.is_some(), work.append, "slot {slot}: no block");
    block.map_or(Vec::new(), |block| block.to_vec())
}

/// A notice at a replica, or at what takes them.
#[macro_export]
macro_rules! noticed {
    ($replica:expr, $notice:expr) => {{
        let taken = match $crate::both::told(&$notice) {
            stemline::Notice::Out { replica, slot } => $replica.out(replica, slot),
            stemline::Notice::Back { replica, slot } => $replica.back(replica, slot),
        };
        taken.map(|()| Answer::Done)
    }};
}

/// One call at the library's replica, its answer as the model's. Appends what the journal is to get.
pub fn play(replica: &mut Replica, call: &Call, journal: &mut Vec<u8>) -> Result<Answer, u8> {
    played!(replica, call, journal)
}

/// A step, as the model gives it.
pub fn worked(work: &Work) -> second::Work {
    second::Work {
        sender: work.sender,
        ticket: work.ticket,
        moved: work.moved,
        aborted: work.aborted().to_vec(),
    }
}

/// Stops where the library's memory is not the model's.
pub fn same(model: &second::Replica, memory: &Memory) {
    let (group, counts) = (&memory.group, &memory.counts);
    assert_eq!(
        [
            usize::from(group.replicas),
            usize::from(group.own),
            usize::from(counts.done)
        ],
        [
            model.inbox.len(),
            usize::from(model.own.unwrap_or(NO_NUMBER)),
            model.done
        ]
    );
    assert_eq!(
        [
            counts.commits,
            counts.tickets,
            counts.committed,
            counts.read_only,
            counts.aborted,
            counts.withdrawn
        ],
        [
            model.commits,
            model.tickets,
            model.committed,
            model.read_only,
            model.aborted,
            model.withdrawn
        ]
    );
    let turn = memory.turn;
    let due = (model.turn, model.outbox.is_some(), model.applying);
    assert_eq!((turn.slot, turn.sent != 0, turn.applying != 0), due);
    assert!(memory.values == model.values, "values");
    assert!(memory.stamps == model.stamps, "stamps");
    assert!(memory.classes == model.classes, "classes");
    if let Some(sent) = &model.outbox {
        assert!(memory.outbox == *sent, "outbox");
    }
    let (queued, behind) = memory.queue.split_at(model.queue.len());
    assert_eq!((group.from, group.until), outages(model));
    assert_eq!(queued, model.queue);
    assert!(behind.iter().all(|&ticket| ticket == 0), "behind the queue");
    same_rows(model, memory);
    same_places(model, memory);
    same_window(model, memory);
}

/// The last outage of each replica: what the model's notices put out from the turn on.
fn outages(model: &second::Replica) -> ([u32; REPLICAS], [u32; REPLICAS]) {
    let (mut from, mut until) = ([0; REPLICAS], [0; REPLICAS]);
    for notice in &model.notices {
        let k = notice.about as usize;
        match notice.kind {
            Kind::Out => (from[k], until[k]) = (notice.slot, SLOTS),
            Kind::Back => until[k] = notice.slot,
        }
    }
    (from, until)
}

/// The rows that are not free, rising by ticket, are the open transactions.
fn same_rows(model: &second::Replica, memory: &Memory) {
    let mut rows: Vec<usize> = (0..6).filter(|&r| memory.table[r].ticket != 0).collect();
    rows.sort_by_key(|&r| memory.table[r].ticket);
    assert_eq!(rows.len(), model.open.len());
    for (r, open) in rows.into_iter().zip(&model.open) {
        let row = memory.table[r];
        let stage = match open.stage {
            Stage::Active => 0,
            Stage::Asked => 1,
            Stage::Sent => 2,
        };
        let due = (open.ticket, stage, open.snapshot);
        assert_eq!((row.ticket, row.stage, row.snapshot), due);
        let count = row.writes as usize;
        let items = memory.items[8 * r..][..count].iter();
        let values = memory.writes[8 * r..][..count].iter();
        assert!(items.zip(values).eq(&open.writes), "writes of {row:?}");
        let snapshot = &memory.snapshots[ITEMS * r..][..ITEMS];
        assert!(*snapshot == open.values[..], "snapshot of {row:?}");
    }
}

/// Each place holds the block of the message that waits there, or is empty.
fn same_places(model: &second::Replica, memory: &Memory) {
    let (places, _) = memory.places.as_chunks::<BLOCK>();
    assert_eq!(places.len(), model.inbox.len());
    for (place, waiting) in places.iter().zip(&model.inbox) {
        match waiting {
            None => assert_eq!(place[0], 0, "an empty place"),
            Some(message) => assert!(*place == block::encode(message), "a place"),
        }
    }
}

/// The window has the model's blocks, and zeros where there is none.
fn same_window(model: &second::Replica, memory: &Memory) {
    let mut blocks = model.window.slots().zip(model.window.blocks());
    let same = |(slot, block)| memory.window.block(slot) == Some(block);
    assert!(blocks.all(same), "the window");
    let (places, _) = memory.window.bytes().as_chunks::<BLOCK>();
    let empty = places.iter().filter(|place| place[0] == 0);
    assert_eq!(empty.clone().count(), 64 - model.window.blocks().len());
    assert!(
        empty.flatten().all(|&byte| byte == 0),
        "an empty place of the window"
    );
}

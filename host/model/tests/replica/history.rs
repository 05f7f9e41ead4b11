//! A replica that keeps its history and works every answer out of it: no counts, no values and no
//! stamps are kept. It is slow, and it can be told to commit a fault.

mod classes;
mod notices;
mod turn;

use model::block::{self, Entry, Message, Record, BLOCK, MAX_TICKET};
use model::drive::Subject;
use model::notice::Notice;
use model::replica::{Report, Work, ITEMS};
use model::trace::{Answer, Call};

/// What a replica by history does wrong: the list of document 01's "Misdrawn replicas"; what is wrong
/// about conflict classes; and the order of a write's refusals before document 02's Req 07.
#[derive(Clone, Copy, Debug, PartialEq, Eq)]
pub enum Fault {
    None,
    /// The block that arrived first is processed, not that of the turn.
    ArrivalOrder,
    /// A remote writeset does not abort asked transactions.
    SparesAsked,
    /// Staleness is tested at ask, not at write.
    StaleAtAsk,
    /// A transaction's locks are free once its block is sent.
    FreesSentLocks,
    /// What is asked after a send is committed with that block.
    LateIntoBlock,
    /// Every block sent is without records.
    AlwaysNext,
    /// Only the first writeset of a block is committed.
    FirstOnly,
    /// Every block is processed as if it had no records.
    DropsBlocks,
    /// No value ever changes.
    NoValues,
    /// No abort is ever reported.
    InventedCounts,
    /// No transaction is ever begun.
    RefusesBegin,
    /// Of the writesets still to be applied only the next one decides which classes wait.
    NextOnly,
    /// The writesets that are applied already decide too.
    AppliedToo,
    /// An item that is held already is written before 7 is looked at.
    HeldFirst,
    /// A remote writeset aborts whoever has written an item of one of its classes.
    AbortsByClass,
    /// A write looks for the holder of the item before it looks at staleness.
    LockFirst,
}

pub struct Historical {
    pub fault: Fault,
    n: u32,
    /// A station has none.
    own: Option<u32>,
    values: [i32; ITEMS],
    /// Slots and tickets before the first call.
    slots: u32,
    tickets: u32,
    /// Every transaction begun, by ticket.
    begun: Vec<Begun>,
    /// Every ticket asked that had writes, in order.
    asked: Vec<u32>,
    /// Every block sent.
    sent: Vec<[u8; BLOCK]>,
    /// Every message accepted, in order of arrival.
    received: Vec<Message>,
    /// Every work done.
    works: Vec<Work>,
    /// Every writeset committed.
    commits: Vec<Vec<Entry>>,
    /// Every table of classes loaded.
    loads: Vec<[u8; ITEMS]>,
    /// Every notice taken.
    notices: Vec<Notice>,
}

#[derive(Clone)]
struct Begun {
    ticket: u32,
    snapshot: usize,
    writes: Vec<(u32, i32)>,
    state: State,
}

#[derive(Clone, Copy, PartialEq, Eq)]
enum State {
    Active,
    Asked,
    Sent,
    Committed,
    ReadOnly,
    Aborted,
    Withdrawn,
}

impl Begun {
    fn open(&self) -> bool {
        matches!(self.state, State::Active | State::Asked | State::Sent)
    }

    fn last_write(&self, item: u32) -> Option<i32> {
        let mut writes = self.writes.iter().rev();
        writes.find(|(i, _)| *i == item).map(|&(_, value)| value)
    }

    fn record(&self) -> Record {
        let written = (0..ITEMS as u8).filter_map(|item| {
            let value = self.last_write(u32::from(item))?;
            Some(Entry { item, value })
        });
        Record {
            ticket: self.ticket,
            entries: written.collect(),
        }
    }
}

impl Historical {
    /// A replica, or without a number a station.
    pub fn make(n: u32, own: Option<u32>, values: [i32; ITEMS], fault: Fault) -> Historical {
        Historical {
            fault,
            n,
            own,
            values,
            slots: 0,
            tickets: 0,
            begun: Vec::new(),
            asked: Vec::new(),
            sent: Vec::new(),
            received: Vec::new(),
            works: Vec::new(),
            commits: Vec::new(),
            loads: Vec::new(),
            notices: Vec::new(),
        }
    }

    pub fn fast_forward(mut self, slots: u32, tickets: u32) -> Historical {
        self.slots = slots;
        self.tickets = tickets;
        self
    }

    /// The value of an item after so many commits.
    fn value(&self, item: u32, commits: usize) -> i32 {
        let mut entries = self.commits[..commits].iter().rev().flatten();
        let last = entries.find(|entry| u32::from(entry.item) == item);
        match last {
            Some(entry) if self.fault != Fault::NoValues => entry.value,
            _ => self.values[item as usize],
        }
    }

    /// The number of the last commit that wrote an item, 0 if none did.
    pub fn stamp(&self, item: u32) -> usize {
        let wrote = |entries: &Vec<Entry>| entries.iter().any(|e| u32::from(e.item) == item);
        self.commits.iter().rposition(wrote).map_or(0, |at| at + 1)
    }

    fn turn(&self) -> u32 {
        self.slots + self.works.iter().filter(|work| work.moved).count() as u32
    }

    /// The writesets of the turn's message that are committed.
    fn done(&self) -> usize {
        self.works.iter().rev().take_while(|w| !w.moved).count()
    }

    fn waiting(&self) -> Option<&Message> {
        let turn = self.turn();
        if self.fault == Fault::ArrivalOrder {
            return self.received.get((turn - self.slots) as usize);
        }
        self.received.iter().find(|message| message.slot == turn)
    }

    fn applying(&self) -> bool {
        let remote = |m: &Message| Some(u32::from(m.sender)) != self.own;
        self.done() > 0 && self.waiting().is_some_and(remote)
    }

    /// The block sent for the present turn.
    fn present_block(&self) -> Option<&[u8; BLOCK]> {
        let turn = self.turn();
        let present = |block: &&[u8; BLOCK]| block::header(block).slot == turn;
        self.sent.last().filter(present)
    }

    fn count(&self, state: State) -> u32 {
        self.begun.iter().filter(|t| t.state == state).count() as u32
    }

    fn active(&self, ticket: u32) -> Result<usize, u8> {
        let open = |t: &Begun| t.ticket == ticket && t.open();
        let at = self.begun.iter().position(open).ok_or(3)?;
        match self.begun[at].state {
            State::Active => Ok(at),
            _ => Err(4),
        }
    }

    /// The tickets asked and not sent or aborted since.
    fn queue(&self) -> Vec<u32> {
        let asked = |ticket: &u32| self.by_ticket(*ticket).state == State::Asked;
        self.asked.iter().copied().filter(asked).collect()
    }

    fn by_ticket(&self, ticket: u32) -> &Begun {
        &self.begun[(ticket - self.tickets - 1) as usize]
    }

    fn begin(&mut self) -> Result<u32, u8> {
        let given = self.tickets + self.begun.len() as u32;
        let open = self.begun.iter().filter(|t| t.open()).count();
        if open == 6 || self.fault == Fault::RefusesBegin {
            return Err(5);
        }
        if given == MAX_TICKET {
            return Err(6);
        }
        self.begun.push(Begun {
            ticket: given + 1,
            snapshot: self.commits.len(),
            writes: Vec::new(),
            state: State::Active,
        });
        Ok(given + 1)
    }

    fn read(&self, ticket: u32, item: u32) -> Result<i32, u8> {
        if item > 127 {
            return Err(2);
        }
        let transaction = &self.begun[self.active(ticket)?];
        let written = transaction.last_write(item);
        Ok(written.unwrap_or_else(|| self.value(item, transaction.snapshot)))
    }

    fn write(&mut self, ticket: u32, item: u32, value: i32) -> Result<(), u8> {
        if self.own.is_none() {
            return Err(25);
        }
        if item > 127 {
            return Err(2);
        }
        let at = self.active(ticket)?;
        let own = self.begun[at].last_write(item).is_some();
        let spared = own && self.fault == Fault::HeldFirst;
        if self.must_wait(item) && !spared {
            return Err(7);
        }
        let locks = |t: &Begun| match t.state {
            State::Active | State::Asked => true,
            State::Sent => self.fault != Fault::FreesSentLocks,
            _ => false,
        };
        let holds = |t: &Begun| locks(t) && t.last_write(item).is_some();
        let held = !own && self.begun.iter().any(holds);
        if held && self.fault == Fault::LockFirst {
            return Err(8);
        }
        let stale = self.stamp(item) > self.begun[at].snapshot;
        if !own && stale && self.fault != Fault::StaleAtAsk {
            self.begun[at].state = State::Aborted;
            return Err(9);
        }
        if held {
            return Err(8);
        }
        if !own && self.begun[at].record().entries.len() == 8 {
            return Err(10);
        }
        self.begun[at].writes.push((item, value));
        Ok(())
    }

    fn ask(&mut self, ticket: u32) -> Result<bool, u8> {
        let at = self.active(ticket)?;
        let transaction = &self.begun[at];
        let mut writes = transaction.writes.iter();
        let stale = writes.any(|&(item, _)| self.stamp(item) > transaction.snapshot);
        if stale && self.fault == Fault::StaleAtAsk {
            self.begun[at].state = State::Aborted;
            return Err(9);
        }
        let read_only = transaction.writes.is_empty();
        if read_only {
            self.begun[at].state = State::ReadOnly;
        } else {
            self.begun[at].state = State::Asked;
            self.asked.push(ticket);
        }
        Ok(read_only)
    }

    fn withdraw(&mut self, ticket: u32) -> Result<(), u8> {
        let at = self.active(ticket)?;
        self.begun[at].state = State::Withdrawn;
        Ok(())
    }
}

impl Subject for Historical {
    fn call(&mut self, call: &Call) -> Result<Answer, u8> {
        Ok(match *call {
            Call::Begin => Answer::Ticket(self.begin()?),
            Call::Read { ticket, item } => Answer::Value(self.read(ticket, item)?),
            Call::Write {
                ticket,
                item,
                value,
            } => self.write(ticket, item, value).map(|()| Answer::Done)?,
            Call::Ask { ticket } => Answer::ReadOnly(self.ask(ticket)?),
            Call::Withdraw { ticket } => self.withdraw(ticket).map(|()| Answer::Done)?,
            Call::Report => Answer::Report(self.report()),
            Call::Send => Answer::Block(Box::new(self.send()?)),
            Call::Deliver { ref bytes } => self.deliver(bytes).map(|()| Answer::Done)?,
            Call::Work => Answer::Work(self.work()?),
            Call::Load { ref classes } => self.load(classes).map(|()| Answer::Done)?,
            Call::Notice(notice) => self.notice(notice).map(|()| Answer::Done)?,
        })
    }

    fn report(&self) -> Report {
        let invented = self.fault == Fault::InventedCounts;
        Report {
            turn: self.turn(),
            commits: self.commits.len() as u32,
            tickets: self.tickets + self.begun.len() as u32,
            open: self.begun.iter().filter(|t| t.open()).count() as u32,
            committed: self.count(State::Committed),
            read_only: self.count(State::ReadOnly),
            aborted: if invented {
                0
            } else {
                self.count(State::Aborted)
            },
            withdrawn: self.tickets + self.count(State::Withdrawn),
        }
    }

    fn values(&self) -> [i32; ITEMS] {
        let mut values = self.values;
        if self.fault != Fault::NoValues {
            for entry in self.commits.iter().flatten() {
                values[usize::from(entry.item)] = entry.value;
            }
        }
        values
    }
}

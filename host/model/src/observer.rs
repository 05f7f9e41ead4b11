//! An observer of a whole group: document 01's sheet ("The sheet beside the group"), with the restarts
//! of document 02, Req 01, and the stations of Req 05. The loads of Req 02 and the notices of Req 10
//! change nothing on it; of the notices taken the premise speaks. Each deliver and work of a giving (Req
//! 11) is fed as a call of its own.
//!
//! It is fed member, call and answer of each call and nothing else, a member being a replica or a
//! station, and says which sentences of document 01's demand 3 the group breaks, and which answers a
//! station may not give. For tests: its memory and the time of a check grow with the list of calls.

mod check;
mod notices;
mod restart;
mod stations;

use std::collections::{BTreeMap, HashSet};

use crate::block::{self, Record, BLOCK};
use crate::journal::Journal;
use crate::refusal::STALE;
use crate::replica::{Work, ITEMS};
use crate::trace::{Answer, Call};
use crate::window::{Window, WINDOW};

use self::notices::Standing;

/// What the calls of a group of replicas said so far.
pub struct Observer {
    /// The values that every replica started with.
    values: [i32; ITEMS],
    /// By member and ticket (document 01's notes). An ended transaction stays.
    transactions: BTreeMap<(usize, u32), Transaction>,
    /// Per replica the tickets asked since its last send (document 01's line).
    queues: Vec<Vec<u32>>,
    /// Per member the sender and ticket of each writeset that it committed.
    commits: Vec<Vec<(usize, u32)>>,
    /// By slot what was sent for it (document 01's put down). In this order it is the sequence.
    sent: BTreeMap<u32, Vec<Writeset>>,
    /// The slot that a replica sent a ticket for.
    slots: BTreeMap<(usize, u32), u32>,
    /// The reads that a transaction's own writes do not answer.
    reads: Vec<Read>,
    /// The blocks handed out.
    blocks: HashSet<Box<[u8]>>,
    /// Per replica what was appended on its disk.
    journals: Vec<Journal>,
    /// Per member its turn, and the notices that it took.
    standings: Vec<Standing>,
    /// The turn that every member began at.
    first: u32,
    premise: bool,
    /// The sentences that a call broke when it was made.
    broken: Vec<String>,
}

/// What the calls say of one transaction.
#[derive(Clone, Debug, Default)]
struct Transaction {
    /// The number of its replica's commits when it began (document 01's start).
    snapshot: usize,
    writes: BTreeMap<u32, i32>,
}

/// A transaction as it was when its block was sent.
struct Writeset {
    sender: usize,
    ticket: u32,
    transaction: Transaction,
}

/// An accepted read of an item that the transaction had not written.
struct Read {
    member: usize,
    ticket: u32,
    item: u32,
    snapshot: usize,
    value: i32,
}

impl Observer {
    /// For so many replicas just made, all with these values.
    pub fn new(replicas: usize, values: [i32; ITEMS]) -> Observer {
        Observer {
            values,
            transactions: BTreeMap::new(),
            queues: vec![Vec::new(); replicas],
            commits: vec![Vec::new(); replicas],
            sent: BTreeMap::new(),
            slots: BTreeMap::new(),
            reads: Vec::new(),
            blocks: HashSet::new(),
            journals: (0..replicas as u32).map(Journal::new).collect(),
            standings: vec![Standing::default(); replicas],
            first: 0,
            premise: true,
            broken: Vec::new(),
        }
    }

    /// Takes in one call at a member, a replica by its number, and its answer.
    ///
    /// # Panics
    ///
    /// If the answer is of another kind than the call's.
    pub fn feed(&mut self, member: usize, call: &Call, answer: &Result<Answer, u8>) {
        if self.is_station(member) {
            if !self.feed_station(member, call, answer) {
                return;
            }
        } else {
            let out = self.out_next(member);
            self.journals[member].feed(call, answer, out.as_ref());
        }
        let answer = match answer {
            Ok(answer) => answer,
            Err(number) => {
                self.feed_refused(member, call, *number);
                return;
            }
        };
        match (call, answer) {
            (Call::Begin, &Answer::Ticket(ticket)) => {
                let transaction = Transaction {
                    snapshot: self.commits[member].len(),
                    writes: BTreeMap::new(),
                };
                self.transactions.insert((member, ticket), transaction);
            }
            (&Call::Read { ticket, item }, &Answer::Value(value)) => {
                self.feed_read(member, ticket, item, value);
            }
            (
                &Call::Write {
                    ticket,
                    item,
                    value,
                },
                Answer::Done,
            ) => match self.transactions.get_mut(&(member, ticket)) {
                Some(transaction) => {
                    transaction.writes.insert(item, value);
                }
                None => self.unknown(member, ticket, "was written"),
            },
            (&Call::Ask { ticket }, Answer::ReadOnly(_)) => {
                match self.transactions.get(&(member, ticket)) {
                    Some(transaction) if transaction.writes.is_empty() => {}
                    Some(_) => self.queues[member].push(ticket),
                    None => self.unknown(member, ticket, "was asked"),
                }
            }
            (Call::Send, Answer::Block(block)) => self.feed_block(member, block),
            (Call::Work, Answer::Work(work)) => {
                self.standings[member].turn += u32::from(work.moved);
                self.feed_work(member, work);
            }
            (Call::Deliver { bytes }, Answer::Done) => {
                self.premise &= self.blocks.contains(bytes.as_slice());
            }
            (&Call::Notice(notice), Answer::Done) => {
                self.standings[member].notices.push(notice);
            }
            (Call::Withdraw { .. } | Call::Load { .. }, Answer::Done)
            | (Call::Report, Answer::Report(_)) => {}
            _ => panic!("{answer:?} is no answer to {call:?}"),
        }
    }

    /// The turn of a member, by the calls so far.
    pub fn turn(&self, member: usize) -> u32 {
        self.standings[member].turn
    }

    /// What a replica's window is to have: the last blocks of its journal that its turn has left.
    pub fn window(&self, replica: usize) -> Window {
        let left = self.journals[replica].left();
        let last = &left[left.len().saturating_sub(WINDOW)..];
        let first = self.turn(replica).saturating_sub(last.len() as u32);
        Window::of(first, last.iter().copied())
    }

    /// Whether every accepted block was handed out before, every restart was lent what a cut can leave,
    /// and the notices taken are by now as document 02's Req 10 asks: what demand 3 rests on.
    pub fn premise(&self) -> bool {
        self.premise && self.one_list().is_ok()
    }

    fn feed_refused(&mut self, replica: usize, call: &Call, number: u8) {
        let Call::Write { ticket, .. } = *call else {
            return;
        };
        if number == STALE && self.slots.contains_key(&(replica, ticket)) {
            self.broken.push(format!(
                "replica {replica}: a write under ticket {ticket}, which was sent, gave 9"
            ));
        }
    }

    fn feed_read(&mut self, member: usize, ticket: u32, item: u32, value: i32) {
        let Some(transaction) = self.transactions.get(&(member, ticket)) else {
            self.unknown(member, ticket, "was read");
            return;
        };
        match transaction.writes.get(&item) {
            None => self.reads.push(Read {
                member,
                ticket,
                item,
                snapshot: transaction.snapshot,
                value,
            }),
            Some(&written) if written != value => self.broken.push(format!(
                "{}: ticket {ticket} read {value} from item {item}, to which it wrote {written}",
                self.name(member)
            )),
            Some(_) => {}
        }
    }

    fn feed_block(&mut self, replica: usize, block: &[u8; BLOCK]) {
        let slot = block::header(block).slot;
        let writesets: Vec<Writeset> = std::mem::take(&mut self.queues[replica])
            .into_iter()
            .map(|ticket| Writeset {
                sender: replica,
                ticket,
                transaction: self.transactions[&(replica, ticket)].clone(),
            })
            .collect();
        if !holds(block, &writesets) {
            self.broken.push(format!(
                "replica {replica}: the block of slot {slot} does not hold what was asked"
            ));
        }
        for writeset in &writesets {
            self.slots.insert((replica, writeset.ticket), slot);
        }
        if self.sent.contains_key(&slot) {
            let text = format!("replica {replica}: slot {slot} was sent twice");
            self.broken.push(text);
        }
        self.sent.entry(slot).or_default().extend(writesets);
        self.blocks.insert(Box::from(block.as_slice()));
    }

    fn feed_work(&mut self, member: usize, work: &Work) {
        let committed = (usize::from(work.sender), work.ticket);
        for &ticket in &work.aborted {
            if let Some(queue) = self.queues.get_mut(member) {
                queue.retain(|&queued| queued != ticket);
            }
            if self.slots.contains_key(&(member, ticket)) {
                self.broken.push(format!(
                    "{}: a work aborted ticket {ticket}, which was sent",
                    self.name(member)
                ));
            }
            if !self.share_an_item((member, ticket), committed) {
                self.broken.push(format!(
                    "{}: a work aborted ticket {ticket}, which shares no item with ticket {} of \
                     replica {}",
                    self.name(member),
                    work.ticket,
                    work.sender
                ));
            }
        }
        if work.ticket != 0 {
            self.commits[member].push(committed);
        }
    }

    /// Whether a transaction has an item of what was sent under a sender and ticket.
    fn share_an_item(&self, transaction: (usize, u32), sent: (usize, u32)) -> bool {
        let Some(transaction) = self.transactions.get(&transaction) else {
            return false;
        };
        let slot = self.slots.get(&sent);
        let writesets = slot.map_or(&[][..], |slot| &self.sent[slot]);
        let writeset = writesets.iter().find(|w| (w.sender, w.ticket) == sent);
        writeset.is_some_and(|w| {
            let mut items = w.transaction.writes.keys();
            items.any(|item| transaction.writes.contains_key(item))
        })
    }

    /// A member accepted a ticket that it never gave: there is nothing to check the call against.
    fn unknown(&mut self, member: usize, ticket: u32, what: &str) {
        let text = format!(
            "{}: ticket {ticket} {what} and never given",
            self.name(member)
        );
        self.broken.push(text);
    }
}

/// Whether the records of a block are these writesets, in order.
fn holds(block: &[u8; BLOCK], writesets: &[Writeset]) -> bool {
    let Ok(message) = block::decode(block) else {
        return false;
    };
    let same = |(record, writeset): (&Record, &Writeset)| {
        let entries = record.entries.iter().map(|e| (u32::from(e.item), e.value));
        let writes = writeset.transaction.writes.iter();
        record.ticket == writeset.ticket && entries.eq(writes.map(|(&item, &v)| (item, v)))
    };
    message.records.len() == writesets.len() && message.records.iter().zip(writesets).all(same)
}

//! The transactions of clients: by tickets, and whole.

use std::collections::{BTreeMap, BTreeSet, VecDeque};

use super::member::Member;
use super::{Answer, CallError, Driver, Event, Output};
use crate::{Asked, Failure, Outcome, Refusal, ITEMS, TABLE};

/// What clients wait for.
#[derive(Debug, Default)]
pub(super) struct Clients {
    /// Whole transactions that are not asked.
    queue: VecDeque<Request>,
    /// Those that are, by their tickets.
    asked: BTreeMap<u32, Request>,
    /// The tickets whose outcomes are forgotten.
    forgotten: u32,
}

/// A client's transaction.
#[derive(Clone, Debug)]
struct Request {
    /// Whom to tell; nobody where the client is gone.
    client: Option<u64>,
    /// What a whole one sets.
    writes: Vec<(u32, i32)>,
    /// The tries that are left, and those that were.
    left: u32,
    tries: u32,
    /// Why it waits, as it was told.
    waits: Option<Refusal>,
}

/// The outcomes of so many tickets are kept at least.
const REMEMBERED: u32 = 256;

impl Clients {
    pub fn count(&self) -> usize {
        let waiting = self.queue.iter().chain(self.asked.values());
        waiting.filter(|request| request.client.is_some()).count()
    }
}

impl Driver {
    /// Opens a transaction on the contents as they are now, and gives its ticket. At most six are open, those of
    /// [`super::Input::Transact`] among them.
    pub fn begin(&mut self) -> Result<u32, CallError> {
        self.going()?;
        match &mut self.member {
            Member::Replica(durable) => {
                let begun = durable.begin();
                self.called(begun)
            }
            Member::Station(fed) => Ok(fed.station.begin()?),
        }
    }

    /// What the transaction wrote last to the item, else what the item had at its begin: `None` for cleared.
    pub fn read(&self, ticket: u32, item: u32) -> Result<Option<i32>, CallError> {
        let value = match &self.member {
            Member::Replica(durable) => durable.read(ticket, item)?,
            Member::Station(fed) => fed.station.read(ticket, item)?,
        };
        Ok(Some(value))
    }

    /// Puts the item with its content into the writeset, as [`crate::Replica::write`]; `None` clears it.
    pub fn write(&mut self, ticket: u32, item: u32, content: Option<i32>) -> Result<(), CallError> {
        self.going()?;
        let value = content.ok_or(CallError::NoClearing)?;
        match &mut self.member {
            Member::Replica(durable) => {
                let written = durable.write(ticket, item, value);
                self.called(written)
            }
            Member::Station(_) => Err(Refusal::StationOnlyReads.into()),
        }
    }

    /// Asks for the commit. How it ends is told to this client later, also where it had no writes.
    pub fn ask(&mut self, ticket: u32, client: u64) -> Result<Asked, CallError> {
        self.going()?;
        let asked = match &mut self.member {
            Member::Replica(durable) => {
                let asked = durable.ask(ticket);
                self.called(asked)?
            }
            Member::Station(fed) => {
                fed.station.ask(ticket)?;
                Asked::ReadOnly
            }
        };
        let request = Request {
            client: Some(client),
            writes: Vec::new(),
            left: 0,
            tries: 1,
            waits: None,
        };
        match asked {
            Asked::ReadOnly => self.tell(&request, Answer::ReadOnly { ticket }),
            Asked::Waiting => drop(self.clients.asked.insert(ticket, request)),
        }
        Ok(asked)
    }

    /// Ends a transaction that is not asked.
    pub fn withdraw(&mut self, ticket: u32) -> Result<(), CallError> {
        self.going()?;
        match &mut self.member {
            Member::Replica(durable) => {
                let withdrawn = durable.withdraw(ticket);
                self.called(withdrawn)
            }
            Member::Station(fed) => Ok(fed.station.withdraw(ticket)?),
        }
    }

    fn going(&self) -> Result<(), CallError> {
        match &self.stopped {
            Some(words) => Err(CallError::Stopped(words.clone())),
            None => Ok(()),
        }
    }

    /// What a call gave; where the disk failed, that is told.
    fn called<T>(&mut self, given: Result<T, Failure>) -> Result<T, CallError> {
        given.map_err(|failure| match failure {
            Failure::Refused(refusal) => CallError::Refused(refusal),
            Failure::Disk(error) => {
                let words = error.to_string();
                self.stop(Event::Disk(words.clone()));
                CallError::Stopped(words)
            }
        })
    }

    /// Puts a whole transaction into the queue.
    pub(super) fn transact(&mut self, client: u64, writes: &[(u32, Option<i32>)], tries: u32) {
        let set: Option<Vec<_>> = writes.iter().map(|&(item, to)| Some((item, to?))).collect();
        let (writes, error) = match set {
            None => (Vec::new(), Some(CallError::NoClearing)),
            Some(set) if set.is_empty() => (set, Some(CallError::Empty)),
            Some(set) => (set, self.going().err()),
        };
        let only_reads = self.own.is_none().then(|| Refusal::StationOnlyReads.into());
        let request = Request {
            client: Some(client),
            writes,
            left: tries.max(1),
            tries: 0,
            waits: None,
        };
        match error.or(only_reads) {
            Some(error) => self.tell(&request, Answer::Refused(error)),
            None => self.clients.queue.push_back(request),
        }
    }

    /// A client is told nothing more.
    pub(super) fn gone(&mut self, client: u64) {
        let clients = &mut self.clients;
        clients
            .queue
            .retain(|request| request.client != Some(client));
        for request in clients.asked.values_mut() {
            if request.client == Some(client) {
                // Where it is aborted, nobody wants it to be tried again.
                (request.client, request.left) = (None, 0);
            }
        }
    }

    /// Begins, writes and asks the whole transactions that wait, as far as there is room and nobody holds their
    /// items: none passes one that came before it and has an item of it.
    pub(super) fn start(&mut self) -> Result<(), Event> {
        let mut held = match self.clients.queue.is_empty() {
            true => return Ok(()),
            false => self.held_items(),
        };
        for mut request in std::mem::take(&mut self.clients.queue) {
            let free = request.writes.iter().all(|(item, _)| !held.contains(item));
            held.extend(request.writes.iter().map(|(item, _)| *item));
            let room = self.member.memory().table.iter().any(|row| row.ticket == 0);
            if !free || !room {
                let full = if free {
                    Refusal::AllOpen
                } else {
                    Refusal::Locked
                };
                self.tell_waits(&mut request, full);
                self.clients.queue.push_back(request);
                continue;
            }
            match self.begin_whole(&request.writes) {
                Ok(ticket) => {
                    request.left -= 1;
                    request.tries += 1;
                    self.clients.asked.insert(ticket, request);
                }
                Err(Failure::Refused(refusal)) => {
                    self.tell(&request, Answer::Refused(refusal.into()));
                }
                Err(failure) => {
                    // Nothing was asked: it is told so with the others that wait.
                    self.clients.queue.push_front(request);
                    return Err(failure.into());
                }
            }
        }
        Ok(())
    }

    /// A transaction with these writes, asked. Where one is refused it is withdrawn.
    fn begin_whole(&mut self, writes: &[(u32, i32)]) -> Result<u32, Failure> {
        let Some(durable) = self.member.replica() else {
            return Err(Refusal::StationOnlyReads.into());
        };
        let ticket = durable.begin()?;
        for &(item, value) in writes {
            if let Err(failure) = durable.write(ticket, item, value) {
                if failure
                    .refusal()
                    .is_some_and(|refusal| refusal != Refusal::Stale)
                {
                    durable.withdraw(ticket)?;
                }
                return Err(failure);
            }
        }
        durable.ask(ticket)?;
        Ok(ticket)
    }

    /// The items that open transactions have written.
    fn held_items(&self) -> BTreeSet<u32> {
        let memory = self.member.memory();
        let rows = memory.table.iter().zip(memory.items.chunks(8));
        let open = rows.filter(|(row, _)| row.ticket != 0);
        let items = open.flat_map(|(row, items)| items.iter().take(row.writes as usize));
        items.map(|&item| item.into()).collect()
    }

    /// Tells those whose transactions have ended, and puts those that were aborted and have tries left in front of
    /// the queue.
    pub(super) fn tell_ended(&mut self) {
        let Member::Replica(durable) = &self.member else {
            return;
        };
        let ended = |ticket: u32| match durable.outcome(ticket) {
            Outcome::Open | Outcome::Asked | Outcome::Sent => None,
            outcome => Some((ticket, outcome)),
        };
        let asked = self.clients.asked.keys();
        let ended: Vec<_> = asked.filter_map(|&ticket| ended(ticket)).collect();
        for (ticket, outcome) in ended.into_iter().rev() {
            let Some(mut request) = self.clients.asked.remove(&ticket) else {
                continue;
            };
            let tries = request.tries;
            match outcome {
                Outcome::Committed(place) => self.tell(
                    &request,
                    Answer::Committed {
                        ticket,
                        place,
                        tries,
                    },
                ),
                Outcome::Aborted if request.left > 0 => {
                    request.waits = None;
                    self.tell_waits(&mut request, Refusal::Stale);
                    self.clients.queue.push_front(request);
                }
                Outcome::Aborted => self.tell(&request, Answer::Aborted { ticket, tries }),
                _ => self.tell(&request, Answer::Unknown { ticket }),
            }
        }
    }

    /// Tells all that wait that the driver has stopped.
    pub(super) fn tell_stopped(&mut self, words: &str) {
        self.tell_ended();
        let clients = std::mem::take(&mut self.clients);
        for (ticket, request) in clients.asked {
            self.tell(&request, Answer::Unknown { ticket });
        }
        for request in clients.queue {
            let stopped = CallError::Stopped(words.to_string());
            self.tell(&request, Answer::Refused(stopped));
        }
    }

    /// Tells a client why it waits, if it does not know.
    fn tell_waits(&mut self, request: &mut Request, refusal: Refusal) {
        let known = request.waits.replace(refusal) == Some(refusal);
        if let (Some(client), false) = (request.client, known) {
            self.outputs.push(Output::Waits { client, refusal });
        }
    }

    fn tell(&mut self, request: &Request, answer: Answer) {
        if let Some(client) = request.client {
            self.outputs.push(Output::Tell { client, answer });
        }
    }

    /// Forgets the outcomes that nobody waits for any more.
    pub(super) fn forget(&mut self) {
        let Some(durable) = self.member.replica() else {
            return;
        };
        let memory = durable.memory();
        let rows = memory.table.iter().map(|row| row.ticket);
        let open = rows.filter(|&ticket| ticket != 0);
        let first = open.chain(self.clients.asked.keys().copied()).min();
        let last = first.map_or(memory.counts.tickets, |first| first - 1);
        if last >= self.clients.forgotten.saturating_add(REMEMBERED) {
            self.clients.forgotten = last;
            durable.forget(last);
        }
    }

    /// What an item has, committed here: `None` for cleared.
    pub fn content(&self, item: u32) -> Result<Option<i32>, CallError> {
        let values = &self.member.memory().values;
        let value = values.get(item as usize).ok_or(Refusal::OutOfRange)?;
        Ok(Some(*value))
    }

    /// What all items have, committed here.
    pub fn contents(&self) -> [Option<i32>; ITEMS] {
        self.member.memory().values.map(Some)
    }
}

const _: () = assert!(TABLE * 8 == crate::WRITTEN);

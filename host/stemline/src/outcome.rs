//! What became of each ticket.

use std::collections::VecDeque;
use std::fmt;

use crate::tally::Tally;
use crate::{Asked, Block, Given, Refusal, Work};

/// What became of a transaction, by its ticket: see [`crate::Durable::outcome`]. `{}` writes it in words.
#[derive(Clone, Copy, Debug, PartialEq, Eq, Hash)]
pub enum Outcome {
    /// It is open, and not asked yet.
    Open,
    /// It is asked, and waits for the next own block. A cut of the power loses it.
    Asked,
    /// It is in an own block that is durable: it will be committed, whatever happens.
    Sent,
    /// It is committed, as this one of all writesets of the group, counted from 1. The same number at every
    /// replica.
    Committed(u32),
    /// It had no writes, and has ended.
    ReadOnly,
    /// It was aborted.
    Aborted,
    /// It was withdrawn.
    Withdrawn,
    /// It was never given; or before the last open, and it is not in the journal: it was not committed then,
    /// and never will be, but it may have been read-only; or it is forgotten.
    Unknown,
}

/// A committed one has its place; no place is so high.
const OPEN: u32 = u32::MAX;
const ASKED: u32 = u32::MAX - 1;
const SENT: u32 = u32::MAX - 2;
const READ_ONLY: u32 = u32::MAX - 3;
const ABORTED: u32 = u32::MAX - 4;
const WITHDRAWN: u32 = u32::MAX - 5;

/// The outcomes of a replica's tickets, four bytes for each.
#[derive(Debug)]
pub(crate) struct Outcomes {
    own: u32,
    /// The writesets committed so far.
    commits: u32,
    /// Those that the open found committed, with their places, by rising tickets.
    found: Vec<(u32, u32)>,
    /// Those since, from this ticket on.
    since: VecDeque<u32>,
    first: u32,
    /// Those asked and not sent.
    asked: Vec<u32>,
}

impl Outcomes {
    /// Of a replica that goes on above so many tickets.
    pub fn new(own: u32, tally: Tally, tickets: u32) -> Outcomes {
        let mut found = tally.committed;
        found.sort_unstable();
        Outcomes {
            own,
            commits: tally.digests.last().commits,
            found,
            since: VecDeque::new(),
            first: tickets.saturating_add(1),
            asked: Vec::new(),
        }
    }

    pub fn of(&self, ticket: u32) -> Outcome {
        let since = ticket.checked_sub(self.first);
        if let Some(&code) = since.and_then(|at| self.since.get(at as usize)) {
            return match code {
                OPEN => Outcome::Open,
                ASKED => Outcome::Asked,
                SENT => Outcome::Sent,
                READ_ONLY => Outcome::ReadOnly,
                ABORTED => Outcome::Aborted,
                WITHDRAWN => Outcome::Withdrawn,
                place => Outcome::Committed(place),
            };
        }
        match self
            .found
            .binary_search_by_key(&ticket, |&(found, _)| found)
        {
            Ok(at) => Outcome::Committed(self.found[at].1),
            Err(_) => Outcome::Unknown,
        }
    }

    /// Forgets the tickets up to this one.
    pub fn forget(&mut self, ticket: u32) {
        let kept = self.found.partition_point(|&(found, _)| found <= ticket);
        self.found.drain(..kept);
        self.found.shrink_to_fit();
        let most = self.since.len() as u32;
        let gone = (ticket.saturating_add(1).saturating_sub(self.first)).min(most);
        self.since.drain(..gone as usize);
        self.since.shrink_to_fit();
        self.first += gone;
    }

    fn set(&mut self, ticket: u32, code: u32) {
        let at = ticket.checked_sub(self.first);
        if let Some(of) = at.and_then(|at| self.since.get_mut(at as usize)) {
            *of = code;
        }
    }

    /// Tickets are given one after the other.
    pub fn begun(&mut self, ticket: u32) {
        if ticket == self.first + self.since.len() as u32 {
            self.since.push_back(OPEN);
        }
    }

    pub fn written(&mut self, ticket: u32, answer: &Result<(), Refusal>) {
        if *answer == Err(Refusal::Stale) {
            self.set(ticket, ABORTED);
        }
    }

    pub fn asked(&mut self, ticket: u32, asked: Asked) {
        match asked {
            Asked::ReadOnly => self.set(ticket, READ_ONLY),
            Asked::Waiting => {
                self.set(ticket, ASKED);
                self.asked.push(ticket);
            }
        }
    }

    pub fn withdrawn(&mut self, ticket: u32) {
        self.set(ticket, WITHDRAWN);
    }

    /// A send takes all that are asked.
    pub fn sent(&mut self) {
        for ticket in std::mem::take(&mut self.asked) {
            self.set(ticket, SENT);
        }
    }

    pub fn worked(&mut self, work: &Work) {
        if work.ticket != 0 {
            self.committed(work.sender, work.ticket);
        }
        self.aborted(work.aborted());
    }

    /// A giving that has left these slots: of the first so many writesets were done before.
    pub fn given(&mut self, given: &Given, blocks: &[Block], done: u8) {
        for (at, block) in blocks.iter().enumerate() {
            let done = if at == 0 { done.into() } else { 0 };
            for record in block.records().skip(done) {
                self.committed(block.sender(), record.ticket);
            }
        }
        self.aborted(given.aborted());
    }

    /// The next of all writesets.
    fn committed(&mut self, sender: u8, ticket: u32) {
        self.commits += 1;
        if u32::from(sender) == self.own {
            self.set(ticket, self.commits);
        }
    }

    fn aborted(&mut self, tickets: &[u32]) {
        for &ticket in tickets {
            self.set(ticket, ABORTED);
            self.asked.retain(|&asked| asked != ticket);
        }
    }
}

impl fmt::Display for Outcome {
    fn fmt(&self, f: &mut fmt::Formatter) -> fmt::Result {
        match self {
            Outcome::Open => f.write_str("open"),
            Outcome::Asked => f.write_str("asked"),
            Outcome::Sent => f.write_str("sent"),
            Outcome::Committed(place) => write!(f, "committed as number {place}"),
            Outcome::ReadOnly => f.write_str("read-only"),
            Outcome::Aborted => f.write_str("aborted"),
            Outcome::Withdrawn => f.write_str("withdrawn"),
            Outcome::Unknown => f.write_str("not known"),
        }
    }
}

//! What the answers of a replica amount to, and what a run met.

use crate::block;
use crate::journal;
use crate::notice::{self, Notice};
use crate::replica::{Replica, Report, Restarted, ITEMS};
use crate::trace::{Answer, Call, Restart};

/// A replica or station under test: the model's, or another that is compared with it.
pub trait Subject {
    /// Makes a call; an error is the number that refuses it.
    fn call(&mut self, call: &Call) -> Result<Answer, u8>;
    /// The counts of its calls so far.
    fn report(&self) -> Report;
    /// The values that it has committed.
    fn values(&self) -> [i32; ITEMS];
}

impl Subject for Replica {
    fn call(&mut self, call: &Call) -> Result<Answer, u8> {
        Replica::call(self, call)
    }
    fn report(&self) -> Report {
        Replica::report(self)
    }
    fn values(&self) -> [i32; ITEMS] {
        *Replica::values(self)
    }
}

/// What the answers of one replica or station amount to.
#[derive(Clone)]
pub struct Tally {
    own: Option<u8>,
    /// The report that is due.
    pub report: Report,
    /// The tickets open.
    pub open: Vec<u32>,
    /// The notices taken, in order.
    pub notices: Vec<Notice>,
    /// Ticket and item of their writes.
    locks: Vec<(u32, u32)>,
}

impl Tally {
    /// Of a replica of which no call is seen yet.
    pub fn new(own: usize, report: Report) -> Tally {
        Tally {
            own: Some(own as u8),
            ..Tally::of_station(report)
        }
    }

    /// Of a station of which no call is seen yet.
    pub fn of_station(report: Report) -> Tally {
        Tally {
            own: None,
            report,
            open: Vec::new(),
            notices: Vec::new(),
            locks: Vec::new(),
        }
    }

    /// Its number in the group, if it is a replica's.
    pub fn number(&self) -> Option<u8> {
        self.own
    }

    /// Whether it is a station's.
    pub fn is_station(&self) -> bool {
        self.own.is_none()
    }

    /// Whether a call, which is not taken in yet, writes an item that another transaction holds.
    pub fn is_held(&self, call: &Call) -> bool {
        let Call::Write { ticket, item, .. } = call else {
            return false;
        };
        let mut locks = self.locks.iter();
        locks.any(|(other, held)| held == item && other != ticket)
    }

    /// Whether the turn's slot is out, in a group of `n`.
    pub fn is_out(&self, n: u32) -> bool {
        notice::puts_out(&self.notices, n, self.report.turn)
    }

    /// Takes in a call and its answer.
    pub fn feed(&mut self, call: &Call, answer: &Result<Answer, u8>) {
        let report = &mut self.report;
        match (call, answer) {
            (_, Ok(Answer::Ticket(ticket))) => {
                report.tickets += 1;
                self.open.push(*ticket);
            }
            (Call::Ask { ticket }, Ok(Answer::ReadOnly(true))) => {
                report.read_only += 1;
                self.close(*ticket);
            }
            (Call::Withdraw { ticket }, Ok(_)) => {
                report.withdrawn += 1;
                self.close(*ticket);
            }
            (Call::Write { ticket, item, .. }, Ok(_)) => self.locks.push((*ticket, *item)),
            (Call::Notice(notice), Ok(_)) => self.notices.push(*notice),
            (Call::Write { ticket, .. }, Err(9)) => {
                report.aborted += 1;
                self.close(*ticket);
            }
            (_, Ok(Answer::Work(work))) => {
                report.turn += u32::from(work.moved);
                report.commits += u32::from(work.ticket != 0);
                report.aborted += work.aborted.len() as u32;
                let own = self.own == Some(work.sender) && work.ticket != 0;
                report.committed += u32::from(own);
                if own {
                    self.close(work.ticket);
                }
                for &ticket in &work.aborted {
                    self.close(ticket);
                }
            }
            _ => {}
        }
        self.report.open = self.open.len() as u32;
    }

    /// Takes in a restart: its report is that of the journal's blocks.
    pub fn feed_restart(&mut self, restart: &Restart, answer: &Result<Restarted, u8>) {
        if answer.is_err() {
            return;
        }
        let blocks: Vec<_> = journal::blocks(restart.n, &restart.journal).collect();
        let messages = blocks.iter().map(|block| block::decode(*block).unwrap());
        let (mut commits, mut own) = (0, Vec::new());
        for message in messages {
            commits += message.records.len() as u32;
            if self.own == Some(message.sender) {
                own.extend(message.records.iter().map(|record| record.ticket));
            }
        }
        let tickets = own.iter().copied().max().unwrap_or(0);
        self.open.clear();
        self.locks.clear();
        self.notices.clone_from(&restart.notices);
        self.report = Report {
            turn: blocks.len() as u32,
            commits,
            tickets,
            committed: own.len() as u32,
            aborted: tickets.saturating_sub(own.len() as u32),
            ..Report::default()
        };
    }

    fn close(&mut self, ticket: u32) {
        self.open.retain(|&open| open != ticket);
        self.locks.retain(|&(open, _)| open != ticket);
    }
}

/// What a run met, so that a test can say that it met enough.
#[derive(Clone, Debug, Default)]
pub struct Seen {
    /// The calls made.
    pub calls: u64,
    /// By refusal number.
    pub refused: [u64; 30],
    /// Writesets committed, at whatever replica.
    pub commits: u64,
    /// Transactions aborted by a work.
    pub aborted: u64,
    /// Transactions aborted by a write.
    pub stale: u64,
    /// Of these, by a write of an item that another held.
    pub stale_and_held: u64,
    /// Transactions that ended with nothing written.
    pub read_only: u64,
    /// Transactions withdrawn.
    pub withdrawn: u64,
    /// Blocks sent, by their number of records.
    pub sent: [u64; 7],
    /// Blocks taken by a deliver.
    pub delivered: u64,
    /// Blocks handed out that a replica refused by 18: none, if the premises hold.
    pub far_at_replicas: u64,
    /// Blocks handed out that a station refused by 18, which its caller is to offer it again.
    pub far_at_stations: u64,
    /// Of these, the blocks that the station took later.
    pub offered_again: u64,
    /// Restarts.
    pub restarts: u64,
    /// Blocks first handed out by a restart, because a cut ended their send.
    pub sent_by_restart: u64,
    /// Notices taken.
    pub notices: u64,
    /// Slots passed as out.
    pub passed_out: u64,
}

impl Seen {
    /// Takes in a call and its answer in a group of `n`, and what the calls before amount to.
    pub fn feed(&mut self, n: u32, before: &Tally, call: &Call, answer: &Result<Answer, u8>) {
        self.calls += 1;
        self.stale_and_held += u64::from(*answer == Err(9) && before.is_held(call));
        match (call, answer) {
            (_, Err(number)) => {
                self.refused[usize::from(*number)] += 1;
                self.stale += u64::from(*number == 9);
            }
            (_, Ok(Answer::Work(work))) => {
                self.commits += u64::from(work.ticket != 0);
                self.aborted += work.aborted.len() as u64;
                self.passed_out += u64::from(before.is_out(n));
            }
            (_, Ok(Answer::ReadOnly(true))) => self.read_only += 1,
            (_, Ok(Answer::Block(block))) => self.sent[usize::from(block[3])] += 1,
            (Call::Withdraw { .. }, Ok(_)) => self.withdrawn += 1,
            (Call::Deliver { .. }, Ok(_)) => self.delivered += 1,
            (Call::Notice(_), Ok(_)) => self.notices += 1,
            _ => {}
        }
    }

    /// Adds what another run met.
    pub fn add(&mut self, other: &Seen) {
        let sum = |into: &mut [u64], from: &[u64]| {
            into.iter_mut().zip(from).for_each(|(a, b)| *a += b);
        };
        sum(&mut self.refused, &other.refused);
        sum(&mut self.sent, &other.sent);
        self.calls += other.calls;
        self.commits += other.commits;
        self.aborted += other.aborted;
        self.stale += other.stale;
        self.stale_and_held += other.stale_and_held;
        self.read_only += other.read_only;
        self.withdrawn += other.withdrawn;
        self.delivered += other.delivered;
        self.far_at_replicas += other.far_at_replicas;
        self.far_at_stations += other.far_at_stations;
        self.offered_again += other.offered_again;
        self.restarts += other.restarts;
        self.sent_by_restart += other.sent_by_restart;
        self.notices += other.notices;
        self.passed_out += other.passed_out;
    }

    /// The refusal numbers met at least `least` times.
    pub fn numbers(&self, least: u64) -> Vec<usize> {
        (1..self.refused.len())
            .filter(|&n| self.refused[n] >= least)
            .collect()
    }
}

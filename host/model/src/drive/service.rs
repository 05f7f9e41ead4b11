//! The membership service of a group (document 02, Req 10): it says the same to all, and every member
//! takes what it says of a slot before its turn is above it. Replicas are closed and come back.
//!
//! What it sees to beyond document 02 is what strands a replica otherwise: a notice is of a slot above
//! every slot that was sent for, and a member takes an Out before a block of the same replica behind it.

use std::collections::BTreeSet;

use super::{Group, Subject, Tally};
use crate::block::{self, BLOCK, MAX_SLOT};
use crate::notice::{self, Kind, Notice};
use crate::samples::{self, Random};
use crate::trace::Call;

/// What it said, and who is closed.
#[derive(Default)]
pub(super) struct Service {
    /// The notices about each replica, in order. Among those about different ones there is no order.
    lists: Vec<Vec<Notice>>,
    /// The replicas that get no calls for now.
    closed: BTreeSet<usize>,
    /// Notices that a member refused at its turn, and so can never take.
    stranded: Vec<String>,
}

impl Service {
    pub fn new(replicas: usize) -> Service {
        Service {
            lists: vec![Vec::new(); replicas],
            ..Service::default()
        }
    }

    /// Whether what it said last of a replica is that it is out.
    fn says_out(&self, about: usize) -> bool {
        let last = self.lists[about].last();
        last.is_some_and(|last| last.kind == Kind::Out)
    }
}

impl<S: Subject> Group<S> {
    /// The notices said about a replica, in order.
    pub fn said(&self, about: usize) -> &[Notice] {
        &self.service.lists[about]
    }

    /// The notices that a member refused when it could not wait any more: none, by this service.
    pub fn stranded(&self) -> &[String] {
        &self.service.stranded
    }

    /// Whether a replica is closed: it gets no calls, and nobody delivers to it.
    pub fn is_closed(&self, k: usize) -> bool {
        self.service.closed.contains(&k)
    }

    /// The replicas that are not closed.
    pub fn open_replicas(&self) -> Vec<usize> {
        let open = (0..self.replicas).filter(|&k| !self.is_closed(k));
        open.collect()
    }

    /// Closes a replica. If the service has not said so yet, it says now that it is out. False where no
    /// other would be left that sends.
    pub fn close(&mut self, k: usize) -> bool {
        let may = self.sends_without(k);
        if may {
            self.service.closed.insert(k);
            if !self.service.says_out(k) {
                self.say_next(k, 0);
            }
        }
        may
    }

    /// A closed replica gets calls again. What was said meanwhile it takes by and by.
    pub fn open(&mut self, k: usize) {
        self.service.closed.remove(&k);
    }

    /// Whether the open replicas come to a slot of this one that has no block and is not out.
    fn is_awaited(&self, k: usize) -> bool {
        let n = self.replicas as u32;
        let open = self.open_replicas().into_iter();
        let turn = open.map(|other| self.tallies[other].report.turn).max();
        let mut slots = turn.unwrap_or(0)..;
        let next = slots.find(|slot| (slot % n) as usize == k).unwrap_or(0);
        !self.blocks.contains_key(&next) && !notice::puts_out(self.said(k), n, next)
    }

    /// Says of a replica that it is out or, if it is, that it is back, from the lowest slot on that it
    /// can be, or later. False where there is no such slot, or nobody would be left that sends.
    pub fn say_next(&mut self, about: usize, later: u32) -> bool {
        let slot = self.lowest(about).saturating_add(later);
        let is_out = self.service.says_out(about);
        let may = slot <= MAX_SLOT && (is_out || self.sends_without(about));
        if may {
            let kind = if is_out { Kind::Back } else { Kind::Out };
            let about = about as u32;
            self.service.lists[about as usize].push(Notice { kind, about, slot });
        }
        may
    }

    /// Whether another replica is open, and not said to be out.
    fn sends_without(&self, k: usize) -> bool {
        let open = self.open_replicas().into_iter();
        { open }.any(|other| other != k && !self.service.says_out(other))
    }

    /// The lowest slot of the next notice about a replica: no member's turn is above it, also after a
    /// restart, which commits what was sent; no block of it was handed out for it or behind it; and it
    /// follows on the notice before.
    fn lowest(&self, about: usize) -> u32 {
        let n = self.replicas as u32;
        let reached = self.tallies.iter().enumerate().map(|(k, tally)| {
            let turn = tally.report.turn;
            let sent = (turn % n) as usize == k && self.blocks.contains_key(&turn);
            turn + u32::from(sent)
        });
        let of_it = |slot: &&u32| (**slot % n) as usize == about;
        let sent = self.blocks.keys().rev().find(of_it);
        let behind = self.said(about).last().map_or(0, |last| match last.kind {
            Kind::Out => last.slot + 1,
            Kind::Back => last.slot,
        });
        let reached = reached.max().unwrap_or(0);
        reached.max(behind).max(sent.map_or(0, |slot| slot + 1))
    }

    /// The notices about a replica that a member has not taken, in order.
    fn lacking(&self, member: usize, about: usize) -> &[Notice] {
        let taken = notice::about(&self.tallies[member].notices, about as u32);
        self.said(about).get(taken.count()..).unwrap_or_default()
    }

    /// The lowest slot of a notice that a member has not taken.
    pub(super) fn first_lacking(&self, member: usize) -> Option<u32> {
        let next = (0..self.replicas).filter_map(|about| self.lacking(member, about).first());
        next.map(|notice| notice.slot).min()
    }

    /// A member takes the next notice about a replica, if it lacks one of a slot at or below this.
    fn take_next(&mut self, member: usize, about: usize, slot: u32) -> Option<Result<Notice, u8>> {
        let next = *self.lacking(member, about).first()?;
        (next.slot <= slot).then(|| self.call(member, &Call::Notice(next)).map(|_| next))
    }

    /// A member takes what it must before its turn moves: all of its turn's slot.
    pub(super) fn take_due(&mut self, member: usize) {
        for about in 0..self.replicas {
            let turn = self.tallies[member].report.turn;
            while let Some(answer) = self.take_next(member, about, turn) {
                if let Err(number) = answer {
                    let next = self.lacking(member, about)[0];
                    let text = format!("member {member} refuses {next} by {number} at turn {turn}");
                    self.service.stranded.push(text);
                    break;
                }
            }
        }
    }

    /// A member takes what it can by now.
    pub(super) fn take_all(&mut self, member: usize) {
        for about in 0..self.replicas {
            while let Some(Ok(_)) = self.take_next(member, about, u32::MAX) {}
        }
    }

    /// A member takes what it should before a call. False if the call is not to be made: it would be
    /// given a block behind an Out that it lacks and cannot take yet.
    pub(super) fn hears_first(&mut self, member: usize, call: &Call) -> bool {
        match call {
            Call::Work | Call::Send => self.take_due(member),
            Call::Deliver { bytes } => {
                let block: Result<&[u8; BLOCK], _> = bytes.as_slice().try_into();
                let slot = block.map_or(0, |block| block::header(block).slot);
                let about = slot as usize % self.replicas;
                // Behind a Back that it lacks it refuses the block by 29, and is given it again.
                let lacks_out = |group: &Group<S>| {
                    let next = group.lacking(member, about).first();
                    next.is_some_and(|next| next.kind == Kind::Out && next.slot <= slot)
                };
                while lacks_out(self) {
                    if let Some(Err(_)) = self.take_next(member, about, slot) {
                        return false;
                    }
                }
            }
            _ => {}
        }
        true
    }

    /// Something that the service says, a notice that some member takes, or one that none may take; or a
    /// replica is closed, or comes back.
    pub(super) fn random_notice(&mut self, random: &mut Random) {
        let (k, about) = (random.below(self.replicas), random.below(self.replicas));
        let later = random.pick(&[0, 0, 0, 1, 2, self.replicas as u32]);
        // The group is not to stand still for long.
        if self.is_closed(k) && self.is_awaited(k) {
            return self.open(k);
        }
        let member = match self.random_station(random) {
            Some(station) => station,
            None => k,
        };
        match random.below(20) {
            0 => drop(self.close(k)),
            1 | 2 => drop(self.say_next(about, later)),
            3 => self.open(k),
            _ if self.is_closed(member) => {}
            4..6 => self.refused_notice(random, member),
            6..8 => self.take_all(member),
            _ => drop(self.take_next(member, about, u32::MAX)),
        }
    }

    /// A notice that the service did not say, and that is refused whatever was said.
    fn refused_notice(&mut self, random: &mut Random, member: usize) {
        let n = self.replicas as u32;
        let tally = &self.tallies[member];
        let turn = tally.report.turn;
        let notice = samples::notice(random, n, turn, &tally.notices);
        let last = notice::about(&tally.notices, notice.about).next_back();
        let out = last.is_some_and(|last| last.kind == Kind::Out);
        let follows = out == (notice.kind == Kind::Back);
        if notice.about >= n || notice.slot > MAX_SLOT || notice.slot < turn || !follows {
            let _ = self.call(member, &Call::Notice(notice));
        }
    }

    /// Any notice at any member that is not closed, whoever says it. The premise need not hold then.
    pub fn any_notice(&mut self, random: &mut Random) {
        let member = match self.random_station(random) {
            Some(station) => station,
            None => random.below(self.replicas),
        };
        let Tally {
            report, notices, ..
        } = &self.tallies[member];
        let notice = samples::notice(random, self.replicas as u32, report.turn, notices);
        if !self.is_closed(member) {
            let _ = self.call(member, &Call::Notice(notice));
        }
    }
}

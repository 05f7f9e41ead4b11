//! What goes wrong in a simulated group, and the membership service beside it.

use std::time::Duration;

use super::{Fault, Simulation};
use crate::driver::{Body, Frame, Input};
use crate::{owner, Digest, Notice, BLOCK, SLOTS};

impl Simulation {
    /// Does one action, by the weights of the plan.
    pub(super) fn act(&mut self) {
        let w = self.plan.weights;
        let all = [
            w.transact,
            w.ticket,
            w.cut,
            w.fault,
            w.partition,
            w.notice,
            w.forgery,
        ];
        let mut at = self.random.below(all.iter().sum());
        let chosen = all.iter().position(|&weight| {
            let here = at < weight;
            at = at.saturating_sub(weight);
            here
        });
        match chosen {
            Some(0) => self.transact_any(),
            Some(1) => self.step_session(),
            Some(2) => self.cut_any(),
            Some(3) => self.fault_any(),
            Some(4) => self.partition_any(),
            Some(5) => self.notice_any(),
            Some(6) => self.forge_any(),
            _ => {}
        }
    }

    fn any_replica(&mut self) -> usize {
        self.random.below(self.replicas() as u64) as usize
    }

    /// The power goes now, or at one of the next steps at the disk.
    fn cut_any(&mut self) {
        let member = self.random.below(self.members.len() as u64) as usize;
        let is_replica = member < self.replicas();
        match is_replica && self.random.percent(70) {
            true => {
                let steps = self.random.below(12);
                self.members[member].disk.cut_after(steps);
            }
            false => self.cut(member),
        }
    }

    fn fault_any(&mut self) {
        let fault = match self.random.percent(50) {
            true => Fault::Write,
            false => Fault::Sync,
        };
        let (member, number) = (self.any_replica(), self.random.bits());
        self.members[member].disk.fail(fault, number);
    }

    /// Some are cut off from the others, for a while.
    fn partition_any(&mut self) {
        self.unite();
        let side = self.random.bits();
        for b in 0..self.members.len() {
            for a in 0..b {
                if (side >> a ^ side >> b) & 1 == 1 {
                    self.apart.insert((a, b));
                }
            }
        }
        self.broken = self.random.percent(50);
        if self.broken {
            for (a, b) in self.apart.clone() {
                self.disconnect(a, b);
            }
        }
        self.apart_until = self.now + Duration::from_micros(self.random.below(150_000));
        self.seen.partitions += 1;
    }

    /// All reach each other again.
    pub(super) fn unite(&mut self) {
        self.apart.clear();
        self.broken = false;
        self.connect();
    }

    /// A block that names another sender comes over the link of a replica.
    fn forge_any(&mut self) {
        let (from, to) = (self.any_replica(), self.any_replica());
        let sender = self.any_replica() as u32;
        let Some(block) = self.sheet.block_of(sender) else {
            return;
        };
        if from == to || sender as usize == from {
            return;
        }
        let Some(digest) = self.driver(to).map(|driver| driver.digest()) else {
            return;
        };
        let n = self.group.replicas();
        let ahead = digest.turn..digest.turn + n;
        let Some(slot) = ahead.into_iter().find(|&slot| owner(slot, n) == sender) else {
            return;
        };
        let block = Box::new(forged(block, slot));
        let digest = Digest {
            turn: SLOTS,
            ..digest
        };
        let body = Body::Block { block, digest };
        let group = self.group.mark();
        self.seen.forged += 1;
        self.post(from, to, Frame { group, body }.encode().into());
    }

    /// The highest turn that any member has, or had when it ended.
    fn reached(&self) -> u32 {
        let turns = self.members.iter().map(|member| {
            let turn = member
                .driver
                .as_ref()
                .map_or(0, |driver| driver.digest().turn + 1);
            turn.max(member.reached)
        });
        turns.max().unwrap_or(0)
    }

    /// The service says that a replica is out, or back.
    fn notice_any(&mut self) {
        let n = self.group.replicas();
        let replica = self.any_replica() as u32;
        let slot = self.reached() + 2 * n + self.random.below(10) as u32;
        let outs = (0..n).filter(|&k| self.is_out(k));
        match self.is_out(replica) {
            false if outs.count() + 1 < n as usize && self.has_come(replica) => {
                self.say(Notice::Out { replica, slot });
            }
            true if self.is_level(replica) => self.say(Notice::Back { replica, slot }),
            _ => {}
        }
    }

    /// Whether the last that was said about a replica is that it is out.
    pub(super) fn is_out(&self, k: u32) -> bool {
        let mut about = self.said.iter().rev();
        let last = about.find(|notice| {
            let (Notice::Out { replica, .. } | Notice::Back { replica, .. }) = **notice;
            replica == k
        });
        matches!(last, Some(Notice::Out { .. }))
    }

    /// Whether the first of all have come to the last Back of a replica: only then it is said to be out again. Who
    /// is behind is offered it when it comes there.
    fn has_come(&self, k: u32) -> bool {
        let back = self.said.iter().rev().find_map(|notice| match *notice {
            Notice::Back { replica, slot } if replica == k => Some(slot),
            _ => None,
        });
        let turns = self
            .members
            .iter()
            .filter_map(|member| member.driver.as_ref());
        let first = turns.map(|driver| driver.digest().turn).max();
        back.is_none_or(|back| first.is_some_and(|turn| turn >= back))
    }

    /// Whether a replica that is out has taken what it missed: only then its Back is said.
    pub(super) fn is_level(&self, k: u32) -> bool {
        let turn = |member: &super::simulation::Member| {
            member.driver.as_ref().map(|driver| driver.digest().turn)
        };
        let first = self.members.iter().filter_map(turn).max();
        let own = turn(&self.members[k as usize]);
        let level = own
            .zip(first)
            .is_some_and(|(own, first)| own + self.group.replicas() > first);
        // And the Out itself is passed, so that it is taken by all that are up.
        let out = self.said.iter().rev().find_map(|notice| match *notice {
            Notice::Out { replica, slot } if replica == k => Some(slot),
            _ => None,
        });
        level && own.zip(out).is_some_and(|(own, out)| own >= out)
    }

    /// Says a notice to all; who is down is told when it starts.
    pub(super) fn say(&mut self, notice: Notice) {
        self.said.push(notice);
        self.seen.notices += 1;
        for member in 0..self.members.len() {
            self.input(member, Input::Notice(notice));
        }
    }
}

/// A block like this one for another slot, with other values and a good check.
fn forged(mut block: [u8; BLOCK], slot: u32) -> [u8; BLOCK] {
    block[4..8].copy_from_slice(&slot.to_le_bytes());
    if block[3] > 0 {
        // The value of the first entry of the first record.
        block[16 + 12] ^= 1;
    }
    let (mut first, mut second) = (0_u32, 0_u32);
    for word in block[..504].as_chunks::<2>().0 {
        first += u32::from(u16::from_le_bytes(*word));
        second += first;
    }
    block[504..508].copy_from_slice(&first.to_le_bytes());
    block[508..].copy_from_slice(&second.to_le_bytes());
    block
}

#[cfg(test)]
mod tests {
    use super::*;
    use crate::{Block, Replica, ITEMS};

    #[test]
    fn a_forged_block_is_good() {
        let mut replica = Replica::new(2, 0, &[0; ITEMS]).unwrap();
        let ticket = replica.begin().unwrap();
        replica.write(ticket, 5, 40).unwrap();
        replica.ask(ticket).unwrap();
        let block = forged(replica.send().unwrap(), 8);
        let read = Block::read(&block).unwrap();
        assert_eq!(
            read.to_string(),
            "slot 8 of replica 0 of 2: ticket 1 sets 5 = 41"
        );
    }
}

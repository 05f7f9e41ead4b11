//! The duties around the turn: blocks that come, works, the own block, and that it is handed out again.

use super::{Body, Change, Driver, Event, Output, Peer};
use crate::{owner, Block, Failure, Refusal, BLOCK, SLOTS};

/// The most blocks that are kept to be offered again, and how far ahead they are at most.
const HELD: usize = 256;

impl Driver {
    /// Takes a block that came from a peer.
    pub(super) fn came(&mut self, peer: Peer, bytes: &[u8; BLOCK]) -> Result<(), Event> {
        let block = match Block::read(bytes) {
            Ok(block) => block,
            Err(refusal) => {
                self.refused(peer, None, refusal);
                return Ok(());
            }
        };
        let (sender, slot) = (block.sender().into(), block.slot());
        if Peer::Replica(sender) != peer {
            let event = Event::NotTheSender { peer, sender, slot };
            self.outputs.push(Output::Say(event));
            return Ok(());
        }
        match self.member.deliver(bytes) {
            Ok(()) => self.settle(),
            Err(Failure::Refused(refusal)) => {
                match is_early(refusal) {
                    true => self.hold(slot, bytes),
                    false if refusal.is_repeat() => {}
                    false => self.refused(peer, Some(slot), refusal),
                }
                Ok(())
            }
            Err(failure) => Err(failure.into()),
        }
    }

    pub(super) fn refused(&mut self, peer: Peer, slot: Option<u32>, refusal: Refusal) {
        self.outputs.push(Output::Say(Event::Refused {
            peer,
            slot,
            refusal,
        }));
    }

    /// Keeps a block that comes too early, to offer it again.
    fn hold(&mut self, slot: u32, bytes: &[u8; BLOCK]) {
        let ahead = slot.saturating_sub(self.member.turn()) as usize;
        if ahead < HELD && self.held.len() < HELD {
            self.held.insert(slot, *bytes);
        }
    }

    /// Offers again what came too early.
    fn offer_held(&mut self) -> Result<(), Event> {
        if self.held.is_empty() {
            return Ok(());
        }
        let turn = self.member.turn();
        self.held = self.held.split_off(&turn);
        let near = self
            .held
            .range(..turn.saturating_add(self.group.replicas()));
        let near: Vec<_> = near.map(|(slot, block)| (*slot, *block)).collect();
        for (slot, block) in near {
            match self.member.deliver(&block) {
                Err(Failure::Refused(refusal)) if is_early(refusal) => continue,
                Ok(()) | Err(Failure::Refused(_)) => {}
                Err(failure) => return Err(failure.into()),
            }
            self.held.remove(&slot);
        }
        Ok(())
    }

    /// Works until nothing waits; notices, and blocks that were early, are offered before each work.
    pub(super) fn settle(&mut self) -> Result<(), Event> {
        loop {
            self.offer_notices()?;
            self.offer_held()?;
            if !self.member.waits() {
                return Ok(());
            }
            self.member.work()?;
            self.follow()?;
        }
    }

    /// Looks at the slots that the turn has left since the last time.
    pub(super) fn follow(&mut self) -> Result<(), Event> {
        let turn = self.member.turn();
        if self.followed.turn == turn {
            return Ok(());
        }
        let n = self.group.replicas();
        for slot in self.followed.turn..turn {
            // The window has the last 64, and no call leaves more.
            let block = self.member.memory().window.block(slot);
            let Some(block) = block.and_then(|block| Block::read(block).ok()) else {
                continue;
            };
            if !block.is_next() {
                // Others may want to go on from it: a round without waits.
                self.hurry = self.hurry.max(slot.saturating_add(n + 1));
            }
            self.changed(&block);
        }
        self.followed = self.member.digest();
        self.moved = self.now;
        self.compare_all()
    }

    /// Tells the writesets of a block.
    fn changed(&mut self, block: &Block) {
        for record in block.records() {
            self.followed.commits += 1;
            let writes = record.entries.iter();
            self.outputs.push(Output::Committed(Change {
                place: self.followed.commits,
                slot: block.slot(),
                replica: block.sender().into(),
                ticket: record.ticket,
                writes: writes
                    .map(|entry| (entry.item.into(), Some(entry.value)))
                    .collect(),
            }));
        }
    }

    /// Whether the own block is to be sent now.
    pub(super) fn is_due(&self) -> bool {
        self.member.is_turn() && (self.is_busy() || self.now >= self.moved + self.waits.idle)
    }

    /// Whether an empty block is not to be waited with.
    pub(super) fn is_busy(&self) -> bool {
        self.is_asked() || self.member.turn() < self.hurry
    }

    /// Whether something is asked here, and not sent yet.
    pub(super) fn is_asked(&self) -> bool {
        self.member.memory().queue[0] != 0
    }

    /// Sends the own block, with all that is asked: one sync for it and all that was taken before. It goes out only
    /// then.
    pub(super) fn send(&mut self) -> Result<(), Event> {
        let Some(durable) = self.member.replica() else {
            return Ok(());
        };
        let block = durable.send()?;
        durable.deliver(&block)?;
        self.last_slot = Some(self.member.turn());
        self.settle()?;
        let peers: Vec<Peer> = self.up().collect();
        self.hand_out(&peers, &block);
        self.said = self.now;
        Ok(())
    }

    fn hand_out(&mut self, peers: &[Peer], block: &[u8; BLOCK]) {
        let block = Box::new(*block);
        let digest = self.member.digest();
        self.send_all(peers, Body::Block { block, digest });
    }

    /// Hands the last own block out to a peer that is not known to have it.
    pub(super) fn hand_last(&mut self, peer: Peer) {
        let Some(last) = self
            .member
            .replica()
            .and_then(|durable| durable.last().copied())
        else {
            return;
        };
        let told = match peer {
            Peer::Replica(k) => self.told(k),
            // It asks for what it lacks.
            Peer::Station(_) => Some(SLOTS),
        };
        if told <= self.last_slot {
            self.hand_out(&[peer], &last);
        }
    }

    /// Hands the last own block out again, and tells turn and digest, from time to time.
    pub(super) fn resend(&mut self) {
        if self.now < self.said + self.waits.resend {
            return;
        }
        self.said = self.now;
        for peer in self.up().collect::<Vec<_>>() {
            self.hand_last(peer);
            self.tell_turn(&[peer]);
        }
    }

    pub(super) fn tell_turn(&mut self, peers: &[Peer]) {
        let (digest, asked) = (self.member.digest(), self.is_asked());
        self.send_all(peers, Body::Turn { digest, asked });
    }

    /// Wakes the others, once for each own slot, where something is asked and they may be waiting with empty blocks.
    pub(super) fn wake(&mut self) {
        let Some(own) = self.own.filter(|_| self.is_asked()) else {
            return;
        };
        let slot = self.next_slot(own, self.member.turn());
        if self.hurry < slot && self.woken != Some(slot) {
            self.woken = Some(slot);
            let replicas = self.up().filter(|peer| matches!(peer, Peer::Replica(_)));
            let replicas: Vec<_> = replicas.collect();
            self.tell_turn(&replicas);
        }
    }

    /// Something is asked at a replica which is at this turn: nobody waits before its next slot.
    pub(super) fn woken_by(&mut self, k: u32, turn: u32) {
        self.hurry = self.hurry.max(self.next_slot(k, turn));
    }

    /// The first slot of a replica from this one on.
    fn next_slot(&self, k: u32, slot: u32) -> u32 {
        let n = self.group.replicas();
        let round = slot..slot.saturating_add(n);
        let mut own = round.filter(|&slot| owner(slot, n) == k);
        own.next().unwrap_or(slot)
    }
}

/// Whether a block is to be offered again later.
fn is_early(refusal: Refusal) -> bool {
    matches!(refusal, Refusal::FarSlot | Refusal::SlotOut)
}

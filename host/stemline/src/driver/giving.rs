//! Blocks that are asked for: by this one where it is behind, and by others.

use std::time::Duration;

use super::member::Member;
use super::{Body, Driver, Event, Output, Peer};
use crate::{Block, Failure, Refusal, Window, BLOCK, DOWN, KEPT};

/// What was asked of a peer.
#[derive(Clone, Copy, Debug)]
pub(super) struct Asking {
    pub peer: Peer,
    from: u32,
    to: u32,
    since: Duration,
}

impl Driver {
    /// Asks another for its blocks, where that one is ahead, and nothing has come for a while or nothing that comes
    /// by itself would help.
    pub(super) fn ask_if_behind(&mut self) {
        let turn = self.member.turn();
        if self.best() <= turn {
            self.asking = None;
            return;
        }
        if let Some(asking) = self.asking {
            if self.now < asking.since + self.waits.ask {
                return;
            }
            // It does not answer.
            self.lacks(asking.peer);
            self.asking = None;
        }
        if self.now < self.ask_at() {
            return;
        }
        let turns = self.turns();
        let Some(giver) = self.giver(&turns) else {
            // Each of them was asked: from the first again, after a while.
            self.links.values_mut().for_each(|link| link.lacks = false);
            self.ask_after = self.now + self.waits.ask;
            return;
        };
        let (peer, to) = (Peer::Replica(giver), turns[giver as usize]);
        if to <= turn {
            self.lacks(peer);
            return;
        }
        self.asking = Some(Asking {
            peer,
            from: turn,
            to,
            since: self.now,
        });
        self.send_to(peer, Body::Ask { from: turn, to });
        let from = turn;
        self.outputs
            .push(Output::Say(Event::Asked { peer, from, to }));
    }

    /// When another is to be asked, if this one is behind.
    pub(super) fn ask_at(&self) -> Duration {
        let far = self.best() >= self.member.turn().saturating_add(self.group.replicas());
        let due = match (self.asking, far) {
            (Some(asking), _) => asking.since + self.waits.ask,
            // What is so far ahead is not handed out again by itself.
            (None, true) => Duration::ZERO,
            (None, false) => self.moved + self.waits.ask,
        };
        due.max(self.ask_after)
    }

    /// The highest turn told by a replica that is up.
    pub(super) fn best(&self) -> u32 {
        let told = (0..self.group.replicas()).filter_map(|k| self.told(k));
        told.max().unwrap_or(0)
    }

    /// The turn that a replica has told, while it is up.
    pub(super) fn told(&self, k: u32) -> Option<u32> {
        let link = self.links.get(&Peer::Replica(k))?;
        let digest = link.digest.filter(|_| link.up)?;
        Some(digest.turn)
    }

    /// The turns as a choice of the giver is told them: who lacks what is asked for counts as down.
    fn turns(&self) -> Vec<u32> {
        let lacks = |k| {
            self.links
                .get(&Peer::Replica(k))
                .is_some_and(|link| link.lacks)
        };
        let told = |k| self.told(k).filter(|_| !lacks(k)).unwrap_or(DOWN);
        (0..self.group.replicas()).map(told).collect()
    }

    fn lacks(&mut self, peer: Peer) {
        if let Some(link) = self.links.get_mut(&peer) {
            link.lacks = true;
        }
    }

    /// Whom to ask.
    fn giver(&self, turns: &[u32]) -> Option<u32> {
        match &self.member {
            Member::Replica(durable) => durable.giver(turns).ok().map(u32::from),
            Member::Station(_) => {
                let up = (0_u32..).zip(turns).filter(|(_, &turn)| turn != DOWN);
                up.max_by_key(|&(_, &turn)| turn).map(|(k, _)| k)
            }
        }
    }

    /// Answers a peer that asks for blocks. A station has none to give.
    pub(super) fn answer(&mut self, peer: Peer, from: u32, to: u32) {
        if self.own.is_none() {
            return;
        }
        let turn = self.member.turn();
        let to = to.min(turn).min(from.saturating_add(KEPT as u32));
        let blocks = match from < to {
            true => self.member.blocks(from..to),
            false => Ok(Vec::new()),
        };
        let blocks = blocks.unwrap_or_else(|failure| {
            let words = failure.to_string();
            self.outputs
                .push(Output::Say(Event::Unread { peer, words }));
            Vec::new()
        });
        self.send_to(peer, Body::Blocks { from, turn, blocks });
    }

    /// Takes blocks that came from a peer, where they were asked for.
    pub(super) fn given(
        &mut self,
        peer: Peer,
        from: u32,
        blocks: &[[u8; BLOCK]],
    ) -> Result<(), Event> {
        let asked = |asking: &Asking| asking.peer == peer && asking.from == from;
        let Some(asking) = self.asking.filter(asked) else {
            self.outputs.push(Output::Say(Event::Unasked { peer }));
            return Ok(());
        };
        self.asking = None;
        let before = self.member.turn();
        let near = asking.to.saturating_sub(before) <= KEPT as u32 && self.pending.is_empty();
        let taken = match near && self.own.is_some() {
            true => self.take_window(peer, from, blocks)?,
            false => self.take_slots(from, blocks)?,
        };
        if let Err(refusal) = taken {
            self.refused(peer, None, refusal);
        }
        self.follow()?;
        self.settle()?;
        let to = self.member.turn();
        match before < to {
            true => self.outputs.push(Output::Say(Event::Given {
                peer,
                from: before,
                to,
            })),
            false => self.lacks(peer),
        }
        Ok(())
    }

    /// By a giving: they are of the giver's window.
    fn take_window(
        &mut self,
        peer: Peer,
        from: u32,
        blocks: &[[u8; BLOCK]],
    ) -> Result<Result<(), Refusal>, Event> {
        let mut window = Window::new();
        let good = (from..)
            .zip(blocks)
            .take_while(|(slot, block)| window.put(*slot, *block));
        let end = from + good.count() as u32;
        let mut turns = vec![DOWN; self.group.replicas() as usize];
        if let Peer::Replica(k) = peer {
            turns[k as usize] = end;
        }
        let Some(durable) = self.member.replica() else {
            return Ok(Ok(()));
        };
        match durable.give(&turns, &window) {
            Ok(given) => Ok(given.ended.map_or(Ok(()), Err)),
            Err(Failure::Refused(refusal)) => Ok(Err(refusal)),
            Err(failure) => Err(failure.into()),
        }
    }

    /// One by one, with the notices on the way: they are of a journal, or this is a station.
    fn take_slots(
        &mut self,
        from: u32,
        blocks: &[[u8; BLOCK]],
    ) -> Result<Result<(), Refusal>, Event> {
        for (slot, block) in (from..).zip(blocks) {
            self.offer_notices()?;
            match Block::read(block) {
                Ok(block) if block.slot() != slot => return Ok(Err(Refusal::WrongForm)),
                Ok(_) => {}
                Err(refusal) => return Ok(Err(refusal)),
            }
            if slot != self.member.turn() {
                continue;
            }
            match self.member.take_slot(block) {
                Ok(()) => self.follow()?,
                Err(Failure::Refused(refusal)) => return Ok(Err(refusal)),
                Err(failure) => return Err(failure.into()),
            }
        }
        Ok(Ok(()))
    }
}

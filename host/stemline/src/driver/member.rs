//! The replica with its journal, or the station, behind one set of calls.

use std::ops::Range;

use super::Group;
use crate::digest::Digests;
use crate::{Block, Digest, Durable, Failure, Memory, Notice, Refusal, Report, Station, BLOCK};

/// What a driver drives.
#[derive(Debug)]
pub(super) enum Member {
    Replica(Box<Durable>),
    Station(Box<Fed>),
}

/// A station, with what the journal of a replica would say.
#[derive(Debug)]
pub(super) struct Fed {
    pub station: Station,
    digests: Digests,
    notices: Vec<Notice>,
}

impl Fed {
    pub fn new(group: &Group) -> Result<Fed, Refusal> {
        Ok(Fed {
            station: Station::new(group.replicas(), group.values())?,
            digests: Digests::new(group.head()),
            notices: Vec::new(),
        })
    }

    /// Brings the digests to the turn.
    fn follow(&mut self) {
        let memory = self.station.memory();
        for slot in self.digests.last().turn..memory.turn.slot {
            // It is called behind each slot, so the window has it.
            let block = memory.window.block(slot);
            if let Some(block) = block.and_then(|block| Block::read(block).ok()) {
                self.digests.add(&block);
            }
        }
    }
}

impl Member {
    pub fn memory(&self) -> &Memory {
        match self {
            Member::Replica(durable) => durable.memory(),
            Member::Station(fed) => fed.station.memory(),
        }
    }

    pub fn report(&self) -> Report {
        match self {
            Member::Replica(durable) => durable.report(),
            Member::Station(fed) => fed.station.report(),
        }
    }

    pub fn turn(&self) -> u32 {
        self.memory().turn.slot
    }

    /// The replica, where it is one.
    pub fn replica(&mut self) -> Option<&mut Durable> {
        match self {
            Member::Replica(durable) => Some(durable),
            Member::Station(_) => None,
        }
    }

    pub fn is_turn(&self) -> bool {
        match self {
            Member::Replica(durable) => durable.is_turn(),
            Member::Station(_) => false,
        }
    }

    pub fn waits(&self) -> bool {
        match self {
            Member::Replica(durable) => durable.waits(),
            Member::Station(fed) => fed.station.waits(),
        }
    }

    pub fn deliver(&mut self, block: &[u8; BLOCK]) -> Result<(), Failure> {
        match self {
            Member::Replica(durable) => durable.deliver(block),
            Member::Station(fed) => Ok(fed.station.deliver(block)?),
        }
    }

    pub fn work(&mut self) -> Result<(), Failure> {
        match self {
            Member::Replica(durable) => durable.work().map(|_| ()),
            Member::Station(fed) => {
                fed.station.work()?;
                fed.follow();
                Ok(())
            }
        }
    }

    pub fn take_slot(&mut self, block: &[u8; BLOCK]) -> Result<(), Failure> {
        match self {
            Member::Replica(durable) => durable.take_slot(block).map(|_| ()),
            Member::Station(fed) => {
                fed.station.take_slot(block)?;
                fed.follow();
                Ok(())
            }
        }
    }

    pub fn notices(&self) -> &[Notice] {
        match self {
            Member::Replica(durable) => durable.notices(),
            Member::Station(fed) => &fed.notices,
        }
    }

    pub fn notice(&mut self, notice: Notice) -> Result<(), Failure> {
        match (self, notice) {
            (Member::Replica(durable), Notice::Out { replica, slot }) => durable.out(replica, slot),
            (Member::Replica(durable), Notice::Back { replica, slot }) => {
                durable.back(replica, slot)
            }
            (Member::Station(fed), notice) => {
                match notice {
                    Notice::Out { replica, slot } => fed.station.out(replica, slot)?,
                    Notice::Back { replica, slot } => fed.station.back(replica, slot)?,
                }
                fed.notices.push(notice);
                Ok(())
            }
        }
    }

    pub fn digest(&self) -> Digest {
        match self {
            Member::Replica(durable) => durable.digest(),
            Member::Station(fed) => fed.digests.last(),
        }
    }

    /// What was committed by a turn, if that is known.
    pub fn digest_at(&self, turn: u32) -> Option<Digest> {
        match self {
            Member::Replica(durable) => durable.digest_at(turn),
            Member::Station(fed) => fed.digests.at(turn),
        }
    }

    /// The blocks of these slots, from the window or the journal. A station gives none.
    pub fn blocks(&mut self, slots: Range<u32>) -> Result<Vec<[u8; BLOCK]>, Failure> {
        let Member::Replica(durable) = self else {
            return Ok(Vec::new());
        };
        let window = durable.window();
        let kept = slots.clone().map(|slot| window.block(slot).copied());
        match kept.collect::<Option<Vec<_>>>() {
            Some(blocks) => Ok(blocks),
            None => durable.blocks(slots),
        }
    }
}

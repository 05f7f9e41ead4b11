//! Stations beside the replicas of a group (document 02, Req 05). Nobody waits for them, so they fall
//! behind by any number of slots, and are offered again what they refused by 18.

use super::{Group, Subject, Tally};
use crate::block;
use crate::refusal::{FAR_SLOT, SLOT_OUT};
use crate::samples::Random;
use crate::trace::{Answer, Call};

impl<S: Subject> Group<S> {
    /// Puts a station, just made with [`super::start_values`], behind the members that are there, and
    /// gives its index.
    pub fn add_station(&mut self, station: S) -> usize {
        let k = self.observer.add_station();
        self.waits.add_member();
        self.tallies.push(Tally::of_station(station.report()));
        self.members.push(station);
        self.stations.push(k);
        k
    }

    /// A station loses its memory and is made anew. The new one is another member; the old one stays
    /// as it was, and gets no more calls.
    pub fn renew_station(&mut self, lost: usize, station: S) -> usize {
        self.stations.retain(|&k| k != lost);
        self.add_station(station)
    }

    /// The indexes of the stations that get calls. Those of the replicas are below all of them.
    pub fn stations(&self) -> &[usize] {
        &self.stations
    }

    /// The station of the next random call, if it is one's: so few that stations fall behind.
    pub(super) fn random_station(&self, random: &mut Random) -> Option<usize> {
        let is_stations = !self.stations.is_empty() && random.below(4) == 0;
        is_stations.then(|| random.pick(&self.stations))
    }

    /// What became of a block that was handed out. Other bytes say nothing.
    pub(super) fn feed_delivery(&mut self, k: usize, call: &Call, answer: &Result<Answer, u8>) {
        let Call::Deliver { bytes } = call else {
            return;
        };
        let Ok(block) = bytes.as_slice().try_into() else {
            return;
        };
        let slot = block::header(block).slot;
        if self.blocks.get(&slot).is_none_or(|sent| **sent != *block) {
            return;
        }
        // Who may still have to take it was not given it.
        if !matches!(answer, Err(FAR_SLOT | SLOT_OUT)) {
            self.given.insert((k, slot));
        }
        match answer {
            Err(FAR_SLOT) if k < self.replicas => self.seen.far_at_replicas += 1,
            Err(FAR_SLOT) => {
                self.seen.far_at_stations += 1;
                self.refused_far.insert((k, slot));
            }
            Ok(_) => self.seen.offered_again += u64::from(self.refused_far.remove(&(k, slot))),
            Err(_) => {}
        }
    }

    /// Brings every station to the end of the blocks that were handed out: those of its places and one
    /// more, which it refuses and is offered again after the works.
    pub(super) fn settle_stations(&mut self) {
        for k in self.stations.clone() {
            loop {
                let turn = self.tallies[k].report.turn;
                self.take_all(k);
                self.hand(k, self.replicas + 1);
                self.work_off(k);
                if self.tallies[k].report.turn == turn {
                    break;
                }
            }
        }
    }
}

//! The stations of a group. Nobody waits for them: they fall behind, are refused blocks by 18 and are
//! offered them again, now and then from a replica's journal.

use std::collections::BTreeSet;

use super::group::Group;
use crate::block::{self, BLOCK};
use crate::replica::OPEN;
use crate::samples::{self, block_of, damage, Random};
use crate::workload::List;

pub(super) struct Station {
    pub place: usize,
    /// The slots of the blocks that it accepted.
    accepted: BTreeSet<u32>,
    /// Whether it gets no block for now.
    lags: bool,
}

impl Group {
    /// Makes a station beside the group.
    pub fn add_station(&mut self, list: &mut List, place: usize) {
        let (size, value) = (self.size(), self.value);
        list.call(&format!("A {place} {size} {value}"));
        self.stations.push(Station {
            place,
            accepted: BTreeSet::new(),
            lags: false,
        });
    }

    /// One random call at a random station.
    pub fn station_call(&mut self, list: &mut List, random: &mut Random, items: usize) {
        let at = random.below(self.stations.len());
        let place = self.stations[at].place;
        if random.below(50) == 0 {
            self.stations[at].lags ^= true;
        }
        match random.below(40) {
            0 => drop(list.call(&format!("S {place}"))),
            1 => drop(list.call(&format!("K {place}"))),
            2 => not_its_own(list, random, place),
            3..6 => self.odd_offer(list, random, at),
            6..24 => self.move_station(list, random, at),
            _ => read_call(list, random, place, items),
        }
    }

    /// A station loses its memory, and is made anew.
    pub fn renew_station(&mut self, list: &mut List, random: &mut Random) {
        let at = random.below(self.stations.len());
        let Station { place, .. } = self.stations.swap_remove(at);
        self.add_station(list, place);
    }

    /// Brings every station to the end of the blocks, and shows it.
    pub fn settle_stations(&mut self, list: &mut List) {
        for at in 0..self.stations.len() {
            loop {
                let turn = self.station_turn(list, at);
                for slot in self.lacks(list, at).into_iter().take(self.size() + 1) {
                    self.offer(list, at, slot);
                }
                let place = self.stations[at].place;
                list.work_off(place);
                if self.station_turn(list, at) == turn {
                    list.calls(&format!("Q {place}, V {place}"));
                    break;
                }
            }
        }
    }

    /// A work where one is due, else a block of those that it lacks, of which it has no place for some.
    fn move_station(&mut self, list: &mut List, random: &mut Random, at: usize) {
        let Station {
            place,
            ref accepted,
            lags,
        } = self.stations[at];
        let lacks = self.lacks(list, at);
        if accepted.contains(&self.station_turn(list, at)) {
            list.call(&format!("K {place}"));
        } else if !lags && !lacks.is_empty() {
            let near = lacks.len().min(2 * self.size());
            self.offer(list, at, lacks[random.below(near)]);
        } else {
            list.call(&format!("Q {place}"));
        }
    }

    /// A block that is repeated, damaged, of another group, or past the places.
    fn odd_offer(&mut self, list: &mut List, random: &mut Random, at: usize) {
        let (place, size) = (self.stations[at].place, self.size());
        let turn = self.station_turn(list, at);
        let past = turn + (size + random.below(size)) as u32;
        let slot = random.below(turn as usize + size) as u32;
        let block = match random.below(4) {
            0 => block_of(size as u32, past, &[(9, &[(0, 0)])]),
            1 => block_of(2 + (size as u32 + 1) % 5, turn, &[]),
            2 if self.blocks.contains_key(&slot) => return self.offer(list, at, slot),
            _ => {
                let mut block = self.handed_out(list, slot).unwrap_or([0; BLOCK]);
                damage(random, &mut block);
                block
            }
        };
        list.deliver_bytes(place, &block);
    }

    /// The slots from its turn on whose blocks were handed out and that it has not.
    fn lacks(&self, list: &List, at: usize) -> Vec<u32> {
        let slots = self.blocks.range(self.station_turn(list, at)..);
        let lacks = slots.filter(|(slot, _)| !self.stations[at].accepted.contains(slot));
        lacks.map(|(&slot, _)| slot).collect()
    }

    /// Delivers the block of a slot to a station: some from a journal, others as they were sent.
    fn offer(&mut self, list: &mut List, at: usize, slot: u32) {
        let place = self.stations[at].place;
        let number = self.blocks[&slot];
        let kept = list.replay.block(number).is_some() && !slot.is_multiple_of(8);
        let answer = match self.handed_out(list, slot) {
            Some(block) if !kept => list.deliver_bytes(place, &block),
            _ => list.call(&format!("D {place} {number}")),
        };
        if answer == "0" {
            self.stations[at].accepted.insert(slot);
        }
    }

    /// A block that was handed out, from its sender's journal.
    fn handed_out(&self, list: &List, slot: u32) -> Option<[u8; BLOCK]> {
        let sender = self.place_of(slot);
        let (blocks, _) = list.replay.journal(sender)?.as_chunks();
        let block = blocks.get(slot as usize)?;
        (block::header(block).slot == slot).then_some(*block)
    }

    fn station_turn(&self, list: &List, at: usize) -> u32 {
        list.replica(self.stations[at].place).report().turn
    }
}

/// A line that is a replica's alone.
fn not_its_own(list: &mut List, random: &mut Random, place: usize) {
    let line = random.pick(&["Z * 0 0", "J * 0", "P * 01"]);
    list.call(&line.replace('*', &place.to_string()));
}

/// A call at the transactions of a station.
fn read_call(list: &mut List, random: &mut Random, place: usize, items: usize) {
    let station = list.replica(place);
    let (active, report) = (station.active_tickets(), station.report());
    if active.is_empty() || (report.open < OPEN as u32 && random.below(5) == 0) {
        list.call(&format!("B {place}"));
        return;
    }
    let ticket = match random.below(20) {
        0 => random.pick(&[0, report.tickets, report.tickets + 1, u32::MAX]),
        _ => random.pick(&active),
    };
    let item = match random.below(30) {
        0 => random.pick(&[127, 128, u32::MAX]),
        _ => random.below(items) as u32,
    };
    let line = match random.below(20) {
        0..4 => format!("C {place} {ticket}"),
        4 => format!("X {place} {ticket}"),
        5 => format!("B {place}"),
        6 | 7 => format!("W {place} {ticket} {item} {}", samples::value(random)),
        _ => format!("R {place} {ticket} {item}"),
    };
    list.call(&line);
}

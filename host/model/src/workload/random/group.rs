//! A group of replicas, and the blocks between them.

use std::collections::{BTreeMap, BTreeSet};

use super::stations::Station;
use super::{client_call, Round};
use crate::block::{self, Message, BLOCK, MAX_TICKET};
use crate::replay::KEPT;
use crate::replica::OPEN;
use crate::samples::{self, block_of, break_form, Random};
use crate::workload::List;

pub(super) struct Group {
    members: Vec<Member>,
    pub(super) stations: Vec<Station>,
    /// The value that every item started with.
    pub(super) value: i32,
    /// By slot the number of its block in the run.
    pub(super) blocks: BTreeMap<u32, u64>,
    /// The member that gets no block for now, if there is one of this index.
    withheld: usize,
}

struct Member {
    place: usize,
    own: usize,
    /// The slots of the blocks that it accepted.
    accepted: BTreeSet<u32>,
    /// The bytes that a cut leaves of its journal at least.
    floor: usize,
}

impl Group {
    /// Makes a group at places from `first` on, its numbers in an order of their own.
    pub fn make(
        list: &mut List,
        random: &mut Random,
        first: usize,
        size: usize,
        value: i32,
    ) -> Group {
        let turned = random.below(size);
        let member = |at| {
            let (place, own) = (first + at, (at + turned) % size);
            list.call(&format!("M {place} {size} {own} {value}"));
            Member {
                place,
                own,
                accepted: BTreeSet::new(),
                floor: 0,
            }
        };
        Group {
            members: (0..size).map(member).collect(),
            stations: Vec::new(),
            value,
            blocks: BTreeMap::new(),
            withheld: size,
        }
    }

    /// The places of its replicas, then those of its stations.
    pub fn places(&self) -> Vec<usize> {
        let replicas = self.members.iter().map(|member| member.place);
        let stations = self.stations.iter().map(|station| station.place);
        replicas.chain(stations).collect()
    }

    /// The number of its replicas.
    pub fn size(&self) -> usize {
        self.members.len()
    }

    /// The place of the replica that a slot belongs to.
    pub fn place_of(&self, slot: u32) -> usize {
        let owner = self.owner(slot);
        let member = self.members.iter().find(|member| member.own == owner);
        member.expect("each number has a member").place
    }

    /// One random call.
    pub fn call(&mut self, list: &mut List, random: &mut Random, round: &Round) {
        while !self.member_call(list, random, round) {}
    }

    /// A call at a random member. Most often there is none where all transactions wait for blocks
    /// and no block is due: then it is false.
    fn member_call(&mut self, list: &mut List, random: &mut Random, round: &Round) -> bool {
        let size = self.members.len();
        if random.below(200) == 0 {
            self.withheld = random.below(3 * size);
        }
        let at = random.below(size);
        let place = self.members[at].place;
        let replica = list.replica(place);
        let waits = replica.report().open == OPEN as u32 && replica.active_tickets().is_empty();
        if (waits || random.below(2) == 0) && self.turn_call(list, random, round, at) {
            return true;
        }
        if waits && random.below(20) > 0 {
            return false;
        }
        client_call(list, random, place, round);
        true
    }

    /// A call that moves a member's turn, or a delivery that should not. False if nothing is due.
    fn turn_call(
        &mut self,
        list: &mut List,
        random: &mut Random,
        round: &Round,
        at: usize,
    ) -> bool {
        let member = &self.members[at];
        let turn = self.turn(list, at);
        let due = self.due(list, at);
        match random.below(60) {
            0 => self.send(list, at),
            1 => self.work(list, at),
            2..6 if self.withheld != at => self.odd_delivery(list, random, round, at),
            6 if round.forged => {
                let slot = turn + random.below(self.members.len()) as u32;
                let block = self.forged(random, slot);
                self.deliver_block(list, at, &block);
            }
            _ if member.accepted.contains(&turn) => self.work(list, at),
            // Some time passes before a send, so that its block has records.
            7..25 if self.owner(turn) == member.own && !self.blocks.contains_key(&turn) => {
                self.send(list, at);
            }
            _ if !due.is_empty() && self.withheld != at => {
                self.deliver(list, at, random.pick(&due));
            }
            _ => return false,
        }
        true
    }

    /// A cut at a random member, and its restart from what is left. A call before it may be one that
    /// the cut ends; a block that is sent so and lost was never handed out.
    pub fn cut(&mut self, list: &mut List, random: &mut Random) {
        let at = random.below(self.members.len());
        let Member { place, floor, .. } = self.members[at];
        let slot = self.turn(list, at);
        let own = self.owner(slot) == self.members[at].own;
        let sends = own && !self.blocks.contains_key(&slot) && random.below(4) > 0;
        if sends {
            self.send(list, at);
        } else if random.below(3) == 0 {
            self.work(list, at);
        }
        let all = list.replay.journal(place).map_or(floor, <[u8]>::len);
        let any = floor + random.below(all - floor + 1);
        let left = random.pick(&[floor, all, any, any]);
        let answer = list.call(&format!("Z {place} {left} {}", self.value));
        if answer == "?" {
            return;
        }
        if sends && self.turn(list, at) <= slot {
            self.blocks.remove(&slot);
        }
        let gave_back = !answer.ends_with(&"0".repeat(2 * BLOCK));
        let length = list.replay.journal(place).map_or(0, <[u8]>::len);
        self.members[at].floor = if gave_back { length } else { 0 };
        self.members[at].accepted.clear();
    }

    /// A delivery of a block that is repeated, damaged, of others, or not of this run.
    fn odd_delivery(&mut self, list: &mut List, random: &mut Random, round: &Round, at: usize) {
        let place = self.members[at].place;
        let Some((&last, &last_number)) = self.blocks.last_key_value() else {
            return self.work(list, at);
        };
        let near = self.turn(list, at) + random.below(self.members.len()) as u32;
        let late = last.saturating_sub(random.below(12) as u32);
        let slot = random.pick(&[near, late]);
        let number = self.blocks.get(&slot).copied().unwrap_or(last_number);
        // A block that is not kept any more is taken as zeros.
        let mut block = list.replay.block(number).copied().unwrap_or([0; BLOCK]);
        let sent = list.replay.sent();
        match random.below(20) {
            0..6 => self.deliver(list, at, number),
            6..11 => {
                let bit = random.below(8 * BLOCK);
                list.call(&format!("F {place} {number} {bit}"));
            }
            11..13 => {
                let stray = sent - 1 - random.below(KEPT) as u64;
                let n = list.replay.block(stray).map(|block| usize::from(block[2]));
                let foreign = round.forged || n != Some(self.members.len());
                self.deliver(list, at, if foreign { stray } else { number });
            }
            13 => {
                let lost = sent.saturating_sub((KEPT + 1 + random.below(100)) as u64);
                self.deliver(list, at, random.pick(&[lost, sent, sent + 1]));
            }
            14 => {
                let mut bytes = block.to_vec();
                bytes.resize(random.pick(&[0, 1, 2, 16, 100, 511, 513, 520]), 0);
                list.deliver_bytes(place, &bytes);
            }
            15 => {
                break_form(random, &mut block);
                list.deliver_bytes(place, &block);
            }
            16 => {
                let block = self.out_of_place(list, random, at);
                list.deliver_bytes(place, &block);
            }
            17 => {
                random.fill(&mut block);
                list.deliver_bytes(place, &block);
            }
            _ => self.deliver_block(list, at, &block),
        }
    }

    /// A block past a member's reach, or of its own next slot with a record that it never had.
    fn out_of_place(&self, list: &List, random: &mut Random, at: usize) -> [u8; BLOCK] {
        let (turn, size) = (self.turn(list, at), self.members.len());
        let ahead = (self.members[at].own + size - self.owner(turn)) % size;
        let past = size + random.below(2 * size);
        let slot = turn + random.pick(&[ahead, past]) as u32;
        block_of(size as u32, slot, &[(MAX_TICKET, &[(0, 0)])])
    }

    /// A well-formed block of a slot that no replica sent.
    fn forged(&self, random: &mut Random, slot: u32) -> [u8; BLOCK] {
        let records = 1 + random.below(3);
        block::encode(&Message {
            sender: self.owner(slot) as u8,
            replicas: self.members.len() as u8,
            slot,
            ..samples::to_commit(random, records)
        })
    }

    /// Lets every member send twice and brings all blocks to all, so that all end at one turn, the
    /// stations too, and shows them.
    pub fn settle(&mut self, list: &mut List) {
        let size = self.members.len();
        for step in 0..=2 * size {
            for at in 0..size {
                let turn = self.turn(list, at);
                let own = self.owner(turn) == self.members[at].own;
                if step < 2 * size && own && !self.blocks.contains_key(&turn) {
                    self.send(list, at);
                }
                for number in self.due(list, at) {
                    self.deliver(list, at, number);
                }
                list.work_off(self.members[at].place);
            }
        }
        for Member { place, .. } in &self.members {
            list.calls(&format!("Q {place}, V {place}"));
        }
        self.settle_stations(list);
    }

    /// The blocks within a member's reach that it has not, by their number in the run.
    fn due(&self, list: &List, at: usize) -> Vec<u64> {
        let turn = self.turn(list, at);
        let reach = self.blocks.range(turn..turn + self.members.len() as u32);
        let missing = reach.filter(|(slot, _)| !self.members[at].accepted.contains(slot));
        missing.map(|(_, &number)| number).collect()
    }

    fn turn(&self, list: &List, at: usize) -> u32 {
        list.replica(self.members[at].place).report().turn
    }

    fn owner(&self, slot: u32) -> usize {
        slot as usize % self.members.len()
    }

    fn send(&mut self, list: &mut List, at: usize) {
        let (turn, number) = (self.turn(list, at), list.replay.sent());
        list.call(&format!("S {}", self.members[at].place));
        if list.replay.sent() > number {
            self.blocks.insert(turn, number);
            let journal = list.replay.journal(self.members[at].place);
            self.members[at].floor = journal.map_or(0, <[u8]>::len);
        }
    }

    fn work(&mut self, list: &mut List, at: usize) {
        list.call(&format!("K {}", self.members[at].place));
    }

    fn deliver(&mut self, list: &mut List, at: usize, number: u64) {
        let line = format!("D {} {number}", self.members[at].place);
        if list.call(&line) == "0" {
            let slot = list
                .replay
                .block(number)
                .map(|block| block::header(block).slot);
            self.members[at].accepted.extend(slot);
        }
    }

    fn deliver_block(&mut self, list: &mut List, at: usize, block: &[u8; BLOCK]) {
        if list.deliver_bytes(self.members[at].place, block) == "0" {
            self.members[at].accepted.insert(block::header(block).slot);
        }
    }
}

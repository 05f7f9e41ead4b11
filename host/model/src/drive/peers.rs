//! One replica or station among forged peers: the calls that it gets.

use super::{local_call, Seen, Style, Tally};
use crate::block::{self, Entry, Message, Record, BLOCK, MAX_TICKET, NEXT, TO_COMMIT};
use crate::giving::{self, DOWN};
use crate::replica::{Report, SLOTS};
use crate::samples::{self, break_form, damage, Random};
use crate::trace::{Answer, Call};
use crate::window::{Window, WINDOW};

/// What is known of a replica from its calls and answers, and so what it may be sent next.
pub struct Peers {
    n: u32,
    /// What its answers amount to.
    pub tally: Tally,
    /// What the run met.
    pub seen: Seen,
    /// The blocks that were delivered or sent last.
    recent: Vec<[u8; BLOCK]>,
    /// The last own block.
    own: Option<[u8; BLOCK]>,
}

impl Peers {
    /// The peers of a replica in a group of `n`, of which no call is seen yet.
    pub fn new(n: u32, own: u32, report: Report) -> Peers {
        Peers::with(n, Tally::new(own as usize, report))
    }

    /// The peers of a station beside a group of `n`, of which no call is seen yet.
    pub fn of_station(n: u32, report: Report) -> Peers {
        Peers::with(n, Tally::of_station(report))
    }

    fn with(n: u32, tally: Tally) -> Peers {
        Peers {
            n,
            tally,
            seen: Seen::default(),
            recent: Vec::new(),
            own: None,
        }
    }

    /// A random call.
    pub fn random_call(&self, random: &mut Random, style: Style) -> Call {
        if style.notices > 0 && random.below(100) < style.notices {
            let Tally {
                report, notices, ..
            } = &self.tally;
            return Call::Notice(samples::notice(random, self.n, report.turn, notices));
        }
        match random.below(50) {
            _ if random.below(100) < style.local => local_call(random, &self.tally, style),
            0..8 => Call::Send,
            8..28 => Call::Deliver {
                bytes: self.random_bytes(random, style.items),
            },
            _ => Call::Work,
        }
    }

    /// Turns that are told for a giving, and the window that is lent: most often with all that is to be given.
    /// The blocks at the ends of that are of their slots; between them some may be damaged, or of others.
    pub fn random_giving(&self, random: &mut Random, style: Style) -> (Vec<u32>, Window) {
        let (n, turn) = (self.n as usize, self.tally.report.turn);
        let near = turn + 1 + random.below(2 * n) as u32;
        let to = match random.below(10) {
            0 => turn.saturating_sub(random.below(3) as u32),
            1 => turn + random.pick(&[62, 63, 64, 65, 66]),
            2 => random.pick(&[DOWN - 1, SLOTS, SLOTS + 1, near + 70]),
            _ => near,
        };
        let mut told = |_| match random.below(6) {
            0 => DOWN,
            1 => to,
            _ => to.saturating_sub(random.below(4) as u32),
        };
        let mut turns: Vec<u32> = (0..n).map(&mut told).collect();
        if random.below(25) == 0 {
            turns.resize(random.pick(&[0, n - 1, n + 1]), to);
        }
        let own = self.tally.number().unwrap_or(0);
        let giver = giving::giver(own, &turns).map_or(0, usize::from);
        let to = turns.get(giver).copied().unwrap_or(0).min(SLOTS);
        let last = match random.below(20) {
            0 => to.saturating_sub(1),
            1 => to + random.below(3) as u32,
            _ => to,
        };
        let last = last.min(SLOTS);
        let first = match random.below(20) {
            0 => turn + 1,
            1..10 => turn,
            _ => turn.saturating_sub(random.below(5) as u32),
        };
        let first = first.max(last.saturating_sub(WINDOW as u32)).min(last);
        // Those at the ends of what is to be given say whether the window has it.
        let ends = [turn, to.saturating_sub(1)];
        let block = |slot| self.kept(random, slot, !ends.contains(&slot), style.items);
        let blocks: Vec<_> = (first..last).map(block).collect();
        (turns, Window::of(first, blocks))
    }

    /// A block of a window: what was sent or taken for the slot, if that is known, or a forged one.
    fn kept(&self, random: &mut Random, slot: u32, any: bool, items: usize) -> [u8; BLOCK] {
        let of_slot = |block: &&[u8; BLOCK]| block::header(block).slot == slot;
        let known = self.recent.iter().rev().chain(&self.own).find(of_slot);
        let mut block = match known {
            Some(block) => *block,
            None => self.forged(random, slot, items),
        };
        match random.below(60) {
            // Behind slot and kind.
            0 => damage(random, &mut block[16..]),
            1 if any => break_form(random, &mut block),
            2 if any => block = self.forged(random, (slot + 1).min(SLOTS - 1), items),
            3 if any => block = block::encode(&samples::message(random)),
            _ => {}
        }
        block
    }

    /// Takes in the answer to a call.
    pub fn feed(&mut self, call: &Call, answer: &Result<Answer, u8>) {
        self.seen.feed(self.n, &self.tally, call, answer);
        self.tally.feed(call, answer);
        self.keep(call, answer);
    }

    fn keep(&mut self, call: &Call, answer: &Result<Answer, u8>) {
        let block = match (call, answer) {
            (_, Ok(Answer::Block(block))) => {
                self.own = Some(**block);
                **block
            }
            (Call::Deliver { bytes }, Ok(_)) => bytes.as_slice().try_into().unwrap(),
            _ => return,
        };
        if self.recent.len() == 12 {
            self.recent.remove(0);
        }
        self.recent.push(block);
    }

    /// Bytes to deliver: forged for the turn and around it, own, repeated, damaged.
    fn random_bytes(&self, random: &mut Random, items: usize) -> Vec<u8> {
        let turn = self.tally.report.turn;
        let near = turn + random.below(self.n as usize) as u32;
        let far = (turn + random.below(12) as u32).saturating_sub(4);
        let slot = random.pick(&[turn, turn, turn, near, near, far]);
        let mut block = self.forged(random, slot.min(SLOTS - 1), items);
        match random.below(30) {
            0..8 => block = self.own.unwrap_or(block),
            8..10 if !self.recent.is_empty() => block = random.pick(&self.recent),
            10 => block = block::encode(&samples::message(random)),
            11 => break_form(random, &mut block),
            12 => damage(random, &mut block),
            13 => random.fill(&mut block),
            14 => {
                let mut bytes = block.to_vec();
                bytes.resize(random.below(600), 0);
                return bytes;
            }
            _ => {}
        }
        block.to_vec()
    }

    /// A well-formed block that no replica sent.
    fn forged(&self, random: &mut Random, slot: u32, items: usize) -> [u8; BLOCK] {
        let count = random.pick(&[0, 1, 1, 2, 3, 6]);
        let first = 1 + random.below(MAX_TICKET as usize - 6) as u32;
        let records: Vec<Record> = (0..count)
            .map(|j| Record {
                ticket: first + j,
                entries: forged_entries(random, items),
            })
            .collect();
        block::encode(&Message {
            kind: if count == 0 { NEXT } else { TO_COMMIT },
            sender: (slot % self.n) as u8,
            replicas: self.n as u8,
            slot,
            records,
        })
    }
}

fn forged_entries(random: &mut Random, items: usize) -> Vec<Entry> {
    let mut chosen: Vec<u8> = (0..1 + random.below(8))
        .map(|_| random.below(items) as u8)
        .collect();
    chosen.sort_unstable();
    chosen.dedup();
    chosen
        .into_iter()
        .map(|item| Entry {
            item,
            value: samples::value(random),
        })
        .collect()
}

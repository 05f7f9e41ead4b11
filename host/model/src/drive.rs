//! For tests: replicas that are driven by hand or at random. Here whole groups under an observer; in
//! `power` their cuts and restarts; in `stations` the stations beside them; in `service` the notices of
//! a membership service, and in `waiting` and `progress` what document 02's Req 06 promises with them; in
//! `givings` those of Req 11; in `peers` one replica or station among forged peers.

mod givings;
mod peers;
mod power;
mod progress;
mod service;
mod stations;
mod tally;
mod waiting;

use std::collections::{BTreeMap, BTreeSet};

use crate::block::{self, BLOCK, MAX_TICKET};
use crate::observer::Observer;
use crate::replica::ITEMS;
use crate::samples::{self, block_of, break_form, damage, Random};
use crate::trace::{Answer, Call};

pub use self::givings::{Gives, Givings};
pub use self::peers::Peers;
pub use self::power::{Machine, Powered};
pub use self::tally::{Seen, Subject, Tally};

use self::service::Service;
use self::waiting::Waits;

/// The values that every test's replicas start with: item i has 10·i − 600.
pub fn start_values() -> [i32; ITEMS] {
    std::array::from_fn(|item| 10 * item as i32 - 600)
}

/// More works than a test's blocks need.
const WORKS: usize = 20_000;

/// How the random calls of a run are chosen.
#[derive(Clone, Copy)]
pub struct Style {
    /// Items below this number are used: the fewer, the more conflicts.
    pub items: usize,
    /// Of a hundred calls, so many are about transactions: the more, the fuller the blocks.
    pub local: usize,
    /// Of a hundred of these, so many ask: the fewer, the larger the writesets.
    pub asks: usize,
    /// Of a hundred calls, so many are about notices.
    pub notices: usize,
}

/// Two styles with many conflicts, one with full blocks, one with large writesets.
pub const STYLES: [Style; 4] = [
    Style::new(6, 40, 20),
    Style::new(24, 40, 15),
    Style::new(128, 75, 30),
    Style::new(128, 50, 5),
];

impl Style {
    /// Items, local calls and asks of a style, without notices.
    pub const fn new(items: usize, local: usize, asks: usize) -> Style {
        Style {
            items,
            local,
            asks,
            notices: 0,
        }
    }

    /// The same with so many calls of a hundred about notices: at a group those of a membership service,
    /// at one replica or station among peers any.
    pub const fn with_notices(self, notices: usize) -> Style {
        Style { notices, ..self }
    }
}

/// A group, what its calls said, and the blocks that it handed out.
pub struct Group<S> {
    /// The replicas, by their number, and the stations behind them.
    pub members: Vec<S>,
    /// The members that are replicas.
    replicas: usize,
    /// The stations that get calls.
    stations: Vec<usize>,
    /// What the answers of each amount to.
    pub tallies: Vec<Tally>,
    /// What the calls and answers of all amount to.
    pub observer: Observer,
    /// By slot. Of a slot that is sent twice, the first.
    blocks: BTreeMap<u32, Box<[u8; BLOCK]>>,
    /// What the run met.
    pub seen: Seen,
    style: Style,
    /// The member that gets no block for now; most often there is none of this index.
    withheld: usize,
    /// Station and slot of the blocks handed out that it refused by 18 and has not taken since.
    refused_far: BTreeSet<(usize, u32)>,
    /// Member and slot of the blocks handed out that it was given since it was made or restarted.
    given: BTreeSet<(usize, u32)>,
    service: Service,
    waits: Waits,
    /// Per replica its values when it came to its turn.
    reached: Vec<[i32; ITEMS]>,
    /// What the givings met, and what was wrong with them.
    pub givings: Givings,
}

impl<S: Subject> Group<S> {
    /// A group of replicas of which no call is seen yet.
    pub fn new(members: Vec<S>, style: Style) -> Group<S> {
        let tallies = members.iter().enumerate();
        let first = members.first().map_or(0, |m| m.report().turn);
        Group {
            tallies: tallies.map(|(k, m)| Tally::new(k, m.report())).collect(),
            observer: Observer::new(members.len(), start_values()).late(first),
            blocks: BTreeMap::new(),
            seen: Seen::default(),
            style,
            withheld: members.len(),
            replicas: members.len(),
            stations: Vec::new(),
            refused_far: BTreeSet::new(),
            given: BTreeSet::new(),
            service: Service::new(members.len()),
            waits: Waits::new(members.len()),
            reached: members.iter().map(S::values).collect(),
            givings: Givings::default(),
            members,
        }
    }

    /// One call at one member.
    pub fn call(&mut self, k: usize, call: &Call) -> Result<Answer, u8> {
        let turn = self.tallies[k].report.turn;
        let answer = self.members[k].call(call);
        self.feed(k, call, &answer);
        self.reach(k, turn);
        answer
    }

    /// Takes in a call at a member and its answer.
    fn feed(&mut self, k: usize, call: &Call, answer: &Result<Answer, u8>) {
        self.observer.feed(k, call, answer);
        let n = self.replicas as u32;
        self.seen.feed(n, &self.tallies[k], call, answer);
        let before = (self.tallies[k].report.turn, self.tallies[k].is_out(n));
        self.tallies[k].feed(call, answer);
        self.waits
            .feed(n, k, before, call, answer, &self.tallies[k]);
        self.feed_delivery(k, call, answer);
        if let Ok(Answer::Block(block)) = answer {
            let slot = block::header(block).slot;
            self.blocks.entry(slot).or_insert_with(|| block.clone());
        }
    }

    /// Keeps the values of a replica that has just come from a turn to another.
    fn reach(&mut self, k: usize, before: u32) {
        if k < self.replicas && self.tallies[k].report.turn != before {
            self.reached[k] = self.members[k].values();
        }
    }

    /// One random call. Blocks arrive late, early, repeated, damaged, or not at all for a while.
    pub fn random_call(&mut self, random: &mut Random) {
        let n = self.replicas;
        if self.style.notices > 0 && random.below(100) < self.style.notices {
            return self.random_notice(random);
        }
        if random.below(200) == 0 {
            self.withheld = random.below(3 * n);
        }
        let mut k = match self.random_station(random) {
            Some(station) => station,
            None => random.below(n),
        };
        let call = match random.below(60) {
            _ if random.below(100) < self.style.local => {
                local_call(random, &self.tallies[k], self.style)
            }
            0..10 => {
                // Most sends would be at another's slot.
                if random.below(4) > 0 {
                    k = self.sender().unwrap_or(k);
                }
                Call::Send
            }
            10..35 if self.withheld != k => match self.random_bytes(random, k) {
                Some(bytes) => Call::Deliver { bytes },
                None => Call::Work,
            },
            _ => Call::Work,
        };
        if self.is_closed(k) || !self.hears_first(k, &call) {
            return;
        }
        // A refused call answers, and no more; an answer is checked by the tests.
        let _ = self.call(k, &call);
    }

    /// A replica that is at a slot of its own, which is not out there.
    pub fn sender(&self) -> Option<usize> {
        let n = self.replicas;
        let at_own = |k: usize| self.tallies[k].report.turn as usize % n == k;
        let sends = |k: usize| !self.is_closed(k) && !self.tallies[k].is_out(n as u32);
        (0..n).find(|&k| at_own(k) && sends(k))
    }

    /// A block that was handed out, or bytes that no replica may take; `None` before any send.
    fn random_bytes(&self, random: &mut Random, k: usize) -> Option<Vec<u8>> {
        let turn = self.tallies[k].report.turn;
        let n = self.replicas;
        let first = *self.blocks.keys().next()?;
        // Of what a station lacks it is offered some beyond its places too.
        let near = self.blocks.range(turn..).take(2 * n).count();
        // Out slots have no block.
        let (from, nth) = match random.below(10) {
            1.. if near > 0 => (turn, random.below(near)),
            _ => (first, random.below(self.blocks.len())),
        };
        let mut block = **self.blocks.range(from..).nth(nth)?.1;
        match random.below(50) {
            0 => damage(random, &mut block),
            1 => {
                let mut bytes = block.to_vec();
                bytes.resize(random.below(BLOCK), 0);
                return Some(bytes);
            }
            2 => break_form(random, &mut block),
            // Of another group.
            3 => {
                let message = samples::message(random);
                if usize::from(message.replicas) != n {
                    block = block::encode(&message);
                }
            }
            // Past the window; and of the replica itself, with a record that it never had. A station
            // would take that from whatever sender.
            4 | 5 => {
                let far = turn + (n + random.below(2 * n)) as u32;
                let own = (turn..far).find(|slot| *slot as usize % n == k);
                let slot = random.pick(&[own.unwrap_or(far), far]);
                block = block_of(n as u32, slot, &[(MAX_TICKET, &[(0, 0)])]);
            }
            _ => {}
        }
        Some(block.to_vec())
    }

    /// Lets every replica that is not closed send, gives all blocks to all of them, and works them off,
    /// `rounds` times; then without sending, so that all end at the same turn, the stations too.
    pub fn settle(&mut self, rounds: usize) {
        for _ in 0..rounds * self.replicas {
            self.round(true);
        }
        // One that was closed for long takes more than one round.
        while self.round(false) {}
        self.settle_stations();
    }

    /// Every replica that is not closed, one after the other, takes the notices that it can, sends if it is
    /// to, is given all blocks and works them off. It gives whether a turn moved.
    pub fn round(&mut self, sends: bool) -> bool {
        let turns = |group: &Group<S>| -> Vec<u32> {
            group.tallies.iter().map(|t| t.report.turn).collect()
        };
        let before = turns(self);
        for k in self.open_replicas() {
            self.take_all(k);
            if sends {
                let _ = self.call(k, &Call::Send);
            }
            self.hand(k, usize::MAX);
            self.work_off(k);
        }
        turns(self) != before
    }

    /// Delivers to a member the first so many blocks from its turn on.
    fn hand(&mut self, k: usize, most: usize) {
        let turn = self.tallies[k].report.turn;
        let blocks = self.blocks.range(turn..).take(most);
        for bytes in blocks.map(|(_, block)| block.to_vec()).collect::<Vec<_>>() {
            let call = Call::Deliver { bytes };
            if self.hears_first(k, &call) {
                let _ = self.call(k, &call);
            }
        }
    }

    /// Works until nothing waits, or for long: where all slots are out, nothing need wait.
    fn work_off(&mut self, k: usize) {
        for _ in 0..WORKS {
            self.take_due(k);
            if self.call(k, &Call::Work).is_err() {
                return;
            }
        }
    }

    /// What the observer objects to.
    pub fn violations(&self) -> Vec<String> {
        let ends: Vec<_> = self
            .members
            .iter()
            .map(|m| (m.report(), m.values()))
            .collect();
        self.observer.violations(&ends)
    }
}

/// A call that is about the transactions of a replica or station, or loads a replica's table of classes.
pub fn local_call(random: &mut Random, tally: &Tally, style: Style) -> Call {
    let last = tally.report.tickets;
    let ticket = if random.below(20) == 0 || tally.open.is_empty() {
        let any = random.below(last as usize + 2) as u32;
        random.pick(&[0, last, last + 1, any, u32::MAX])
    } else {
        random.pick(&tally.open)
    };
    let any = random.below(style.items) as u32;
    let item = match random.below(60) {
        0 => random.pick(&[127, 128, 256 + any, u32::MAX]),
        _ => any,
    };
    let value = samples::value(random);
    if random.below(100) < style.asks {
        return Call::Ask { ticket };
    }
    match random.below(100) {
        0..20 => Call::Begin,
        20..35 => Call::Read { ticket, item },
        35..92 => Call::Write {
            ticket,
            item,
            value,
        },
        92..96 => Call::Withdraw { ticket },
        96..98 => Call::Report,
        _ if tally.is_station() => Call::Report,
        _ => Call::Load {
            classes: samples::classes(random),
        },
    }
}

//! The replicas of a scene, its station, and the blocks that were handed out.

use std::collections::{BTreeMap, BTreeSet};

use super::parse::{Carried, Change, Command, Local, Source, Who};
use super::words;
use super::{Player, Words};
use crate::block::{self, BLOCK};
use crate::giving::{self, DOWN};
use crate::notice::{self, Notice};
use crate::refusal::{FAR_SLOT, NOTHING_WAITS, PAST_SLOT, SLOT_TAKEN};
use crate::replica::ITEMS;
use crate::samples::{block_of, Writes};
use crate::trace::{Answer, Call, Restart};
use crate::window::Window;

/// The most passes of one `stabilize`, and the most works in a row: far more than any scene needs.
const PASSES: usize = 200;

pub(super) struct Playing<P, M> {
    make: M,
    words: Words,
    players: Vec<P>,
    station: Option<P>,
    /// The value that all items started with.
    start: i32,
    /// What was handed out last for a slot.
    blocks: BTreeMap<u32, Box<[u8; BLOCK]>>,
    /// The notices that each took, in order.
    notices: BTreeMap<Who, Vec<Notice>>,
    /// Those that nothing comes to by `stabilize`.
    closed: BTreeSet<Who>,
}

impl<P: Player, M: Fn(u32, Option<u32>, &[i32; ITEMS]) -> Result<P, u8>> Playing<P, M> {
    pub fn new(make: M, words: Words) -> Playing<P, M> {
        Playing {
            make,
            words,
            players: Vec::new(),
            station: None,
            start: 0,
            blocks: BTreeMap::new(),
            notices: BTreeMap::new(),
            closed: BTreeSet::new(),
        }
    }

    /// What is answered, line by line; or why this cannot be done.
    pub fn play(&mut self, command: &Command) -> Result<Vec<String>, String> {
        match *command {
            Command::Make { n, value } => Ok(self.make(n, value)),
            Command::MakeStation { n } => self.make_station(n),
            Command::Stabilize => self.stabilize(),
            Command::Values => Ok(self.all_values()),
            Command::Bytes { slot, ref range } => {
                let bytes = &self.block(slot)?[range.clone()];
                let digits: Vec<String> = bytes.iter().map(|b| format!("{b:02x}")).collect();
                Ok(vec![format!("slot {slot} has {}", digits.join(" "))])
            }
            Command::At(who, ref local) => match self.everyone().any(|made| made == who) {
                true => self.local(who, local),
                false => Err(format!("{who} is not made")),
            },
        }
    }

    /// All that is made, the replicas first.
    fn everyone(&self) -> impl Iterator<Item = Who> + 'static {
        let station = self.station.iter().map(|_| Who::Station);
        let replicas = (0..self.players.len()).map(Who::Replica);
        replicas.chain(station).collect::<Vec<_>>().into_iter()
    }

    /// One that is made.
    fn player(&mut self, who: Who) -> &mut P {
        match who {
            Who::Replica(k) => &mut self.players[k],
            Who::Station => self.station.as_mut().expect("a station is made"),
        }
    }

    /// A group, with no block handed out. A refused one leaves what was there.
    fn make(&mut self, n: u32, value: i32) -> Vec<String> {
        // A number out of range is refused at the first replica.
        let made: Result<Vec<P>, u8> = (0..n.max(1))
            .map(|own| (self.make)(n, Some(own), &[value; ITEMS]))
            .collect();
        match made {
            Err(number) => vec![words::refusal(Who::Replica(0), number, self.words)],
            Ok(players) => {
                self.players = players;
                self.station = None;
                self.start = value;
                self.blocks.clear();
                self.notices.clear();
                self.closed.clear();
                let last = n - 1;
                vec![format!("replicas 0 to {last} hold all items at {value}")]
            }
        }
    }

    /// A station beside the group, with its values. A refused one leaves what was there.
    fn make_station(&mut self, n: Option<u32>) -> Result<Vec<String>, String> {
        if self.players.is_empty() {
            return Err("a station is made beside a group, and none is made".to_string());
        }
        let n = n.unwrap_or(self.players.len() as u32);
        let start = self.start;
        Ok(match (self.make)(n, None, &[start; ITEMS]) {
            Err(number) => vec![words::refusal(Who::Station, number, self.words)],
            Ok(station) => {
                self.station = Some(station);
                self.notices.remove(&Who::Station);
                self.closed.remove(&Who::Station);
                vec![format!("the station holds all items at {start}")]
            }
        })
    }

    fn local(&mut self, who: Who, local: &Local) -> Result<Vec<String>, String> {
        let line = match (local, who) {
            (Local::Call(Call::Load { .. }), Who::Station) => {
                return Err("a station has no classes".to_string());
            }
            (Local::Restart { .. } | Local::Journal, Who::Station) => {
                return Err("a station has no journal".to_string());
            }
            (Local::Call(call), _) => self.call(who, call).0,
            (Local::Deliver(carried), _) => {
                let bytes = self.bytes(carried)?;
                self.call(who, &Call::Deliver { bytes }).0
            }
            (Local::Take(carried), _) => {
                let bytes = self.bytes(carried)?;
                return Ok(self.take(who, bytes));
            }
            (Local::Restart { bytes, bit, with }, Who::Replica(k)) => {
                self.restart(k, *bytes, *bit, with)?
            }
            (Local::Journal, Who::Replica(k)) => words::journal(k, self.players[k].disk()),
            (Local::Values, _) => {
                let (start, values) = (self.start, self.player(who).values());
                words::values(&format!("{who} holds"), &values, start)
            }
            (Local::Late { slots, tickets }, _) => {
                self.player(who).late(*slots, *tickets);
                format!("{who} is as after {slots} slots and {tickets} tickets")
            }
            (Local::Lose { ticket }, _) => {
                self.player(who).lose(*ticket);
                format!("ticket {ticket} is gone from the memory of {who}")
            }
            (Local::Give { turns }, Who::Replica(k)) => self.give(k, turns.as_deref())?,
            (Local::Give { .. }, Who::Station) => {
                return Err("a station is not given what it missed".to_string());
            }
            (Local::Alone { to }, _) => self.alone(who, *to)?,
            (Local::Close(true), _) => {
                self.closed.insert(who);
                format!("{who} is closed")
            }
            (Local::Close(false), _) => {
                self.closed.remove(&who);
                format!("{who} is open")
            }
        };
        Ok(vec![line])
    }

    /// A call, in words, and its answer.
    fn call(&mut self, who: Who, call: &Call) -> (String, Result<Answer, u8>) {
        let out = self.out_slot(who);
        let answer = self.player(who).call(call);
        if let Ok(Answer::Block(block)) = &answer {
            self.blocks.insert(block::header(block).slot, block.clone());
        }
        if let (Call::Notice(notice), Ok(_)) = (call, &answer) {
            self.notices.entry(who).or_default().push(*notice);
        }
        (words::answer(who, call, &answer, out, self.words), answer)
    }

    /// The slot that a turn is at, if it is out there.
    fn out_slot(&mut self, who: Who) -> Option<u32> {
        let (n, turn) = (self.players.len() as u32, self.player(who).report().turn);
        let taken = self.notices.get(&who)?;
        notice::puts_out(taken, n, turn).then_some(turn)
    }

    /// A deliver and, where it is accepted, works until nothing waits.
    fn take(&mut self, who: Who, bytes: Vec<u8>) -> Vec<String> {
        let (line, answer) = self.call(who, &Call::Deliver { bytes });
        let mut lines = vec![line];
        if answer.is_ok() {
            self.work(who, &mut lines);
        }
        lines
    }

    /// Works until nothing waits, or for long: where all are out, nothing need wait. Gives whether
    /// anything was done.
    fn work(&mut self, who: Who, lines: &mut Vec<String>) -> bool {
        let mut moved = false;
        for _ in 0..PASSES {
            let (line, answer) = self.call(who, &Call::Work);
            match answer {
                Ok(_) => lines.push(line),
                Err(NOTHING_WAITS) => return moved,
                Err(_) if lines.contains(&line) => return moved,
                Err(_) => {
                    lines.push(line);
                    return moved;
                }
            }
            moved = true;
        }
        moved
    }

    /// Hands all blocks round and works, until nothing moves.
    fn stabilize(&mut self) -> Result<Vec<String>, String> {
        let mut lines = Vec::new();
        let open = self.everyone().filter(|who| !self.closed.contains(who));
        let open: Vec<Who> = open.collect();
        for _ in 0..PASSES {
            let mut moved = false;
            for &who in &open {
                moved |= self.hand(who, &mut lines);
                moved |= self.work(who, &mut lines);
            }
            if !moved {
                if lines.is_empty() {
                    lines.push("nothing moves".to_string());
                }
                return Ok(lines);
            }
        }
        Err("the group does not come to rest".to_string())
    }

    /// Delivers all blocks from the turn on. Of refusals only those are told that a host would not
    /// meet by handing blocks out again.
    fn hand(&mut self, who: Who, lines: &mut Vec<String>) -> bool {
        let turn = self.player(who).report().turn;
        let blocks = self.blocks.range(turn..).map(|(_, block)| block.to_vec());
        let mut moved = false;
        for bytes in blocks.collect::<Vec<_>>() {
            let (line, answer) = self.call(who, &Call::Deliver { bytes });
            match answer {
                Ok(_) => moved = true,
                Err(PAST_SLOT | FAR_SLOT | SLOT_TAKEN) => {}
                Err(_) if lines.contains(&line) => {}
                Err(_) => lines.push(line),
            }
        }
        moved
    }

    /// A giving. Who is closed is down, where nothing is said of the turns.
    fn give(&mut self, k: usize, turns: Option<&[u32]>) -> Result<String, String> {
        let up = |g: usize| !self.closed.contains(&Who::Replica(g));
        let told = |g: usize| match up(g) {
            true => self.players[g].report().turn,
            false => DOWN,
        };
        let turns = match turns {
            Some(turns) if turns.len() != self.players.len() => {
                return Err(format!("{} turns are told", self.players.len()));
            }
            Some(turns) => turns.to_vec(),
            None => (0..self.players.len()).map(told).collect(),
        };
        let window = match giving::giver(k as u8, &turns) {
            Some(giver) => self.players[usize::from(giver)].window(),
            None => Window::empty(0),
        };
        let from = self.players[k].report().turn;
        let given = self.players[k].give(&turns, &window);
        let slots = from..self.players[k].report().turn;
        Ok(words::given(k, &given, slots, self.words))
    }

    /// Sends where it is to, and works, until the turn is there: all others are out.
    fn alone(&mut self, who: Who, to: u32) -> Result<String, String> {
        while self.player(who).report().turn < to {
            if let Ok(Answer::Block(block)) = self.call(who, &Call::Send).1 {
                let bytes = block.to_vec();
                let _ = self.call(who, &Call::Deliver { bytes });
            }
            if self.call(who, &Call::Work).1.is_err() {
                return Err(format!("{who} cannot go on alone"));
            }
        }
        let turn = self.player(who).report().turn;
        Ok(format!("{who} goes on alone to slot {turn}"))
    }

    /// A restart from what is on the replica's disk, or from the first bytes of it, or with a bit
    /// changed, or with a block more.
    fn restart(
        &mut self,
        k: usize,
        bytes: Option<usize>,
        bit: Option<usize>,
        with: &Option<Carried>,
    ) -> Result<String, String> {
        let mut journal = self.players[k].disk().to_vec();
        let all = journal.len();
        if bytes.is_some_and(|bytes| bytes > all) || bit.is_some_and(|bit| bit / 8 >= all) {
            return Err(format!("the journal of replica {k} has {all} bytes"));
        }
        journal.truncate(bytes.unwrap_or(all));
        if let Some(bit) = bit {
            journal[bit / 8] ^= 1 << (bit % 8);
        }
        if let Some(carried) = with {
            journal.extend(self.bytes(carried)?);
        }
        let restart = Restart {
            n: self.players.len() as u32,
            own: k as u32,
            values: vec![self.start; ITEMS],
            journal,
            notices: self
                .notices
                .get(&Who::Replica(k))
                .cloned()
                .unwrap_or_default(),
        };
        let answer = self.players[k].restart(&restart);
        let restarted = answer.map_err(|number| format!("the restart is refused by {number}"))?;
        if restarted.gave_back() {
            let slot = block::header(&restarted.block).slot;
            self.blocks.insert(slot, restarted.block.clone());
        }
        Ok(words::restarted(k, &restarted))
    }

    fn all_values(&self) -> Vec<String> {
        let players = self.players.iter().chain(&self.station);
        let values: Vec<_> = players.map(|player| player.values()).collect();
        if values.iter().all(|held| *held == values[0]) && !values.is_empty() {
            let all = match self.station {
                None => "all replicas hold",
                Some(_) => "all replicas and the station hold",
            };
            return vec![words::values(all, &values[0], self.start)];
        }
        let each = self.everyone().zip(&values);
        each.map(|(who, held)| words::values(&format!("{who} holds"), held, self.start))
            .collect()
    }

    fn block(&self, slot: u32) -> Result<&[u8; BLOCK], String> {
        let block = self.blocks.get(&slot);
        block
            .map(|block| &**block)
            .ok_or(format!("no block of slot {slot} was handed out"))
    }

    /// The bytes that a line says.
    fn bytes(&self, carried: &Carried) -> Result<Vec<u8>, String> {
        let mut block = match &carried.block {
            Source::Slot(slot) => *self.block(*slot)?,
            Source::Forged { slot, n, records } => {
                let records: Vec<Writes> = records.iter().map(|(t, e)| (*t, &e[..])).collect();
                block_of(*n, *slot, &records)
            }
        };
        let mut length = BLOCK;
        for change in &carried.changes {
            match *change {
                Change::Bit(bit) => block[bit / 8] ^= 1 << (bit % 8),
                Change::Byte(at, byte) => block[at] = byte,
                Change::Word(at, word) => {
                    block[2 * at..][..2].copy_from_slice(&word.to_le_bytes());
                }
                Change::Checked => block::put_check(&mut block),
                Change::Length(bytes) => length = bytes,
            }
        }
        let mut bytes = block.to_vec();
        bytes.resize(length, 0);
        Ok(bytes)
    }
}

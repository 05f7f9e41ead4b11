//! What is seen of a simulated group from outside, and what is wrong with it.

use std::collections::BTreeMap;

use crate::driver::{Answer, Change};
use crate::{Block, Notice, BLOCK, ITEMS};

/// What the members and their clients said and did.
#[derive(Debug)]
pub(super) struct Sheet {
    n: u32,
    start: [i32; ITEMS],
    /// What was handed out for each slot.
    blocks: BTreeMap<u32, [u8; BLOCK]>,
    /// The writeset at each place, as the first member has committed it.
    places: BTreeMap<u32, Change>,
    /// What clients asked for, by their numbers. Each writes its number, so that a writeset says whose it is.
    clients: BTreeMap<u64, Client>,
    reads: Vec<Read>,
    pub complaints: Vec<String>,
}

/// A client's transaction.
#[derive(Debug)]
struct Client {
    /// The member, and which incarnation of it.
    at: (usize, u64),
    writes: BTreeMap<u32, i32>,
    /// How many writesets were committed when it began, where that is known.
    snapshot: Option<u32>,
    told: Option<Answer>,
    /// Whether the next open has found its ticket, where it was told that nothing is known.
    found: Option<bool>,
}

/// What a transaction read, that had not written it.
#[derive(Debug)]
struct Read {
    item: u32,
    snapshot: u32,
    value: Option<i32>,
}

/// The sequence: for each writeset its slot and the client that its values name.
type Sequence = Vec<(Change, u64)>;

impl Sheet {
    pub fn new(n: u32, start: [i32; ITEMS]) -> Sheet {
        Sheet {
            n,
            start,
            blocks: BTreeMap::new(),
            places: BTreeMap::new(),
            clients: BTreeMap::new(),
            reads: Vec::new(),
            complaints: Vec::new(),
        }
    }

    pub fn complain(&mut self, words: String) {
        // The first ones say what it is; the others follow from them.
        if self.complaints.len() < 20 {
            self.complaints.push(words);
        }
    }

    /// A member has handed a block out, or given it to another.
    pub fn handed_out(&mut self, member: usize, bytes: &[u8; BLOCK]) {
        let Ok(block) = Block::read(bytes) else {
            return self.complain(format!("member {member} handed out a damaged block"));
        };
        let slot = block.slot();
        let first = self.blocks.entry(slot).or_insert(*bytes);
        if first != bytes {
            let first =
                Block::read(first).map_or_else(|error| error.to_string(), |b| b.to_string());
            self.complain(format!(
                "two blocks of slot {slot} are handed out: {first}, and by member {member} {block}"
            ));
        }
    }

    /// A block that somebody handed out of a replica, the last one below a slot: to be forged.
    pub fn block_of(&self, k: u32) -> Option<[u8; BLOCK]> {
        let mut blocks = self.blocks.values().rev();
        blocks.find(|block| u32::from(block[1]) == k).copied()
    }

    /// A member has committed a writeset.
    pub fn committed(&mut self, member: usize, change: &Change) {
        let place = change.place;
        let first = self.places.entry(place).or_insert_with(|| change.clone());
        if first != change {
            let first = first.clone();
            self.complain(format!(
                "at place {place} there is {first:?}, and member {member} has {change:?}"
            ));
        }
    }

    /// A client has asked for these writes.
    pub fn asked(
        &mut self,
        client: u64,
        at: (usize, u64),
        writes: BTreeMap<u32, i32>,
        snapshot: Option<u32>,
    ) {
        let asked = Client {
            at,
            writes,
            snapshot,
            told: None,
            found: None,
        };
        self.clients.insert(client, asked);
    }

    pub fn read(&mut self, item: u32, snapshot: u32, value: Option<i32>) {
        self.reads.push(Read {
            item,
            snapshot,
            value,
        });
    }

    pub fn told(&mut self, member: usize, client: u64, answer: Answer) {
        let Some(asked) = self.clients.get_mut(&client) else {
            return self.complain(format!(
                "client {client}, whom nobody knows, is told {answer:?}"
            ));
        };
        if let Some(before) = asked.told.replace(answer.clone()) {
            self.complain(format!(
                "member {member} told client {client} twice: {before:?} and {answer:?}"
            ));
        }
    }

    /// A replica was opened anew, and has found these own tickets committed.
    pub fn reopened(&mut self, member: usize, incarnation: u64, committed: &[u32]) {
        for client in self.clients.values_mut() {
            let is_before = client.at.0 == member && client.at.1 < incarnation;
            if let (Some(Answer::Unknown { ticket }), true, None) =
                (&client.told, is_before, client.found)
            {
                client.found = Some(committed.contains(ticket));
            }
        }
    }

    /// How many clients wait to be told at members that are still the same.
    pub fn waiting(&self, incarnations: &[Option<u64>]) -> usize {
        let waits = |client: &&Client| {
            client.told.is_none() && incarnations[client.at.0] == Some(client.at.1)
        };
        self.clients.values().filter(waits).count()
    }

    /// The sequence, of all blocks below a turn.
    fn sequence(&mut self, turn: u32, said: &[Notice]) -> Sequence {
        let mut sequence = Vec::new();
        for slot in 0..turn {
            let block = self
                .blocks
                .get(&slot)
                .and_then(|bytes| Block::read(bytes).ok());
            let Some(block) = block else {
                if !Notice::is_out(said, self.n, slot) {
                    self.complain(format!("slot {slot} is passed, and nobody handed it out"));
                }
                continue;
            };
            for record in block.records() {
                let entries = record.entries.iter();
                let writes: Vec<_> = entries.map(|e| (e.item.into(), Some(e.value))).collect();
                let client = writes
                    .first()
                    .map_or(0, |&(_, value)| value.unwrap_or(0) as u64);
                let change = Change {
                    place: sequence.len() as u32 + 1,
                    slot,
                    replica: block.sender().into(),
                    ticket: record.ticket,
                    writes,
                };
                sequence.push((change, client));
            }
        }
        sequence
    }

    /// What a member has at rest: its turn, commits and values.
    pub fn copy(
        &mut self,
        member: usize,
        (turn, commits): (u32, u32),
        contents: &[Option<i32>; ITEMS],
        said: &[Notice],
    ) {
        let sequence = self.sequence(turn, said);
        if sequence.len() != commits as usize {
            self.complain(format!(
                "member {member} at turn {turn} has {commits} commits, and the sequence {}",
                sequence.len()
            ));
        }
        let values = values(&self.start, &sequence, sequence.len());
        for (item, (found, due)) in contents.iter().zip(&values).enumerate() {
            if found != due {
                self.complain(format!(
                    "member {member} at turn {turn} has {found:?} at {item}, and the sequence {due:?}"
                ));
            }
        }
    }

    /// Checks the whole at the end: all that members said they committed, all that clients were told and have read.
    pub fn check(&mut self, turn: u32, said: &[Notice], incarnations: &[Option<u64>]) {
        let sequence = self.sequence(turn, said);
        for (change, _) in &sequence {
            // Nobody has said so where all that committed it were cut then.
            if let Some(found) = self
                .places
                .get(&change.place)
                .filter(|&found| found != change)
            {
                let words = format!("the sequence has {change:?}, and members committed {found:?}");
                self.complain(words);
            }
        }
        if let Some((place, _)) = self.places.range(sequence.len() as u32 + 1..).next() {
            let words = format!("place {place} was committed, and the sequence ends before it");
            self.complain(words);
        }
        self.check_clients(&sequence, incarnations);
        self.check_reads(&sequence);
    }

    fn check_clients(&mut self, sequence: &Sequence, incarnations: &[Option<u64>]) {
        let mut places: BTreeMap<u64, Vec<u32>> = BTreeMap::new();
        let mut words = Vec::new();
        for (change, client) in sequence {
            places.entry(*client).or_default().push(change.place);
            let asked = self.clients.get(client);
            let same = asked.is_some_and(|asked| {
                let writes = asked
                    .writes
                    .iter()
                    .map(|(&item, &value)| (item, Some(value)));
                asked.at.0 as u32 == change.replica && change.writes.iter().copied().eq(writes)
            });
            if !same {
                words.push(format!("nobody asked for {change:?}"));
            }
        }
        for (number, client) in &self.clients {
            let places = places.get(number).map_or(&[][..], Vec::as_slice);
            if let Some(wrong) = client.wrong(places, incarnations) {
                words.push(format!(
                    "client {number} of member {}: {wrong}",
                    client.at.0
                ));
            }
            if let (Some(before), [place]) = (client.snapshot, places) {
                let between = &sequence[before as usize..*place as usize - 1];
                let clash = between.iter().find(|(change, _)| {
                    change
                        .writes
                        .iter()
                        .any(|(item, _)| client.writes.contains_key(item))
                });
                if let Some((change, _)) = clash {
                    words.push(format!(
                        "client {number} began behind place {before}, is at {place}, and {change:?} is between"
                    ));
                }
            }
        }
        words.into_iter().for_each(|words| self.complain(words));
    }

    fn check_reads(&mut self, sequence: &Sequence) {
        for read in std::mem::take(&mut self.reads) {
            let before = read.snapshot as usize;
            let due = values(&self.start, sequence, before)[read.item as usize];
            if read.value != due {
                self.complain(format!(
                    "behind place {before} item {} is {due:?}, and a client read {:?}",
                    read.item, read.value
                ));
            }
        }
    }
}

impl Client {
    /// What is wrong with what it was told, where its writeset has these places in the sequence.
    fn wrong(&self, places: &[u32], incarnations: &[Option<u64>]) -> Option<String> {
        let (told, found) = (&self.told, self.found);
        let right = match told {
            Some(Answer::Committed { place, .. }) => places == [*place],
            Some(Answer::Aborted { .. } | Answer::Refused(_)) => places.is_empty(),
            Some(Answer::ReadOnly { .. }) => places.is_empty() && self.writes.is_empty(),
            Some(Answer::Unknown { .. }) => {
                places.len() <= 1 && found.is_none_or(|found| found == !places.is_empty())
            }
            None => places.len() <= 1 && incarnations[self.at.0] != Some(self.at.1),
        };
        (!right).then(|| {
            format!("it was told {told:?}, found again {found:?}, and is at the places {places:?}")
        })
    }
}

/// What the first so many writesets leave.
fn values(start: &[i32; ITEMS], sequence: &Sequence, count: usize) -> [Option<i32>; ITEMS] {
    let mut values = start.map(Some);
    for (change, _) in sequence.iter().take(count) {
        for &(item, value) in &change.writes {
            if let Some(of) = values.get_mut(item as usize) {
                *of = value;
            }
        }
    }
    values
}

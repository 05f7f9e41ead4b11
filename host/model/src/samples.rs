//! Messages and blocks for tests and benchmarks: the marked ones, and random ones by seed.

use crate::block::{
    self, Entry, Message, Record, BLOCK, ENTRIES, MAX_ITEM, MAX_SLOT, MAX_TICKET, NEXT, RECORDS,
    TO_COMMIT,
};
use crate::notice::{self, Kind, Notice};
use crate::replica::{CLASSES, ITEMS};

/// A small deterministic generator (splitmix64): the same seed gives the same numbers on every
/// machine.
pub struct Random {
    state: u64,
}

impl Random {
    /// The generator of a seed.
    pub fn new(seed: u64) -> Self {
        Random { state: seed }
    }

    /// The next 64 bits.
    pub fn bits(&mut self) -> u64 {
        self.state = self.state.wrapping_add(0x9E37_79B9_7F4A_7C15);
        let mut z = self.state;
        z = (z ^ (z >> 30)).wrapping_mul(0xBF58_476D_1CE4_E5B9);
        z = (z ^ (z >> 27)).wrapping_mul(0x94D0_49BB_1331_11EB);
        z ^ (z >> 31)
    }

    /// A number from 0 to `bound` − 1. The bias of the remainder is far below what a test sees.
    pub fn below(&mut self, bound: usize) -> usize {
        (self.bits() % bound as u64) as usize
    }

    /// One of the given values.
    pub fn pick<T: Copy>(&mut self, values: &[T]) -> T {
        values[self.below(values.len())]
    }

    /// A byte.
    pub fn byte(&mut self) -> u8 {
        self.bits() as u8
    }

    /// A byte from 1 to 255.
    pub fn non_zero_byte(&mut self) -> u8 {
        1 + self.below(255) as u8
    }

    /// Puts random bytes over all of these.
    pub fn fill(&mut self, bytes: &mut [u8]) {
        bytes.fill_with(|| self.byte());
    }
}

/// Document 01's marked message without records.
pub fn marked_next() -> Message {
    Message {
        kind: NEXT,
        sender: 0,
        replicas: 2,
        slot: 0,
        records: vec![],
    }
}

/// Document 01's marked message with one record.
pub fn marked_record() -> Message {
    Message {
        kind: TO_COMMIT,
        sender: 1,
        replicas: 2,
        slot: 1,
        records: vec![Record {
            ticket: 1,
            entries: vec![Entry { item: 5, value: 40 }],
        }],
    }
}

/// A record: ticket, then items with values.
pub type Writes<'a> = (u32, &'a [(u8, i32)]);

/// The block of a slot in a group of `n`.
pub fn block_of(n: u32, slot: u32, records: &[Writes]) -> [u8; BLOCK] {
    let records = records.iter().map(|&(ticket, entries)| Record {
        ticket,
        entries: entries
            .iter()
            .map(|&(item, value)| Entry { item, value })
            .collect(),
    });
    block::encode(&Message {
        kind: if records.len() == 0 { NEXT } else { TO_COMMIT },
        sender: (slot % n) as u8,
        replicas: n as u8,
        slot,
        records: records.collect(),
    })
}

/// A well-formed message of either kind, limits of each field among the values.
pub fn message(random: &mut Random) -> Message {
    if random.below(4) == 0 {
        next(random)
    } else {
        let records = 1 + random.below(RECORDS);
        to_commit(random, records)
    }
}

/// A well-formed message without records.
pub fn next(random: &mut Random) -> Message {
    let replicas = 2 + random.below(5) as u8;
    let any = random.below(MAX_SLOT as usize + 1) as u32;
    let slot = random.pick(&[
        0,
        1,
        2,
        255,
        65_535,
        65_536,
        MAX_SLOT - 1,
        MAX_SLOT,
        any,
        any,
    ]);
    Message {
        kind: NEXT,
        sender: (slot % u32::from(replicas)) as u8,
        replicas,
        slot,
        records: Vec::new(),
    }
}

/// A well-formed message with that many records, 1 to 6, each of 1 to 8 entries.
pub fn to_commit(random: &mut Random, records: usize) -> Message {
    let writes: Vec<usize> = (0..records).map(|_| 1 + random.below(ENTRIES)).collect();
    with_writes(random, &writes)
}

/// A well-formed message with six records of eight entries.
pub fn full(random: &mut Random) -> Message {
    with_writes(random, &[ENTRIES; RECORDS])
}

/// A well-formed message with one record for each number of writes, 1 to 8.
pub fn with_writes(random: &mut Random, writes: &[usize]) -> Message {
    let mut records: Vec<Record> = Vec::new();
    for &writes in writes {
        let ticket = loop {
            let ticket = ticket(random);
            if records.iter().all(|record| record.ticket != ticket) {
                break ticket;
            }
        };
        records.push(Record {
            ticket,
            entries: entries(random, writes),
        });
    }
    Message {
        kind: TO_COMMIT,
        records,
        ..next(random)
    }
}

/// Entries that rise by item, 1 to 8 of them.
fn entries(random: &mut Random, writes: usize) -> Vec<Entry> {
    let mut items: Vec<u8> = Vec::new();
    while items.len() < writes {
        let any = random.byte() & MAX_ITEM;
        let item = random.pick(&[0, MAX_ITEM, any, any, any, any]);
        if !items.contains(&item) {
            items.push(item);
        }
    }
    items.sort_unstable();
    items
        .into_iter()
        .map(|item| Entry {
            item,
            value: value(random),
        })
        .collect()
}

fn ticket(random: &mut Random) -> u32 {
    let any = 1 + random.below(MAX_TICKET as usize) as u32;
    random.pick(&[1, 2, 256, 65_536, MAX_TICKET - 1, MAX_TICKET, any, any, any])
}

/// Any 32-bit value, the limits among them.
pub fn value(random: &mut Random) -> i32 {
    let any = random.bits() as i32;
    random.pick(&[0, 1, -1, 65_535, 65_536, i32::MIN, i32::MAX, any, any, any])
}

/// A table of classes: most often one that a load takes, of one class, a few or all.
pub fn classes(random: &mut Random) -> Vec<u8> {
    let count = random.pick(&[1, 2, 2, 3, CLASSES, CLASSES]);
    let first = 1 + random.below(usize::from(CLASSES - count) + 1) as u8;
    let class = |_| first + random.below(usize::from(count)) as u8;
    let mut table: Vec<u8> = (0..ITEMS).map(class).collect();
    if random.below(12) == 0 {
        table[random.below(ITEMS)] = random.pick(&[0, CLASSES + 1, 255]);
    }
    if random.below(12) == 0 {
        let length = random.pick(&[0, 1, ITEMS - 1, ITEMS + 1, ITEMS + 2]);
        table.resize(length, 1);
    }
    table
}

/// A notice for a member of a group of `n` at a turn, by those that it took: most often one that follows
/// on the last about its replica, of a slot near the turn.
pub fn notice(random: &mut Random, n: u32, turn: u32, taken: &[Notice]) -> Notice {
    let any = random.below(n as usize) as u32;
    let about = match random.below(20) {
        0 => random.pick(&[n, n + 1, 6, 255, 256 + any, u32::MAX]),
        _ => any,
    };
    let last = notice::about(taken, about).next_back();
    let is_out = last.is_some_and(|last| last.kind == Kind::Out);
    let follows = random.below(6) > 0;
    let behind = last.map_or(turn, |last| last.slot) + random.below(3) as u32;
    let near = turn + random.below(2 * n as usize) as u32;
    let slot = match random.below(30) {
        0 => random.pick(&[
            MAX_SLOT,
            MAX_SLOT + 1,
            MAX_SLOT + 1,
            near + (1 << 27),
            u32::MAX,
        ]),
        1..4 => turn.saturating_sub(1 + random.below(2) as u32),
        4..10 => behind,
        10..16 => turn,
        _ => near,
    };
    match is_out == follows {
        true => Notice::back(about, slot),
        false => Notice::out(about, slot),
    }
}

/// Changes one bit.
pub fn damage(random: &mut Random, bytes: &mut [u8]) {
    let bit = random.below(8 * bytes.len());
    bytes[bit / 8] ^= 1 << (bit % 8);
}

/// Breaks the form of a well-formed block, under a right check.
pub fn break_form(random: &mut Random, block: &mut [u8; BLOCK]) {
    match random.below(5) {
        0 => block[0] = random.pick(&[0, 3, 255]),
        1 => block[1] = block[1].wrapping_add(random.non_zero_byte()),
        2 => block[2] = random.pick(&[0, 1, 7, 255]),
        3 => block[3] = random.pick(&[7, 255]),
        _ => block[8 + random.below(8)] = random.non_zero_byte(),
    }
    block::put_check(block);
}

//! Who set each measure last.

use std::collections::BTreeMap;
use std::fs::File;
use std::io::{self, BufReader, Read, Seek, SeekFrom};
use std::path::Path;

use stemline::driver::Change;
use stemline::{Blocks, BLOCK, HEAD, ITEMS};

/// The writeset that set a measure.
#[derive(Clone, Copy, Debug, PartialEq, Eq)]
pub struct Setter {
    /// Whose it was.
    pub replica: u32,
    /// Its place among all writesets of the group, counted from 1.
    pub place: u32,
    /// The slot of its block.
    pub slot: u32,
}

/// The last writeset of each measure that was ever set.
#[derive(Clone, Debug, Default)]
pub struct Setters {
    last: BTreeMap<u32, Setter>,
}

impl Setters {
    /// The last one that set an item.
    pub fn of(&self, item: u32) -> Option<Setter> {
        self.last.get(&item).copied()
    }

    /// A writeset that is committed.
    pub fn take(&mut self, change: &Change) {
        let setter = Setter {
            replica: change.replica,
            place: change.place,
            slot: change.slot,
        };
        for &(item, _) in &change.writes {
            self.put(item, setter);
        }
    }

    /// What is known from elsewhere too: the later one counts.
    pub fn join(&mut self, other: &Setters) {
        for (&item, &setter) in &other.last {
            self.put(item, setter);
        }
    }

    fn put(&mut self, item: u32, setter: Setter) {
        let last = self.last.entry(item).or_insert(setter);
        if last.place < setter.place {
            *last = setter;
        }
    }
}

/// What the first blocks of a journal say: the setters, and the places of these own tickets.
pub fn read(
    journal: &Path,
    n: u32,
    blocks: u32,
    own: u32,
    tickets: &[u32],
) -> io::Result<(Setters, BTreeMap<u32, u32>)> {
    let mut file = File::open(journal)?;
    file.seek(SeekFrom::Start(HEAD as u64))?;
    let length = u64::from(blocks) * BLOCK as u64;
    let mut journal = Blocks::of(BufReader::with_capacity(1 << 16, file).take(length), n, 0);
    let (mut setters, mut places) = (Setters::default(), BTreeMap::new());
    let mut place = 0;
    while let Ok(block) = journal.next_block()? {
        let replica = u32::from(block.sender());
        for record in block.records() {
            place += 1;
            let slot = block.slot();
            for entry in &record.entries {
                let item = u32::from(entry.item);
                setters.put(
                    item,
                    Setter {
                        replica,
                        place,
                        slot,
                    },
                );
            }
            if replica == own && tickets.contains(&record.ticket) {
                places.insert(record.ticket, place);
            }
        }
    }
    Ok((setters, places))
}

const _: () = assert!(ITEMS <= u8::MAX as usize + 1);

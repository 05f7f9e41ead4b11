//! A replica or station of the program, and the journal that is kept of a replica.

use crate::block::BLOCK;
use crate::giving::Returner;
use crate::notice::Notice;
use crate::replica::{Replica, ITEMS};
use crate::trace::{Answer, Call};

/// The most blocks of a journal that is kept.
pub const JOURNAL: usize = 128;
/// The most notices that are kept for a restart.
pub const NOTICES: usize = 32;

#[derive(Clone, Debug, PartialEq, Eq)]
pub(super) struct Place {
    pub replica: Replica,
    /// What was appended, in bytes; `None` where that was more than is kept, and at a station.
    journal: Option<Vec<u8>>,
}

impl Place {
    /// With all values the same.
    pub fn make(n: u32, own: u32, value: i32) -> Result<Place, u8> {
        Ok(Place {
            replica: Replica::make(n, own, &[value; ITEMS])?,
            journal: Some(Vec::new()),
        })
    }

    /// A station, with all values the same.
    pub fn station(n: u32, value: i32) -> Result<Place, u8> {
        Ok(Place {
            replica: Replica::station(n, &[value; ITEMS])?,
            journal: None,
        })
    }

    /// With all values the same. It also gives the number of blocks committed and the block given
    /// back.
    pub fn restart(
        (n, own): (u32, u32),
        value: i32,
        mut journal: Vec<u8>,
        notices: &[Notice],
    ) -> Result<(Place, u32, [u8; BLOCK]), u8> {
        let (replica, restarted) = Replica::restart(n, own, &[value; ITEMS], &journal, notices)?;
        journal.truncate(BLOCK * restarted.count as usize);
        let place = Place {
            replica,
            journal: Some(journal),
        };
        Ok((place, restarted.count, *restarted.block))
    }

    /// Runs one call, and keeps what it appends.
    pub fn call(&mut self, call: &Call) -> Result<Answer, u8> {
        let mut appended = Vec::new();
        let answer = self.replica.call_journaled(call, &mut appended)?;
        if let Some(journal) = &mut self.journal {
            journal.extend(appended);
            if journal.len() > JOURNAL * BLOCK {
                self.journal = None;
            }
        }
        Ok(answer)
    }

    /// The journal, if there is one and all of it is kept.
    pub fn journal(&self) -> Option<&[u8]> {
        self.journal.as_deref()
    }

    /// The notices taken, if all of them are kept.
    pub fn notices(&self) -> Option<&[Notice]> {
        let taken = &self.replica.notices[..];
        (taken.len() <= NOTICES).then_some(taken)
    }

    /// Block i of the journal.
    pub fn block(&self, i: usize) -> Option<&[u8; BLOCK]> {
        let (blocks, _) = self.journal()?.as_chunks();
        blocks.get(i)
    }
}

impl Returner for Place {
    fn replica(&self) -> &Replica {
        &self.replica
    }
    fn call(&mut self, call: &Call) -> Result<Answer, u8> {
        Place::call(self, call)
    }
}

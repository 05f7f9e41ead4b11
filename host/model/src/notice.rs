//! Notices of a membership service (document 02, Req 10): which slots of a closed studio nobody waits
//! for.
//!
//! A list of notices is read as a whole, from the first one on. That the last outage of each replica
//! would do for the slots from the turn on is the library's matter.

use std::fmt;

use crate::block::{Message, MAX_SLOT, NEXT};

/// What a notice says of its replica.
#[derive(Clone, Copy, Debug, PartialEq, Eq)]
pub enum Kind {
    /// From the slot on its slots are passed without a block.
    Out,
    /// From the slot on they count again.
    Back,
}

/// A notice.
#[derive(Clone, Copy, Debug, PartialEq, Eq)]
pub struct Notice {
    /// What it says.
    pub kind: Kind,
    /// The number of the replica that it is about.
    pub about: u32,
    /// The slot from which on it holds, which need not be one of that replica.
    pub slot: u32,
}

impl Notice {
    /// *Out k from v*.
    pub fn out(about: u32, slot: u32) -> Notice {
        let kind = Kind::Out;
        Notice { kind, about, slot }
    }

    /// *Back k at w*.
    pub fn back(about: u32, slot: u32) -> Notice {
        let kind = Kind::Back;
        Notice { kind, about, slot }
    }
}

impl fmt::Display for Notice {
    fn fmt(&self, f: &mut fmt::Formatter) -> fmt::Result {
        match self.kind {
            Kind::Out => write!(f, "Out {} from {}", self.about, self.slot),
            Kind::Back => write!(f, "Back {} at {}", self.about, self.slot),
        }
    }
}

/// The notices about a replica, in order. One of no slot is about nobody: a restart may be lent it.
pub fn about(notices: &[Notice], replica: u32) -> impl DoubleEndedIterator<Item = &Notice> {
    let is_about = move |notice: &&Notice| notice.about == replica && notice.slot <= MAX_SLOT;
    notices.iter().filter(is_about)
}

/// Whether notices, in the order taken, put a slot of a group of `n` out: of those about its owner, the
/// last whose slot is at or below it is an Out.
pub fn puts_out(notices: &[Notice], n: u32, slot: u32) -> bool {
    let mut said = about(notices, slot % n).rev();
    let last = said.find(|notice| notice.slot <= slot);
    slot <= MAX_SLOT && last.is_some_and(|notice| notice.kind == Kind::Out)
}

/// The *next* of a slot's owner, which a journal gets where the slot is passed as out.
pub fn next_of(n: u32, slot: u32) -> Message {
    Message {
        kind: NEXT,
        sender: (slot % n) as u8,
        replicas: n as u8,
        slot,
        records: Vec::new(),
    }
}

#[cfg(test)]
mod tests {
    use super::*;

    #[test]
    fn by_the_whole_list() {
        // Two outages of replica 1 of 2, with nothing between them, and one of replica 0 that is ahead.
        let list = [
            Notice::out(1, 1),
            Notice::back(1, 2),
            Notice::out(0, 8),
            Notice::out(1, 2),
            Notice::back(1, 7),
            Notice::back(0, 9),
            Notice::out(0, 12),
        ];
        let out: Vec<u32> = (0..16).filter(|&slot| puts_out(&list, 2, slot)).collect();
        assert_eq!(out, [1, 3, 5, 8, 12, 14]);
        let out: Vec<u32> = (0..9)
            .filter(|&slot| puts_out(&list[..4], 2, slot))
            .collect();
        assert_eq!(out, [1, 3, 5, 7, 8]);
        assert!((0..16).all(|slot| !puts_out(&[], 2, slot)));
    }

    /// The last slot is one; behind it there is none. A notice of none, or of nobody, says nothing.
    #[test]
    fn the_last_slot() {
        let list = [Notice::out(0, MAX_SLOT - 2), Notice::out(1, MAX_SLOT)];
        let out = |slot| puts_out(&list, 2, slot);
        assert!(out(MAX_SLOT) && out(MAX_SLOT - 1) && !out(MAX_SLOT - 3));
        assert!(!out(MAX_SLOT + 1) && !out(u32::MAX));
        let list = [
            Notice::out(0, 4),
            Notice::back(0, MAX_SLOT + 1),
            Notice::out(2, 0),
        ];
        assert!(puts_out(&list, 2, 4) && !puts_out(&list, 2, 5));
        assert_eq!(about(&list, 0).count(), 1);
    }

    #[test]
    fn in_words() {
        assert_eq!(Notice::out(2, 5).to_string(), "Out 2 from 5");
        assert_eq!(Notice::back(2, 6).to_string(), "Back 2 at 6");
    }
}

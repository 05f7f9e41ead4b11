//! What a membership service says to all replicas.

use std::fmt;

use crate::ffi::Group;
use crate::{owner, SLOTS};

/// A notice that a replica or a station takes. `{}` writes it in document 02's words: `Out 2 from 14`,
/// `Back 2 at 20`.
#[derive(Clone, Copy, Debug, PartialEq, Eq, Hash)]
pub enum Notice {
    /// The replica's slots from this one on are out.
    Out {
        /// The number of the replica.
        replica: u32,
        /// The first slot.
        slot: u32,
    },
    /// The replica's slots from this one on count again.
    Back {
        /// The number of the replica.
        replica: u32,
        /// The first slot.
        slot: u32,
    },
}

impl Notice {
    /// Whether notices, in the order in which they were taken, put a slot of a group of `n` out: the last one
    /// about its owner at or below it is an Out.
    ///
    /// ```
    /// use stemline::Notice;
    ///
    /// let notices = [Notice::Out { replica: 1, slot: 3 }, Notice::Back { replica: 1, slot: 6 }];
    /// assert_eq!([1, 3, 5, 7].map(|slot| Notice::is_out(&notices, 2, slot)), [false, true, true, false]);
    /// ```
    pub fn is_out(notices: &[Notice], n: u32, slot: u32) -> bool {
        let k = owner(slot, n);
        let about = |notice: &&Notice| {
            let (Notice::Out { replica, slot: at } | Notice::Back { replica, slot: at }) = **notice;
            replica == k && at <= slot
        };
        let last = notices.iter().rev().find(about);
        matches!(last, Some(Notice::Out { .. }))
    }

    /// Replica, 1 for Out or 0 for Back, slot: as a restart is lent it.
    pub(crate) fn numbers(self) -> [u32; 3] {
        match self {
            Notice::Out { replica, slot } => [replica, 1, slot],
            Notice::Back { replica, slot } => [replica, 0, slot],
        }
    }

    /// Of such numbers.
    pub(crate) fn of([replica, out, slot]: [u32; 3]) -> Option<Notice> {
        match out {
            1 => Some(Notice::Out { replica, slot }),
            0 => Some(Notice::Back { replica, slot }),
            _ => None,
        }
    }
}

impl Group {
    /// Whether a slot from the turn on is out. Of slots before it only all notices say that
    /// ([`Notice::is_out`]).
    #[inline]
    pub fn is_out(&self, slot: u32) -> bool {
        let k = owner(slot, self.replicas.into()) as usize;
        let outage = self.from.get(k).zip(self.until.get(k));
        // Only in altered memory does an outage end behind the last slot.
        slot < SLOTS && outage.is_some_and(|(&from, &until)| from <= slot && slot < until)
    }

    /// Puts a notice in force, as a restart does.
    pub(crate) fn put(&mut self, notice: Notice) {
        let (Notice::Out { replica, slot } | Notice::Back { replica, slot }) = notice;
        let k = replica as usize;
        let (Some(from), Some(until)) = (self.from.get_mut(k), self.until.get_mut(k)) else {
            return;
        };
        match notice {
            Notice::Out { .. } => (*from, *until) = (slot, SLOTS),
            Notice::Back { .. } => *until = slot,
        }
    }
}

impl fmt::Display for Notice {
    fn fmt(&self, f: &mut fmt::Formatter) -> fmt::Result {
        match self {
            Notice::Out { replica, slot } => write!(f, "Out {replica} from {slot}"),
            Notice::Back { replica, slot } => write!(f, "Back {replica} at {slot}"),
        }
    }
}

#[cfg(test)]
mod tests {
    use super::*;

    #[test]
    fn there_and_back() {
        let notices = [(0, "Back 2 at 14"), (1, "Out 2 from 14")];
        for (out, words) in notices {
            let notice = Notice::of([2, out, 14]).unwrap();
            assert_eq!(notice.numbers(), [2, out, 14]);
            assert_eq!(notice.to_string(), words);
        }
        assert_eq!(Notice::of([2, 2, 14]), None);
    }

    /// Two outages with nothing between them: by the last alone slot 1 would count.
    #[test]
    fn by_all_of_them() {
        let out = |slot| Notice::Out { replica: 1, slot };
        let back = |slot| Notice::Back { replica: 1, slot };
        let notices = [out(1), back(2), out(2), back(7)];
        let is_out = |slot| Notice::is_out(&notices, 2, slot);
        let slots: Vec<u32> = (0..12).filter(|&slot| is_out(slot)).collect();
        assert_eq!(slots, [1, 3, 5]);
        // A Back that is still ahead ends nothing before it; others' notices are no matter.
        let ahead = [
            out(3),
            Notice::Out {
                replica: 0,
                slot: 8,
            },
            back(9),
        ];
        let is_out = |slot| Notice::is_out(&ahead, 2, slot);
        let slots: Vec<u32> = (0..12).filter(|&slot| is_out(slot)).collect();
        assert_eq!(slots, [3, 5, 7, 8, 10]);
    }
}

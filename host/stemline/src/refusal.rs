//! Why a call is refused.

use std::num::NonZeroU8;
use std::{error, fmt};

/// Why a call is refused: one case for each number of document 01's table, and of document 02.
///
/// Both `{}` and `{:?}` write the words and the number, so that a `main` that gives it back by `?` ends
/// in `Error: the block's check does not match (14)`.
#[derive(Clone, Copy, PartialEq, Eq, Hash)]
#[non_exhaustive]
pub enum Refusal {
    /// 1: a lent slice has not its exact length.
    WrongLength,
    /// 2: the number of replicas, the own number, the item, a class, or the replica or slot of a notice.
    OutOfRange,
    /// 3: no open transaction has this ticket.
    NotOpen,
    /// 4: the transaction is asked or sent already.
    NotActive,
    /// 5: six transactions are open.
    AllOpen,
    /// 6: all 100,000,000 tickets are given.
    TicketsSpent,
    /// 7: an item of this class is still to come in the block of another that is applied. To be tried again
    /// after the next work.
    Applying,
    /// 8: another open transaction has written the item, which is not stale ([`Refusal::Stale`] is before
    /// this). To be tried again when that one has ended: stale, if the item has changed by then.
    Locked,
    /// 9: the item changed since the transaction's snapshot, whoever holds it now. The only refusal that
    /// changes something: the transaction ends as aborted.
    Stale,
    /// 10: the transaction has written eight items, and this is another.
    WritesetFull,
    /// 11: the turn is another replica's slot.
    NotOurTurn,
    /// 12: the block for this slot is sent already.
    AlreadySent,
    /// 13: all 100,000,000 slots are processed.
    SlotsSpent,
    /// 14: the block's check does not match.
    WrongCheck,
    /// 15: the block is not well formed.
    WrongForm,
    /// 16: the block is of a group of another size.
    WrongGroup,
    /// 17: the block's slot is processed already.
    PastSlot,
    /// 18: the block's slot is n or more ahead of the turn. A station is to be offered the block again: see
    /// [`crate::Station::take`]; so is a replica that is out, or was. At another no block that its group
    /// handed out is refused so.
    FarSlot,
    /// 19: the block names this replica as its sender, and is not the one that it sent.
    NotSent,
    /// 20: a block for this slot waits already.
    SlotTaken,
    /// 21: no block waits for the turn.
    NothingWaits,
    /// 23: a block of another replica is half applied.
    LoadWhileApplying,
    /// 25: a write, a send or a giving on the memory of a station. A [`crate::Station`] has none of these calls.
    StationOnlyReads,
    /// 28: the notice does not fit. Its slot is passed; Out of a replica that is out already, that comes back
    /// above the turn, or of which a block at or behind the slot is here; Back of one that is not out, or not
    /// behind its Out.
    NoticeRefused,
    /// 29: the slot is out. No block is sent for it; one that comes is to be offered again where a Back is
    /// still to be taken.
    SlotOut,
    /// 30: no other replica is up, by the turns told.
    NobodyUp,
    /// 31: the giver's window lacks the block of a slot from the returner's turn up to the giver's: it is more than
    /// 64 slots ahead, or not all of its blocks were put into the window lent.
    WindowLacks,
    /// A number that the table does not have: the library is newer than this crate.
    Unknown(u8),
}

/// What an unknown number says.
const UNKNOWN: &str = "refused by an unknown number";

/// The cases in the order of their numbers, from 1 on, and what each says; `stemline_words` of the C
/// header says the same. The documents have no 24; 26 and 27 are the program `week`'s.
const TABLE: [(Refusal, &str); 31] = [
    (
        Refusal::WrongLength,
        "a lent slice has not its exact length",
    ),
    (
        Refusal::OutOfRange,
        "the number of replicas, the own number, the item, a class, or a notice's replica or slot is out of range",
    ),
    (Refusal::NotOpen, "no open transaction has this ticket"),
    (
        Refusal::NotActive,
        "the transaction is asked or sent already",
    ),
    (Refusal::AllOpen, "6 transactions are open"),
    (Refusal::TicketsSpent, "all 100,000,000 tickets are given"),
    (
        Refusal::Applying,
        "a block of another replica is being applied, with items of this item's class still to come",
    ),
    (Refusal::Locked, "another open transaction holds the item"),
    (
        Refusal::Stale,
        "the item has changed since the snapshot; the transaction is aborted",
    ),
    (
        Refusal::WritesetFull,
        "the transaction has written 8 items, and this is a ninth",
    ),
    (Refusal::NotOurTurn, "the turn is another replica's slot"),
    (
        Refusal::AlreadySent,
        "the block for this slot is sent already",
    ),
    (Refusal::SlotsSpent, "all 100,000,000 slots are processed"),
    (Refusal::WrongCheck, "the block's check does not match"),
    (Refusal::WrongForm, "the block is not well formed"),
    (
        Refusal::WrongGroup,
        "the block is of a group of another size",
    ),
    (Refusal::PastSlot, "the block's slot is below the turn"),
    (
        Refusal::FarSlot,
        "the block's slot is too far above the turn",
    ),
    (
        Refusal::NotSent,
        "the block names this replica as its sender, which did not send it for its present turn",
    ),
    (Refusal::SlotTaken, "a block for this slot waits already"),
    (Refusal::NothingWaits, "no block waits for the turn"),
    // A work's until document 02's Req 08: no number takes its place.
    (Refusal::Unknown(22), UNKNOWN),
    (
        Refusal::LoadWhileApplying,
        "classes are loaded while a block of another replica is being applied",
    ),
    (Refusal::Unknown(24), UNKNOWN),
    (Refusal::StationOnlyReads, "a station neither writes nor sends nor is given blocks"),
    (Refusal::Unknown(26), UNKNOWN),
    (Refusal::Unknown(27), UNKNOWN),
    (
        Refusal::NoticeRefused,
        "the notice does not fit the turn, the notices taken before or a block that is here",
    ),
    (Refusal::SlotOut, "the slot is out by a notice"),
    (Refusal::NobodyUp, "no other replica is up"),
    (
        Refusal::WindowLacks,
        "the giver's window lacks a block of a slot up to its turn",
    ),
];

impl Refusal {
    /// The refusal of a number; `None` for 0, which accepts.
    #[inline]
    pub fn from_number(number: u8) -> Option<Refusal> {
        NonZeroU8::new(number).map(Refusal::refused_by)
    }

    // Apart, and cold: an accepted call goes straight on.
    #[cold]
    #[inline(never)]
    fn refused_by(number: NonZeroU8) -> Refusal {
        let known = TABLE.get(usize::from(number.get() - 1));
        known.map_or(Refusal::Unknown(number.get()), |&(refusal, _)| refusal)
    }

    /// The number in the documents.
    pub fn number(self) -> u8 {
        match self {
            Refusal::Unknown(number) => number,
            known => 1 + known.entry() as u8,
        }
    }

    /// What the number stands for.
    pub fn words(self) -> &'static str {
        let known = TABLE.get(self.entry());
        known.map_or(UNKNOWN, |&(_, words)| words)
    }

    /// Whether it turns a giving away, before anything of it is delivered.
    pub(crate) fn is_turned_away(self) -> bool {
        matches!(
            self,
            Refusal::StationOnlyReads
                | Refusal::WrongLength
                | Refusal::NobodyUp
                | Refusal::WindowLacks
        )
    }

    /// Where the table has it; behind its end for an unknown number.
    fn entry(self) -> usize {
        let at = TABLE.iter().position(|&(refusal, _)| refusal == self);
        at.unwrap_or(TABLE.len())
    }
}

impl fmt::Display for Refusal {
    fn fmt(&self, f: &mut fmt::Formatter) -> fmt::Result {
        write!(f, "{} ({})", self.words(), self.number())
    }
}

impl fmt::Debug for Refusal {
    fn fmt(&self, f: &mut fmt::Formatter) -> fmt::Result {
        fmt::Display::fmt(self, f)
    }
}

impl error::Error for Refusal {}

#[cfg(test)]
mod tests {
    use super::*;

    #[test]
    fn numbers_and_back() {
        assert_eq!(Refusal::from_number(0), None);
        for number in 1..=u8::MAX {
            let refusal = Refusal::from_number(number).unwrap();
            assert_eq!(refusal.number(), number);
            let known = matches!(number, 1..=21 | 23 | 25 | 28..=31);
            assert_eq!(matches!(refusal, Refusal::Unknown(_)), !known);
        }
    }

    #[test]
    fn words() {
        let words = |number| Refusal::from_number(number).unwrap().to_string();
        assert_eq!(words(14), "the block's check does not match (14)");
        assert_eq!(words(24), "refused by an unknown number (24)");
        assert_eq!(words(26), "refused by an unknown number (26)");
        assert_eq!(words(32), "refused by an unknown number (32)");
        let said: Vec<&str> = (1..=32)
            .map(|number| Refusal::from_number(number).unwrap().words())
            .collect();
        let known: Vec<&str> = said
            .iter()
            .copied()
            .filter(|&words| words != UNKNOWN)
            .collect();
        assert!((1..known.len()).all(|at| !known[..at].contains(&known[at])));
        assert_eq!([21, 23, 25, 26, 31].map(|at| said[at]), [UNKNOWN; 5]);
        assert_eq!(known.len(), 27);
        let boxed: Box<dyn error::Error> = Box::new(Refusal::Stale);
        assert!(boxed.to_string().ends_with("(9)"));
        // What std prints of a main that ends in an error.
        let said = format!("Error: {:?}", Refusal::WrongCheck);
        assert_eq!(said, "Error: the block's check does not match (14)");
    }

    /// By the table of document 01, and document 02.
    #[test]
    fn cases_by_number() {
        assert_eq!(Refusal::from_number(1), Some(Refusal::WrongLength));
        assert_eq!(Refusal::from_number(9), Some(Refusal::Stale));
        assert_eq!(Refusal::from_number(13), Some(Refusal::SlotsSpent));
        assert_eq!(Refusal::from_number(21), Some(Refusal::NothingWaits));
        assert_eq!(Refusal::from_number(22), Some(Refusal::Unknown(22)));
        assert_eq!(Refusal::from_number(23), Some(Refusal::LoadWhileApplying));
        assert_eq!(Refusal::from_number(25), Some(Refusal::StationOnlyReads));
        assert_eq!(Refusal::from_number(28), Some(Refusal::NoticeRefused));
        assert_eq!(Refusal::from_number(29), Some(Refusal::SlotOut));
        assert_eq!(Refusal::from_number(30), Some(Refusal::NobodyUp));
        assert_eq!(Refusal::from_number(31), Some(Refusal::WindowLacks));
    }
}

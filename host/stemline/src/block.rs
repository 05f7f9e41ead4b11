//! A block to look at: what the proved functions read of its bytes, and the line that says it.

use std::str::FromStr;
use std::{error, fmt};

use crate::ffi::{self, Entry, Header};
use crate::{accepted, Refusal, BLOCK};

/// A good block, as a [`crate::Replica::send`] gives it and a journal keeps it.
///
/// Both `{}` and `{:?}` write it in one line, which no other block has: its slot, who sent it, of how many
/// replicas, and the writesets in their order, each with its ticket, its items and their new values.
///
/// ```text
/// slot 7 of replica 1 of 3: ticket 4 sets 5 = 84, 9 = -3; ticket 6 sets 2 = 1
/// slot 8 of replica 2 of 3: nothing
/// ```
///
/// It is read from hexadecimal digits by [`str::parse`].
#[derive(Clone, PartialEq, Eq)]
pub struct Block {
    bytes: [u8; BLOCK],
    header: Header,
}

/// The writeset of one transaction: its ticket at the sender, and what it sets, by rising items.
#[derive(Clone, Debug, PartialEq, Eq)]
pub struct Record {
    /// The ticket, at the replica that sent the block.
    pub ticket: u32,
    /// What it sets.
    pub entries: Vec<Entry>,
}

impl Block {
    /// The block of these bytes. Refused by 1, 14, 15.
    pub fn read(bytes: &[u8]) -> Result<Block, Refusal> {
        let reply = ffi::block_header(bytes);
        let header = accepted(reply.number, reply.header)?;
        let bytes = bytes.try_into().map_err(|_| Refusal::WrongLength)?;
        Ok(Block { bytes, header })
    }

    /// The slot that it is for.
    pub fn slot(&self) -> u32 {
        self.header.slot
    }

    /// The replica that sent it, which its slot belongs to.
    pub fn sender(&self) -> u8 {
        self.header.sender
    }

    /// How many replicas its group has.
    pub fn replicas(&self) -> u8 {
        self.header.replicas
    }

    /// Whether it is a *next*: a block without records, of a replica at which nothing was asked.
    pub fn is_next(&self) -> bool {
        self.header.count == 0
    }

    /// Its writesets, in the order in which they are committed.
    pub fn records(&self) -> impl ExactSizeIterator<Item = Record> + '_ {
        (0..self.header.count).map(|j| {
            let j = u32::from(j);
            let head = ffi::block_record(&self.bytes, j);
            let entry = |e| ffi::block_entry(&self.bytes, j, u32::from(e));
            Record {
                ticket: head.ticket,
                entries: (0..head.writes).map(entry).collect(),
            }
        })
    }

    /// All of its bytes.
    pub fn bytes(&self) -> &[u8; BLOCK] {
        &self.bytes
    }
}

impl fmt::Display for Block {
    fn fmt(&self, f: &mut fmt::Formatter) -> fmt::Result {
        let (slot, sender, n) = (self.slot(), self.sender(), self.replicas());
        write!(f, "slot {slot} of replica {sender} of {n}: ")?;
        if self.is_next() {
            return f.write_str("nothing");
        }
        separated(f, "; ", self.records())
    }
}

impl fmt::Debug for Block {
    fn fmt(&self, f: &mut fmt::Formatter) -> fmt::Result {
        fmt::Display::fmt(self, f)
    }
}

impl fmt::Display for Record {
    fn fmt(&self, f: &mut fmt::Formatter) -> fmt::Result {
        write!(f, "ticket {} sets ", self.ticket)?;
        separated(f, ", ", self.entries.iter())
    }
}

/// Each of them, with this between two.
fn separated<T: fmt::Display>(
    f: &mut fmt::Formatter,
    between: &str,
    all: impl Iterator<Item = T>,
) -> fmt::Result {
    for (at, one) in all.enumerate() {
        let front = if at == 0 { "" } else { between };
        write!(f, "{front}{one}")?;
    }
    Ok(())
}

/// Why a text is not the hexadecimal digits of a block. Both `{}` and `{:?}` write the words.
#[derive(Clone, Copy, PartialEq, Eq)]
pub enum DigitsError {
    /// It has a character that is no digit.
    NotADigit(char),
    /// It has another number of digits than two for each byte of a block.
    WrongCount(usize),
    /// The bytes are refused: by 14 or 15.
    Refused(Refusal),
}

/// From 1,024 hexadecimal digits, two for each byte, small or capital.
impl FromStr for Block {
    type Err = DigitsError;

    fn from_str(text: &str) -> Result<Block, DigitsError> {
        let digit = |c: char| c.to_digit(16).ok_or(DigitsError::NotADigit(c));
        let digits = text.chars().map(digit).collect::<Result<Vec<_>, _>>()?;
        if digits.len() != 2 * BLOCK {
            return Err(DigitsError::WrongCount(digits.len()));
        }
        let (pairs, _) = digits.as_chunks();
        let bytes: Vec<u8> = pairs.iter().map(|[a, b]| (16 * a + b) as u8).collect();
        Block::read(&bytes).map_err(DigitsError::Refused)
    }
}

impl fmt::Display for DigitsError {
    fn fmt(&self, f: &mut fmt::Formatter) -> fmt::Result {
        match self {
            DigitsError::NotADigit(c) => write!(f, "{c:?} is not a hexadecimal digit"),
            DigitsError::WrongCount(count) => {
                let due = 2 * BLOCK;
                write!(
                    f,
                    "a block has {due} hexadecimal digits, and here are {count}"
                )
            }
            DigitsError::Refused(refusal) => refusal.fmt(f),
        }
    }
}

impl fmt::Debug for DigitsError {
    fn fmt(&self, f: &mut fmt::Formatter) -> fmt::Result {
        fmt::Display::fmt(self, f)
    }
}

impl error::Error for DigitsError {}

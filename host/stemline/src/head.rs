//! The head of a journal's file: whose journal it is.
//!
//! All numbers have the lowest byte first:
//!
//! | Bytes | What |
//! |---|---|
//! | 0 to 15 | the mark |
//! | 16 to 31 | version, n, own number, length of the group's name, 4 bytes each |
//! | 32 to 287 | the group's name, zeros behind |
//! | 288 to 799 | the 128 values to start with, 4 bytes each |
//! | 800 to 807 | the digest of all before |
//! | 4,096 and 8,192 | the copies of the last two rounds (`round.rs`) |
//! | from 12,288 on | the blocks, 512 bytes each, of slots 0, 1, .. |
//!
//! The copies have pages of their own: what is written while the next one is sent touches neither whose the
//! file is, nor the copy of the own block sent last.
//!
//! A file is of version 1 until its replica takes its first notice, and of version 2 from then on: beside it is
//! a file of notices (`notices.rs`), without which it is not taken up.

use std::borrow::Cow;
use std::path::Path;
use std::{fmt, io};

use crate::digest::{digest, START};
use crate::disk::Medium;
use crate::notices::Notices;
use crate::round::{places, Round};
use crate::{Block, Notice, ITEMS};

/// The bytes of a journal's file in front of its first block.
pub const HEAD: usize = 3 * PAGE;
/// What is written at different times stands on different pages.
pub(crate) const PAGE: usize = 4_096;
/// The version of a file with no notices, and that of one with notices beside it.
const PLAIN: u32 = 1;
const NOTICED: u32 = 2;
/// No text begins so.
const MARK: [u8; 16] = *b"\x89stemline\r\n\x1a\n\0\0\xff";
/// The most bytes of a group's name.
const NAME: usize = 255;
/// Where name, values and digest begin, and where that ends.
const NAMED: usize = 32;
const STARTS: usize = NAMED + NAME + 1;
const CHECK: usize = STARTS + 4 * ITEMS;
const END: usize = CHECK + 8;

/// Whose journal a file is: of which replica, of how many, of which group, with which values to start with.
///
/// Both `{}` and `{:?}` write it in one line.
#[derive(Clone, PartialEq, Eq)]
pub struct Head {
    version: u32,
    n: u32,
    own: u32,
    group: Vec<u8>,
    values: Box<[i32; ITEMS]>,
}

impl Head {
    /// Of replica `own` of `n`. The name has 1 to 255 bytes and no control characters; else it is said in
    /// words.
    pub(crate) fn new(
        group: &str,
        n: u32,
        own: u32,
        values: &[i32; ITEMS],
    ) -> Result<Head, &'static str> {
        let group = group.as_bytes().to_vec();
        match group.len() {
            0 => Err("the group has no name"),
            1..=NAME if group.iter().any(u8::is_ascii_control) => {
                Err("the group's name has a control character")
            }
            1..=NAME => Ok(Head {
                version: PLAIN,
                n,
                own,
                group,
                values: Box::new(*values),
            }),
            _ => Err("the group's name has more than 255 bytes"),
        }
    }

    /// The head that a file begins with, or why it has none, in words.
    pub fn read(bytes: &[u8]) -> Result<Head, String> {
        if !bytes.starts_with(&MARK) {
            return Err(
                "it is no journal, or of before there were heads: the mark is missing".into(),
            );
        }
        let Some(bytes) = bytes.first_chunk::<END>() else {
            return Err("it ends within its head".into());
        };
        let number = |at: usize| {
            let number = bytes[at..].first_chunk().expect("it is within");
            u32::from_le_bytes(*number)
        };
        let (version, n, own, length) = (number(16), number(20), number(24), number(28));
        if ![PLAIN, NOTICED].contains(&version) {
            return Err(format!(
                "it is of version {version}, and this program knows the versions {PLAIN} and {NOTICED}"
            ));
        }
        let check = digest(START, &bytes[..CHECK]).to_le_bytes();
        if bytes[CHECK..] != check || length as usize > NAME {
            return Err("its head is damaged: the check does not match".into());
        }
        Ok(Head {
            version,
            n,
            own,
            group: bytes[NAMED..][..length as usize].to_vec(),
            values: Box::new(std::array::from_fn(|item| number(STARTS + 4 * item) as i32)),
        })
    }

    /// The bytes that its file begins with. What is behind them, up to the copies, is zero.
    pub(crate) fn bytes(&self) -> [u8; END] {
        let mut bytes = [0; END];
        bytes[..16].copy_from_slice(&MARK);
        let numbers = [self.version, self.n, self.own, self.group.len() as u32];
        for (at, number) in (16..).step_by(4).zip(numbers) {
            bytes[at..][..4].copy_from_slice(&number.to_le_bytes());
        }
        bytes[NAMED..][..self.group.len()].copy_from_slice(&self.group);
        for (at, value) in (STARTS..).step_by(4).zip(self.values.iter()) {
            bytes[at..][..4].copy_from_slice(&value.to_le_bytes());
        }
        let check = digest(START, &bytes[..CHECK]);
        bytes[CHECK..].copy_from_slice(&check.to_le_bytes());
        bytes
    }

    /// How many replicas the group has.
    pub fn replicas(&self) -> u32 {
        self.n
    }

    /// The number of the replica whose journal it is.
    pub fn own(&self) -> u32 {
        self.own
    }

    /// The name of the group.
    pub fn group(&self) -> Cow<'_, str> {
        String::from_utf8_lossy(&self.group)
    }

    /// The values that the group started with.
    pub fn values(&self) -> &[i32; ITEMS] {
        &self.values
    }

    /// Whether a notice was taken: then there is a file of notices beside the journal.
    pub fn is_noticed(&self) -> bool {
        self.version == NOTICED
    }

    /// This head with notices beside the journal, or without.
    pub(crate) fn noticed(&self, noticed: bool) -> Head {
        let version = if noticed { NOTICED } else { PLAIN };
        Head {
            version,
            ..self.clone()
        }
    }

    /// The digest by which a file of notices is this journal's.
    pub(crate) fn identity(&self) -> u64 {
        // Without the digest in it, as in `common`.
        digest(START, &self.noticed(false).bytes()[..CHECK])
    }

    /// The copies of its last rounds that are whole, at most two, of a file that begins with these bytes:
    /// each has the blocks of consecutive slots behind an own one, up to the next own one at most.
    pub fn copies(&self, front: &[u8]) -> Vec<Vec<Block>> {
        let rounds = self.rounds(front).into_iter();
        let blocks = |round: Round| round.blocks.iter().flat_map(|b| Block::read(b)).collect();
        rounds.map(blocks).collect()
    }

    /// The notices beside a journal that begins with these bytes, or in words what is wrong with them. How many
    /// blocks it had at the last of them is not looked at.
    pub fn notices(&self, front: &[u8], journal: &Path) -> io::Result<Result<Vec<Notice>, String>> {
        let copies = self.rounds(front);
        let taken = copies.iter().map(|round| round.notices).max();
        let notices = Notices::read(&Medium::System, journal, self)?;
        Ok(notices.and_then(|notices| {
            let lacking = notices.lacking(taken.unwrap_or(0), u32::MAX);
            lacking.map_or(Ok(notices.taken), Err)
        }))
    }

    pub(crate) fn rounds(&self, front: &[u8]) -> Vec<Round> {
        let page = |at: u64| front.get(at as usize..)?.get(..PAGE);
        let read = |at| Round::read(page(at)?, at, self.n, self.own);
        places().into_iter().filter_map(read).collect()
    }

    /// The digest of what all replicas of the group have in common: its size, its name and its values to
    /// start with.
    pub(crate) fn common(&self) -> u64 {
        let any = Head {
            own: 0,
            ..self.noticed(false)
        };
        // Without the digest in it: with that it would be the same for all.
        digest(START, &any.bytes()[..CHECK])
    }

    /// Whether a file that begins with these bytes, `HEAD` at most, is to be made: `true` for one that is
    /// empty, or that a cut left while this head was put there. `false` where it has this head. In words
    /// what it is else: it is not to be touched.
    ///
    /// First the file is made `HEAD` bytes long, of zeros, then the head is put there, each durable before
    /// the next. So a head that is torn, each of its bytes still zero or right, stands in a file of just
    /// that length, and one that is whole in no shorter one. A head that a cut left between its two versions
    /// is this one.
    pub(crate) fn is_new(&self, front: &[u8], length: u64) -> Result<bool, String> {
        let zeros = |bytes: &[u8]| bytes.iter().all(|&byte| byte == 0);
        if length < HEAD as u64 {
            return match zeros(front) {
                true => Ok(true),
                false if front.starts_with(&MARK) => {
                    Err("it ends within its head, and no cut of the power leaves that".into())
                }
                false => Err(Head::read(front).expect_err("the mark is missing")),
            };
        }
        let why = match Head::read(front) {
            Ok(found) => return self.same(&found).map(|()| false),
            Err(why) => why,
        };
        let each = |a: &[u8; END], b: &[u8; END]| {
            let mut due = front.iter().zip(a.iter().zip(b));
            due.all(|(byte, (a, b))| byte == a || byte == b)
        };
        let (plain, noticed) = (self.noticed(false).bytes(), self.noticed(true).bytes());
        let made = length == HEAD as u64 && each(&[0; END], &plain) && zeros(&front[END..]);
        match made || each(&plain, &noticed) {
            true => Ok(made),
            false => Err(why),
        }
    }

    /// That the head found is this one, or all that differs, in words.
    fn same(&self, found: &Head) -> Result<(), String> {
        let mut differs = Vec::new();
        if found.n != self.n {
            differs.push(format!("of {} replicas, not of {}", found.n, self.n));
        }
        if found.own != self.own {
            differs.push(format!("of replica {}, not of {}", found.own, self.own));
        }
        if found.group != self.group {
            let (found, due) = (found.group(), self.group());
            differs.push(format!("of the group {found:?}, not of {due:?}"));
        }
        let mut items = found.values.iter().zip(self.values.iter());
        if let Some(item) = items.position(|(found, due)| found != due) {
            let (found, due) = (found.values[item], self.values[item]);
            differs.push(format!("of a start with {item} = {found}, not {due}"));
        }
        match differs.is_empty() {
            true => Ok(()),
            false => Err(format!("it is {}", differs.join("; "))),
        }
    }
}

impl fmt::Display for Head {
    fn fmt(&self, f: &mut fmt::Formatter) -> fmt::Result {
        let (own, n, group) = (self.own, self.n, self.group());
        let start = digest(START, &self.bytes()[STARTS..CHECK]);
        write!(
            f,
            "replica {own} of {n} of the group {group:?}, version {}, start {start:016x}",
            self.version
        )
    }
}

impl fmt::Debug for Head {
    fn fmt(&self, f: &mut fmt::Formatter) -> fmt::Result {
        fmt::Display::fmt(self, f)
    }
}

#[cfg(test)]
mod tests;

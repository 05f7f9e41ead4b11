//! A replica's journal in a file: its head, and behind it the blocks.

use std::io::{self, BufReader, Read};
use std::path::{Path, PathBuf};
use std::{error, fmt};

use crate::digest::Digests;
use crate::disk::{Disk, Medium, What};
use crate::head::{Head, HEAD};
use crate::notices::Notices;
use crate::round::Round;
use crate::tally::Tally;
use crate::{owner, Block, Blocks, Notice, Stop, Window, BLOCK};

/// A journal over a file.
///
/// After an error nothing more is appended: what was appended since the last good sync is cut off again,
/// and each call gives an error until the file is opened anew.
#[derive(Debug)]
pub(crate) struct Journal {
    pub(crate) disk: Disk,
    path: PathBuf,
    head: Head,
    /// The notices beside it.
    pub notices: Notices,
    /// The blocks that the file has.
    blocks: u32,
    /// Those that were there when it was opened or last made durable. Those of an open are kept whether they
    /// are durable or not: the last one may have been handed out before.
    kept: u32,
    /// The blocks behind the last own slot.
    since: Vec<[u8; BLOCK]>,
    /// Whether one of those appended since the last good sync is of a slot that is out.
    passed: bool,
    /// What its blocks have committed.
    pub digests: Digests,
    /// Where a copy was begun since the last good sync.
    copied: Option<u64>,
    failed: bool,
}

/// What an open found in a file, before it changes anything.
#[derive(Debug)]
pub(crate) struct Found {
    pub tally: Tally,
    /// The bytes of the file, and those behind the good blocks.
    pub length: u64,
    pub behind: u64,
    /// Why the good blocks stop.
    pub stop: Stop,
    /// The blocks that are taken from the copies, with their slots.
    pub mended: Vec<(u32, [u8; BLOCK])>,
}

/// What the disk did not do, in words. Both `{}` and `{:?}` write them.
pub struct DiskError {
    doing: &'static str,
    path: PathBuf,
    error: io::Error,
}

/// Where a block begins in the file.
pub(crate) fn place(slot: u32) -> u64 {
    HEAD as u64 + BLOCK as u64 * u64::from(slot)
}

impl Journal {
    /// Opens a file, or makes it, with this head, and reads what it has. It is this process's from here on;
    /// where it is not this head's or is damaged, it is left as it is. Then comes [`Journal::take_up`].
    pub fn open(medium: &Medium, path: &Path, head: &Head) -> Result<(Journal, Found), DiskError> {
        let fails = |doing| move |error| DiskError::new(doing, path, error);
        let opened = medium.open(path, What::Journal);
        let (mut disk, mut length) = opened.map_err(fails("open"))?;
        let mut front = vec![0; length.min(HEAD as u64) as usize];
        let read = |disk: &mut Disk, front: &mut [u8]| disk.reader(0)?.read_exact(front);
        read(&mut disk, &mut front).map_err(fails("read"))?;
        let words = |words: String| fails("take up")(io::Error::other(words));
        let is_new = head.is_new(&front, length).map_err(words)?;
        // A head that is torn between its versions is of the later one.
        let head = head.noticed(!is_new && !front.starts_with(&head.bytes()));
        let notices = Notices::read(medium, path, &head).map_err(fails("read the notices of"))?;
        let notices = notices.map_err(words)?;
        if is_new {
            make(&mut disk, &head).map_err(fails("make"))?;
            front = vec![0; HEAD];
            length = HEAD as u64;
        }
        let found = look(&mut disk, &head, &notices, &front, length).map_err(fails("read"))?;
        let found = found.map_err(words)?;
        let journal = Journal {
            disk,
            path: path.to_path_buf(),
            head,
            notices,
            blocks: found.tally.turn,
            kept: found.tally.turn,
            since: found.tally.since.clone(),
            passed: false,
            digests: found.tally.digests.clone(),
            copied: None,
            failed: false,
        };
        Ok((journal, found))
    }

    /// Mends what is to be mended, and lends all the blocks, with what is behind them.
    pub fn lend<T>(&mut self, found: &Found, to: impl FnOnce(&[u8]) -> T) -> Result<T, DiskError> {
        for (slot, block) in &found.mended {
            let written = self.disk.write(place(*slot), block);
            self.done("mend", written)?;
        }
        let mended = found.mended.last().map_or(0, |&(slot, _)| place(slot + 1));
        let length = found.length.max(mended);
        let lent = self.disk.lend(length, |bytes| to(&bytes[HEAD..]));
        self.done("lend", lent)
    }

    /// Cuts off what is behind the good blocks, and makes the rest durable.
    ///
    /// What is read may be in the system's memory alone, and counts there as written where a sync of it
    /// failed before: a sync would then pass it over. So all that is not known to be durable is written
    /// once more, the last notice, the blocks since the own one before the last, and the copy; where notices
    /// were taken, also the head, and a copy of the blocks behind the last own one, which may be of slots that
    /// are out.
    pub fn take_up(&mut self, found: &Found) -> Result<(), DiskError> {
        let is_noticed = self.head.is_noticed();
        if is_noticed {
            let renewed = self.notices.take_up();
            self.done("renew the notices of", renewed)?;
            let renewed = self.disk.write(0, &self.head.bytes());
            self.done("renew the head of", renewed)?;
        }
        let cut = self.disk.cut(place(self.blocks));
        self.done("cut", cut)?;
        let tally = &found.tally;
        let last = tally.last.as_ref();
        let blocks: Vec<_> = last.iter().flat_map(|round| &round.blocks).collect();
        let blocks: Vec<u8> = blocks
            .into_iter()
            .chain(&tally.since)
            .flatten()
            .copied()
            .collect();
        if !blocks.is_empty() {
            let first = tally.turn - (blocks.len() / BLOCK) as u32;
            let renewed = self.disk.write(place(first), &blocks);
            self.done("renew the end of", renewed)?;
        }
        if let Some(round) = last {
            self.copy(round.first, &round.blocks)?;
        }
        match is_noticed {
            true => self.keep(),
            false => self.sync(),
        }
    }

    /// Appends the blocks of the slots that the turn has left, by works, a take or a giving, from the replica's
    /// window. Of others they are durable after the next [`Journal::send`]; where a slot is out, all are when
    /// this returns.
    pub fn follow(&mut self, turn: u32, window: &Window) -> Result<(), DiskError> {
        while self.blocks < turn {
            let block = window.block(self.blocks).ok_or_else(|| {
                // Only altered memory has none: it is called behind each of them.
                io::Error::other(format!("the window lacks slot {}", self.blocks))
            });
            let block = self.done("append to", block)?;
            self.append(block)?;
        }
        match self.passed {
            true => self.keep(),
            false => Ok(()),
        }
    }

    /// Appends another's block, or the *next* of a slot that is out.
    pub fn append(&mut self, block: &[u8; BLOCK]) -> Result<(), DiskError> {
        let slot = self.blocks;
        if owner(slot, self.head.replicas()) == self.head.own() {
            return self.send(block);
        }
        self.put(block)?;
        self.passed |= self.notices.is_out(slot);
        Ok(())
    }

    /// Makes all durable that was appended, and the number of notices, with a copy of the round so far.
    fn keep(&mut self) -> Result<(), DiskError> {
        let blocks = self.since.clone();
        self.copy(self.blocks - blocks.len() as u32, &blocks)?;
        self.sync()
    }

    /// Puts a notice that the replica has taken beside the journal. All that was appended is durable before
    /// it, and it is when this returns.
    pub fn notice(&mut self, notice: Notice) -> Result<(), DiskError> {
        self.going()?;
        if self.kept < self.blocks {
            self.keep()?;
        }
        if !self.notices.is_open() {
            let begun = self.notices.begin();
            self.done("make the notices of", begun)?;
            self.head = self.head.noticed(true);
            let written = self.disk.write(0, &self.head.bytes());
            self.done("renew the head of", written)?;
            self.sync()?;
        }
        let appended = self.notices.append(notice, self.blocks);
        self.done("put a notice beside", appended)?;
        self.keep()
    }

    /// Puts a block behind all others.
    fn put(&mut self, block: &[u8; BLOCK]) -> Result<(), DiskError> {
        self.going()?;
        // Only altered memory gives another.
        let read = Block::read(block).map_err(io::Error::other);
        let read = self.done("append to", read)?;
        let written = self.disk.write(place(self.blocks), block);
        self.done("append to", written)?;
        self.blocks += 1;
        self.since.push(*block);
        self.digests.add(&read);
        Ok(())
    }

    /// Appends an own block, with its copy, and makes all durable.
    pub fn send(&mut self, block: &[u8; BLOCK]) -> Result<(), DiskError> {
        self.put(block)?;
        let blocks = std::mem::take(&mut self.since);
        self.copy(self.blocks - blocks.len() as u32, &blocks)?;
        self.sync()
    }

    fn copy(&mut self, first: u32, blocks: &[[u8; BLOCK]]) -> Result<(), DiskError> {
        let round = Round {
            first,
            blocks: blocks.to_vec(),
            notices: self.notices.count(),
        };
        let at = round.place(self.head.replicas(), self.head.own());
        self.copied = Some(at);
        let written = self.disk.write(at, &round.bytes());
        self.done("put a copy into", written)
    }

    fn sync(&mut self) -> Result<(), DiskError> {
        let synced = self.disk.sync();
        self.done("sync", synced)?;
        self.kept = self.blocks;
        self.copied = None;
        self.passed = false;
        Ok(())
    }

    /// That nothing failed so far.
    pub fn going(&self) -> Result<(), DiskError> {
        match self.failed {
            true => Err(self.error("go on with", "it failed before; open it anew")),
            false => Ok(()),
        }
    }

    /// An error of this journal that is not the system's.
    pub fn error(&self, doing: &'static str, words: &str) -> DiskError {
        DiskError::new(doing, &self.path, io::Error::other(words))
    }

    fn done<T>(&mut self, doing: &'static str, result: io::Result<T>) -> Result<T, DiskError> {
        result.map_err(|error| {
            self.fail();
            DiskError::new(doing, &self.path, error)
        })
    }

    /// Ends the journal's use. After a failed sync there may be bytes that can be read and are not on the
    /// disk: without them the file is as a cut leaves it. Where this fails too, there is nothing more to
    /// do, and the error is told all the same.
    pub fn fail(&mut self) {
        self.failed = true;
        let _ = self.disk.cut(place(self.kept));
        if let (Some(at), true) = (self.copied, self.kept < self.blocks) {
            let _ = self.disk.write(at, &[0; 16]);
        }
    }
}

/// Makes a file with this head and no blocks.
fn make(disk: &mut Disk, head: &Head) -> io::Result<()> {
    disk.cut(HEAD as u64)?;
    disk.sync()?;
    disk.write(0, &head.bytes())?;
    disk.sync()
}

/// Reads a file that begins so; or says what is wrong with it.
fn look(
    disk: &mut Disk,
    head: &Head,
    notices: &Notices,
    front: &[u8],
    length: u64,
) -> io::Result<Result<Found, String>> {
    let (n, own) = (head.replicas(), head.own());
    let copies = head.rounds(front);
    let (mut tally, mut mended) = (Tally::new(head), Vec::new());
    let stop = loop {
        let stop = good(disk, n, &mut tally)?;
        let covers = |round: &&Round| round.block(tally.turn).is_some();
        let Some(round) = copies.iter().find(covers) else {
            break stop;
        };
        while let Some(bytes) = round.block(tally.turn) {
            mended.push((tally.turn, *bytes));
            tally.add(&Block::read(bytes).map_err(io::Error::other)?);
        }
    };
    let turn = tally.turn;
    if let Some(round) = copies.iter().find(|round| round.end() > turn) {
        let last = round.end() - 1;
        let words = match owner(last, n) == own {
            true => format!("the own block of slot {last} behind it was perhaps handed out"),
            false => format!("slot {last} behind it was passed as out, or a notice taken there"),
        };
        return Ok(Err(format!(
            "its block {turn} is damaged, and {words}: {stop}"
        )));
    }
    let taken = copies.iter().map(|round| round.notices).max();
    if let Some(words) = notices.lacking(taken.unwrap_or(0), turn) {
        return Ok(Err(words));
    }
    let behind = length.saturating_sub(place(turn));
    if behind > torn(n, own, turn) {
        return Ok(Err(format!(
            "its block {turn} is damaged, and more than a cut can tear is behind it: {stop}"
        )));
    }
    Ok(Ok(Found {
        tally,
        length,
        behind,
        stop,
        mended,
    }))
}

/// Adds the good blocks of the file from the tally's turn on, and gives why they stop.
fn good(disk: &mut Disk, n: u32, tally: &mut Tally) -> io::Result<Stop> {
    let source = BufReader::with_capacity(1 << 18, disk.reader(place(tally.turn))?);
    let mut blocks = Blocks::of(source, n, tally.turn);
    loop {
        match blocks.next_block()? {
            Ok(block) => tally.add(&block),
            Err(stop) => return Ok(stop),
        }
    }
}

/// The most bytes that a cut tears behind so many good blocks: those of the slots up to the next own one,
/// which is durable before anything follows.
pub(crate) fn torn(n: u32, own: u32, blocks: u32) -> u64 {
    let others = (own + n - owner(blocks, n)) % n;
    BLOCK as u64 * u64::from(others + 1)
}

impl DiskError {
    pub(crate) fn new(doing: &'static str, path: &Path, error: io::Error) -> DiskError {
        let path = path.to_path_buf();
        DiskError { doing, path, error }
    }
}

impl fmt::Display for DiskError {
    fn fmt(&self, f: &mut fmt::Formatter) -> fmt::Result {
        let (doing, path, error) = (self.doing, self.path.display(), &self.error);
        write!(f, "cannot {doing} the journal {path}: {error}")
    }
}

impl fmt::Debug for DiskError {
    fn fmt(&self, f: &mut fmt::Formatter) -> fmt::Result {
        fmt::Display::fmt(self, f)
    }
}

impl error::Error for DiskError {
    fn source(&self) -> Option<&(dyn error::Error + 'static)> {
        Some(&self.error)
    }
}

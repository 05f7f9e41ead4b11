//! The notices that a replica has taken, in a file beside its journal.
//!
//! All numbers have the lowest byte first:
//!
//! | Bytes | What |
//! |---|---|
//! | 0 to 15 | the mark |
//! | 16 to 23 | the digest of the journal's head of version 1 (`head.rs`): whose they are |
//! | 24 to 31 | the digest of all before |
//! | from 32 on | the notices, 24 bytes each, in the order in which they were taken |
//!
//! A notice has its replica, 1 for Out or 0 for Back, its slot, and the number of blocks that the journal had
//! when it was taken, 4 bytes each; then the digest of these 16 bytes behind that of all before. So a notice
//! that is damaged, missing or another's is seen.
//!
//! Each is durable before the next is written. The first time that goes: the front of this file, the journal's
//! head of version 2, the notice. Behind each notice the journal gets a copy (`round.rs`) with their number: so
//! the end of this file cannot be lost unseen.

use std::ffi::OsString;
use std::io;
use std::path::{Path, PathBuf};

use crate::digest::{digest, START};
use crate::disk::{Disk, Medium, What};
use crate::ffi::Group;
use crate::head::Head;
use crate::Notice;

const MARK: [u8; 16] = *b"\x89stemline\r\n\x1a\n\0\x01\xff";
/// The bytes in front of the notices, and those of each.
const FRONT: usize = 32;
const RECORD: usize = 24;

/// Where the notices beside a journal are: its name with `.notices` behind it.
pub fn notices_path(journal: &Path) -> PathBuf {
    let mut name = OsString::from(journal);
    name.push(".notices");
    PathBuf::from(name)
}

/// The notices of a journal, and their file once there is one.
#[derive(Debug)]
pub(crate) struct Notices {
    medium: Medium,
    path: PathBuf,
    front: [u8; FRONT],
    disk: Option<Disk>,
    /// All that were taken, in order.
    pub taken: Vec<Notice>,
    /// The blocks that the journal had at the last of them.
    pub blocks: u32,
    /// The bytes of the last record, and their digest.
    last: Vec<u8>,
    digest: u64,
    outages: Group,
}

impl Notices {
    /// None yet, of the journal with this head.
    fn new(medium: &Medium, journal: &Path, head: &Head) -> Notices {
        let mut front = [0; FRONT];
        front[..16].copy_from_slice(&MARK);
        front[16..24].copy_from_slice(&head.identity().to_le_bytes());
        let check = digest(START, &front[..24]);
        front[24..].copy_from_slice(&check.to_le_bytes());
        Notices {
            medium: medium.clone(),
            path: notices_path(journal),
            front,
            disk: None,
            taken: Vec::new(),
            blocks: 0,
            last: Vec::new(),
            digest: check,
            outages: Group {
                replicas: head.replicas() as u8,
                ..Group::default()
            },
        }
    }

    /// Reads those beside a journal with this head, which says whether there are any; or says in words what is
    /// wrong with them. Nothing is changed.
    pub fn read(
        medium: &Medium,
        journal: &Path,
        head: &Head,
    ) -> io::Result<Result<Notices, String>> {
        let mut notices = Notices::new(medium, journal, head);
        let file = medium.read(&notices.path)?;
        let path = notices.path.display();
        Ok(match (head.is_noticed(), file) {
            (false, None) => Ok(notices),
            (true, None) => Err(format!("its notices are lost: {path} is missing")),
            (false, Some(file)) => {
                // A cut before the first notice leaves no more than a front.
                let mut front = file.iter().zip(&notices.front);
                let torn = front.all(|(&byte, &due)| byte == 0 || byte == due);
                match torn && file.len() <= FRONT {
                    true => Ok(notices),
                    false => Err(format!(
                        "it has taken no notices, and {path} beside it is there: of another run, or of a journal \
                         that is lost"
                    )),
                }
            }
            (true, Some(file)) => match notices.take(&file) {
                Ok(()) => Ok(notices),
                Err(words) => Err(format!(
                    "its notices are damaged: {}{words}",
                    notices.path.display()
                )),
            },
        })
    }

    /// Takes those of a file; or says what is wrong with it.
    fn take(&mut self, file: &[u8]) -> Result<(), String> {
        let Some((front, records)) = file.split_first_chunk::<FRONT>() else {
            return Err(" ends within its front".into());
        };
        if *front != self.front {
            return Err(
                match front[..16] == MARK
                    && front[24..] == digest(START, &front[..24]).to_le_bytes()
                {
                    true => " is of another replica, group or start".into(),
                    false => " does not begin as notices do".into(),
                },
            );
        }
        let (whole, rest) = records.as_chunks::<RECORD>();
        let mut left = whole.len() * RECORD + rest.len();
        for record in whole {
            let number =
                |at: usize| u32::from_le_bytes(*record[at..].first_chunk().expect("it is within"));
            let check = digest(self.digest, &record[..16]);
            let notice = Notice::of([number(0), number(4), number(8)]);
            let Some(notice) = notice.filter(|_| record[16..] == check.to_le_bytes()) else {
                break;
            };
            self.put(notice, number(12), record, check);
            left -= RECORD;
        }
        match left <= RECORD {
            true => Ok(()),
            false => Err(format!(
                " has {} that are whole, and more than a cut can tear behind them",
                self.taken.len()
            )),
        }
    }

    fn put(&mut self, notice: Notice, blocks: u32, record: &[u8], digest: u64) {
        self.taken.push(notice);
        self.outages.put(notice);
        self.blocks = blocks;
        self.last = record.to_vec();
        self.digest = digest;
    }

    /// Their number.
    pub fn count(&self) -> u32 {
        self.taken.len() as u32
    }

    /// Whether a slot that a replica leaves now is out.
    pub fn is_out(&self, slot: u32) -> bool {
        self.outages.is_out(slot)
    }

    /// Whether there is a file of them that is open.
    pub fn is_open(&self) -> bool {
        self.disk.is_some()
    }

    /// What is wrong where a journal with so many blocks had so many notices, in words.
    pub fn lacking(&self, notices: u32, blocks: u32) -> Option<String> {
        let (path, count) = (self.path.display(), self.count());
        if notices > count {
            return Some(format!(
                "its notices are lost: {notices} were taken, and {path} has {count}"
            ));
        }
        (self.blocks > blocks).then(|| {
            let due = self.blocks;
            format!("its block {blocks} is damaged or lost, and it had {due} when notice {count} was taken")
        })
    }

    /// Makes their file, with its front alone.
    pub fn begin(&mut self) -> io::Result<()> {
        let (mut disk, _) = self.medium.open(&self.path, What::Notices)?;
        disk.write(0, &self.front)?;
        disk.sync()?;
        self.disk = Some(disk);
        Ok(())
    }

    /// Opens their file after it was read: what is torn is cut off, and the last one written once more, since it
    /// may be in the system's memory alone.
    pub fn take_up(&mut self) -> io::Result<()> {
        let (mut disk, _) = self.medium.open(&self.path, What::Notices)?;
        let end = self.end();
        disk.cut(end)?;
        let last = if self.last.is_empty() {
            &self.front[..]
        } else {
            &self.last
        };
        disk.write(end - last.len() as u64, last)?;
        disk.sync()?;
        self.disk = Some(disk);
        Ok(())
    }

    /// Puts a notice behind all others, taken when the journal had so many blocks, and makes it durable.
    pub fn append(&mut self, notice: Notice, blocks: u32) -> io::Result<()> {
        let end = self.end();
        let [replica, out, slot] = notice.numbers();
        let numbers = [replica, out, slot, blocks].map(u32::to_le_bytes);
        let check = digest(self.digest, numbers.as_flattened());
        let record = [numbers.as_flattened(), &check.to_le_bytes()].concat();
        let disk = self.disk.as_mut().expect("its file is open");
        let written = disk.write(end, &record).and_then(|()| disk.sync());
        if written.is_err() {
            let _ = disk.cut(end);
            return written;
        }
        self.put(notice, blocks, &record, check);
        Ok(())
    }

    /// The bytes of the file.
    fn end(&self) -> u64 {
        (FRONT + RECORD * self.taken.len()) as u64
    }
}

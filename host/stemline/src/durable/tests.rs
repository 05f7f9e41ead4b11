//! The steps at the disk and their order, errors of the disk, and files that are not taken up.

use std::fs::{self, File};
use std::path::{Path, PathBuf};

use super::*;
use crate::disk::{told, Open};
use crate::{notices_path, Stop, Window, HEAD};

mod cuts;
mod giving_cuts;
mod givings;
mod heads;
mod notice_cuts;
mod notices;
mod rot;
mod steps;

const GROUP: &str = "grotesque";

/// A path in a folder of its own, which goes with it.
struct Room(PathBuf);

impl Room {
    fn new(name: &str) -> Room {
        let name = format!("stemline-{}-{name}", std::process::id());
        // In memory where that can be: a disk takes its time for each block.
        let room = match Path::new("/dev/shm").is_dir() {
            true => Path::new("/dev/shm").join(name),
            false => std::env::temp_dir().join(name),
        };
        fs::create_dir_all(&room).unwrap();
        Room(room)
    }

    fn journal(&self) -> PathBuf {
        self.0.join("journal")
    }

    fn notices(&self) -> PathBuf {
        notices_path(&self.journal())
    }
}

impl Drop for Room {
    fn drop(&mut self) {
        let _ = fs::remove_dir_all(&self.0);
    }
}

fn open(room: &Room, n: u32, own: u32) -> Result<(Durable, Reopened), Failure> {
    Durable::open(room.journal(), GROUP, n, own, &[0; ITEMS])
}

/// The blocks in the file.
fn blocks_of(room: &Room) -> Vec<u8> {
    fs::read(room.journal()).unwrap().split_off(HEAD)
}

/// What a call says that gives nothing.
fn said<T>(given: Result<T, Failure>) -> String {
    given.err().expect("an error").to_string()
}

/// The blocks of slots 0 to `slots` − 1 of a group of 2, by replica 0 and its peer.
fn fill(replica: &mut Durable, slots: u32) -> Vec<[u8; BLOCK]> {
    let (mut peer, _) = Replica::restart(2, 1, &[0; ITEMS], &[], &[]).unwrap();
    let mut blocks = Vec::new();
    for slot in 0..slots {
        let block = match slot % 2 {
            0 => replica.send().unwrap(),
            _ => peer.send().unwrap(),
        };
        replica.take(&block).unwrap();
        peer.take(&block).unwrap();
        blocks.push(block);
    }
    blocks
}

/// A take that the blocks of other slots waited for appends them, in order.
#[test]
fn a_take_of_several_blocks() {
    let room = Room::new("several");
    let (mut replica, _) = open(&room, 3, 0).unwrap();
    let mut others = [1, 2].map(|own| Replica::new(3, own, &[0; ITEMS]).unwrap());
    let mut blocks = vec![replica.send().unwrap()];
    for k in 0..2 {
        for other in &mut others {
            other.take(&blocks[k]).unwrap();
        }
        blocks.push(others[k].send().unwrap());
    }
    assert!(replica.take(&blocks[2]).unwrap().steps.is_empty());
    assert!(replica.take(&blocks[1]).unwrap().steps.is_empty());
    let taken = replica.take(&blocks[0]).unwrap();
    assert_eq!(taken.steps.len(), 3);
    assert!(blocks_of(&room) == blocks.concat());
}

/// That nothing but looking is possible any more, and what is said then.
fn over(replica: &mut Durable, block: &[u8]) {
    let before = replica.replica.clone();
    let due = "it failed before; open it anew";
    assert!(said(replica.begin()).ends_with(due));
    assert!(said(replica.write(1, 5, 40)).ends_with(due));
    assert!(said(replica.ask(1)).ends_with(due));
    assert!(said(replica.withdraw(1)).ends_with(due));
    assert!(said(replica.send()).ends_with(due));
    assert!(said(replica.deliver(block)).ends_with(due));
    assert!(said(replica.load(&[1; ITEMS])).ends_with(due));
    assert!(said(replica.work()).ends_with(due));
    assert!(said(replica.take(block)).ends_with(due));
    assert!(said(replica.take_slot(block)).ends_with(due));
    assert!(said(replica.give(&[900; 3], &Window::new())).ends_with(due));
    assert!(said(replica.out(1, 900)).ends_with(due));
    assert!(said(replica.back(1, 900)).ends_with(due));
    assert!(said(replica.journal.append(&[0; BLOCK]).map_err(Failure::Disk)).ends_with(due));
    assert!(said(replica.journal.send(&[0; BLOCK]).map_err(Failure::Disk)).ends_with(due));
    let notice = Notice::Out {
        replica: 1,
        slot: 9,
    };
    assert!(said(replica.journal.notice(notice).map_err(Failure::Disk)).ends_with(due));
    assert!(replica.replica == before, "a call went on");
}

/// A file that may only be read: nothing can be appended.
#[test]
fn a_failed_append() {
    let room = Room::new("append");
    let (mut replica, _) = open(&room, 2, 0).unwrap();
    let blocks = fill(&mut replica, 4);
    let writable = fs::read(room.journal()).unwrap();
    replica.journal.disk.file = Open::System(File::open(room.journal()).unwrap());
    replica.begin().unwrap();
    let failed = said(replica.send());
    let due = format!("cannot append to the journal {}", room.journal().display());
    assert!(failed.starts_with(&due), "{failed}");
    over(&mut replica, &blocks[0]);
    drop(replica);
    assert!(fs::read(room.journal()).unwrap() == writable);

    // The send that failed was none: its slot is the turn.
    let (mut replica, restarted) = open(&room, 2, 0).unwrap();
    assert_eq!(restarted.blocks, 4);
    assert_eq!(restarted.last, Some(blocks[2]));
    assert!(replica.is_turn());
    let block = replica.send().unwrap();
    replica.take(&block).unwrap();
    // A work that cannot append.
    let (mut peer, _) = Replica::restart(2, 1, &[0; ITEMS], &writable[HEAD..], &[]).unwrap();
    peer.take(&block).unwrap();
    let next = peer.send().unwrap();
    replica.journal.disk.file = Open::System(File::open(room.journal()).unwrap());
    assert!(said(replica.take(&next)).starts_with(&due));
    over(&mut replica, &next);
}

/// A device that takes what is written and cannot make it durable.
#[cfg(target_os = "linux")]
#[test]
fn a_failed_sync() {
    let room = Room::new("sync");
    let (mut replica, _) = open(&room, 2, 0).unwrap();
    let null = fs::OpenOptions::new().append(true).open("/dev/null");
    replica.journal.disk.file = Open::System(null.unwrap());
    let failed = said(replica.send());
    let due = format!("cannot sync the journal {}", room.journal().display());
    assert!(failed.starts_with(&due), "{failed}");
    over(&mut replica, &[0; BLOCK]);
}

/// What was appended and not made durable is taken back: it may not be on the disk.
#[test]
fn back_to_what_is_durable() {
    let room = Room::new("back");
    let (mut replica, _) = open(&room, 2, 0).unwrap();
    let blocks = fill(&mut replica, 4);
    assert!(blocks_of(&room) == blocks.concat());
    replica.journal.fail();
    assert!(blocks_of(&room) == blocks[..3].concat());
    drop(replica);
    // Never less than was there when it was opened.
    let (mut replica, _) = open(&room, 2, 0).unwrap();
    replica.journal.append(&blocks[3]).unwrap();
    replica.journal.fail();
    assert!(blocks_of(&room) == blocks[..3].concat());
}

#[test]
fn files_that_cannot_be_opened() {
    let room = Room::new("open");
    let missing = room.0.join("none/journal");
    let failed = said(Durable::open(&missing, GROUP, 2, 0, &[0; ITEMS]));
    let due = format!("cannot open the journal {}: ", missing.display());
    assert!(failed.starts_with(&due), "{failed}");
    assert!(said(Durable::open(&room.0, GROUP, 2, 0, &[0; ITEMS])).starts_with("cannot open"));
    let device = said(Durable::open("/dev/null", GROUP, 2, 0, &[0; ITEMS]));
    assert!(device.ends_with(": it is no file on a disk"), "{device}");
    // Open twice.
    let (replica, _) = open(&room, 2, 0).unwrap();
    let failed = said(open(&room, 2, 0));
    assert!(failed.ends_with(": it is open already"), "{failed}");
    drop(replica);
    assert!(open(&room, 2, 0).is_ok());
}

/// A refused open makes no file and changes none.
#[test]
fn a_refused_open() {
    let room = Room::new("refused");
    for (n, own) in [(0, 0), (1, 0), (7, 0), (2, 2), (6, 6), (u32::MAX, 0)] {
        let refused = open(&room, n, own).err().unwrap();
        assert_eq!(refused.refusal(), Some(Refusal::OutOfRange), "{n}, {own}");
        assert!(!room.journal().exists());
    }
    fs::write(room.journal(), [7; 100]).unwrap();
    assert!(open(&room, 7, 0).is_err());
    assert!(fs::read(room.journal()).unwrap() == [7; 100]);
}

/// Puts so many bytes behind a journal of six blocks of replica `own` of 2, and opens it: its blocks are
/// taken up and the rest is cut off, or there is an error and nothing is changed.
fn torn_by(room: &Room, own: u32, file: &[u8], extra: usize, cut: bool) {
    let torn = [file, &vec![7; extra]].concat();
    fs::write(room.journal(), &torn).unwrap();
    match (open(room, 2, own), cut) {
        (Ok((_, reopened)), true) => {
            assert_eq!((reopened.blocks, reopened.cut), (6, extra as u64));
            let why = match extra {
                0..BLOCK => Stop::Torn(extra),
                _ => Stop::Refused(Refusal::WrongCheck),
            };
            assert_eq!((reopened.why, reopened.mended), (why, 0));
            assert!(fs::read(room.journal()).unwrap() == file);
        }
        (Err(failure), false) => {
            let failure = failure.to_string();
            let due = "its block 6 is damaged, and more than a cut can tear is behind it: \
                the block's check does not match (14)";
            assert!(failure.ends_with(due), "{failure}");
            assert!(failure.starts_with("cannot take up"), "{failure}");
            assert!(fs::read(room.journal()).unwrap() == torn);
        }
        (given, _) => panic!("{own}: {extra} more: {given:?}"),
    }
}

/// Behind the last good block: what a cut can tear is cut off, more is an error and stays.
#[test]
fn torn_and_damaged() {
    for (own, most) in [(0, 1), (1, 2)] {
        let room = Room::new(&format!("damaged{own}"));
        let (mut replica, _) = open(&room, 2, own).unwrap();
        let mut peer = Replica::new(2, 1 - own, &[0; ITEMS]).unwrap();
        for slot in 0..6 {
            let block = match slot % 2 == own {
                true => replica.send().unwrap(),
                false => peer.send().unwrap(),
            };
            replica.take(&block).unwrap();
            peer.take(&block).unwrap();
        }
        drop(replica);
        let file = fs::read(room.journal()).unwrap();
        // Slot 6 is replica 0's, slot 7 replica 1's.
        for extra in [1, 511, 512, 513, 1_024, 1_025, 1_536] {
            torn_by(&room, own, &file, extra, extra <= most * BLOCK);
        }
    }
}

/// For every group and number of good blocks: up to the next own slot, with it.
#[test]
fn what_a_cut_tears() {
    for n in 2..=6 {
        for (own, blocks) in (0..n).flat_map(|own| (0..20).map(move |blocks| (own, blocks))) {
            let next = (blocks..).find(|slot| slot % n == own).unwrap();
            let due = BLOCK as u64 * u64::from(next + 1 - blocks);
            assert_eq!(crate::journal::torn(n, own, blocks), due);
        }
    }
}

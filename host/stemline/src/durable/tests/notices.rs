//! Notices beside a journal: the steps at the disk, what is said where they are lost, damaged or another's, and
//! journals of before.

use super::cuts::Files;
use super::*;

/// Replica 0 of 3, with the two others; the last of them is out for slots 5 and 8.
struct Group {
    replica: Durable,
    others: [Replica; 2],
    blocks: Vec<[u8; BLOCK]>,
}

impl Group {
    fn new(room: &Room) -> Group {
        let (replica, _) = open(room, 3, 0).unwrap();
        let others = [1, 2].map(|own| Replica::new(3, own, &[0; ITEMS]).unwrap());
        Group {
            replica,
            others,
            blocks: Vec::new(),
        }
    }

    /// The block of the next slot, taken by all; that of a slot that is out is not needed.
    fn slot(&mut self) {
        let slot = self.blocks.len() as u32;
        let block = match slot % 3 {
            0 => self.replica.send().unwrap(),
            k => self.others[k as usize - 1].send().unwrap(),
        };
        self.replica.take(&block).unwrap();
        for other in &mut self.others {
            other.take(&block).unwrap();
        }
        self.blocks.push(block);
    }

    fn notice(&mut self, notice: Notice) {
        for other in &mut self.others {
            match notice {
                Notice::Out { replica, slot } => other.out(replica, slot).unwrap(),
                Notice::Back { replica, slot } => other.back(replica, slot).unwrap(),
            }
        }
        match notice {
            Notice::Out { replica, slot } => self.replica.out(replica, slot).unwrap(),
            Notice::Back { replica, slot } => self.replica.back(replica, slot).unwrap(),
        }
    }
}

const OUT: Notice = Notice::Out {
    replica: 2,
    slot: 5,
};
const BACK: Notice = Notice::Back {
    replica: 2,
    slot: 9,
};

/// A room with a journal of 5 blocks and two notices.
fn noticed(name: &str) -> (Room, Group) {
    let room = Room::new(name);
    let mut group = Group::new(&room);
    (0..5).for_each(|_| group.slot());
    group.notice(OUT);
    group.notice(BACK);
    (room, group)
}

/// Where a block begins.
fn place(slot: usize) -> usize {
    HEAD + BLOCK * slot
}

/// What was appended is durable, then the notice, then its number; the first time before that the front of their
/// file and the head.
#[test]
fn a_notice_is_durable() {
    let room = Room::new("notice");
    let mut group = Group::new(&room);
    (0..5).for_each(|_| group.slot());
    told::steps();
    group.replica.out(2, 5).unwrap();
    // Slot 4 was appended behind the own one of slot 3. The round that it is of has the first place.
    let copy = "write 528 at 4096";
    let folder = format!("notices: folder {}", room.0.display());
    let due = [
        copy,
        "sync",
        &folder,
        "notices: write 32 at 0",
        "notices: sync",
        "write 808 at 0",
        "sync",
        "notices: write 24 at 32",
        "notices: sync",
        copy,
        "sync",
    ];
    assert_eq!(told::steps(), due);
    group.replica.back(2, 9).unwrap();
    let due = ["notices: write 24 at 56", "notices: sync", copy, "sync"];
    assert_eq!(told::steps(), due);
    // What is refused changes nothing.
    assert_eq!(
        group.replica.out(2, 9).unwrap_err().refusal(),
        Some(Refusal::NoticeRefused)
    );
    assert_eq!(
        group.replica.back(3, 9).unwrap_err().refusal(),
        Some(Refusal::OutOfRange)
    );
    assert_eq!(told::steps(), [""; 0]);
    assert_eq!(group.replica.notices(), [OUT, BACK]);
}

/// The next of a slot passed as out is durable, with the round so far, before the work or the take is over; an own
/// one ends its round as an own block does.
#[test]
fn a_slot_passed_is_durable() {
    let (room, mut group) = noticed("passed");
    told::steps();
    assert!(group.replica.waits() && !group.replica.is_turn());
    let work = group.replica.work().unwrap();
    assert_eq!((work.sender, work.ticket, work.moved), (2, 0, true));
    let (write, copy) = (format!("write 512 at {}", place(5)), "write 1040 at 4096");
    assert_eq!(told::steps(), [&write, copy, "sync"]);
    assert!(group.replica.is_turn());
    let mut due = group.blocks.clone();
    due.push(*group.replica.window().block(5).unwrap());
    for other in &mut group.others {
        assert!(other.work().unwrap().append);
        assert_eq!(other.window().block(5), Some(&due[5]));
    }
    assert!(blocks_of(&room) == due.concat());
    // A take of slot 7 passes slot 8 too, by one sync.
    group.blocks = due;
    group.slot();
    told::steps();
    group.slot();
    let writes = [7, 8].map(|slot| format!("write 512 at {}", place(slot)));
    let due = [&writes[0], &writes[1], "write 1040 at 8192", "sync"];
    assert_eq!(told::steps(), due);
    // Slot 9 is the own one, and out.
    group.replica.out(0, 9).unwrap();
    told::steps();
    let work = group.replica.work().unwrap();
    assert_eq!((work.sender, work.ticket, work.moved), (0, 0, true));
    let write = format!("write 512 at {}", place(9));
    assert_eq!(told::steps(), [&write, "write 1552 at 8192", "sync"]);
    assert_eq!(group.replica.last(), Some(&group.blocks[6]));
}

/// An open has the notices in force again, and gives back the last own block that no notice puts out.
#[test]
fn an_open_has_them() {
    let (room, mut group) = noticed("again");
    while group.replica.waits() {
        group.replica.work().unwrap();
    }
    let own = group.replica.send().unwrap();
    group.replica.take(&own).unwrap();
    group.replica.out(0, 9).unwrap();
    let notices = [
        OUT,
        BACK,
        Notice::Out {
            replica: 0,
            slot: 9,
        },
    ];
    drop(group.replica);
    told::steps();
    let (mut replica, reopened) = open(&room, 3, 0).unwrap();
    // The last notice, the head, the end of the journal, its last whole round, and the one that is not over.
    let folder = room.0.display();
    let due = [
        &format!("folder {folder}"),
        &format!("notices: folder {folder}"),
        "notices: cut 104",
        "notices: write 24 at 80",
        "notices: sync",
        "write 808 at 0",
        &format!("cut {}", place(7)),
        &format!("write 1536 at {}", place(4)),
        "write 1552 at 4096",
        "write 16 at 8192",
        "sync",
    ];
    assert_eq!(told::steps(), due);
    assert_eq!((reopened.blocks, reopened.last), (7, Some(own)));
    assert_eq!(replica.notices(), notices);
    // Slot 7 is another's; 8 and 9 are passed with it.
    let block = {
        let other = &mut group.others[0];
        while other.waits() {
            other.work().unwrap();
        }
        other.take(&own).unwrap();
        other.send().unwrap()
    };
    assert_eq!(replica.take(&block).unwrap().steps.len(), 3);
    assert_eq!(replica.report().turn, 10);
    drop(replica);
    let (_, reopened) = open(&room, 3, 0).unwrap();
    assert_eq!((reopened.blocks, reopened.last), (10, Some(own)));
}

/// A step that fails: the notice is not taken, or is where it was durable already, and nothing goes on before the
/// next open.
#[test]
fn a_notice_that_fails() {
    let first = [
        ("write 528", "put a copy into", 0),
        ("sync", "sync", 0),
        ("notices: folder", "make the notices of", 0),
        ("notices: write 32", "make the notices of", 0),
        ("notices: sync", "make the notices of", 0),
        ("write 808", "renew the head of", 0),
        ("notices: write 24", "put a notice beside", 0),
    ];
    for (word, doing, taken) in first {
        let room = Room::new("failing");
        let mut group = Group::new(&room);
        (0..5).for_each(|_| group.slot());
        fails(&room, group, word, doing, taken);
    }
    let second = [
        ("notices: write 24", "put a notice beside", 1),
        ("notices: sync", "put a notice beside", 1),
        ("write 528", "put a copy into", 2),
        ("sync", "sync", 2),
    ];
    for (word, doing, taken) in second {
        let room = Room::new("failing");
        let mut group = Group::new(&room);
        (0..5).for_each(|_| group.slot());
        group.replica.out(1, 7).unwrap();
        fails(&room, group, word, doing, taken);
    }
}

fn fails(room: &Room, mut group: Group, word: &'static str, doing: &str, taken: usize) {
    told::fail(word);
    let failed = said(group.replica.out(2, 5));
    let due = format!("cannot {doing} the journal {}", room.journal().display());
    assert!(failed.starts_with(&due), "{word}: {failed}");
    over(&mut group.replica, &group.blocks[0]);
    drop(group.replica);
    let (mut replica, reopened) = open(room, 3, 0).unwrap();
    assert_eq!(replica.notices().len(), taken, "{word}");
    assert!(reopened.blocks >= 4, "{word}: {}", reopened.blocks);
    // Where it was not taken it is now.
    let again = replica.out(2, 5);
    let out = replica.notices().contains(&OUT);
    assert!(
        out && again.is_ok() == (taken < replica.notices().len()),
        "{word}"
    );
}

/// Opens what is there, which must fail in these words and leave both files.
#[track_caller]
fn refused(room: &Room, words: &str) {
    let before = Files::of(room);
    let said = said(open(room, 3, 0));
    let due = format!("cannot take up the journal {}: ", room.journal().display());
    let path = room.notices().display().to_string();
    assert_eq!(said, format!("{due}{}", words.replace("FILE", &path)));
    let after = Files::of(room);
    assert!(after.journal == before.journal && after.notices == before.notices);
}

/// Lost, shorter, of another, damaged anywhere: an error in words each.
#[test]
fn lost_and_damaged() {
    let (room, group) = noticed("lost");
    drop(group.replica);
    let good = Files::of(&room);
    let notices = good.notices.clone().unwrap();
    fs::remove_file(room.notices()).unwrap();
    refused(&room, "its notices are lost: FILE is missing");
    for length in 0..notices.len() {
        fs::write(room.notices(), &notices[..length]).unwrap();
        let whole = length.saturating_sub(32) / 24;
        let words = match length {
            ..32 => "its notices are damaged: FILE ends within its front".to_string(),
            _ => format!("its notices are lost: 2 were taken, and FILE has {whole}"),
        };
        refused(&room, &words);
    }
    for bit in 0..8 * notices.len() {
        let mut bad = notices.clone();
        bad[bit / 8] ^= 1 << (bit % 8);
        fs::write(room.notices(), &bad).unwrap();
        refused(
            &room,
            match bit / 8 {
                ..32 => "its notices are damaged: FILE does not begin as notices do",
                32..56 => {
                    "its notices are damaged: FILE has 0 that are whole, and more than a cut can tear behind them"
                }
                _ => "its notices are lost: 2 were taken, and FILE has 1",
            },
        );
    }
    fs::write(room.notices(), [&notices[..], &[7; 25]].concat()).unwrap();
    refused(
        &room,
        "its notices are damaged: FILE has 2 that are whole, and more than a cut can tear behind them",
    );
    // What a cut tears is cut off.
    fs::write(room.notices(), [&notices[..], &[7; 24]].concat()).unwrap();
    assert_eq!(open(&room, 3, 0).unwrap().0.notices(), [OUT, BACK]);
    assert!(fs::read(room.notices()).unwrap() == notices);
    // Of another replica.
    let other = Room::new("lost-other");
    let (mut replica, _) = open(&other, 3, 1).unwrap();
    replica.out(2, 5).unwrap();
    drop(replica);
    fs::copy(other.notices(), room.notices()).unwrap();
    refused(
        &room,
        "its notices are damaged: FILE is of another replica, group or start",
    );
}

/// A journal that lost blocks, with its copies, since a notice was taken; and one that is gone, beside its notices.
#[test]
fn a_lost_journal() {
    let (room, group) = noticed("shorter");
    drop(group.replica);
    let good = Files::of(&room);
    let mut shorter = good.clone();
    shorter.journal.truncate(place(3));
    shorter.journal[4_096..HEAD].fill(0);
    shorter.put(&room);
    refused(
        &room,
        "its block 3 is damaged or lost, and it had 5 when notice 2 was taken",
    );
    // With its copies it is mended.
    let mut shorter = good.clone();
    shorter.journal.truncate(place(3));
    shorter.put(&room);
    let (_, reopened) = open(&room, 3, 0).unwrap();
    assert_eq!((reopened.blocks, reopened.mended), (5, 2));
    let words = "it has taken no notices, and FILE beside it is there: of another run, or of a journal that is lost";
    for empty in [vec![], vec![0; HEAD]] {
        fs::write(room.journal(), empty).unwrap();
        refused(&room, words);
    }
    // A journal of before the first notice.
    let before = Room::new("before");
    let mut group = Group::new(&before);
    (0..5).for_each(|_| group.slot());
    drop(group.replica);
    fs::copy(before.journal(), room.journal()).unwrap();
    refused(&room, words);
}

/// A file of version 1 is what it ever was, and opens with no notices; the first makes it one of version 2.
#[test]
fn of_before() {
    let room = Room::new("version");
    let mut group = Group::new(&room);
    (0..5).for_each(|_| group.slot());
    assert!(!room.notices().exists());
    let version = || fs::read(room.journal()).unwrap()[16];
    assert_eq!(version(), 1);
    group.replica.out(2, 5).unwrap();
    assert_eq!(version(), 2);
    let digest = group.replica.digest();
    drop(group.replica);
    let (replica, _) = open(&room, 3, 0).unwrap();
    // The version is no matter to what all have in common.
    assert_eq!(replica.agrees(&digest), Some(true));
    assert_eq!(replica.digest(), digest);
}

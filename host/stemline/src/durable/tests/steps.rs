//! The steps at the disk, in their order: a block is handed out, or goes on, once it is durable.

use super::*;

/// Where a block begins.
fn place(slot: usize) -> usize {
    HEAD + BLOCK * slot
}

/// The steps of an open of replica 0 of 2 that leaves so many blocks: those behind the own one before the
/// last are written anew, and the copy.
fn opening(room: &Room, blocks: usize) -> Vec<String> {
    let mut steps = vec![format!("folder {}", room.0.display())];
    if blocks == 0 {
        let make = ["cut 12288", "sync", "write 808 at 0", "sync"];
        steps.extend(make.map(str::to_string));
    }
    steps.push(format!("cut {}", place(blocks)));
    if blocks > 0 {
        let last = (blocks - 1) / 2 * 2;
        let first = last.saturating_sub(1);
        let bytes = BLOCK * (blocks - first);
        steps.push(format!("write {bytes} at {}", place(first)));
        let (bytes, at) = (16 + BLOCK * (last + 1 - first), 4_096 * (1 + last / 2 % 2));
        steps.push(format!("write {bytes} at {at}"));
    }
    steps.push("sync".to_string());
    steps
}

/// Appended, made durable, and only then given; what a work or take leaves is appended.
#[test]
fn append_then_sync() {
    let room = Room::new("order");
    let (mut replica, _) = open(&room, 2, 0).unwrap();
    assert_eq!(told::steps(), opening(&room, 0));
    let mut peer = Replica::new(2, 1, &[0; ITEMS]).unwrap();
    for slot in 0..8 {
        let block = match slot % 2 {
            0 => replica.send().unwrap(),
            _ => peer.send().unwrap(),
        };
        let write = format!("write 512 at {}", place(slot));
        let copy = match slot {
            0 => "write 528 at 4096".to_string(),
            _ => format!("write 1040 at {}", 4_096 * (1 + slot / 2 % 2)),
        };
        let due: &[&str] = if slot % 2 == 0 {
            &[&write, &copy, "sync"]
        } else {
            &[]
        };
        assert_eq!(told::steps(), due, "slot {slot}");
        peer.take(&block).unwrap();
        match slot {
            3 => {
                replica.deliver(&block).unwrap();
                assert_eq!(told::steps(), [""; 0]);
                replica.work().unwrap();
            }
            _ => drop(replica.take(&block).unwrap()),
        }
        let due: &[&str] = if slot % 2 == 0 { &[] } else { &[&write] };
        assert_eq!(told::steps(), due, "slot {slot}");
    }
    // Looks, and calls that give no block.
    let ticket = replica.begin().unwrap();
    replica.write(ticket, 5, 40).unwrap();
    assert_eq!(replica.read(ticket, 5), Ok(40));
    assert_eq!((replica.values()[5], replica.report().turn), (0, 8));
    replica.ask(ticket).unwrap();
    assert!(replica.is_turn());
    replica.load(&[2; ITEMS]).unwrap();
    assert_eq!(told::steps(), [""; 0]);
    // No journal keeps the classes.
    assert_eq!(replica.replica.memory().classes, [2; ITEMS]);
    drop(replica);
    let (replica, _) = open(&room, 2, 0).unwrap();
    assert_eq!(replica.replica.memory().classes, [0; ITEMS]);
}

/// What is torn is cut off, and the rest durable before anything goes on.
#[test]
fn an_open_makes_durable() {
    for slots in [1, 5, 6, 7, 20] {
        let room = Room::new("reopen");
        let (mut replica, _) = open(&room, 2, 0).unwrap();
        let blocks = fill(&mut replica, slots);
        drop(replica);
        let good = fs::read(room.journal()).unwrap();
        for extra in [0, 1, 512] {
            fs::write(room.journal(), [&good[..], &vec![7; extra]].concat()).unwrap();
            told::steps();
            let (mut replica, _) = open(&room, 2, 0).unwrap();
            assert_eq!(told::steps(), opening(&room, slots as usize));
            assert!(fs::read(room.journal()).unwrap() == good);
            // What is appended goes behind it.
            replica.journal.append(&blocks[0]).unwrap();
            drop(replica);
            assert!(blocks_of(&room) == [&good[HEAD..], &blocks[0]].concat());
        }
    }
}

/// A sync that fails after a send: nothing is given, and the file goes back to what is durable.
#[test]
fn a_send_that_is_not_durable() {
    let room = Room::new("send");
    let (mut replica, _) = open(&room, 2, 0).unwrap();
    let blocks = fill(&mut replica, 4);
    told::steps();
    told::fail("sync");
    assert!(said(replica.send()).starts_with("cannot sync the journal"));
    // The block of slot 3 was appended after the last sync. The copy is no more to be taken for one.
    let due = [
        "write 512 at 14336",
        "write 1040 at 4096",
        "sync",
        "cut 13824",
        "write 16 at 4096",
    ];
    assert_eq!(told::steps(), due);
    over(&mut replica, &blocks[0]);
    assert_eq!(told::steps(), [""; 0]);
    drop(replica);
    assert!(blocks_of(&room) == blocks[..3].concat());
    let (_, restarted) = open(&room, 2, 0).unwrap();
    assert_eq!(restarted.last, Some(blocks[2]));
}

/// A step of an open that fails: nothing is given. The file keeps its blocks, of which the last may have been
/// handed out; the next open writes those anew that may not be on the disk.
#[test]
fn an_open_that_fails() {
    let room = Room::new("fails");
    let (mut replica, _) = open(&room, 2, 0).unwrap();
    let blocks = fill(&mut replica, 5);
    drop(replica);
    for (word, doing) in [
        ("folder", "open"),
        ("cut", "cut"),
        ("write 1024", "renew the end of"),
        ("write 1040", "put a copy into"),
        ("sync", "sync"),
    ] {
        told::fail(word);
        let failed = said(open(&room, 2, 0));
        assert!(
            failed.starts_with(&format!("cannot {doing} the journal")),
            "{failed}"
        );
        assert!(blocks_of(&room) == blocks.concat());
        told::steps();
        let (_, restarted) = open(&room, 2, 0).unwrap();
        assert_eq!(told::steps(), opening(&room, 5));
        assert_eq!(restarted.last, Some(blocks[4]));
    }
}

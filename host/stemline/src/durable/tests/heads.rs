//! Whose file it is: heads are made, and files of others are left as they are.

use super::*;

/// Opens the journal as another would, which must fail in these words and leave the file.
#[track_caller]
fn refused(room: &Room, group: &str, n: u32, own: u32, values: &[i32; ITEMS], words: &str) {
    let before = fs::read(room.journal()).unwrap();
    let said = said(Durable::open(room.journal(), group, n, own, values));
    let due = format!(
        "cannot take up the journal {}: {words}",
        room.journal().display()
    );
    assert_eq!(said, due);
    assert!(fs::read(room.journal()).unwrap() == before);
}

/// A journal of another replica, group, size or start, with blocks and without; then it opens as before.
#[test]
fn of_another() {
    for slots in [0, 1, 5] {
        let room = Room::new("another");
        let (mut replica, _) = open(&room, 2, 0).unwrap();
        let blocks = fill(&mut replica, slots);
        drop(replica);
        let start = [0; ITEMS];
        let mut other = start;
        other[5] = 41;
        refused(&room, GROUP, 3, 0, &start, "it is of 2 replicas, not of 3");
        refused(&room, GROUP, 2, 1, &start, "it is of replica 0, not of 1");
        let words = "it is of the group \"grotesque\", not of \"antiqua\"";
        refused(&room, "antiqua", 2, 0, &start, words);
        let words = "it is of a start with 5 = 0, not 41";
        refused(&room, GROUP, 2, 0, &other, words);
        let words = "it is of 2 replicas, not of 6; of replica 0, not of 5; \
            of the group \"grotesque\", not of \"b\"; of a start with 5 = 0, not 41";
        refused(&room, "b", 6, 5, &other, words);
        let (_, reopened) = open(&room, 2, 0).unwrap();
        assert_eq!(reopened.blocks as usize, blocks.len());
    }
}

/// Files that are no journals, of any length; blocks without a head; a later version.
#[test]
fn no_journal() {
    let room = Room::new("none");
    let missing = "it is no journal, or of before there were heads: the mark is missing";
    for length in [
        1,
        100,
        512,
        1_024,
        1_536,
        HEAD - 1,
        HEAD,
        HEAD + 1,
        3 * HEAD,
    ] {
        let text = "stems, 40 units\n".repeat(3_000);
        fs::write(room.journal(), &text[..length]).unwrap();
        refused(&room, GROUP, 2, 0, &[0; ITEMS], missing);
    }
    let block = Replica::new(2, 0, &[0; ITEMS]).unwrap().send().unwrap();
    fs::write(room.journal(), block).unwrap();
    refused(&room, GROUP, 2, 0, &[0; ITEMS], missing);
    fs::remove_file(room.journal()).unwrap();
    let (replica, _) = open(&room, 2, 0).unwrap();
    drop(replica);
    let mut later = fs::read(room.journal()).unwrap();
    later[16] = 3;
    fs::write(room.journal(), &later).unwrap();
    let words = "it is of version 3, and this program knows the versions 1 and 2";
    refused(&room, GROUP, 2, 0, &[0; ITEMS], words);
}

/// A missing file, an empty one, and what a cut leaves of a new one, are new; a bad name makes no file.
#[test]
fn new_ones() {
    let room = Room::new("new");
    for name in ["", "a\tb", &"x".repeat(256)] {
        let said = said(Durable::open(room.journal(), name, 2, 0, &[0; ITEMS]));
        assert!(said.starts_with("cannot open the journal"), "{said}");
        assert!(!room.journal().exists());
    }
    let (replica, reopened) = open(&room, 2, 0).unwrap();
    assert_eq!((reopened.blocks, reopened.cut), (0, 0));
    assert_eq!((reopened.why, reopened.mended), (Stop::End, 0));
    drop(replica);
    let due = fs::read(room.journal()).unwrap();
    assert_eq!(due.len(), HEAD);
    let mut torn = due.clone();
    torn[300..].fill(0);
    for left in [&[][..], &[0; 100], &[0; HEAD], &torn, &due] {
        fs::write(room.journal(), left).unwrap();
        let (mut replica, _) = open(&room, 2, 0).unwrap();
        assert!(fs::read(room.journal()).unwrap() == due);
        fill(&mut replica, 3);
        drop(replica);
        assert_eq!(open(&room, 2, 0).unwrap().1.blocks, 3);
    }
}

/// What an open tells: tickets, the bytes cut and why.
#[test]
fn what_is_told() {
    let room = Room::new("told");
    let (mut replica, _) = open(&room, 2, 0).unwrap();
    let mut peer = Replica::new(2, 1, &[0; ITEMS]).unwrap();
    let mut sent = Vec::new();
    for round in 0..3 {
        // Of three tickets the first is withdrawn, the others are asked, the later one first.
        let tickets = [0; 3].map(|_| replica.begin().unwrap());
        replica.withdraw(tickets[0]).unwrap();
        for at in [2, 1] {
            replica.write(tickets[at], at as u32, round).unwrap();
            replica.ask(tickets[at]).unwrap();
            sent.push(tickets[at]);
        }
        let block = replica.send().unwrap();
        replica.take(&block).unwrap();
        peer.take(&block).unwrap();
        // Another's tickets are none of these.
        let other = peer.begin().unwrap();
        peer.write(other, 9, round).unwrap();
        peer.ask(other).unwrap();
        let block = peer.send().unwrap();
        replica.take(&block).unwrap();
        peer.take(&block).unwrap();
    }
    // Two are asked and not sent: they are gone.
    for _ in 0..2 {
        let ticket = replica.begin().unwrap();
        replica.write(ticket, 40 + ticket, 1).unwrap();
        replica.ask(ticket).unwrap();
    }
    drop(replica);
    let mut file = fs::read(room.journal()).unwrap();
    file.extend([7; 100]);
    fs::write(room.journal(), &file).unwrap();
    let (mut replica, reopened) = open(&room, 2, 0).unwrap();
    assert_eq!(sent, [3, 2, 6, 5, 9, 8]);
    assert_eq!((reopened.committed, reopened.tickets), (sent, 9));
    assert_eq!((reopened.cut, reopened.why), (100, Stop::Torn(100)));
    // The tickets above the highest in own blocks are given again.
    assert_eq!(replica.begin().unwrap(), 10);
}

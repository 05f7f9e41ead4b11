//! Rot is not taken for a tear: after an open of a journal with a changed bit, or cut anywhere, the replica
//! stands where it stood, or the open is an error in words and the file is left as it is.

use super::*;

/// A group of `n` with a journal of replica `own`: some rounds, and behind the last own block those of the
/// others.
pub(super) fn run(room: &Room, n: u32, own: u32, slots: u32) -> Vec<[u8; BLOCK]> {
    let _ = fs::remove_file(room.journal());
    let (mut replica, _) = open(room, n, own).unwrap();
    let mut peers: Vec<Replica> = (0..n)
        .map(|own| Replica::new(n, own, &[0; ITEMS]).unwrap())
        .collect();
    let mut blocks = Vec::new();
    for slot in 0..slots {
        let block = if slot % n == own {
            let ticket = replica.begin().unwrap();
            replica.write(ticket, slot % 7, slot as i32).unwrap();
            replica.ask(ticket).unwrap();
            replica.send().unwrap()
        } else {
            peers[(slot % n) as usize].send().unwrap()
        };
        replica.take(&block).unwrap();
        for (k, peer) in peers.iter_mut().enumerate() {
            if k as u32 != own {
                peer.take(&block).unwrap();
            }
        }
        blocks.push(block);
    }
    blocks
}

/// What became of a file: how many blocks were taken up, of which so many were mended; or refused.
enum Became {
    Taken(u32, u32),
    Refused,
}

/// Opens a file: an own block up to `last` is never lost, and what is refused stays as it is.
fn opens(
    room: &Room,
    n: u32,
    own: u32,
    file: &[u8],
    blocks: &[[u8; BLOCK]],
    last: u32,
    what: &str,
) -> Became {
    fs::write(room.journal(), file).unwrap();
    match open(room, n, own) {
        Ok((replica, reopened)) => {
            let taken = reopened.blocks as usize;
            assert!(taken > last as usize, "{what}: {taken} blocks");
            assert_eq!(reopened.last, Some(blocks[last as usize]), "{what}");
            assert!(blocks_of(room) == blocks[..taken].concat(), "{what}");
            assert_eq!(replica.report().turn, reopened.blocks);
            drop(replica);
            // It is whole again.
            let (_, again) = open(room, n, own).unwrap();
            assert_eq!(
                (again.blocks, again.cut, again.mended),
                (reopened.blocks, 0, 0)
            );
            Became::Taken(reopened.blocks, reopened.mended)
        }
        Err(failure) => {
            let words = failure.to_string();
            assert!(words.starts_with("cannot take up the journal"), "{words}");
            assert_eq!(words.lines().count(), 1);
            assert!(fs::read(room.journal()).unwrap() == file, "{what}: {words}");
            Became::Refused
        }
    }
}

/// One bit of every byte of the file, and each bit of the last own block.
#[test]
fn every_byte() {
    for (n, own, slots) in [(2, 0, 9), (2, 1, 7), (3, 1, 14)] {
        let room = Room::new(&format!("rot{n}{own}"));
        let blocks = run(&room, n, own, slots);
        let file = fs::read(room.journal()).unwrap();
        let last = (0..slots).rev().find(|slot| slot % n == own).unwrap();
        let place = |slot: u32| HEAD + BLOCK * slot as usize;
        // The copies reach back to behind the own block of three rounds ago.
        let reach = place(last + 1 - 2 * n);
        let (mut refused, mut mended) = (0, 0);
        for at in (0..file.len()).filter(|at| !(808..4_096).contains(at)) {
            let bits = match (place(last)..place(last + 1)).contains(&at) {
                true => 0..8,
                false => (at % 8)..(at % 8 + 1),
            };
            for bit in bits {
                let mut bad = file.clone();
                bad[at] ^= 1 << bit;
                let what = format!("{n}, {own}: byte {at}, bit {bit}");
                let became = opens(&room, n, own, &bad, &blocks, last, &what);
                let (due_taken, due_mended) = match at {
                    0..4_096 => {
                        assert!(matches!(became, Became::Refused), "{what}");
                        refused += 1;
                        continue;
                    }
                    ..HEAD => (slots, 0),
                    _ if at < reach => {
                        assert!(matches!(became, Became::Refused), "{what}");
                        refused += 1;
                        continue;
                    }
                    _ if at >= place(last + 1) => (((at - HEAD) / BLOCK) as u32, 0),
                    // Up to the own block that its copy ends with.
                    _ => {
                        let slot = ((at - HEAD) / BLOCK) as u32;
                        let end = (slot..).find(|slot| slot % n == own).unwrap();
                        (slots, end + 1 - slot)
                    }
                };
                mended += u32::from(due_mended > 0);
                match became {
                    Became::Taken(taken, mended) => {
                        assert_eq!((taken, mended), (due_taken, due_mended), "{what}")
                    }
                    Became::Refused => panic!("{what}: refused"),
                }
            }
        }
        assert!(refused > 1_000 && mended > 4_000, "{refused}, {mended}");
    }
}

/// The file cut at each length: from the first byte behind the last two rounds on it stands where it stood;
/// before that it is refused. An empty one is new.
#[test]
fn every_length() {
    for (n, own, slots) in [(2, 0, 9), (3, 1, 14)] {
        let room = Room::new(&format!("short{n}{own}"));
        let blocks = run(&room, n, own, slots);
        let file = fs::read(room.journal()).unwrap();
        let last = (0..slots).rev().find(|slot| slot % n == own).unwrap();
        let reach = HEAD + BLOCK * (last + 1 - 2 * n) as usize;
        for length in (1..=file.len()).filter(|length| length % 7 == 0 || *length > HEAD - 9) {
            let what = format!("{n}, {own}: {length} bytes");
            match opens(&room, n, own, &file[..length], &blocks, last, &what) {
                Became::Refused => assert!(length < reach, "{what}"),
                Became::Taken(taken, mended) => {
                    assert!(length >= reach, "{what}");
                    let whole = ((length - HEAD) / BLOCK) as u32;
                    assert_eq!(taken, whole.max(last + 1), "{what}");
                    assert_eq!(mended, taken - whole, "{what}");
                }
            }
        }
        fs::write(room.journal(), b"").unwrap();
        assert_eq!(open(&room, n, own).unwrap().1.blocks, 0);
    }
}

/// The block and its copy damaged at once: what no open can tell from a cut of the send. The copy of the
/// round before, and the journal up to there, are whole.
#[test]
fn two_faults() {
    let room = Room::new("two");
    let blocks = run(&room, 2, 0, 9);
    let mut file = fs::read(room.journal()).unwrap();
    // Slot 8 is the fifth own one.
    file[4_096 + 100] ^= 1;
    file[HEAD + 8 * BLOCK + 100] ^= 1;
    fs::write(room.journal(), &file).unwrap();
    let (_, reopened) = open(&room, 2, 0).unwrap();
    assert_eq!((reopened.blocks, reopened.last), (8, Some(blocks[6])));
}

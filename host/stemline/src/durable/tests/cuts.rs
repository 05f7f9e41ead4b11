//! Cuts of the power at a simulated disk: of what was written since the last sync any part may be there, in
//! any order, torn at any byte. No open is refused, and no own block that was given is lost, also where a bit
//! of it or of its copy is changed at once.

use super::*;
use crate::disk::{Step, What};

/// A journal, and the notices beside it, once there are any.
#[derive(Clone, Default)]
pub(super) struct Files {
    pub journal: Vec<u8>,
    pub notices: Option<Vec<u8>>,
}

impl Files {
    /// Puts them into a room.
    pub fn put(&self, room: &Room) {
        fs::write(room.journal(), &self.journal).unwrap();
        match &self.notices {
            Some(notices) => fs::write(room.notices(), notices).unwrap(),
            None => drop(fs::remove_file(room.notices())),
        }
    }

    /// Those of a room.
    pub fn of(room: &Room) -> Files {
        Files {
            journal: fs::read(room.journal()).unwrap(),
            notices: fs::read(room.notices()).ok(),
        }
    }

    /// What is there of a step.
    fn take(&mut self, what: What, step: &Step, part: Part) {
        let file = match what {
            What::Journal => &mut self.journal,
            What::Notices => self.notices.get_or_insert_default(),
        };
        match (step, part) {
            (_, Part::None) => {}
            (Step::Cut(length), _) => file.resize(*length as usize, 0),
            (Step::Write(at, bytes), part) => {
                let (at, end) = (*at as usize, *at as usize + bytes.len());
                let there = match part {
                    Part::Front(count) => 0..count.min(bytes.len()),
                    Part::Back(count) => count.min(bytes.len())..bytes.len(),
                    Part::Length => 0..0,
                    _ => 0..bytes.len(),
                };
                let grown = match part {
                    Part::Front(_) => at + there.end,
                    _ => end,
                };
                file.resize(file.len().max(grown), 0);
                file[at..][there.clone()].copy_from_slice(&bytes[there]);
            }
            _ => {}
        }
    }
}

/// What a disk has for sure, and the steps since.
#[derive(Clone, Default)]
pub(super) struct Simulated {
    pub sure: Files,
    pub since: Vec<(What, Step)>,
}

impl Simulated {
    /// Takes in the steps of the journal and the notices, and gives the disk as it was before each.
    pub fn steps(&mut self) -> Vec<Simulated> {
        let mut before = Vec::new();
        for (what, step) in told::taken() {
            before.push(self.clone());
            match step {
                // Of this file alone.
                Step::Sync => {
                    let since = std::mem::take(&mut self.since);
                    for (of, step) in since {
                        match of == what {
                            true => self.sure.take(of, &step, Part::All),
                            false => self.since.push((of, step)),
                        }
                    }
                }
                Step::Folder(_) if what == What::Notices => {
                    self.sure.notices.get_or_insert_default();
                }
                Step::Folder(_) => {}
                step => self.since.push((what, step)),
            }
        }
        before
    }

    /// The files that a cut leaves of which these parts of the steps since the last sync are there.
    pub fn left(&self, parts: &[Part]) -> Files {
        let mut files = self.sure.clone();
        for ((what, step), part) in self.since.iter().zip(parts) {
            files.take(*what, step, *part);
        }
        files
    }

    /// The bytes of the largest write since.
    fn largest(&self) -> usize {
        let bytes = |step: &Step| match step {
            Step::Write(_, bytes) => bytes.len(),
            _ => 0,
        };
        let steps = self.since.iter().map(|(_, step)| step);
        steps.map(bytes).max().unwrap_or(0)
    }
}

/// What of a step is there.
#[derive(Clone, Copy, Debug, PartialEq)]
pub(super) enum Part {
    None,
    All,
    /// The first so many bytes, or all but these.
    Front(usize),
    Back(usize),
    /// The file is as long as with it, and has zeros there.
    Length,
}

/// What a cut at this disk may leave: any of the steps whole, the others not or as zeros; each torn at every
/// `each`th byte from both sides, with all or none of the others.
pub(super) fn cuts(disk: &Simulated, each: usize) -> Vec<Vec<Part>> {
    let count = disk.since.len();
    let mut cuts = Vec::new();
    for whole in 0..1_u32 << count {
        for other in [Part::None, Part::Length] {
            let part = |at| match whole >> at & 1 {
                1 => Part::All,
                _ => other,
            };
            cuts.push((0..count).map(part).collect());
        }
    }
    for at in 0..count {
        for others in [Part::None, Part::All] {
            for byte in (1..disk.largest()).step_by(each) {
                for part in [Part::Front(byte), Part::Back(byte)] {
                    let mut parts = vec![others; count];
                    parts[at] = part;
                    cuts.push(parts);
                }
            }
        }
    }
    cuts
}

/// Opens what a cut left: all blocks up to the own one given last are there, and what else is there is what
/// was appended. Gives the steps of the open.
fn opens(room: &Room, (n, own): (u32, u32), files: &Files, blocks: &[[u8; BLOCK]], given: u32) {
    files.put(room);
    let (replica, reopened) = open(room, n, own).unwrap();
    let taken = reopened.blocks;
    assert!(taken >= given, "{taken} of {given} blocks");
    assert!(blocks_of(room) == blocks[..taken as usize].concat());
    let last = (0..taken).rev().find(|slot| slot % n == own);
    assert_eq!(reopened.last, last.map(|slot| blocks[slot as usize]));
    assert_eq!(replica.is_turn(), taken % n == own);
}

/// All that a cut leaves at each of these disks is taken up; now and then a second cut comes while it is.
fn check(
    room: &Room,
    group: (u32, u32),
    disks: &[Simulated],
    blocks: &[[u8; BLOCK]],
    given: u32,
    each: usize,
) -> u32 {
    let mut opened = 0;
    for disk in disks {
        for (at, parts) in cuts(disk, each).iter().enumerate() {
            let sure = disk.left(parts);
            if at % 5 == 0 && given > 0 {
                // A bit of the own block given last, or of its copy, is changed too.
                let byte = at * 31 % BLOCK;
                let slot = given - 1;
                let block = HEAD + BLOCK * slot as usize + byte;
                let copy = 4_096 * (1 + slot / group.0 % 2) as usize + byte;
                for place in [block, copy] {
                    let mut rotten = sure.clone();
                    rotten.journal[place] ^= 1 << (at % 8);
                    opens(room, group, &rotten, blocks, given);
                    opened += 1;
                }
            }
            told::taken();
            opens(room, group, &sure, blocks, given);
            opened += 1;
            let since = Vec::new();
            let mut disk = Simulated { sure, since };
            let during = disk.steps();
            if at % 29 == 0 {
                for disk in during {
                    for parts in cuts(&disk, 613) {
                        opens(room, group, &disk.left(&parts), blocks, given);
                        opened += 1;
                    }
                }
            }
        }
    }
    opened
}

/// Groups of 2 to 6 from the first open on, through three rounds.
#[test]
fn any_part_in_any_order() {
    let mut opened = 0;
    for (n, own, each) in [(2, 0, 17), (2, 1, 41), (3, 0, 97), (3, 2, 97), (6, 4, 601)] {
        let room = Room::new(&format!("cuts{n}{own}"));
        told::taken();
        let mut disk = Simulated::default();
        let (mut replica, _) = open(&room, n, own).unwrap();
        let mut peers: Vec<Replica> = (0..n)
            .map(|own| Replica::new(n, own, &[0; ITEMS]).unwrap())
            .collect();
        let mut blocks: Vec<[u8; BLOCK]> = Vec::new();
        // Those up to the own one given last.
        let mut given = 0;
        let scratch = Room::new(&format!("cut{n}{own}"));
        let before = disk.steps();
        opened += check(&scratch, (n, own), &before, &blocks, given, 3);
        for slot in 0..3 * n {
            told::taken();
            let block = if slot % n == own {
                let ticket = replica.begin().unwrap();
                replica.write(ticket, 5, slot as i32).unwrap();
                replica.ask(ticket).unwrap();
                replica.send().unwrap()
            } else {
                peers[(slot % n) as usize].send().unwrap()
            };
            replica.take(&block).unwrap();
            for (k, peer) in peers.iter_mut().enumerate() {
                if k as u32 != own {
                    peer.take(&block).unwrap();
                }
            }
            blocks.push(block);
            let before = disk.steps();
            opened += check(&scratch, (n, own), &before, &blocks, given, each);
            if slot % n == own {
                given = slot + 1;
            }
        }
    }
    assert!(opened > 30_000, "{opened}");
}

/// A send whose sync fails is cut off again, and the next open sends its slot anew with other bytes. Of what
/// both wrote any part may be there: neither was given before its sync.
#[test]
fn behind_a_failed_sync() {
    let room = Room::new("unsynced");
    let (mut replica, _) = open(&room, 2, 0).unwrap();
    let blocks = fill(&mut replica, 4);
    let sure = Files::of(&room);
    told::taken();
    let ticket = replica.begin().unwrap();
    replica.write(ticket, 5, 40).unwrap();
    replica.ask(ticket).unwrap();
    told::fail("sync");
    replica.send().unwrap_err();
    drop(replica);
    let since = told::taken();
    let since = since.into_iter().filter(|(_, step)| *step != Step::Sync);
    let disk = Simulated {
        sure,
        since: since.collect(),
    };
    let mut met = [0, 0];
    for parts in cuts(&disk, 13) {
        disk.left(&parts).put(&room);
        let (mut replica, reopened) = open(&room, 2, 0).unwrap();
        // Slot 3 is another's, and may be gone.
        assert!((3..=5).contains(&reopened.blocks));
        let sent = reopened.blocks == 5;
        met[usize::from(sent)] += 1;
        if reopened.blocks == 3 {
            replica.take(&blocks[3]).unwrap();
        }
        let given = match sent {
            true => reopened.last.unwrap(),
            false => replica.send().unwrap(),
        };
        drop(replica);
        let (_, reopened) = open(&room, 2, 0).unwrap();
        assert_eq!((reopened.blocks, reopened.last), (5, Some(given)));
    }
    assert!(met.iter().all(|&count| count > 50), "{met:?}");
}

//! Cuts of the power while a giving is appended: what an open finds is a first part of it, with nothing lost that may
//! not be, and the rest is given then.

use super::cuts::{cuts, Files, Simulated};
use super::givings::Holiday;
use super::*;

/// One to be given to, and what its disk has.
struct Run {
    holiday: Holiday,
    disk: Simulated,
    scratch: Room,
    _room: Room,
}

impl Run {
    /// Its own slots are out from the given one on, and so are those of these; the others have sent so often since.
    fn new(own: u32, from: u32, outs: &[u32], sends: u32) -> Run {
        let name = format!("giving-cuts{own}{from}{}", outs.len());
        let room = Room::new(&name);
        told::taken();
        let mut disk = Simulated::default();
        let mut holiday = Holiday::new(&room, own);
        holiday.together(from);
        let outs = [&[own], outs].concat();
        holiday.out(&outs, from);
        for k in outs {
            holiday.returner.out(k, from).unwrap();
        }
        holiday.sends(sends);
        disk.steps();
        Run {
            holiday,
            disk,
            scratch: Room::new(&format!("{name}-scratch")),
            _room: room,
        }
    }

    /// Gives, and opens whatever a cut leaves while that goes on. Gives how many were, and the numbers of blocks
    /// that were found.
    fn give(&mut self, each: usize) -> (u32, Vec<u32>) {
        let floor = self.holiday.returner.report().turn;
        let window = self.holiday.window(floor);
        let given = self.holiday.give().unwrap();
        assert_eq!(given.ended, None);
        self.holiday.is_level(&self._room);
        let (mut opened, mut found, mut sure) = (0, Vec::new(), floor);
        let mut disks = self.disk.steps();
        disks.push(self.disk.clone());
        for disk in disks {
            // What is sure by now does not get lost.
            let blocks = (disk.sure.journal.len() - HEAD) / BLOCK;
            sure = sure.max(blocks as u32);
            for parts in cuts(&disk, each) {
                let blocks = self.opens(&disk.left(&parts), &window, opened % 7 == 0);
                assert!(blocks >= sure, "{blocks} of {sure} blocks");
                found.push(blocks);
                opened += 1;
            }
        }
        found.sort_unstable();
        found.dedup();
        (opened, found)
    }

    /// Opens what a cut left; now and then what is missing is given then. Gives the blocks that are there.
    fn opens(&self, files: &Files, window: &Window, again: bool) -> u32 {
        let holiday = &self.holiday;
        files.put(&self.scratch);
        let (mut replica, reopened) = open(&self.scratch, 3, holiday.own).unwrap();
        let blocks = reopened.blocks;
        assert!(blocks_of(&self.scratch) == holiday.blocks[..blocks as usize].concat());
        assert_eq!(replica.notices(), holiday.returner.notices());
        let is_own = |slot: &u32| slot % 3 == holiday.own;
        let is_out = |slot: &u32| Notice::is_out(replica.notices(), 3, *slot);
        let last = (0..blocks).rev().find(|slot| is_own(slot) && !is_out(slot));
        assert_eq!(
            reopened.last,
            last.map(|slot| holiday.blocks[slot as usize])
        );
        for slot in 0..blocks {
            let due = (slot + 64 >= blocks).then_some(&holiday.blocks[slot as usize]);
            assert_eq!(replica.window().block(slot), due);
        }
        if again {
            let given = replica.give(&holiday.turns(), window).unwrap();
            assert_eq!(given.ended, None);
            assert!(blocks_of(&self.scratch) == holiday.blocks.concat());
            assert_eq!(replica.values(), holiday.returner.values());
            assert!(replica.window() == holiday.returner.window());
        }
        blocks
    }
}

/// Each of the three as the one that comes back, with the others all in, or one of them out too.
#[test]
fn cut_in_the_middle() {
    let mut opened = 0;
    for own in 0..3 {
        for (from, outs, sends, each) in [
            (4, &[][..], 6, 211),
            (5, &[(own + 1) % 3][..], 5, 211),
            (7, &[][..], 41, 1_501),
        ] {
            let mut run = Run::new(own, from, outs, sends);
            let (count, found) = run.give(each);
            let turn = run.holiday.turn();
            // A cut may leave any first part of it.
            let first = *found.first().unwrap();
            assert!(first <= from && found.last() == Some(&turn), "{found:?}");
            assert!(found.iter().copied().eq(first..=turn), "{found:?}");
            opened += count;
        }
    }
    assert!(opened > 3_000, "{opened}");
}

/// The giver that is itself opened again gives as before: its window is that of its journal.
#[test]
fn a_giver_that_was_opened_again() {
    let rooms = [Room::new("giver-again"), Room::new("returner-again")];
    let (mut giver, _) = open(&rooms[0], 2, 0).unwrap();
    let (mut returner, _) = open(&rooms[1], 2, 1).unwrap();
    giver.out(1, 1).unwrap();
    for slot in 0..40 {
        let ticket = giver.begin().unwrap();
        giver.write(ticket, slot % 128, slot as i32).unwrap();
        giver.ask(ticket).unwrap();
        let block = giver.send().unwrap();
        giver.take(&block).unwrap();
    }
    let window = giver.window().clone();
    drop(giver);
    let (giver, reopened) = open(&rooms[0], 2, 0).unwrap();
    assert_eq!(reopened.blocks, 80);
    assert!(*giver.window() == window);
    assert_eq!(window.lacks(16..80), None);
    returner.out(1, 1).unwrap();
    for (slot, block) in blocks_of(&rooms[0]).as_chunks().0[..20].iter().enumerate() {
        let block: &[u8; BLOCK] = block;
        let _ = returner.take_slot(block).unwrap();
        assert_eq!(returner.report().turn as usize, slot + 1);
    }
    let turns = [giver.report().turn, 0];
    assert_eq!(returner.give(&turns, giver.window()).unwrap().ended, None);
    assert_eq!(returner.values(), giver.values());
    assert!(blocks_of(&rooms[0]) == blocks_of(&rooms[1]));
    assert_eq!(returner.agrees(&giver.digest()), Some(true));
    let mut plain = Replica::new(2, 1, &[0; ITEMS]).unwrap();
    plain.out(1, 1).unwrap();
    assert_eq!(
        plain.give(&turns, giver.window()).unwrap_err(),
        Refusal::WindowLacks
    );
}

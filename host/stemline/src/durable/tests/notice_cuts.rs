//! Cuts of the power while notices are taken and slots that are out are passed, at both files at once: no open is
//! refused, no notice taken is lost, nor what was journaled then, nor the next of a slot passed.

use super::cuts::{cuts, Files, Simulated};
use super::*;

/// A replica with its files, beside one without that says what is due.
struct Run {
    n: u32,
    own: u32,
    replica: Durable,
    /// All replicas of the group; that of the own number is the one beside it.
    group: Vec<Replica>,
    disk: Simulated,
    scratch: Room,
    _room: Room,
    /// All that was appended, and what of it may not be lost.
    blocks: Vec<[u8; BLOCK]>,
    floor: usize,
    notices: Vec<Notice>,
    each: usize,
    opened: u32,
}

/// What an open has at least, and at most.
struct Due {
    floor: usize,
    notices: usize,
    /// The blocks that are there with the last notice.
    with_last: usize,
}

impl Run {
    fn new(n: u32, own: u32, each: usize) -> Run {
        let name = format!("notice-cuts{n}{own}");
        let room = Room::new(&name);
        told::taken();
        let (replica, _) = open(&room, n, own).unwrap();
        let mut disk = Simulated::default();
        disk.steps();
        let made = |own| Replica::new(n, own, &[0; ITEMS]).unwrap();
        Run {
            n,
            own,
            replica,
            group: (0..n).map(made).collect(),
            disk,
            scratch: Room::new(&format!("{name}-scratch")),
            _room: room,
            blocks: Vec::new(),
            floor: 0,
            notices: Vec::new(),
            each,
            opened: 0,
        }
    }

    /// After a call: whatever a cut left while it went on is opened.
    fn check(&mut self, due: Due) {
        let disks = self.disk.steps();
        for disk in &disks {
            for (at, parts) in cuts(disk, self.each).iter().enumerate() {
                let files = disk.left(parts);
                told::taken();
                self.opens(&files, &due);
                if at % 29 == 0 {
                    let mut again = Simulated {
                        sure: files,
                        since: Vec::new(),
                    };
                    for disk in again.steps() {
                        for parts in cuts(&disk, 613) {
                            self.opens(&disk.left(&parts), &due);
                        }
                    }
                }
            }
        }
        told::taken();
    }

    fn opens(&mut self, files: &Files, due: &Due) {
        self.opened += 1;
        files.put(&self.scratch);
        let (replica, reopened) = open(&self.scratch, self.n, self.own).unwrap();
        let (blocks, notices) = (reopened.blocks as usize, replica.notices());
        assert!(blocks >= due.floor, "{blocks} of {} blocks", due.floor);
        assert!(blocks_of(&self.scratch) == self.blocks[..blocks].concat());
        assert!(notices.len() >= due.notices && self.notices.starts_with(notices));
        if notices.len() == self.notices.len() {
            assert!(blocks >= due.with_last, "{blocks} of {}", due.with_last);
        }
        let given =
            |slot: &u32| slot % self.n == self.own && !Notice::is_out(notices, self.n, *slot);
        let last = (0..blocks as u32).rev().find(given);
        assert_eq!(reopened.last, last.map(|slot| self.blocks[slot as usize]));
        let turn = blocks as u32;
        assert_eq!(replica.waits(), Notice::is_out(notices, self.n, turn));
        assert_eq!(replica.is_turn(), given(&turn));
    }

    fn notice(&mut self, notice: Notice) {
        for replica in &mut self.group {
            match notice {
                Notice::Out { replica: k, slot } => replica.out(k, slot).unwrap(),
                Notice::Back { replica: k, slot } => replica.back(k, slot).unwrap(),
            }
        }
        match notice {
            Notice::Out { replica, slot } => self.replica.out(replica, slot).unwrap(),
            Notice::Back { replica, slot } => self.replica.back(replica, slot).unwrap(),
        }
        let (floor, notices, with_last) = (self.floor, self.notices.len(), self.blocks.len());
        self.notices.push(notice);
        self.check(Due {
            floor,
            notices,
            with_last,
        });
        self.floor = with_last;
    }

    /// The slot at the turn: its owner sends, or it is passed; and those behind it that are out.
    fn slot(&mut self) {
        let (notices, with_last) = (self.notices.len(), 0);
        let due = |floor| Due {
            floor,
            notices,
            with_last,
        };
        let turn = self.replica.report().turn;
        if Notice::is_out(&self.notices, self.n, turn) {
            assert!(self.replica.work().unwrap().append);
            self.left();
            for replica in &mut self.group {
                assert!(replica.work().unwrap().append);
                let block = replica.window().block(turn);
                assert_eq!(block, self.replica.window().block(turn));
            }
            self.check(due(self.floor));
            self.floor = self.blocks.len();
            return;
        }
        let sender = (turn % self.n) as usize;
        let ticket = self.group[sender].begin().unwrap();
        self.group[sender].write(ticket, 5, turn as i32).unwrap();
        self.group[sender].ask(ticket).unwrap();
        let block = self.group[sender].send().unwrap();
        if turn % self.n == self.own {
            let ticket = self.replica.begin().unwrap();
            self.replica.write(ticket, 5, turn as i32).unwrap();
            self.replica.ask(ticket).unwrap();
            assert!(self.replica.send().unwrap() == block);
            self.blocks.push(block);
            self.check(due(self.floor));
            self.floor = self.blocks.len();
        }
        self.replica.take(&block).unwrap();
        self.left();
        self.check(due(self.floor));
        for replica in &mut self.group {
            replica.take(&block).unwrap();
        }
        let passed = (turn + 1..self.replica.report().turn).last();
        self.floor = passed.map_or(self.floor, |slot| slot as usize + 1);
    }
}

impl Run {
    /// The blocks of the slots that the turn has left are due in the journal.
    fn left(&mut self) {
        let window = self.replica.window();
        for slot in self.blocks.len() as u32..self.replica.report().turn {
            self.blocks.push(*window.block(slot).unwrap());
        }
    }

    /// Goes on until a block of another was appended that is not durable yet, where there is one.
    fn unsure(&mut self) {
        while self.n > 2 && self.blocks.len() == self.floor {
            self.slot();
        }
    }
}

/// Out and back of another and of oneself, twice, with slots before, between and behind; then every bit of what is
/// there is changed once.
#[test]
fn any_part_of_both_files() {
    let mut opened = 0;
    for (n, own, each) in [(2, 0, 61), (3, 1, 401), (3, 2, 401), (5, 0, 2_003)] {
        let mut run = Run::new(n, own, each);
        let out = |replica, slot| Notice::Out { replica, slot };
        let back = |replica, slot| Notice::Back { replica, slot };
        (0..n + 1).for_each(|_| run.slot());
        // The next one behind the own number, from its next slot on, for two rounds.
        let k = (own + 1) % n;
        let turn = run.replica.report().turn;
        let next = |turn: u32, k| (turn..).find(|slot| slot % n == k).unwrap();
        let v = next(turn, k);
        run.notice(out(k, v));
        while run.replica.report().turn <= v + n {
            run.slot();
        }
        let w = v + 2 * n;
        run.unsure();
        run.notice(back(k, w));
        // Meanwhile the own one.
        let turn = run.replica.report().turn;
        let v = next(turn, own);
        run.notice(out(own, v));
        run.notice(back(own, v + 1));
        while run.replica.report().turn < w.max(v + 1) {
            run.slot();
        }
        let turn = run.replica.report().turn;
        let v = next(turn, own);
        run.notice(out(own, v));
        while run.replica.report().turn <= v {
            run.slot();
        }
        run.unsure();
        let turn = run.replica.report().turn;
        run.notice(back(own, next(turn, own)));
        (0..n).for_each(|_| run.slot());
        opened += run.opened;
        rotten(run);
    }
    assert!(opened > 20_000, "{opened}");
}

/// Each byte with a bit changed: what may not be lost is there, or it is an error and both files are left.
fn rotten(run: Run) {
    let Run {
        n,
        own,
        replica,
        scratch,
        _room,
        blocks,
        floor,
        notices,
        ..
    } = run;
    drop(replica);
    let good = Files::of(&_room);
    let (mut refused, mut mended) = (0, 0);
    let lengths = [good.journal.len(), good.notices.as_ref().unwrap().len()];
    for at in (0..lengths[0] + lengths[1]).filter(|at| !(808..4_096).contains(at)) {
        let mut bad = good.clone();
        match at.checked_sub(lengths[0]) {
            None => bad.journal[at] ^= 1 << (at % 8),
            Some(at) => bad.notices.as_mut().unwrap()[at] ^= 1 << (at % 8),
        }
        bad.put(&scratch);
        match open(&scratch, n, own) {
            Err(_) => {
                let left = Files::of(&scratch);
                assert!(
                    left.journal == bad.journal && left.notices == bad.notices,
                    "{at}"
                );
                refused += 1;
            }
            Ok((replica, reopened)) => {
                assert!(reopened.blocks as usize >= floor, "byte {at}");
                assert_eq!(replica.notices(), notices, "byte {at}");
                let taken = blocks_of(&scratch);
                assert!(taken == blocks[..reopened.blocks as usize].concat(), "{at}");
                mended += u32::from(reopened.mended > 0);
            }
        }
    }
    assert!(refused > 800 && mended > 500, "{refused}, {mended}");
}

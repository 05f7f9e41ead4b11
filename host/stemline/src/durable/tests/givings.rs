//! Givings over a journal: the steps at the disk, what stands where one fails or a deliver ends it, what became of
//! tickets, and a holiday that was too long.

use super::*;
use crate::{Outcome, DOWN};

/// Replica `own` of 3 with its files, and the two others without; of the own number stands one that nobody asks.
pub(super) struct Holiday {
    pub returner: Durable,
    pub own: u32,
    pub group: Vec<Replica>,
    /// The block of each slot as journals have it.
    pub blocks: Vec<[u8; BLOCK]>,
}

impl Holiday {
    pub fn new(room: &Room, own: u32) -> Holiday {
        let (returner, _) = open(room, 3, own).unwrap();
        let made = |own| Replica::new(3, own, &[0; ITEMS]).unwrap();
        Holiday {
            returner,
            own,
            group: (0..3).map(made).collect(),
            blocks: Vec::new(),
        }
    }

    /// The turn of the others.
    pub fn turn(&self) -> u32 {
        self.blocks.len() as u32
    }

    pub fn others(&mut self) -> impl Iterator<Item = &mut Replica> {
        let own = self.own as usize;
        let others = self.group.iter_mut().enumerate();
        others.filter_map(move |(k, other)| (k != own).then_some(other))
    }

    /// The others take the notices that these are out, and the returner when it comes back.
    pub fn out(&mut self, outs: &[u32], slot: u32) {
        for &k in outs {
            self.others().for_each(|other| other.out(k, slot).unwrap());
        }
        self.follow();
    }

    /// The others go on by so many sends, each with something to set where the slot is even.
    pub fn sends(&mut self, count: u32) {
        for _ in 0..count {
            let turn = self.turn();
            let sender = &mut self.group[(turn % 3) as usize];
            if turn.is_multiple_of(2) {
                let ticket = sender.begin().unwrap();
                sender.write(ticket, turn % 7, turn as i32).unwrap();
                sender.ask(ticket).unwrap();
            }
            let block = sender.send().unwrap();
            self.others()
                .for_each(|other| drop(other.take(&block).unwrap()));
            self.follow();
        }
    }

    /// They pass what is out, and what they left is what a journal has.
    fn follow(&mut self) {
        self.others().for_each(|other| {
            while other.waits() {
                let _ = other.work().unwrap();
            }
        });
        let first = self.turn();
        let other = self.others().next().unwrap();
        let left = (first..other.report().turn).map(|slot| *other.window().block(slot).unwrap());
        let left: Vec<_> = left.collect();
        self.blocks.extend(left);
    }

    /// The first so many slots with all three.
    pub fn together(&mut self, slots: u32) {
        for slot in 0..slots {
            let block = match slot % 3 == self.own {
                true => self.returner.send().unwrap(),
                false => self.group[(slot % 3) as usize].send().unwrap(),
            };
            self.returner.take(&block).unwrap();
            self.others()
                .for_each(|other| drop(other.take(&block).unwrap()));
            self.blocks.push(block);
        }
    }

    /// The turns as told, with the returner's own, which nobody looks at.
    pub fn turns(&self) -> [u32; 3] {
        let mut turns = [self.turn(); 3];
        turns[self.own as usize] = DOWN;
        turns
    }

    /// The window that came over the line: with the blocks of these slots, as far as the giver has them.
    pub fn window(&self, first: u32) -> Window {
        let giver = self.group[usize::from(self.own == 0)].window();
        let mut window = Window::new();
        for slot in first..self.turn() {
            assert!(giver
                .block(slot)
                .is_none_or(|block| window.put(slot, block)));
        }
        window
    }

    pub fn give(&mut self) -> Result<crate::Given, Failure> {
        let window = self.window(self.returner.report().turn);
        self.returner.give(&self.turns(), &window)
    }

    /// That returner and others are the same, and its file has all.
    pub fn is_level(&self, room: &Room) {
        let giver = &self.group[usize::from(self.own == 0)];
        assert_eq!(self.returner.report().turn, self.turn());
        assert_eq!(self.returner.values(), giver.values());
        assert!(blocks_of(room) == self.blocks.concat());
        assert!(self.returner.window() == giver.window());
    }
}

/// A returner that was out from slot 4 on, its own, and is told so; the others are at slot 12.
fn returned(room: &Room) -> Holiday {
    let mut holiday = Holiday::new(room, 1);
    holiday.together(4);
    holiday.out(&[1], 4);
    holiday.sends(5);
    assert_eq!(holiday.turn(), 12);
    holiday.returner.out(1, 4).unwrap();
    told::steps();
    holiday
}

fn place(slot: usize) -> usize {
    HEAD + BLOCK * slot
}

/// In slot order; the *next* of each own slot that is out is durable before anything follows, with a copy, as a work
/// makes it. What is behind the last is durable with the next send.
#[test]
fn each_slot_in_order() {
    let room = Room::new("given");
    let mut holiday = returned(&room);
    let given = holiday.give().unwrap();
    assert_eq!(
        (given.giver, given.ended, given.aborted()),
        (2, None, &[][..])
    );
    let write = |slot| format!("write 512 at {}", place(slot));
    let mut due = vec![write(4), "write 1552 at 8192".into(), "sync".into()];
    for own in [7, 10] {
        let copy = format!("write 1552 at {}", 4_096 * (1 + own / 3 % 2));
        due.extend([
            write(own - 2),
            write(own - 1),
            write(own),
            copy,
            "sync".into(),
        ]);
    }
    due.push(write(11));
    assert_eq!(told::steps(), due);
    holiday.is_level(&room);
    // One that is level gets nothing, whatever it is lent.
    let turns = holiday.turns();
    let given = holiday.returner.give(&turns, &Window::new()).unwrap();
    assert_eq!(
        (given.giver, given.ended, given.aborted()),
        (2, None, &[][..])
    );
    assert_eq!(told::steps(), [""; 0]);
    holiday.is_level(&room);
    // What turns a giving away changes nothing.
    let refused = |given: Result<crate::Given, Failure>| given.unwrap_err().refusal().unwrap();
    let nobody = holiday.returner.give(&[DOWN; 3], &Window::new());
    assert_eq!(refused(nobody), Refusal::NobodyUp);
    assert_eq!(holiday.returner.giver(&[DOWN; 3]), Err(Refusal::NobodyUp));
    let higher = holiday.returner.give(&[13, 0, 12], &Window::new());
    assert_eq!(refused(higher), Refusal::WindowLacks);
    assert_eq!(holiday.returner.giver(&[13, 99, 14]), Ok(2));
    let fewer = holiday.returner.give(&[13, 12], &Window::new());
    assert_eq!(refused(fewer), Refusal::WrongLength);
    assert_eq!(told::steps(), [""; 0]);
    holiday.is_level(&room);
    // An open has the window again.
    let window = holiday.returner.window().clone();
    drop(holiday.returner);
    let (replica, reopened) = open(&room, 3, 1).unwrap();
    assert!(*replica.window() == window);
    assert_eq!(
        (reopened.blocks, reopened.last),
        (12, Some(holiday.blocks[1]))
    );
}

/// Where a slot of another is out, all is durable when the giving answers.
#[test]
fn others_that_are_out() {
    let room = Room::new("given-out");
    let mut holiday = Holiday::new(&room, 1);
    holiday.together(4);
    holiday.out(&[1, 2], 4);
    holiday.sends(2);
    assert_eq!(holiday.turn(), 12);
    holiday.returner.out(1, 4).unwrap();
    holiday.returner.out(2, 4).unwrap();
    told::steps();
    let given = holiday.give().unwrap();
    assert_eq!(given.ended, None);
    let steps = told::steps();
    let last = [
        &format!("write 512 at {}", place(11)),
        "write 528 at 4096",
        "sync",
    ];
    assert!(steps.ends_with(&last.map(str::to_string)), "{steps:?}");
    holiday.is_level(&room);
}

/// A step that fails in the middle: the giving gives an error, and the file is as a cut leaves it. The next open goes
/// on from there, and is given the rest.
#[test]
fn a_giving_that_fails() {
    for (word, doing, blocks) in [
        ("write 512 at 14336", "append to", 4),
        ("sync", "sync", 4),
        ("write 512 at 14848", "append to", 5),
        ("write 512 at 15872", "append to", 5),
        ("write 1552 at 4096", "put a copy into", 5),
        ("write 512 at 17920", "append to", 11),
    ] {
        let room = Room::new("given-fails");
        let mut holiday = returned(&room);
        told::fail(word);
        let failed = said(holiday.give());
        let due = format!("cannot {doing} the journal {}", room.journal().display());
        assert!(failed.starts_with(&due), "{word}: {failed}");
        over(&mut holiday.returner, &holiday.blocks[0]);
        assert!(
            blocks_of(&room) == holiday.blocks[..blocks].concat(),
            "{word}"
        );
        drop(holiday.returner);
        let (returner, reopened) = open(&room, 3, 1).unwrap();
        assert_eq!(reopened.blocks as usize, blocks, "{word}");
        holiday.returner = returner;
        assert_eq!(holiday.give().unwrap().ended, None);
        holiday.is_level(&room);
    }
}

/// A returner that lacks the notice that puts it out: what went before the own slot stands, and is appended; then it
/// takes the notice and is given the rest.
#[test]
fn ended_by_a_deliver() {
    let room = Room::new("given-ended");
    let mut holiday = Holiday::new(&room, 1);
    holiday.together(2);
    holiday.out(&[1], 4);
    holiday.sends(4);
    let given = holiday.give().unwrap();
    assert_eq!((given.giver, given.ended), (2, Some(Refusal::NotSent)));
    assert_eq!(holiday.returner.report().turn, 4);
    assert!(blocks_of(&room) == holiday.blocks[..4].concat());
    // It is as one that never was given to.
    holiday.returner.out(1, 4).unwrap();
    assert_eq!(holiday.give().unwrap().ended, None);
    holiday.is_level(&room);
}

/// The own block that was sent before the holiday comes with the giving: its tickets are committed, those in the way
/// of others' writesets aborted, also where a part of a block was done before.
#[test]
fn what_became_of_tickets() {
    let room = Room::new("given-tickets");
    let mut holiday = Holiday::new(&room, 1);
    holiday.together(1);
    let returner = &mut holiday.returner;
    let sent: Vec<u32> = [5, 6].map(|item| begin(returner, item)).to_vec();
    for &ticket in sent.iter().rev() {
        let _ = returner.ask(ticket).unwrap();
    }
    let block = returner.send().unwrap();
    let asked = begin(returner, 2);
    let _ = returner.ask(asked).unwrap();
    let open_ones = [begin(returner, 4), begin(returner, 90)];
    // One of its two writesets is done.
    returner.deliver(&block).unwrap();
    assert_eq!(returner.work().unwrap().ticket, sent[1]);
    holiday
        .others()
        .for_each(|other| drop(other.take(&block).unwrap()));
    holiday.blocks.push(block);
    // Slots 2 and 4 set items 2 and 4.
    holiday.out(&[1], 4);
    holiday.sends(3);
    holiday.returner.out(1, 4).unwrap();
    let given = holiday.give().unwrap();
    assert_eq!(given.ended, None);
    holiday.is_level(&room);
    let outcome = |ticket| holiday.returner.outcome(ticket);
    assert_eq!(outcome(sent[1]), Outcome::Committed(1));
    assert_eq!(outcome(sent[0]), Outcome::Committed(2));
    assert_eq!(given.aborted(), [asked]);
    assert_eq!(outcome(asked), Outcome::Aborted);
    assert_eq!(open_ones.map(outcome), [Outcome::Open; 2]);
    let report = holiday.returner.report();
    assert_eq!(
        (report.committed, report.aborted, report.open_count),
        (2, 1, 2)
    );
    // The places of later writesets go on behind all of them.
    let own = begin(&mut holiday.returner, 100);
    let _ = holiday.returner.ask(own).unwrap();
    assert_eq!(
        holiday.returner.report().commits,
        holiday.group[0].report().commits
    );
}

/// A transaction that writes an item.
fn begin(replica: &mut Durable, item: u32) -> u32 {
    let ticket = replica.begin().unwrap();
    replica.write(ticket, item, -1).unwrap();
    ticket
}

/// More than 64 slots: 31, and nothing is changed. What another's journal has for the turn is taken slot by slot
/// until the rest can be given.
#[test]
fn too_long_a_holiday() {
    let room = Room::new("given-long");
    let mut holiday = Holiday::new(&room, 1);
    holiday.together(4);
    holiday.out(&[1], 4);
    holiday.sends(60);
    assert_eq!(holiday.turn(), 95);
    holiday.returner.out(1, 4).unwrap();
    let refused = holiday.give().unwrap_err();
    assert_eq!(refused.refusal(), Some(Refusal::WindowLacks));
    assert_eq!(holiday.returner.report().turn, 4);
    for slot in 4..31 {
        let taken = holiday.returner.take_slot(&holiday.blocks[slot]).unwrap();
        assert!(taken.steps.iter().all(|step| step.append));
        assert_eq!(holiday.returner.report().turn as usize, slot + 1);
    }
    assert_eq!(holiday.give().unwrap().ended, None);
    holiday.is_level(&room);
}

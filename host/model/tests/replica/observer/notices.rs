//! Notices on the sheet: what the premise asks of them, and of the journals beside them.

use model::block::{self, BLOCK};
use model::notice::{self, Notice};
use model::replica::Restarted;
use model::trace::{Answer, Call, Restart};

use super::restarts::lent;
use super::Script;
use crate::common::{block_of, start_values};

const OUT: fn(u32, u32) -> Notice = Notice::out;
const BACK: fn(u32, u32) -> Notice = Notice::back;

impl Script {
    /// A member takes notices.
    fn takes(&mut self, member: usize, notices: &[Notice]) {
        for &notice in notices {
            let call = Call::Notice(notice);
            self.observer.feed(member, &call, &Ok(Answer::Done));
        }
    }

    /// Replicas or stations pass slots without writesets: out slots, or blocks that came.
    fn pass(&mut self, members: &[usize], slots: std::ops::Range<u32>) {
        for &k in members {
            for slot in slots.clone() {
                let out = self.observer.is_out(k, slot);
                if !out && (slot % self.n) as usize != k {
                    self.deliver(k, block_of(self.n, slot, &[]));
                }
                self.work(k, (slot % self.n) as u8, 0, &[], &[]);
            }
        }
    }

    fn one_list(&self) -> String {
        let holds = self.observer.one_list();
        assert_eq!(self.observer.premise(), holds.is_ok());
        holds.map_or_else(|error| error, |()| "holds".to_string())
    }
}

#[test]
fn they_change_nothing_on_the_sheet() {
    let mut script = super::sent();
    script.takes(0, &[OUT(1, 1)]);
    script.takes(1, &[OUT(1, 1)]);
    script.observer.feed(1, &Call::Notice(OUT(1, 3)), &Err(28));
    script.work(0, 0, 1, &[], &[(5, 40)]);
    script.work(1, 0, 1, &[], &[(5, 40)]);
    // Slot 1 is passed as out.
    script.work(0, 1, 0, &[], &[]);
    script.broken(&[]);
    assert_eq!(script.observer.notices(1), [OUT(1, 1)]);
    assert_eq!(script.one_list(), "holds");
}

/// One list about each replica, of which every member took a beginning.
#[test]
fn beginnings() {
    let mut script = Script::of(3);
    let station = script.observer.add_station();
    script.takes(0, &[OUT(1, 4), OUT(2, 5), BACK(1, 7), BACK(2, 8)]);
    assert_eq!(script.one_list(), "holds");
    // Between notices about different replicas there is no order.
    script.takes(1, &[OUT(2, 5), BACK(2, 8), OUT(1, 4)]);
    script.takes(station, &[OUT(1, 4)]);
    assert_eq!(script.one_list(), "holds");
    let mut other = Script::of(3);
    other.takes(0, &[OUT(1, 4), BACK(1, 7)]);
    other.takes(2, &[OUT(1, 4), BACK(1, 8)]);
    let wrong = "replica 0 took other notices about replica 1";
    assert_eq!(other.one_list(), wrong);
    script.takes(station, &[BACK(1, 6)]);
    let wrong = "took other notices about replica 1";
    assert!(script.one_list().ends_with(wrong));
}

/// Nobody's turn is above the slot of a notice that it lacks, a station's neither.
#[test]
fn lacking() {
    let mut script = Script::new();
    let station = script.observer.add_station();
    script.reports.push(Default::default());
    script.values.push(start_values());
    script.send(0, 0, &[]);
    script.takes(0, &[OUT(1, 1)]);
    script.pass(&[0, 1, station], 0..1);
    assert_eq!(script.one_list(), "holds");
    script.pass(&[0], 1..2);
    assert_eq!(script.one_list(), "holds");
    // Nobody sent for slot 1, and yet a station passes it.
    script.pass(&[station], 1..2);
    assert_eq!(
        script.one_list(),
        "station 0 lacks Out 1 from 1, and its turn is 2"
    );
    // The premise is about the end of the list.
    script.takes(station, &[OUT(1, 1)]);
    assert_eq!(script.observer.one_list(), Ok(()));
}

/// A block for a slot that the list puts out, by a send or by a restart.
#[test]
fn handed_out() {
    let mut script = Script::new();
    script.send(0, 0, &[]);
    script.takes(0, &[OUT(0, 2)]);
    assert_eq!(script.one_list(), "holds");
    script.takes(1, &[OUT(0, 2)]);
    let mut sent = Script::new();
    sent.send(0, 0, &[]);
    sent.takes(1, &[OUT(0, 0)]);
    let wrong = "a block was handed out for slot 0, which is out";
    assert_eq!(sent.one_list(), wrong);
    // A *next* of an own out slot that is given back counts as handed out.
    let mut back = Script::new();
    back.takes(0, &[OUT(0, 0)]);
    back.takes(1, &[OUT(0, 0)]);
    back.pass(&[0], 0..1);
    let next = block_of(2, 0, &[]);
    back.restart(0, &[next], Some(next), 0, &[]);
    assert_eq!(back.one_list(), wrong);
    let mut zeros = Script::new();
    zeros.takes(0, &[OUT(0, 0)]);
    zeros.pass(&[0], 0..1);
    zeros.restart(0, &[next], None, 0, &[]);
    assert_eq!(zeros.one_list(), "holds");
    zeros.broken(&[]);
}

/// Whether a restart at replica k after some calls is within the premise. It gives back its last own block
/// outside out slots.
fn premise(script: impl Fn() -> Script, k: usize, restart: Restart) -> bool {
    let mut script = script();
    assert!(script.observer.premise());
    let whole = model::journal::blocks(restart.n, &restart.journal);
    let own = |block: &&[u8; BLOCK]| {
        let slot = block::header(block).slot;
        usize::from(block[1]) == k && !notice::puts_out(&restart.notices, restart.n, slot)
    };
    let last = whole.filter(own).last().copied();
    let answer = Ok(Restarted {
        count: 0,
        block: Box::new(last.unwrap_or([0; BLOCK])),
    });
    script.observer.feed_restart(k, &restart, &answer);
    script.observer.premise()
}

/// The fewest and the most bytes of a journal that a cut may leave, of a replica lent what it took; all
/// between them may be left too.
fn left(script: impl Fn() -> Script, k: usize, journal: &[[u8; BLOCK]]) -> [usize; 2] {
    let journal = journal.concat();
    let notices = script().observer.notices(k).to_vec();
    let part = |&length: &usize| {
        let restart = Restart {
            notices: notices.clone(),
            ..lent(k, journal[..length].to_vec())
        };
        premise(&script, k, restart)
    };
    let lengths: Vec<usize> = (0..=journal.len()).filter(part).collect();
    let [first, last] = [lengths[0], lengths[lengths.len() - 1]];
    assert_eq!(lengths.len(), last - first + 1);
    [first, last]
}

/// What was journaled when the last notice was taken, and the *next* of an out slot passed; also of a slot
/// of the replica itself, and of one whose work the cut ended.
#[test]
fn what_a_cut_leaves() {
    let [next, second, third] = [0, 1, 2].map(|slot| block_of(2, slot, &[]));
    let passed = || {
        let mut script = Script::new();
        script.send(0, 0, &[]);
        script.pass(&[1], 0..1);
        script
    };
    // Replica 1 has sent nothing yet: at its own slot a send that the cut ends appends one.
    assert_eq!(left(passed, 1, &[next, second]), [0, 2 * BLOCK]);
    let taken = || {
        let mut script = passed();
        script.takes(1, &[OUT(1, 5)]);
        script
    };
    assert_eq!(left(taken, 1, &[next, second]), [BLOCK, 2 * BLOCK]);
    // Its own slot is out: a work appends the *next*, the same bytes, and then it is not lost any more.
    let out = || {
        let mut script = passed();
        script.takes(1, &[OUT(1, 1)]);
        script
    };
    assert_eq!(left(out, 1, &[next, second, third]), [BLOCK, 2 * BLOCK]);
    let worked = || {
        let mut script = out();
        script.work(1, 1, 0, &[], &[]);
        script
    };
    assert_eq!(left(worked, 1, &[next, second, third]), [2 * BLOCK; 2]);
    // The cut ended that work, and the restart committed its *next*: it gave back zeros, and yet nothing
    // may be lost.
    let restarted = || {
        let mut script = out();
        script.restart(1, &[next, second], None, 0, &[]);
        script
    };
    assert_eq!(left(restarted, 1, &[next, second, third]), [2 * BLOCK; 2]);
    let lost = || {
        let mut script = out();
        script.restart(1, &[next], None, 0, &[]);
        script
    };
    assert_eq!(left(lost, 1, &[next, second, third]), [BLOCK, 2 * BLOCK]);
}

#[test]
fn lent_the_notices_taken() {
    let script = || {
        let mut script = Script::new();
        script.takes(0, &[OUT(1, 1), OUT(0, 4), BACK(1, 5)]);
        script
    };
    let right = [OUT(1, 1), OUT(0, 4), BACK(1, 5)];
    let with = |notices: &[Notice]| {
        let notices = notices.to_vec();
        let restart = Restart {
            notices,
            ..lent(0, Vec::new())
        };
        premise(script, 0, restart)
    };
    assert!(with(&right));
    assert!(!with(&[]) && !with(&right[..2]) && !with(&right[1..]));
    assert!(!with(&[OUT(0, 4), OUT(1, 1), BACK(1, 5)]));
    assert!(!with(&[OUT(1, 1), OUT(0, 4), BACK(1, 6)]));
}

/// A Back that is taken late, which a right replica refuses: by the end all took the same, and one lacks a
/// writeset below its turn.
#[test]
fn back_without_the_turn_test() {
    let mut script = Script::new();
    let notices = [OUT(1, 1), BACK(1, 3)];
    script.send(0, 0, &[]);
    script.takes(1, &notices);
    script.takes(0, &notices[..1]);
    script.pass(&[0, 1], 0..2);
    script.send(0, 2, &[]);
    script.pass(&[0, 1], 2..3);
    script.begin(1, 1, &[(5, 40)]);
    script.ask(1, 1);
    script.send(1, 3, &[(1, &[(5, 40)])]);
    script.work(1, 1, 1, &[], &[(5, 40)]);
    // Replica 0 does not know that slot 3 counts again.
    script.pass(&[0], 3..4);
    assert_eq!(
        script.one_list(),
        "replica 0 lacks Back 1 at 3, and its turn is 4"
    );
    script.takes(0, &notices[1..]);
    assert_eq!(script.one_list(), "holds");
    script.broken(&["replica 0: 1 writesets were sent for slots below its turn 4, it committed 0"]);
}

/// A replica passes a slot as out that counts again, lets a client read behind it, and loses that by a
/// cut; then it takes the Back. Were the *next* of an out slot lost by a cut, the premise would hold in the
/// end, and the read is not that of the sequence.
#[test]
fn the_next_of_an_out_slot_is_not_lost() {
    let mut script = Script::of(3);
    let notices = [OUT(2, 2), BACK(2, 5)];
    for k in [0, 2] {
        script.takes(k, &notices);
    }
    script.takes(1, &notices[..1]);
    for slot in [0, 1, 3, 4] {
        script.send((slot % 3) as usize, slot, &[]);
    }
    script.pass(&[0, 1, 2], 0..5);
    for (k, slot, value) in [(2, 5, 40), (0, 6, 41)] {
        script.begin(k, 1, &[(slot, value)]);
        script.ask(k, 1);
        script.send(k, slot, &[(1, &[(slot as u8, value)])]);
        for other in [0, 2] {
            script.work(other, k as u8, 1, &[], &[(slot as usize, value)]);
        }
    }
    let journal = [0, 1, 2, 3, 4].map(|slot| block_of(3, slot, &[]));
    let [fifth, sixth] =
        [(5, 40), (6, 41)].map(|(slot, value)| block_of(3, slot, &[(1, &[(slot as u8, value)])]));
    script.pass(&[1], 5..6);
    script.deliver(1, sixth);
    script.work(1, 0, 1, &[], &[]);
    script.begin(1, 1, &[]);
    script.read(1, 1, 6, 41);
    let own = Some(journal[4]);
    script.restart(1, &journal, own, 0, &[]);
    assert!(!script.observer.premise());
    // It would hold.
    script.takes(1, &notices[1..]);
    assert_eq!(script.observer.one_list(), Ok(()));
    for (block, k, (item, value)) in [(fifth, 2, (5, 40)), (sixth, 0, (6, 41))] {
        script.deliver(1, block);
        script.work(1, k, 1, &[], &[(item, value)]);
    }
    script.broken(&["replica 1: ticket 1 read 41 from item 6, after 1 writesets of the sequence"]);
}

//! Notices (document 02, Req 10): what they are refused for, what they put out, what a journal gets for
//! an out slot, and what a restart makes of them.

use model::block::{self, BLOCK, MAX_SLOT};
use model::notice::Notice;
use model::replica::{Replica, SLOTS};

use crate::common::{ask, block_of, make, pass_to, start_values, station, take};

const OUT: fn(u32, u32) -> Notice = Notice::out;
const BACK: fn(u32, u32) -> Notice = Notice::back;

/// That the replica refuses notices by 28, and is as it was.
fn refuses(replica: &mut Replica, notices: &[Notice]) {
    let before = replica.clone();
    for &notice in notices {
        assert_eq!(replica.notice(notice), Err(28), "{notice}");
    }
    assert_eq!(*replica, before);
}

/// That it takes a notice, and that nothing else of it changes.
fn takes(replica: &mut Replica, notice: Notice) {
    let mut due = replica.clone();
    due.notices.push(notice);
    assert_eq!(replica.notice(notice), Ok(()), "{notice}");
    assert_eq!(*replica, due);
}

/// The slots from the turn on that are out, as far as 30 beyond it.
fn out(replica: &Replica) -> Vec<u32> {
    let slots = replica.turn..replica.turn + 30;
    slots.filter(|&slot| replica.is_out(slot)).collect()
}

#[test]
fn out_of_range() {
    for n in 2..=6 {
        for mut member in [make(n, n - 1), station(n)] {
            let before = member.clone();
            for about in [n, n + 1, 6, 255, 256, u32::MAX] {
                assert_eq!(member.notice(OUT(about, 0)), Err(2));
                assert_eq!(member.notice(BACK(about, 0)), Err(2));
            }
            for slot in [SLOTS, SLOTS + 1, u32::MAX] {
                assert_eq!(member.notice(OUT(0, slot)), Err(2));
                // Before 28: it is not out.
                assert_eq!(member.notice(BACK(n - 1, slot)), Err(2));
            }
            assert_eq!(member, before);
            takes(&mut member, OUT(0, MAX_SLOT));
            takes(&mut member, OUT(n - 1, 0));
            takes(&mut member, BACK(n - 1, MAX_SLOT));
        }
    }
}

/// The turn may be at a notice's slot, and not above it.
#[test]
fn too_late() {
    let mut replica = make(3, 0);
    pass_to(&mut replica, 3, 0, 4);
    refuses(&mut replica, &[OUT(2, 0), OUT(2, 3), OUT(1, 3), OUT(0, 3)]);
    takes(&mut replica, OUT(2, 4));
    assert_eq!(out(&replica)[..3], [5, 8, 11]);
    let mut late = replica.clone();
    take(&mut late, &block_of(3, 4, &[]));
    late.work().unwrap();
    // Slot 5 is passed.
    refuses(&mut late, &[BACK(2, 5), BACK(2, 4)]);
    takes(&mut late, BACK(2, 6));
    assert_eq!(out(&late), []);
    takes(&mut replica, BACK(2, 5));
    assert_eq!(out(&replica), []);
}

/// Out once, also where it is so only from a slot ahead on; and again once the turn is at its Back.
#[test]
fn already_out() {
    let mut replica = make(2, 0);
    takes(&mut replica, OUT(1, 5));
    refuses(&mut replica, &[OUT(1, 0), OUT(1, 5), OUT(1, 9)]);
    pass_to(&mut replica, 2, 0, 5);
    refuses(&mut replica, &[OUT(1, 5), OUT(1, 7)]);
    takes(&mut replica, BACK(1, 7));
    // Its last Back is above the turn.
    refuses(&mut replica, &[OUT(1, 5), OUT(1, 7), OUT(1, 9)]);
    replica.work().unwrap();
    refuses(&mut replica, &[OUT(1, 7), OUT(1, 9)]);
    let own = replica.send().unwrap();
    take(&mut replica, &own);
    assert_eq!(replica.turn, 7);
    takes(&mut replica, OUT(1, 7));
    assert_eq!(out(&replica)[0], 7);
}

#[test]
fn back_of_one_that_is_out() {
    let mut replica = make(3, 0);
    refuses(&mut replica, &[BACK(0, 3), BACK(1, 3)]);
    takes(&mut replica, OUT(1, 4));
    refuses(
        &mut replica,
        &[BACK(2, 9), BACK(1, 0), BACK(1, 3), BACK(1, 4)],
    );
    takes(&mut replica, BACK(1, 5));
    assert_eq!(out(&replica), [4]);
    // Also where the Back is still ahead.
    refuses(&mut replica, &[BACK(1, 5), BACK(1, 9)]);
    // An outage without a slot of its replica.
    takes(&mut replica, OUT(2, 3));
    takes(&mut replica, BACK(2, 5));
    assert_eq!(out(&replica), [4]);
}

/// A block of its replica at a place, at or after the slot; half applied it is there still.
#[test]
fn a_block_placed() {
    let mut replica = make(3, 0);
    pass_to(&mut replica, 3, 0, 1);
    let block = block_of(3, 2, &[(1, &[(5, 1)]), (2, &[(6, 1)])]);
    replica.deliver(&block).unwrap();
    refuses(&mut replica, &[OUT(2, 1), OUT(2, 2)]);
    let mut before = replica.clone();
    takes(&mut before, OUT(2, 3));
    takes(&mut replica.clone(), OUT(1, 1));
    take(&mut replica, &block_of(3, 1, &[]));
    replica.work().unwrap();
    assert!(replica.applying);
    refuses(&mut replica, &[OUT(2, 2)]);
    takes(&mut replica.clone(), OUT(2, 3));
    replica.work().unwrap();
    takes(&mut replica, OUT(2, 3));
}

/// The own block that is sent and not worked off, be it delivered or not.
#[test]
fn a_block_sent() {
    let mut replica = make(2, 1);
    pass_to(&mut replica, 2, 1, 1);
    takes(&mut replica.clone(), OUT(1, 1));
    let own = replica.send().unwrap();
    refuses(&mut replica, &[OUT(1, 1)]);
    takes(&mut replica.clone(), OUT(1, 2));
    takes(&mut replica.clone(), OUT(0, 1));
    replica.deliver(&own).unwrap();
    refuses(&mut replica, &[OUT(1, 1)]);
    replica.work().unwrap();
    takes(&mut replica, OUT(1, 2));
}

/// 29 behind 13 and 11; an own slot that is out is passed by a work, with what is asked still asked.
#[test]
fn sends() {
    let mut replica = make(2, 1);
    takes(&mut replica, OUT(0, 0));
    takes(&mut replica, OUT(1, 0));
    assert_eq!(replica.send(), Err(11));
    let (work, next) = replica.work_journaled().unwrap();
    assert_eq!((work.sender, work.ticket, work.moved), (0, 0, true));
    assert_eq!(next, Some(block_of(2, 0, &[])));
    let ticket = ask(&mut replica, &[(5, 40)]);
    assert_eq!(replica.send(), Err(29));
    let mut bytes = [7; BLOCK];
    assert_eq!(replica.send_into(&mut bytes[1..]), Err(1));
    assert_eq!(replica.send_into(&mut bytes), Err(29));
    assert_eq!(bytes, [7; BLOCK]);
    takes(&mut replica, BACK(1, 3));
    assert_eq!(replica.send(), Err(29));
    assert_eq!(replica.out_next(), Some(block_of(2, 1, &[])));
    let (work, next) = replica.work_journaled().unwrap();
    assert_eq!((work.sender, work.ticket, work.moved), (1, 0, true));
    assert_eq!(work.aborted, []);
    assert_eq!(next, Some(block_of(2, 1, &[])));
    assert_eq!(replica.queue, [ticket]);
    replica.work().unwrap();
    assert_eq!(replica.out_next(), None);
    let sent = replica.send().unwrap();
    assert_eq!(sent, block_of(2, 3, &[(ticket, &[(5, 40)])]));
    assert_eq!(replica.send(), Err(12));
    let mut spent = make(2, 0).fast_forward(SLOTS, 0);
    assert_eq!(spent.send(), Err(13));
    assert_eq!(spent.notice(OUT(0, MAX_SLOT)), Err(28));
}

/// 29 behind 1, 14, 15, 16 and 17, and before 18, 19 and 20.
#[test]
fn deliveries() {
    for own in [Some(0), Some(2), None] {
        let mut member = match own {
            Some(own) => make(3, own),
            None => station(3),
        };
        takes(&mut member, OUT(0, 0));
        takes(&mut member, OUT(2, 2));
        takes(&mut member, BACK(2, 6));
        member.work().unwrap();
        let good = block_of(3, 2, &[]);
        let mut unchecked = good;
        unchecked[511] ^= 1;
        let mut ill_formed = good;
        ill_formed[0] = 3;
        block::put_check(&mut ill_formed);
        assert_eq!(member.deliver(&good[1..]), Err(1));
        assert_eq!(member.deliver(&unchecked), Err(14));
        assert_eq!(member.deliver(&ill_formed), Err(15));
        assert_eq!(member.deliver(&block_of(2, 2, &[])), Err(16));
        // Slot 0 is out, and behind the turn.
        assert_eq!(member.deliver(&block_of(3, 0, &[])), Err(17));
        for slot in [2, 3, 5, 6, 300, MAX_SLOT - MAX_SLOT % 3] {
            assert_eq!(member.deliver(&block_of(3, slot, &[])), Err(29), "{slot}");
        }
        // Slots 4 and 8 are not out, and far; 1 is not out, and is taken.
        for slot in [4, 7, 8] {
            assert_eq!(member.deliver(&block_of(3, slot, &[])), Err(18), "{slot}");
        }
        assert_eq!(member.deliver(&block_of(3, 1, &[])), Ok(()));
        assert_eq!(member.deliver(&block_of(3, 1, &[])), Err(20));
    }
}

/// A work on an out slot needs no block and touches no place, not even one that holds a block by mistake.
#[test]
fn passes_without_a_block() {
    let mut replica = make(3, 0);
    pass_to(&mut replica, 3, 0, 1);
    takes(&mut replica, OUT(1, 1));
    assert_eq!(replica.deliver(&block_of(3, 2, &[])), Ok(()));
    let open = ask(&mut replica, &[(5, 1)]);
    let before = replica.clone();
    let work = replica.work().unwrap();
    assert_eq!((work.sender, work.ticket), (1, 0));
    assert_eq!((work.moved, work.aborted), (true, vec![]));
    let mut due = before.clone();
    due.turn += 1;
    due.window.keep(block_of(3, 1, &[]));
    assert_eq!(replica, due);
    assert_eq!(replica.queue, [open]);
    // No list of calls leads here: a block of the out slot is at its place.
    let mut altered = before;
    altered.inbox[1] = block::decode(&block_of(3, 1, &[(1, &[(5, 9)])])).ok();
    due.inbox[1] = altered.inbox[1].clone();
    altered.work().unwrap();
    assert_eq!(altered, due);
}

/// 100,000,000 is no slot, whoever it would belong to.
#[test]
fn the_last_slot() {
    for n in 2..=6 {
        for mut member in [make(n, SLOTS % n), station(n)] {
            member = member.fast_forward(MAX_SLOT - 1, 0);
            for about in 0..n {
                takes(&mut member, OUT(about, MAX_SLOT - 1));
            }
            assert_eq!(member.work().map(|work| work.moved), Ok(true));
            assert_eq!(member.work().map(|work| work.moved), Ok(true));
            assert_eq!(member.turn, SLOTS);
            assert_eq!(member.work(), Err(21));
            assert_eq!(member.work_journaled(), Err(21));
            assert!(!member.is_out(SLOTS) && member.out_next().is_none());
        }
    }
}

/// A station takes notices as a replica does, and has no journal for what it passes.
#[test]
fn stations() {
    let mut station = station(2);
    takes(&mut station, OUT(1, 1));
    take(&mut station, &block_of(2, 0, &[]));
    assert_eq!(station.send(), Err(25));
    let (work, next) = station.work_journaled().unwrap();
    assert_eq!((work.sender, work.moved, next), (1, true, None));
    assert_eq!(station.deliver(&block_of(2, 3, &[])), Err(29));
    takes(&mut station, BACK(1, 3));
    assert_eq!(station.deliver(&block_of(2, 3, &[])), Ok(()));
    refuses(&mut station, &[OUT(1, 2), OUT(1, 3)]);
}

/// Lent its notices, a replica is as it was when it took them; without them it is not.
#[test]
fn lent_to_a_restart() {
    let mut replica = make(2, 0);
    let notices = [OUT(1, 1), BACK(1, 4), OUT(0, 6)];
    let mut journal = replica.send().unwrap().to_vec();
    take(&mut replica, &journal);
    for notice in notices {
        takes(&mut replica, notice);
    }
    journal.extend(replica.work_journaled().unwrap().1.unwrap());
    let restart =
        |notices: &[Notice]| Replica::restart(2, 0, &start_values(), &journal, notices).unwrap();
    let (restarted, answer) = restart(&notices);
    assert_eq!(restarted, replica);
    assert_eq!((answer.count, &answer.block[..]), (2, &journal[..BLOCK]));
    let (forgetful, answer) = restart(&[]);
    assert_eq!((answer.count, &answer.block[..]), (2, &journal[..BLOCK]));
    assert_eq!(
        (out(&forgetful), out(&replica)[..2].to_vec()),
        (vec![], vec![3, 6])
    );
    assert!(forgetful.notices.is_empty());
    // Without a test: they are in force although the turn is above some, and they follow on nothing.
    let (odd, _) = restart(&[BACK(1, 1), OUT(1, 0), OUT(7, 3), BACK(1, SLOTS), OUT(1, 5)]);
    assert_eq!(out(&odd)[..2], [3, 5]);
    // The journal's blocks are not compared with them.
    assert_eq!(odd.turn, 2);
}

/// The last own block outside out slots, out by the whole list: not a *next* that a work journaled for
/// the replica itself.
#[test]
fn the_block_given_back() {
    let own = |slot: u32| block_of(2, slot, &[(slot + 1, &[(5, 1)])]);
    let next = |slot| block_of(2, slot, &[]);
    let journal = [own(0), next(1), next(2), next(3), next(4), next(5)].concat();
    let given = |notices: &[Notice]| {
        let (_, answer) = Replica::restart(2, 0, &start_values(), &journal, notices).unwrap();
        assert_eq!(answer.count, 6);
        match answer.gave_back() {
            true => Some(block::header(&answer.block).slot),
            false => None,
        }
    };
    assert_eq!(given(&[]), Some(4));
    assert_eq!(given(&[OUT(1, 1)]), Some(4));
    assert_eq!(given(&[OUT(0, 3)]), Some(2));
    assert_eq!(given(&[OUT(0, 3), BACK(0, 6)]), Some(2));
    assert_eq!(given(&[OUT(0, 1)]), Some(0));
    // Two outages, the second behind an own block and not.
    assert_eq!(given(&[OUT(0, 1), BACK(0, 3), OUT(0, 5)]), Some(4));
    assert_eq!(
        given(&[OUT(0, 1), BACK(0, 3), OUT(0, 3), BACK(0, 9)]),
        Some(0)
    );
    assert_eq!(given(&[OUT(0, 0), BACK(0, 3), OUT(0, 4), BACK(0, 9)]), None);
}

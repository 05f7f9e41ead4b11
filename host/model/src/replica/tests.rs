//! States that no list of calls leads to.

use super::*;
use crate::block::{self, Header, TO_COMMIT};
use crate::refusal::{
    APPLYING, LOAD_WHILE_APPLYING, LOCKED, NOTHING_WAITS, NOT_SENT, PAST_SLOT, SLOT_TAKEN,
};
use crate::samples::block_of;

/// A replica 0 of 2 with its own block of two writesets back in its inbox.
fn with_own_block() -> Replica {
    let mut replica = Replica::make(2, 0, &[0; ITEMS]).unwrap();
    for item in 0..2 {
        let ticket = replica.begin().unwrap();
        replica.write(ticket, item, 7).unwrap();
        replica.ask(ticket).unwrap();
    }
    let block = replica.send().unwrap();
    replica.deliver(&block).unwrap();
    replica
}

/// No list of calls leads here: the sent transaction is taken out of the open ones. Its writeset is committed,
/// and nobody ends.
#[test]
fn own_writeset_that_is_not_open() {
    let mut replica = with_own_block();
    assert_eq!(replica.work().map(|work| work.ticket), Ok(1));
    replica.open.clear();
    commits_and_ends_nobody(&mut replica);
}

/// Nor here: it is open, but at another stage, and stays so.
#[test]
fn own_writeset_that_is_not_sent() {
    for stage in [Stage::Active, Stage::Asked] {
        let mut replica = with_own_block();
        replica.open[0].stage = stage;
        commits_and_ends_nobody(&mut replica);
        // Without a message the number is 21, whatever is open.
        replica.inbox[0] = None;
        assert_eq!(replica.work(), Err(NOTHING_WAITS));
    }
}

/// Nor here: the own block is at the turn, and the mark that it was sent is off. It is worked as any; until then
/// another block may be sent for the slot, for which there is no place.
#[test]
fn own_block_that_was_not_sent() {
    let mut replica = with_own_block();
    let block = replica.outbox.take().unwrap();
    assert_eq!(replica.deliver(&block), Err(NOT_SENT));
    let mut sends = replica.clone();
    let other = sends.send().unwrap();
    assert_eq!(block::decode(&other).unwrap().records, []);
    assert_eq!(sends.deliver(&other), Err(SLOT_TAKEN));
    assert_eq!(sends.deliver(&block), Err(NOT_SENT));
    for mut replica in [replica, sends] {
        let works = [replica.work(), replica.work()].map(|work| {
            let work = work.unwrap();
            (work.ticket, work.moved, work.aborted.len())
        });
        assert_eq!(works, [(1, false, 0), (2, true, 0)]);
        let report = replica.report();
        assert_eq!((report.turn, report.committed, report.open), (1, 2, 0));
        assert_eq!(replica.deliver(&block), Err(PAST_SLOT));
    }
}

/// A work on an own writeset that is not open as sent: values, stamps and the commit count change, and what
/// is done of the block; nothing else but where it is the last, and the block goes into the window.
fn commits_and_ends_nobody(replica: &mut Replica) {
    let before = replica.clone();
    let message = before.inbox[0].clone().unwrap();
    let record = &message.records[before.done];
    let work = replica.work().unwrap();
    assert_eq!(
        (work.sender, work.ticket),
        (before.own.unwrap(), record.ticket)
    );
    assert_eq!(work.aborted, []);
    let mut due = before.clone();
    due.commits += 1;
    for entry in &record.entries {
        due.values[usize::from(entry.item)] = entry.value;
        due.stamps[usize::from(entry.item)] = due.commits;
    }
    due.done += 1;
    if work.moved {
        (due.done, due.turn) = (0, before.turn + 1);
        (due.inbox[0], due.outbox) = (None, None);
        due.window.keep(block::encode(&message));
    }
    assert!(!replica.applying);
    assert_eq!(*replica, due);
}

/// Nor here: a message of another replica at the turn, and a transaction that is sent. It is beyond
/// the reach of the writeset, and its item stays locked.
#[test]
fn sent_and_a_remote_writeset() {
    let mut replica = Replica::make(2, 1, &[0; ITEMS]).unwrap();
    for item in [5, 6, 7] {
        let ticket = replica.begin().unwrap();
        replica.write(ticket, item, 7).unwrap();
    }
    replica.ask(2).unwrap();
    replica.open[2].stage = Stage::Sent;
    let header = Header {
        kind: TO_COMMIT,
        sender: 0,
        replicas: 2,
        count: 1,
        slot: 0,
    };
    let entries = [(5, 1), (6, 1), (7, 1)].into_iter();
    let mut block = [0; BLOCK];
    block::encode_records(&header, [(9, entries)].into_iter(), &mut block);
    replica.deliver(&block).unwrap();
    assert_eq!(replica.work().unwrap().aborted, [1, 2]);
    assert_eq!(replica.open.len(), 1);
    let later = replica.begin().unwrap();
    assert_eq!(replica.write(later, 7, 0), Err(LOCKED));
}

/// Nor here: the applying mark is on, and nothing is left to be applied. Then no class waits; a load
/// looks at the mark alone.
#[test]
fn applying_and_nothing_to_come() {
    let mut replica = Replica::make(2, 1, &[0; ITEMS]).unwrap();
    let ticket = replica.begin().unwrap();
    let block = block_of(2, 0, &[(1, &[(5, 1)]), (2, &[(6, 1)])]);
    replica.deliver(&block).unwrap();
    replica.work().unwrap();
    assert_eq!(replica.write(ticket, 40, 7), Err(APPLYING));
    let mut done = replica.clone();
    done.done = 2;
    let mut empty = replica.clone();
    empty.inbox[0] = None;
    let mut next = replica;
    next.inbox[0] = block::decode(&block_of(2, 0, &[])).ok();
    for mut altered in [done, empty, next] {
        assert_eq!(altered.write(ticket, 40, 7), Ok(()));
        assert_eq!(altered.load(&[1; ITEMS]), Err(LOAD_WHILE_APPLYING));
    }
}

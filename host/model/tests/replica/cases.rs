//! The cases that document 01 lists (its "Strikes on the anvil"), in its order, and the sentences
//! about the calls that no case shows.

use model::block;
use model::replica::{Replica, Report, Work, ITEMS};

use crate::common::{ask, block_of, make, pass_to, start_values, take};

#[test]
fn next_block() {
    let block = make(2, 0).send().unwrap();
    assert_eq!(block[..8], [1, 0, 2, 0, 0, 0, 0, 0]);
    assert_eq!(block[504..], [0x03, 0, 0, 0, 0xF2, 0x02, 0, 0]);
}

#[test]
fn block_of_one_record() {
    let mut replica = make(2, 1);
    take(&mut replica, &block_of(2, 0, &[]));
    assert_eq!(ask(&mut replica, &[(5, 40)]), 1);
    let block = replica.send().unwrap();
    assert_eq!(block[..8], [2, 1, 2, 1, 1, 0, 0, 0]);
    assert_eq!(block[504..], [0x34, 0x02, 0, 0, 0xAE, 0x27, 0x02, 0]);
    assert_eq!(block, block_of(2, 1, &[(1, &[(5, 40)])]));
}

#[test]
fn sizes_of_a_group() {
    let values = start_values();
    for (n, own, refusal) in [
        (0, 0, Some(2)),
        (1, 0, Some(2)),
        (2, 0, None),
        (2, 1, None),
        (2, 2, Some(2)),
        (6, 0, None),
        (6, 5, None),
        (6, 6, Some(2)),
        (7, 0, Some(2)),
        (258, 0, Some(2)),
        (3, 256, Some(2)),
        (u32::MAX, 0, Some(2)),
    ] {
        let made = Replica::make(n, own, &values);
        assert_eq!(made.err(), refusal, "replica {own} of {n}");
    }
}

#[test]
fn a_replica_just_made() {
    let replica = make(3, 2);
    assert_eq!(replica.report(), Report::default());
    assert_eq!(*replica.values(), start_values());
    assert!((0..ITEMS).all(|item| replica.stamp(item) == 0));
}

#[test]
fn highest_item() {
    let mut replica = make(2, 0);
    let ticket = replica.begin().unwrap();
    assert_eq!(replica.write(ticket, 127, 1), Ok(()));
    assert_eq!(replica.read(ticket, 127), Ok(1));
    assert_eq!(replica.read(ticket, 0), Ok(-600));
    for item in [128, 255, 256, 383, u32::MAX] {
        assert_eq!(replica.write(ticket, item, 1), Err(2), "item {item}");
        assert_eq!(replica.read(ticket, item), Err(2), "item {item}");
    }
}

#[test]
fn eight_items() {
    let mut replica = make(2, 0);
    let ticket = replica.begin().unwrap();
    for item in 0..8 {
        assert_eq!(replica.write(ticket, item, 1), Ok(()));
    }
    assert_eq!(replica.write(ticket, 8, 1), Err(10));
    assert_eq!(replica.write(ticket, 7, 2), Ok(()));
    assert_eq!(replica.read(ticket, 7), Ok(2));
    assert_eq!(replica.write(ticket, 8, 1), Err(10));
}

#[test]
fn six_transactions() {
    let mut replica = make(2, 0);
    for ticket in 1..=6 {
        assert_eq!(replica.begin(), Ok(ticket));
    }
    assert_eq!(replica.begin(), Err(5));
    assert_eq!(replica.withdraw(3), Ok(()));
    assert_eq!(replica.begin(), Ok(7));
    assert_eq!(replica.begin(), Err(5));
}

#[test]
fn window_of_slots() {
    let mut replica = make(3, 0);
    assert_eq!(replica.deliver(&block_of(3, 3, &[])), Err(18));
    assert_eq!(replica.deliver(&block_of(3, 2, &[])), Ok(()));
    // Slot 3 is this replica's own; slots of others past the window are as far.
    assert_eq!(replica.deliver(&block_of(3, 4, &[])), Err(18));
}

#[test]
fn the_same_slot_twice() {
    let mut replica = make(2, 1);
    let block = block_of(2, 0, &[]);
    assert_eq!(replica.deliver(&block), Ok(()));
    assert_eq!(replica.deliver(&block), Err(20));
    // Another block of that slot finds the place taken as well.
    assert_eq!(replica.deliver(&block_of(2, 0, &[(1, &[(1, 1)])])), Err(20));
    assert!(replica.work().unwrap().moved);
    assert_eq!(replica.deliver(&block), Err(17));
}

#[test]
fn own_block_before_any_send() {
    let mut replica = make(2, 0);
    let block = block_of(2, 0, &[]);
    assert_eq!(replica.deliver(&block), Err(19));
    assert_eq!(replica.send(), Ok(block));
    assert_eq!(replica.deliver(&block), Ok(()));
}

#[test]
fn asked_and_aborted() {
    let mut replica = make(2, 1);
    assert_eq!(ask(&mut replica, &[(5, 40)]), 1);
    let remote = block_of(2, 0, &[(9, &[(5, 41)])]);
    assert_eq!(replica.deliver(&remote), Ok(()));
    let work = Work {
        sender: 0,
        ticket: 9,
        moved: true,
        aborted: vec![1],
    };
    assert_eq!(replica.work(), Ok(work));
    assert_eq!(replica.send(), Ok(block_of(2, 1, &[])));
    assert_eq!(replica.report().aborted, 1);
    assert_eq!(replica.values()[5], 41);
    assert_eq!(replica.stamp(5), 1);
}

#[test]
fn stale_write() {
    let mut replica = make(2, 1);
    let ticket = replica.begin().unwrap();
    take(&mut replica, &block_of(2, 0, &[(9, &[(5, 41)])]));
    // The snapshot is that of begin.
    assert_eq!(replica.read(ticket, 5), Ok(-550));
    assert_eq!(replica.write(ticket, 5, 1), Err(9));
    assert_eq!(replica.write(ticket, 5, 1), Err(3));
    assert_eq!(replica.ask(ticket), Err(3));
    assert_eq!(replica.report().aborted, 1);
    // One that begins later may write the item.
    let later = replica.begin().unwrap();
    assert_eq!(replica.read(later, 5), Ok(41));
    assert_eq!(replica.write(later, 5, 1), Ok(()));
}

#[test]
fn extreme_values() {
    let mut group = [make(2, 0), make(2, 1)];
    ask(&mut group[0], &[(0, i32::MIN), (127, i32::MAX)]);
    let block = group[0].send().unwrap();
    for replica in &mut group {
        take(replica, &block);
        let ticket = replica.begin().unwrap();
        assert_eq!(replica.read(ticket, 0), Ok(i32::MIN));
        assert_eq!(replica.read(ticket, 127), Ok(i32::MAX));
        assert_eq!(replica.values()[0], i32::MIN);
        assert_eq!(replica.values()[127], i32::MAX);
    }
}

#[test]
fn read_only_commit() {
    let mut replica = make(2, 0);
    let ticket = replica.begin().unwrap();
    assert_eq!(replica.ask(ticket), Ok(true));
    assert_eq!(replica.ask(ticket), Err(3));
    let due = Report {
        tickets: 1,
        read_only: 1,
        ..Report::default()
    };
    assert_eq!(replica.report(), due);
    assert_eq!(replica.send(), Ok(block_of(2, 0, &[])));
}

/// A block of several own writesets, its steps one by one.
#[test]
fn own_block_step_by_step() {
    let mut replica = make(2, 0);
    // Asked in another order than begun, written in another order than that of the items.
    let tickets = [replica.begin().unwrap(), replica.begin().unwrap()];
    for (ticket, item, value) in [(1, 9, 19), (2, 7, 27), (1, 3, 13), (1, 9, 90)] {
        assert_eq!(replica.write(ticket, item, value), Ok(()));
    }
    assert_eq!(replica.ask(tickets[1]), Ok(false));
    assert_eq!(replica.ask(tickets[0]), Ok(false));
    let block = replica.send().unwrap();
    let due = block_of(2, 0, &[(2, &[(7, 27)]), (1, &[(3, 13), (9, 90)])]);
    assert_eq!(block, due);

    // What is asked after the send waits for the next own block, and finds the sent ones' locks.
    let late = replica.begin().unwrap();
    assert_eq!(replica.write(late, 7, 1), Err(8));
    assert_eq!(replica.write(late, 8, 1), Ok(()));
    assert_eq!(replica.ask(late), Ok(false));
    assert_eq!(replica.send(), Err(12));
    assert_eq!(replica.work(), Err(21));

    let work = |ticket, moved| Work {
        sender: 0,
        ticket,
        moved,
        aborted: vec![],
    };
    assert_eq!(replica.deliver(&block), Ok(()));
    assert_eq!(replica.work(), Ok(work(2, false)));
    assert_eq!((replica.values()[7], replica.stamp(7)), (27, 1));
    assert_eq!((replica.values()[3], replica.stamp(3)), (-570, 0));
    assert_eq!(replica.report().turn, 0);
    // Half done it is still the block that was sent, and still sent for this slot.
    assert_eq!(replica.deliver(&block), Err(20));
    assert_eq!(replica.send(), Err(12));
    // An own block half done does not keep writes off, and a snapshot may fall inside it.
    let inside = replica.begin().unwrap();
    assert_eq!(replica.write(inside, 7, 5), Ok(()));
    assert_eq!(replica.read(inside, 3), Ok(-570));

    assert_eq!(replica.work(), Ok(work(1, true)));
    assert_eq!((replica.values()[3], replica.stamp(3)), (13, 2));
    assert_eq!((replica.values()[9], replica.stamp(9)), (90, 2));
    assert_eq!(replica.read(inside, 3), Ok(-570));
    assert_eq!(replica.report().committed, 2);

    pass_to(&mut replica, 2, 0, 2);
    let late_block = replica.send().unwrap();
    assert_eq!(late_block, block_of(2, 2, &[(late, &[(8, 1)])]));
}

/// A block of several writesets of another replica, its steps one by one.
#[test]
fn remote_block_step_by_step() {
    let mut replica = make(3, 2);
    let asked: Vec<u32> = [5, 6, 7].map(|i| ask(&mut replica, &[(i, 1)])).to_vec();
    let active = replica.begin().unwrap();
    replica.write(active, 8, 1).unwrap();
    replica.write(active, 9, 1).unwrap();

    let records = [(4, &[(6, 60), (9, 90)][..]), (3, &[(5, 50)])];
    assert_eq!(replica.deliver(&block_of(3, 1, &[])), Ok(()));
    assert_eq!(replica.work(), Err(21));
    assert_eq!(replica.deliver(&block_of(3, 0, &records)), Ok(()));
    let first = replica.work().unwrap();
    assert_eq!((first.sender, first.ticket, first.moved), (0, 4, false));
    assert_eq!(first.aborted, [asked[1], active]);
    assert_eq!(replica.report().turn, 0);
    // Between its writesets no item can be written, not even one that is held.
    let between = replica.begin().unwrap();
    assert_eq!(replica.write(between, 20, 1), Err(7));
    assert_eq!(replica.read(between, 6), Ok(60));
    assert_eq!(replica.read(between, 5), Ok(-550));

    let second = replica.work().unwrap();
    assert_eq!((second.sender, second.ticket, second.moved), (0, 3, true));
    assert_eq!(second.aborted, [asked[0]]);
    assert_eq!(replica.write(between, 5, 1), Err(9));
    // The early block is next.
    assert_eq!(replica.work().map(|work| work.ticket), Ok(0));
    let own = replica.send().unwrap();
    assert_eq!(own, block_of(3, 2, &[(asked[2], &[(7, 1)])]));
    assert_eq!(block::decode(&own).unwrap().records.len(), 1);
}

/// Every ending once, and what the report makes of it.
#[test]
fn report_of_all_endings() {
    let mut replica = make(2, 0);
    let committed = ask(&mut replica, &[(1, 1)]);
    let block = replica.send().unwrap();
    take(&mut replica, &block);
    let read_only = replica.begin().unwrap();
    replica.ask(read_only).unwrap();
    let withdrawn = replica.begin().unwrap();
    replica.write(withdrawn, 3, 1).unwrap();
    replica.withdraw(withdrawn).unwrap();
    let by_work = ask(&mut replica, &[(2, 1)]);
    let by_write = replica.begin().unwrap();
    let aborted = take(&mut replica, &block_of(2, 1, &[(1, &[(2, 2)])]));
    assert_eq!(aborted, [by_work]);
    assert_eq!(replica.write(by_write, 2, 1), Err(9));
    let open = replica.begin().unwrap();
    // The withdrawn one's lock is gone.
    assert_eq!(replica.write(open, 3, 1), Ok(()));
    assert_eq!([committed, read_only, withdrawn], [1, 2, 3]);
    let due = Report {
        turn: 2,
        commits: 2,
        tickets: 6,
        open: 1,
        committed: 1,
        read_only: 1,
        aborted: 2,
        withdrawn: 1,
    };
    assert_eq!(replica.report(), due);
}

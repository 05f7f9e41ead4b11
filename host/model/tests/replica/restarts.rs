//! What is appended to a journal, and what a restart makes of one (document 02, Req 01).

use model::block::{self, BLOCK, MAX_TICKET};
use model::drive::{Group, Machine, Subject, STYLES};
use model::journal;
use model::replica::{Replica, Report, Restarted};
use model::samples::{break_form, Random};
use model::trace::Call;

use crate::common::{ask, block_of, make, pass_to, start_values, take};

/// A restart of replica `own` of `n`.
fn restart(n: u32, own: u32, journal: &[u8]) -> (Replica, Restarted) {
    Replica::restart(n, own, &start_values(), journal, &[]).unwrap()
}

/// How many blocks of a journal a restart in a group of `n` commits.
fn count(n: u32, journal: &[u8]) -> u32 {
    restart(n, 0, journal).1.count
}

/// Four blocks in a group of 2: slots 0 and 2 with records.
fn four_blocks() -> Vec<u8> {
    [
        block_of(2, 0, &[(3, &[(1, 10)]), (9, &[(2, 20), (5, 50)])]),
        block_of(2, 1, &[]),
        block_of(2, 2, &[(5, &[(1, 11)])]),
        block_of(2, 3, &[(99, &[(5, 51)])]),
    ]
    .concat()
}

#[test]
fn refused_as_a_make() {
    let values = start_values();
    let refused =
        |n, own, values: &[i32]| Replica::restart(n, own, values, &four_blocks(), &[]).err();
    for (n, own) in [(0, 0), (1, 0), (7, 0), (2, 2), (6, 6), (258, 0), (2, 256)] {
        assert_eq!(refused(n, own, &values), Some(2), "{n}, {own}");
        assert_eq!(refused(n, own, &values[1..]), Some(1), "{n}, {own}");
    }
    assert_eq!(refused(2, 0, &[]), Some(1));
    assert_eq!(refused(2, 0, &[0; 129]), Some(1));
    assert_eq!(refused(6, 5, &values), None);
}

#[test]
fn an_empty_journal() {
    for n in 2..=6 {
        let (replica, restarted) = restart(n, n - 1, &[]);
        assert_eq!(replica, make(n, n - 1));
        assert_eq!((restarted.count, restarted.gave_back()), (0, false));
        assert_eq!(*restarted.block, [0; BLOCK]);
    }
}

#[test]
fn counts_values_and_stamps() {
    let (replica, restarted) = restart(2, 0, &four_blocks());
    assert_eq!(restarted.count, 4);
    assert!(restarted.block[..] == four_blocks()[2 * BLOCK..3 * BLOCK]);
    // The highest own ticket is 9, in the first own block; 99 is another's.
    let due = Report {
        turn: 4,
        commits: 4,
        tickets: 9,
        open: 0,
        committed: 3,
        read_only: 0,
        aborted: 6,
        withdrawn: 0,
    };
    assert_eq!(replica.report(), due);
    assert_eq!([1, 2, 5].map(|item| replica.values[item]), [11, 20, 51]);
    assert_eq!([1, 2, 5, 6].map(|item| replica.stamp(item)), [3, 2, 4, 0]);
    assert_eq!(replica.inbox, [None, None]);
    assert!(replica.outbox.is_none() && !replica.applying && replica.done == 0);
    assert!(replica.open.is_empty() && replica.queue.is_empty());

    let (replica, restarted) = restart(2, 1, &four_blocks());
    let report = replica.report();
    let numbers = (report.tickets, report.committed, report.aborted);
    assert_eq!(numbers, (99, 1, 98));
    assert!(restarted.block[..] == four_blocks()[3 * BLOCK..]);
}

/// A cut at each byte: what is torn counts for nothing.
#[test]
fn every_length() {
    let mut journal = four_blocks();
    journal.extend([0; 3]);
    for length in 0..=journal.len() {
        let whole = length / BLOCK * BLOCK;
        let both = [length, whole].map(|length| restart(2, 0, &journal[..length]));
        assert_eq!(both[0].1.count as usize, length / BLOCK, "{length} bytes");
        assert!(both[0] == both[1], "{length} bytes");
    }
}

#[test]
fn where_it_stops() {
    let journal = four_blocks();
    let with = |at: usize, block: &[u8; BLOCK]| {
        let mut journal = journal.clone();
        journal[at * BLOCK..][..BLOCK].copy_from_slice(block);
        journal
    };
    for at in 0..4 {
        let good: [u8; BLOCK] = journal[at * BLOCK..][..BLOCK].try_into().unwrap();
        let due = at as u32;
        // Another check, another form, another N, another slot.
        let mut random = Random::new(due.into());
        for bit in [0, 33, 4063, 4064, 4095] {
            let mut block = good;
            block[bit / 8] ^= 1 << (bit % 8);
            assert_eq!(count(2, &with(at, &block)), due, "bit {bit}");
        }
        for _ in 0..20 {
            let mut block = good;
            break_form(&mut random, &mut block);
            assert_eq!(count(2, &with(at, &block)), due, "{:?}", &block[..16]);
        }
        for n in 3..=6 {
            assert_eq!(count(2, &with(at, &block_of(n, due, &[]))), due, "{n}");
            assert_eq!(count(n, &journal), 0, "{n}");
        }
        for slot in [
            due + 1,
            due + 2,
            due + 256,
            due + 65_536,
            due.wrapping_sub(1),
        ] {
            let block = block_of(2, slot.min(99_999_999), &[]);
            assert_eq!(count(2, &with(at, &block)), due, "slot {slot}");
        }
        assert_eq!(count(2, &with(at, &[0; BLOCK])), due);
        assert_eq!(count(2, &with(at, &block_of(2, due, &[]))), 4);
    }
}

/// One ticket in two own blocks: no cut leaves such a journal.
#[test]
fn more_own_writesets_than_tickets() {
    let first = block_of(2, 0, &[(1, &[(1, 1)]), (2, &[(2, 2)])]);
    let again = block_of(2, 2, &[(2, &[(3, 3)]), (1, &[(4, 4)])]);
    let journal = [first, block_of(2, 1, &[]), again].concat();
    let report = restart(2, 0, &journal).0.report();
    let numbers = (report.tickets, report.committed, report.aborted);
    assert_eq!(numbers, (2, 4, 0));
}

#[test]
fn tickets_go_on_above_the_highest() {
    let journal = block_of(2, 0, &[(MAX_TICKET - 1, &[(1, 1)])]);
    let mut replica = restart(2, 0, &journal).0;
    assert_eq!(replica.begin(), Ok(MAX_TICKET));
    assert_eq!(replica.begin(), Err(6));
    // Those in the blocks of others are of no account.
    let mut replica = restart(2, 1, &journal).0;
    assert_eq!(replica.begin(), Ok(1));
}

/// Another's block when its slot is left, byte for byte; nothing else by a work.
#[test]
fn what_a_work_appends() {
    let mut replica = make(3, 1);
    let worked = |replica: &mut Replica| {
        let (work, block) = replica.work_journaled().unwrap();
        (work.moved, block)
    };
    let two = block_of(3, 0, &[(7, &[(1, 1)]), (8, &[(2, i32::MIN)])]);
    replica.deliver(&two).unwrap();
    assert_eq!(worked(&mut replica), (false, None));
    assert_eq!(worked(&mut replica), (true, Some(two)));
    ask(&mut replica, &[(4, 4)]);
    let own = replica.send().unwrap();
    replica.deliver(&own).unwrap();
    assert_eq!(worked(&mut replica), (true, None));
    let next = block_of(3, 2, &[]);
    replica.deliver(&next).unwrap();
    assert_eq!(worked(&mut replica), (true, Some(next)));
    assert_eq!(replica.work_journaled(), Err(21));
}

/// A replica that processed blocks by its calls, and one restarted from what it appended.
#[test]
fn as_by_the_calls() {
    let mut machine = Machine::new(make(2, 0));
    for slot in 0..20 {
        if slot % 2 == 0 {
            let ticket = ask(&mut machine.replica, &[(slot % 7, slot as i32)]);
            assert_eq!(ticket, slot / 2 + 1);
            machine.call(&Call::Send).unwrap();
            let bytes = machine.replica.outbox.unwrap().to_vec();
            machine.call(&Call::Deliver { bytes }).unwrap();
        } else {
            let bytes = block_of(2, slot, &[(5, &[(slot as u8, 1)]), (6, &[(0, -1)])]).to_vec();
            machine.call(&Call::Deliver { bytes }).unwrap();
        }
        while machine.call(&Call::Work).is_ok() {}
        let (replica, restarted) = restart(2, 0, &machine.disk);
        assert_eq!(restarted.count, slot + 1);
        assert_eq!(replica, machine.replica);
    }
}

/// An own block that is sent and not worked is committed by the restart, and the turn is above it.
#[test]
fn sent_and_not_worked() {
    let mut replica = make(2, 0);
    ask(&mut replica, &[(5, 40)]);
    let block = replica.send().unwrap();
    let (mut replica, restarted) = restart(2, 0, &block);
    assert_eq!((restarted.count, *restarted.block), (1, block));
    assert_eq!((replica.values[5], replica.stamp(5)), (40, 1));
    assert_eq!(replica.deliver(&block), Err(17));
    assert_eq!(replica.send(), Err(11));
    assert_eq!(replica.work(), Err(21));
    pass_to(&mut replica, 2, 0, 3);
    assert_eq!(replica.begin(), Ok(2));
}

/// What the calls of a list say that was appended, beside what the replicas told.
#[test]
fn journals_by_the_calls() {
    for seed in 0..40 {
        let n = 2 + seed as u32 % 5;
        let members = (0..n).map(|own| Machine::new(make(n, own)));
        let mut group = Group::new(members.collect(), STYLES[seed as usize % 4]);
        let mut random = Random::new(seed);
        for call in 0..1_000 {
            group.random_call(&mut random);
            for (k, machine) in group.members.iter().enumerate() {
                let due = group.observer.journal(k);
                assert!(machine.disk == due.bytes(), "seed {seed}, call {call}");
                assert_eq!(machine.floor, due.floor(), "seed {seed}, call {call}");
            }
        }
        group.settle(1);
        for machine in &group.members {
            assert_eq!(
                journal::blocks(n, &machine.disk).count() * BLOCK,
                machine.disk.len()
            );
            assert!(machine.disk == group.members[0].disk, "seed {seed}");
        }
    }
}

/// Blocks that waited are gone: they are given once more.
#[test]
fn blocks_that_waited() {
    let mut replica = make(3, 2);
    for slot in [0, 1] {
        replica.deliver(&block_of(3, slot, &[])).unwrap();
    }
    let (_, block) = replica.work_journaled().unwrap();
    let journal = block.unwrap();
    assert_eq!(block::header(&journal).slot, 0);
    let (mut replica, _) = restart(3, 2, &journal);
    assert_eq!(replica.work(), Err(21));
    take(&mut replica, &block_of(3, 1, &[]));
    assert_eq!(replica.report().turn, 2);
}

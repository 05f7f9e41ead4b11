//! Every number of document 01's table, each from a state in which the call would else be taken.

use model::block::{self, BLOCK, MAX_TICKET};
use model::replica::{Replica, SLOTS};

use crate::common::{ask, block_of, make, pass_to, start_values, take};

/// That a call is refused by a number and changes nothing.
fn refused<A: std::fmt::Debug + PartialEq>(
    replica: &mut Replica,
    number: u8,
    call: impl Fn(&mut Replica) -> Result<A, u8>,
) {
    let before = replica.clone();
    assert_eq!(call(replica), Err(number));
    assert_eq!(*replica, before, "refused by {number}, yet changed");
}

#[test]
fn wrong_lengths() {
    for length in [0, 1, 127, 129, 200] {
        let made = Replica::make(2, 0, &vec![0; length]);
        assert_eq!(made.err(), Some(1), "{length} values");
    }
    let mut replica = make(2, 1);
    let block = block_of(2, 0, &[]);
    for length in [0, 1, 508, 511, 513, 1024] {
        let mut bytes = block.to_vec();
        bytes.resize(length, 0);
        refused(&mut replica, 1, |r| r.deliver(&bytes));
    }
    take(&mut replica, &block);
    for length in [0, 1, 511, 513] {
        let mut bytes = vec![0xA5; length];
        let before = replica.clone();
        assert_eq!(replica.send_into(&mut bytes), Err(1));
        assert_eq!(replica, before);
        assert!(bytes.iter().all(|&byte| byte == 0xA5));
    }
    let mut bytes = [0xA5; BLOCK];
    assert_eq!(replica.send_into(&mut bytes), Ok(()));
    assert_eq!(bytes, block_of(2, 1, &[]));
    // Refused for another reason, the lent bytes stay as well.
    bytes = [0xA5; BLOCK];
    assert_eq!(replica.send_into(&mut bytes), Err(12));
    assert_eq!(bytes, [0xA5; BLOCK]);
}

#[test]
fn ranges() {
    assert_eq!(Replica::make(7, 0, &start_values()).err(), Some(2));
    let mut replica = make(2, 0);
    let ticket = replica.begin().unwrap();
    refused(&mut replica, 2, |r| r.read(ticket, 128));
    refused(&mut replica, 2, |r| r.write(ticket, 128, 0));
}

#[test]
fn tickets_that_are_not_open() {
    let mut replica = make(2, 0);
    let [withdrawn, ended, sent] = [1, 2, 3];
    replica.begin().unwrap();
    replica.withdraw(withdrawn).unwrap();
    replica.begin().unwrap();
    replica.ask(ended).unwrap();
    ask(&mut replica, &[(1, 1)]);
    let block = replica.send().unwrap();
    take(&mut replica, &block);
    for ticket in [0, withdrawn, ended, sent, 4, u32::MAX] {
        refused(&mut replica, 3, |r| r.read(ticket, 0));
        refused(&mut replica, 3, |r| r.write(ticket, 0, 0));
        refused(&mut replica, 3, |r| r.ask(ticket));
        refused(&mut replica, 3, |r| r.withdraw(ticket));
    }
}

#[test]
fn asked_or_sent_already() {
    let mut replica = make(2, 0);
    let ticket = ask(&mut replica, &[(1, 1)]);
    let all_refused = |replica: &mut Replica| {
        refused(replica, 4, |r| r.read(ticket, 1));
        refused(replica, 4, |r| r.write(ticket, 1, 0));
        refused(replica, 4, |r| r.ask(ticket));
        refused(replica, 4, |r| r.withdraw(ticket));
    };
    all_refused(&mut replica);
    let block = replica.send().unwrap();
    all_refused(&mut replica);
    replica.deliver(&block).unwrap();
    all_refused(&mut replica);
    assert_eq!(replica.work().map(|work| work.ticket), Ok(ticket));
}

#[test]
fn places_and_tickets() {
    let mut replica = make(2, 0).fast_forward(0, MAX_TICKET - 7);
    for ticket in MAX_TICKET - 6..MAX_TICKET {
        assert_eq!(replica.begin(), Ok(ticket));
    }
    refused(&mut replica, 5, Replica::begin);
    replica.withdraw(MAX_TICKET - 1).unwrap();
    assert_eq!(replica.begin(), Ok(MAX_TICKET));
    replica.withdraw(MAX_TICKET - 2).unwrap();
    refused(&mut replica, 6, Replica::begin);
    // The highest ticket goes into a block like any other.
    replica.write(MAX_TICKET, 0, 0).unwrap();
    replica.ask(MAX_TICKET).unwrap();
    let block = replica.send().unwrap();
    assert_eq!(block, block_of(2, 0, &[(MAX_TICKET, &[(0, 0)])]));
    take(&mut replica, &block);
    assert_eq!(replica.report().tickets, MAX_TICKET);
    assert_eq!(replica.report().open, 4);
}

#[test]
fn writes() {
    let mut replica = make(2, 1);
    let holder = replica.begin().unwrap();
    let other = replica.begin().unwrap();
    replica.write(holder, 5, 1).unwrap();
    refused(&mut replica, 8, |r| r.write(other, 5, 1));
    replica.ask(holder).unwrap();
    refused(&mut replica, 8, |r| r.write(other, 5, 1));
    for item in 20..28 {
        replica.write(other, item, 1).unwrap();
    }
    refused(&mut replica, 10, |r| r.write(other, 28, 1));

    let records = [(1, &[(50, 1)][..]), (2, &[(51, 1)])];
    replica.deliver(&block_of(2, 0, &records)).unwrap();
    replica.work().unwrap();
    refused(&mut replica, 7, |r| r.write(other, 20, 1));
    replica.work().unwrap();
    replica.write(other, 20, 1).unwrap();

    replica.send().unwrap();
    refused(&mut replica, 8, |r| r.write(other, 5, 1));
    let stale = replica.report();
    assert_eq!(replica.write(other, 50, 1), Err(9));
    assert_eq!(replica.report().open, stale.open - 1);
    assert_eq!(replica.report().aborted, stale.aborted + 1);
    // Its locks are gone.
    let later = replica.begin().unwrap();
    replica.write(later, 20, 1).unwrap();
}

#[test]
fn sends() {
    let mut replica = make(3, 1);
    refused(&mut replica, 11, Replica::send);
    pass_to(&mut replica, 3, 1, 1);
    let block = replica.send().unwrap();
    refused(&mut replica, 12, Replica::send);
    replica.deliver(&block).unwrap();
    refused(&mut replica, 12, Replica::send);
    replica.work().unwrap();
    refused(&mut replica, 11, Replica::send);
}

#[test]
fn the_last_slots() {
    // The last slot belongs to replica 0 of 3, and the turn after it would be replica 1's.
    assert_eq!(SLOTS % 3, 1);
    let mut group = [0, 1].map(|own| make(3, own).fast_forward(SLOTS - 3, 0));
    let blocks = [(SLOTS - 3, 1), (SLOTS - 2, 2), (SLOTS - 1, 0)];
    for (slot, sender) in blocks {
        for (own, replica) in (0..).zip(&mut group) {
            let block = block_of(3, slot, &[]);
            if own == sender {
                assert_eq!(replica.send(), Ok(block));
            }
            take(replica, &block);
        }
    }
    for replica in &mut group {
        assert_eq!(replica.report().turn, SLOTS);
        refused(replica, 13, Replica::send);
        refused(replica, 21, Replica::work);
        for slot in [0, SLOTS - 3, SLOTS - 1] {
            refused(replica, 17, |r| r.deliver(&block_of(3, slot, &[])));
        }
        // What moves no turn still runs.
        let ticket = replica.begin().unwrap();
        assert_eq!(replica.write(ticket, 0, 0), Ok(()));
        assert_eq!(replica.ask(ticket), Ok(false));
        assert_eq!(replica.report().open, 1);
    }
}

#[test]
fn deliveries() {
    let mut replica = make(3, 1);
    let good = block_of(3, 0, &[(1, &[(5, 40)])]);
    for bit in 0..8 * BLOCK {
        let mut bytes = good;
        bytes[bit / 8] ^= 1 << (bit % 8);
        assert_eq!(replica.deliver(&bytes), Err(14), "bit {bit}");
    }
    let mut bytes = good;
    bytes[0] = 3;
    block::put_check(&mut bytes);
    refused(&mut replica, 15, |r| r.deliver(&bytes));
    for n in [2, 4, 5, 6] {
        refused(&mut replica, 16, |r| r.deliver(&block_of(n, 0, &[])));
    }
    refused(&mut replica, 18, |r| r.deliver(&block_of(3, 3, &[])));
    refused(&mut replica, 19, |r| r.deliver(&block_of(3, 1, &[])));
    assert_eq!(replica.deliver(&good), Ok(()));
    refused(&mut replica, 20, |r| r.deliver(&good));
    assert!(replica.work().unwrap().moved);
    refused(&mut replica, 17, |r| r.deliver(&good));
    // At its own slot, before and after it sends.
    refused(&mut replica, 19, |r| r.deliver(&block_of(3, 1, &[])));
    ask(&mut replica, &[(6, 1)]);
    let own = replica.send().unwrap();
    refused(&mut replica, 19, |r| r.deliver(&block_of(3, 1, &[])));
    let forged = block_of(3, 1, &[(1, &[(6, 2)])]);
    refused(&mut replica, 19, |r| r.deliver(&forged));
    assert_eq!(replica.deliver(&own), Ok(()));
    refused(&mut replica, 20, |r| r.deliver(&own));
}

#[test]
fn works() {
    let mut replica = make(3, 2);
    refused(&mut replica, 21, Replica::work);
    replica.deliver(&block_of(3, 1, &[])).unwrap();
    refused(&mut replica, 21, Replica::work);
    replica.deliver(&block_of(3, 0, &[])).unwrap();
    assert!(replica.work().unwrap().moved);
    assert!(replica.work().unwrap().moved);
    refused(&mut replica, 21, Replica::work);
}

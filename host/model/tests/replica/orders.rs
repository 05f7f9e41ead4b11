//! Where several conditions of document 01's table hold, the first in the call's order is given.

use model::block::{self, MAX_TICKET};
use model::replica::{Replica, SLOTS};

use crate::common::{ask, block_of, make, pass_to, take};

#[test]
fn make_order() {
    assert_eq!(Replica::make(9, 9, &[0; 127]).err(), Some(1));
    assert_eq!(Replica::make(9, 9, &[0; 128]).err(), Some(2));
}

/// 5 before 6.
#[test]
fn begin_order() {
    let mut replica = make(2, 0).fast_forward(0, MAX_TICKET - 6);
    for _ in 0..6 {
        replica.begin().unwrap();
    }
    assert_eq!(replica.report().tickets, MAX_TICKET);
    assert_eq!(replica.begin(), Err(5));
    replica.withdraw(MAX_TICKET).unwrap();
    assert_eq!(replica.begin(), Err(6));
}

/// 2 before 3 and 4. The latter two exclude each other.
#[test]
fn read_order() {
    let mut replica = make(2, 0);
    let asked = ask(&mut replica, &[(1, 1)]);
    assert_eq!(replica.read(99, 128), Err(2));
    assert_eq!(replica.read(99, 127), Err(3));
    assert_eq!(replica.read(asked, 128), Err(2));
    assert_eq!(replica.read(asked, 127), Err(4));
}

/// A replica that applies a block of another in part, with tickets: one that holds items 20 to 27,
/// one that began before item 50 changed, one that holds item 30, one that is asked.
fn applying() -> (Replica, [u32; 4]) {
    let mut replica = make(2, 1);
    let tickets = [1, 2, 3, 4].map(|_| replica.begin().unwrap());
    for item in 20..28 {
        replica.write(tickets[0], item, 1).unwrap();
    }
    replica.write(tickets[2], 30, 1).unwrap();
    replica.write(tickets[3], 31, 1).unwrap();
    replica.ask(tickets[3]).unwrap();
    let records = [(1, &[(50, 1)][..]), (2, &[(51, 1)])];
    replica.deliver(&block_of(2, 0, &records)).unwrap();
    assert!(!replica.work().unwrap().moved);
    (replica, tickets)
}

/// 2, 3, 4, 7 in this order, and 7 before everything that depends on the item.
#[test]
fn write_order_while_applying() {
    let (mut replica, [full, stale, _, asked]) = applying();
    let before = replica.clone();
    assert_eq!(replica.write(99, 128, 0), Err(2));
    assert_eq!(replica.write(asked, 128, 0), Err(2));
    assert_eq!(replica.write(stale, 128, 0), Err(2));
    assert_eq!(replica.write(99, 0, 0), Err(3));
    assert_eq!(replica.write(asked, 31, 0), Err(4));
    assert_eq!(replica.write(asked, 0, 0), Err(4));
    assert_eq!(replica.write(full, 20, 0), Err(7), "held already");
    assert_eq!(replica.write(full, 30, 0), Err(7), "also 8");
    assert_eq!(replica.write(stale, 50, 0), Err(7), "also 9");
    assert_eq!(replica.write(full, 0, 0), Err(7), "also 10");
    assert_eq!(replica, before);
}

/// 9 before 8 before 10, and none of them for an item that is held already.
#[test]
fn write_order() {
    let (mut replica, [full, stale, holder, _]) = applying();
    replica.work().unwrap();
    let before = replica.clone();
    assert_eq!(replica.write(full, 30, 0), Err(8), "also 10");
    assert_eq!(replica, before);
    // One that began later holds an item that is newer than the others' snapshots.
    let later = replica.begin().unwrap();
    replica.write(later, 50, 2).unwrap();
    assert_eq!(replica.write(full, 20, 0), Ok(()), "a ninth write");
    let mut other = replica.clone();
    assert_eq!(other.write(full, 51, 0), Err(9), "also 10");
    assert_eq!(replica.write(full, 50, 0), Err(9), "also 8 and 10");
    assert_eq!(replica.write(full, 20, 0), Err(3));
    assert_eq!(replica.write(stale, 50, 0), Err(9), "also 8");
    assert_eq!(replica.write(stale, 50, 0), Err(3));
    assert_eq!(replica.write(holder, 30, 0), Ok(()));
    assert_eq!(replica.write(holder, 51, 0), Err(9));
    // What ended so has freed its items; what it met has not.
    assert_eq!(replica.write(later, 20, 0), Ok(()));
    assert_eq!(replica.read(later, 50), Ok(2));
}

/// 1, 13, 11, 12 in this order. 11 and 12 exclude each other, as do 13 and 12.
#[test]
fn send_order() {
    let mut replica = make(3, 0).fast_forward(SLOTS, 0);
    let mut short = [0; 511];
    assert_eq!(replica.send_into(&mut short), Err(1), "also 13 and 11");
    assert_eq!(replica.send(), Err(13), "also 11");
    let mut replica = make(3, 1);
    assert_eq!(replica.send_into(&mut short), Err(1), "also 11");
    pass_to(&mut replica, 3, 1, 1);
    replica.send().unwrap();
    assert_eq!(replica.send_into(&mut short), Err(1), "also 12");
    assert_eq!(replica.send(), Err(12));
}

/// A block with kind 3 under a right check.
fn ill_formed(n: u32, slot: u32) -> [u8; 512] {
    let mut block = block_of(n, slot, &[]);
    block[0] = 3;
    block::put_check(&mut block);
    block
}

/// A block with a wrong check.
fn unchecked(mut block: [u8; 512]) -> [u8; 512] {
    block[508] ^= 1;
    block
}

/// 1, 14, 15, 16, 17, 18, 19, 20 in this order.
#[test]
fn deliver_order() {
    // Replica 1 of 3 at turn 4, its own, with slots 4, 5 and 6 in its places.
    let mut replica = make(3, 1);
    pass_to(&mut replica, 3, 1, 4);
    let ticket = ask(&mut replica, &[(1, 1)]);
    let own = replica.send().unwrap();
    for slot in [5, 6] {
        replica.deliver(&block_of(3, slot, &[])).unwrap();
    }
    let forged = block_of(3, 4, &[(ticket, &[(1, 2)])]);
    assert_eq!(replica.deliver(&forged), Err(19));
    replica.deliver(&own).unwrap();
    let before = replica.clone();
    let mut deliver = |bytes: &[u8]| replica.deliver(bytes).unwrap_err();

    assert_eq!(deliver(&[3; 511]), 1);
    assert_eq!(deliver(&unchecked(ill_formed(3, 4))[..511]), 1);
    for block in [ill_formed(3, 4), block_of(2, 0, &[]), block_of(3, 1, &[])] {
        assert_eq!(deliver(&unchecked(block)), 14, "also 15, 16 or 17");
    }
    for slot in [7, 9, 4, 5] {
        let block = unchecked(block_of(3, slot, &[]));
        assert_eq!(deliver(&block), 14, "also 18, 19 or 20");
    }
    for (n, slot) in [(7, 4), (2, 0), (3, 1), (3, 7), (3, 4), (3, 5)] {
        assert_eq!(deliver(&ill_formed(n, slot)), 15, "also 16 to 20");
    }
    // In a group of 2 or 4, slots 1 and 9 belong to replica 1 too.
    for (n, slot) in [(2, 0), (2, 1), (4, 9), (2, 8), (4, 5), (4, 6)] {
        assert_eq!(deliver(&block_of(n, slot, &[])), 16, "also 17 to 20");
    }
    for slot in [0, 1, 2, 3] {
        let block = block_of(3, slot, &[]);
        assert_eq!(deliver(&block), 17, "also 20, and slot 1 is its own");
    }
    for slot in [7, 8, 9, 10] {
        let block = block_of(3, slot, &[]);
        assert_eq!(
            deliver(&block),
            18,
            "also 20, and slots 7 and 10 are its own"
        );
    }
    assert_eq!(deliver(&forged), 19, "also 20");
    assert_eq!(deliver(&block_of(3, 4, &[])), 19, "also 20");
    assert_eq!(deliver(&own), 20);
    assert_eq!(deliver(&block_of(3, 6, &[])), 20);
    assert_eq!(replica, before);
}

/// An own block that was sent for an earlier turn is past, though it is not the one sent last.
#[test]
fn own_block_of_an_earlier_turn() {
    let mut replica = make(2, 0);
    let first = replica.send().unwrap();
    take(&mut replica, &first);
    pass_to(&mut replica, 2, 0, 2);
    assert_eq!(replica.deliver(&first), Err(17), "also 19");
    replica.send().unwrap();
    assert_eq!(replica.deliver(&first), Err(17), "also 19");
    assert_eq!(replica.deliver(&block_of(2, 4, &[])), Err(18), "also 19");
}

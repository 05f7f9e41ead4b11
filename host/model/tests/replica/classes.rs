//! Conflict classes: which writes wait while a block of another is applied, and the loads of tables.

use model::drive::{Peers, STYLES};
use model::replica::{Replica, ITEMS};
use model::samples::Random;
use model::trace::Call;

use crate::common::{block_of, make, start_values};

/// A table in which the given items have class 2 and all others have class 1.
fn table(items: &[usize]) -> [u8; ITEMS] {
    std::array::from_fn(|item| 1 + u8::from(items.contains(&item)))
}

/// Replica 1 of 2 with one transaction and this table, at which the first of three writesets is applied:
/// of item 5. Items 6 and 7 are still to come.
fn applying(classes: &[u8; ITEMS]) -> Replica {
    let mut replica = make(2, 1);
    replica.begin().unwrap();
    replica.load(classes).unwrap();
    let records = [(1, &[(5, 1)][..]), (2, &[(6, 1)]), (3, &[(7, 1)])];
    replica.deliver(&block_of(2, 0, &records)).unwrap();
    assert!(!replica.work().unwrap().moved);
    replica
}

/// Every writeset still to come counts, not the next alone; those applied do not.
#[test]
fn writesets_still_to_come() {
    // By the class of item 40: the applied one's, the next one's, the last one's.
    for (classes, due) in [
        (table(&[5, 40]), [Ok(()), Ok(())]),
        (table(&[6, 40]), [Err(7), Ok(())]),
        (table(&[7, 40]), [Err(7), Err(7)]),
    ] {
        let mut replica = applying(&classes);
        assert_eq!(replica.write(1, 40, 1), due[0]);
        replica.work().unwrap();
        assert_eq!(replica.write(1, 40, 1), due[1]);
        replica.work().unwrap();
        assert_eq!(replica.write(1, 40, 2), Ok(()));
    }
}

/// A write that is let through is held to 9, 8 and 10 as any other.
#[test]
fn let_through() {
    let mut replica = applying(&table(&[6, 7]));
    let before = replica.clone();
    assert_eq!(replica.write(1, 6, 1), Err(7));
    assert_eq!(replica.write(1, 7, 1), Err(7));
    assert_eq!(replica, before);
    for item in 20..28 {
        assert_eq!(replica.write(1, item, 1), Ok(()));
    }
    assert_eq!(replica.write(1, 28, 1), Err(10));
    let later = replica.begin().unwrap();
    assert_eq!(replica.write(later, 5, 1), Ok(()));
    assert_eq!(replica.write(later, 20, 1), Err(8));
    assert_eq!(replica.write(1, 5, 1), Err(9), "also 8 and 10");
}

/// Aborts go by item: another item of the class is spared.
#[test]
fn aborts_by_item() {
    let mut replica = make(2, 1);
    replica.load(&[3; ITEMS]).unwrap();
    for item in [5, 6] {
        let ticket = replica.begin().unwrap();
        replica.write(ticket, item, 1).unwrap();
    }
    let block = block_of(2, 0, &[(1, &[(5, 1)])]);
    replica.deliver(&block).unwrap();
    assert_eq!(replica.work().unwrap().aborted, [1]);
}

/// 1, 2, 23 in this order; what is refused leaves the table.
#[test]
fn load_order() {
    let mut replica = applying(&table(&[9]));
    let before = replica.clone();
    for length in [0, 1, 127, 129, 256] {
        assert_eq!(replica.load(&vec![9; length]), Err(1), "also 2 and 23");
    }
    for class in [0, 9, 10, 128, 255] {
        for item in [0, 64, 127] {
            let mut classes = table(&[]);
            classes[item] = class;
            assert_eq!(replica.load(&classes), Err(2), "also 23");
        }
    }
    assert_eq!(replica.load(&table(&[])), Err(23));
    assert_eq!(replica, before);
    // The mark decides, not the place: before the first writeset, and after the last.
    while !replica.work().unwrap().moved {}
    assert_eq!(replica.load(&[8; ITEMS]), Ok(()));
    let mut replica = make(2, 1);
    let records = [(1, &[(5, 1)][..]), (2, &[(6, 1)])];
    replica.deliver(&block_of(2, 0, &records)).unwrap();
    assert_eq!(replica.load(&[8; ITEMS]), Ok(()));
    assert_eq!(replica.classes, [8; ITEMS]);
}

/// An own block that is committed in part holds nothing up.
#[test]
fn own_blocks() {
    let mut replica = make(2, 0);
    for item in [5, 6] {
        let ticket = replica.begin().unwrap();
        replica.write(ticket, item, 1).unwrap();
        replica.ask(ticket).unwrap();
    }
    let block = replica.send().unwrap();
    replica.deliver(&block).unwrap();
    assert!(!replica.work().unwrap().moved);
    let ticket = replica.begin().unwrap();
    assert_eq!(replica.write(ticket, 40, 1), Ok(()));
    assert_eq!(replica.load(&table(&[40])), Ok(()));
}

/// A restart has no table.
#[test]
fn after_a_restart() {
    let mut replica = make(2, 1);
    replica.load(&table(&[40])).unwrap();
    let journal = block_of(2, 0, &[(1, &[(5, 1)])]);
    let (restarted, _) = Replica::restart(2, 1, &start_values(), &journal, &[]).unwrap();
    assert_eq!(restarted.classes, [0; ITEMS]);
    assert_eq!(restarted.classes, make(2, 1).classes);
}

/// Without a table, and with one of one class, a write is refused by 7 on what it was before there were
/// classes: whenever the mark is on and 2, 3 and 4 are not.
#[test]
fn one_class() {
    let mut waited = 0;
    for seed in 0..60 {
        let n = 2 + seed as u32 % 5;
        let own = seed as u32 / 5 % n;
        let mut replica = make(n, own);
        if seed % 2 == 0 {
            replica.load(&[1 + seed as u8 % 8; ITEMS]).unwrap();
        }
        let mut peers = Peers::new(n, own, replica.report());
        let mut random = Random::new(seed);
        for _ in 0..1_500 {
            let call = peers.random_call(&mut random, STYLES[seed as usize % 4]);
            if let Call::Load { .. } = call {
                continue;
            }
            let applying = replica.applying;
            let due = match call {
                Call::Write { ticket, item, .. } => applying && replica.read(ticket, item).is_ok(),
                _ => false,
            };
            let answer = replica.call(&call);
            assert_eq!(answer == Err(7), due, "seed {seed}: {call:?}");
            waited += u32::from(due);
            peers.feed(&call, &answer);
        }
    }
    assert!(waited > 300, "{waited}");
}

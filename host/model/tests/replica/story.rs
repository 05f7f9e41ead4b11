//! Three copies of a typeface: each item is the stem width of one letter.

use model::replica::Replica;

use crate::common::{ask, make, take};

const H: u32 = b'h' as u32;
const N: u32 = b'n' as u32;

fn agree(group: &[Replica]) {
    for replica in &group[1..] {
        assert_eq!(replica.values(), group[0].values());
        let (report, first) = (replica.report(), group[0].report());
        assert_eq!((report.turn, report.commits), (first.turn, first.commits));
    }
}

/// Works until nothing waits at the turn.
fn work_off(replica: &mut Replica) {
    while replica.work().is_ok() {}
    assert_eq!(replica.work(), Err(21));
}

#[test]
fn stems_of_two_letters() {
    let mut group = [make(3, 0), make(3, 1), make(3, 2)];

    // Two replicas set the stems of two letters at the same time.
    ask(&mut group[0], &[(H, 90)]);
    ask(&mut group[1], &[(N, 88)]);
    let first = group[0].send().unwrap();
    take(&mut group[0], &first);
    take(&mut group[1], &first);
    let second = group[1].send().unwrap();
    take(&mut group[0], &second);
    take(&mut group[1], &second);

    // At the third the blocks arrive in opposite order.
    assert_eq!(group[2].deliver(&second), Ok(()));
    assert_eq!(group[2].work(), Err(21));
    assert_eq!(group[2].values()[N as usize], 500);
    assert_eq!(group[2].deliver(&first), Ok(()));
    work_off(&mut group[2]);
    agree(&group);
    assert_eq!(group[2].values()[H as usize], 90);
    assert_eq!(group[2].values()[N as usize], 88);

    let third = group[2].send().unwrap();
    for replica in &mut group {
        take(replica, &third);
    }

    // The n becomes 86, and then, by one who has seen that, 84.
    ask(&mut group[0], &[(N, 86)]);
    let to_86 = group[0].send().unwrap();
    take(&mut group[0], &to_86);
    take(&mut group[1], &to_86);
    let ticket = group[1].begin().unwrap();
    assert_eq!(group[1].read(ticket, N), Ok(86));
    group[1].write(ticket, N, 84).unwrap();
    group[1].ask(ticket).unwrap();
    let to_84 = group[1].send().unwrap();
    take(&mut group[1], &to_84);
    take(&mut group[0], &to_84);

    // At the third the second block arrives before its turn.
    assert_eq!(group[2].deliver(&to_84), Ok(()));
    assert_eq!(group[2].work(), Err(21));
    assert_eq!(group[2].values()[N as usize], 88);
    assert_eq!(group[2].deliver(&to_86), Ok(()));
    assert_eq!(group[2].work().map(|work| work.sender), Ok(0));
    assert_eq!(group[2].values()[N as usize], 86);
    assert_eq!(group[2].work().map(|work| work.sender), Ok(1));
    agree(&group);
    for replica in &group {
        assert_eq!(replica.values()[N as usize], 84);
        assert_eq!(replica.stamp(N as usize), 4);
        assert_eq!(replica.report().turn, 5);
    }
}

/// Both set the n without knowing of the other: the first slot wins, and the other is told.
#[test]
fn the_same_letter_at_the_same_time() {
    let mut group = [make(3, 0), make(3, 1), make(3, 2)];
    ask(&mut group[0], &[(N, 86)]);
    let loser = ask(&mut group[1], &[(N, 84)]);
    let first = group[0].send().unwrap();
    assert!(take(&mut group[0], &first).is_empty());
    assert_eq!(take(&mut group[1], &first), [loser]);
    let second = group[1].send().unwrap();
    assert_eq!(second[3], 0, "no record is left to send");
    assert_eq!(group[2].deliver(&second), Ok(()));
    assert_eq!(group[2].deliver(&first), Ok(()));
    work_off(&mut group[2]);
    for replica in &mut group[..2] {
        take(replica, &second);
    }
    agree(&group);
    assert_eq!(group[2].values()[N as usize], 86);
}

//! The lines of stations.

use super::*;
use crate::samples::block_of;

/// A station beside a group of 2 at place 7, with ticket 1 open.
fn station() -> Replay {
    let mut replay = Replay::default();
    check(&mut replay, "A 7 2 5 -> 0\n B 7 -> 0 1");
    replay
}

#[test]
fn fields_and_numbers() {
    let replay = station();
    let lines =
        "A|A |A 7|A 7 2|A 7 2 |A 7  5|A 7 2 5 |A 7 2 5 5|A 7 2 0 5|A  7 2 5| A 7 2 5|a 7 2 5|\
        AA 7 2 5|A7 2 5|A 7 2 5\r|A 8 2 5|A 07 2 5|A -1 2 5|A 7 02 5|A 7 -2 5|A 7 4294967298 5";
    check_rejected(&replay, lines.split('|'));
    for value in "|-|00|-0|+1|01|2147483648|-2147483649".split('|') {
        check_rejected(&replay, [format!("A 7 2 {value}").as_str()]);
    }
    check(
        &mut replay.clone(),
        "A 7 2 -2147483648 -> 0\n A 7 6 2147483647 -> 0\n A 0 3 0 -> 0",
    );
}

/// A refused one leaves what is there, be it a replica or a station; an accepted one puts a new one there,
/// and so do the makes of a replica.
#[test]
fn makes() {
    let mut replay = station();
    check(
        &mut replay,
        "A 7 1 0 -> 2\n A 7 7 0 -> 2\n A 7 4294967295 0 -> 2\n M 7 2 2 0 -> 2\n Y 7 2 2 0  -> 2",
    );
    assert!(replay == station());
    check_rejected(&replay, ["Q 6"]);
    check(&mut replay, "A 6 7 5 -> 2");
    check_rejected(&replay, ["Q 6", "W 6 1 1 1", "S 6"]);
    let replica = |replay: &Replay| replay.replica(7).unwrap().own;
    assert_eq!(replica(&replay), None);
    check(&mut replay, "M 7 2 0 5 -> 0\n W 7 1 5 1 -> 3");
    assert_eq!(replica(&replay), Some(0));
    assert!(replay.answer(b"S 7").starts_with("0 01"));
    assert!(replay.answer(b"J 7 0").starts_with("0 01"));
    check(
        &mut replay,
        "A 7 2 5 -> 0\n J 7 0 -> ?\n B 7 -> 0 1\n D 7 0 -> 0",
    );
    assert!(replay.answer(b"Y 7 2 1 5 ").starts_with("0 0 "));
    check(&mut replay, "B 7 -> 0 1\n W 7 1 5 1 -> 0");
}

/// 25 whatever the numbers are, if they are numbers; and what a station has not.
#[test]
fn only_reads() {
    let mut replay = station();
    check(
        &mut replay,
        "W 7 1 5 40 -> 25
         W 7 1 128 40 -> 25
         W 7 9 5 40 -> 25
         W 7 4294967295 4294967295 -2147483648 -> 25
         S 7 -> 25
         W 7 1 5 2147483648 -> ?
         W 7 1 5 -> ?
         S 7 0 -> ?",
    );
    assert!(replay == station());
    let table = format!("P 7 {}", "01".repeat(ITEMS));
    let none = ["Z 7 0 5", "J 7 0", "P 7 ", "P 7 01", table.as_str()];
    check_rejected(&replay, none);
    // Also when its turn has left blocks that a replica would have appended.
    for slot in 0..2 {
        let line = format!("H 7 {}", hex(&block_of(2, slot, &[])));
        assert_eq!(replay.answer(line.as_bytes()), "0");
        check(&mut replay, &format!("K 7 -> 0 {slot} 0 1 0"));
    }
    check_rejected(&replay, none);
    assert_eq!(replay.journal(7), None);
    assert_eq!(replay.sent(), 0);
}

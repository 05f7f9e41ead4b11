//! Givings: their lines, whose window is lent, and the journal behind them.

use super::*;
use crate::samples::block_of;

/// Replica 0 of 2 with two slots passed, its second block sent; replica 1 with nothing.
fn ahead() -> Replay {
    let mut replay = Replay::default();
    let lines = "M 0 2 0 0|M 1 2 1 0|O 0 1 1|O 1 1 1|B 0|W 0 1 5 50|C 0 1|S 0|D 0 0|K 0|K 0|S 0";
    for line in lines.split('|') {
        assert!(replay.answer(line.as_bytes()).starts_with('0'), "{line}");
    }
    replay
}

#[test]
fn letters_and_fields() {
    let lines =
        "G|G |G 1|G 1 |G 1 2|G 1 2 |G 1 2 0 |G 1 2 0 0|G  1 2 0|G 1  2 0|G 1 2  0|G1 2 0|GG 1 2 0|g 1 2 0|\
        G 8 2 0|G 01 2 0|G 1 02 0|G 1 2 00|G 1 -2 0|G 1 2 -1|G 1 +2 0|G 1 2 4294967296|G 1 4294967296 0|\
        G 1 2 0\r|G 3 2 0";
    check_rejected(&ahead(), lines.split('|'));
    check(
        &mut ahead(),
        "G 1 4294967294 4294967295 -> 31 0\n G 1 4294967295 4294967295 -> 30\n G 1 2 4294967295 -> 0 0 0",
    );
}

/// The giver's place must be a replica's, and it may be of any number and group; a station is no returner.
#[test]
fn places() {
    let mut replay = ahead();
    check(&mut replay, "A 7 2 0 -> 0\n M 4 2 1 0 -> 0");
    check_rejected(&replay, ["G 7 2 0", "G 7 4294967295 0"]);
    // Nothing is at place 1's number then.
    check(&mut replay, "A 1 2 0 -> 0");
    check_rejected(&replay, ["G 1 2 0", "G 0 2 0", "G 0 0 9"]);
    check(
        &mut replay,
        "G 0 2 4294967295 -> 30\n G 4 2 0 -> 19 0 0\n Q 4 -> 0 1 1 0 0 0 0 0 0",
    );
    check(
        &mut replay,
        "M 1 6 5 0 -> 0\n G 0 0 1 -> 0 1 0\n G 0 0 3 -> 31 1",
    );
}

/// What its works append stands in the journal; a restart of the place has it in its window again.
#[test]
fn journals() {
    let mut replay = ahead();
    let first = hex(&block_of(2, 0, &[(1, &[(5, 50)])]));
    let next = hex(&block_of(2, 1, &[]));
    let none = "0".repeat(1024);
    check(
        &mut replay,
        "B 1 -> 0 1\n W 1 1 5 1 -> 0\n G 1 2 0 -> 0 0 1 1\n G 1 3 0 -> 31 0",
    );
    check(
        &mut replay,
        &format!("J 1 0 -> 0 {first}\n J 1 1 -> 0 {next}\n J 1 2 -> ?"),
    );
    check(
        &mut replay,
        &format!("Z 1 1024 0 -> 0 2 {none}\n M 0 2 0 0 -> 0\n O 0 1 1 -> 0"),
    );
    // Replica 1 gives to replica 0, which has not sent this block.
    check(&mut replay, "G 0 0 2 -> 19 1 0\n G 0 0 0 -> 0 1 0");
    check(
        &mut replay,
        &format!("Z 1 512 0 -> 0 1 {none}\n G 0 0 2 -> 31 1"),
    );
}

#[test]
fn the_line_of_a_giving() {
    let turns = [0, 7, u32::MAX];
    let text = giving_line(5, &turns);
    assert_eq!(text, "G 5 0 7 4294967295");
    let Some((5, parse::Line::Give { turns: found })) = parse::line(text.as_bytes()) else {
        panic!("{text} is no giving");
    };
    assert_eq!(found, turns);
}

#[test]
fn as_it_is_printed() {
    let given = |number, giver, aborted: &[u32]| {
        let aborted = aborted.to_vec();
        show_given(&Given {
            number,
            giver,
            aborted,
            calls: Vec::new(),
        })
    };
    assert_eq!(given(0, Some(3), &[]), "0 3 0");
    assert_eq!(given(0, Some(0), &[4, 9]), "0 0 2 4 9");
    assert_eq!(given(19, Some(1), &[4]), "19 1 1 4");
    assert_eq!(given(31, Some(2), &[]), "31 2");
    assert_eq!(given(30, None, &[]), "30");
}

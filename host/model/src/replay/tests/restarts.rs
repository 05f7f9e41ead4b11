//! The lines of restarts and journals.

use super::*;
use crate::samples::block_of;

/// The digits of a block in a group of 2.
fn digits(slot: u32) -> String {
    hex(&block_of(2, slot, &[]))
}

/// Plays a line that must be accepted, and gives what it prints behind the 0.
fn accept(replay: &mut Replay, line: &str) -> String {
    let answer = replay.answer(line.as_bytes());
    let rest = answer.strip_prefix("0");
    let rest = rest.unwrap_or_else(|| panic!("{line}: {answer}"));
    rest.trim_start().to_string()
}

/// Two replicas of 2 at places 0 and 1, after so many slots.
fn after(slots: usize) -> Replay {
    let mut replay = Replay::default();
    check(&mut replay, "M 0 2 0 7 -> 0\n M 1 2 1 7 -> 0");
    for slot in 0..slots {
        accept(&mut replay, &format!("S {}", slot % 2));
        for place in 0..2 {
            accept(&mut replay, &format!("D {place} {slot}"));
            accept(&mut replay, &format!("K {place}"));
        }
    }
    replay
}

#[test]
fn fields_numbers_and_bytes() {
    let mut replay = made();
    let lines =
        "Z|Z 0|Z 0 0|Z 0 0 |Z 0 0 0 0|Z 0  0|Z  0 0 0|z 0 0 0|J|J 0|J 0 |J 0 0 0|j 0 0|Y|Y 0|\
        Y 0 2 0 0|Y 0 2 0 0  |Y 0 2 0 0 00 00|Y 0 2 0  |y 0 2 0 0 |Y 0 2 0 0 0|Y 0 2 0 0 0A|\
        Y 0 2 0 0 0g|Y 0 2 0 0 000|Z 8 0 0|J 8 0|Y 8 2 0 0 |Y 0 2 0 0 00\r|ZZ 0 0 0";
    check_rejected(&replay, lines.split('|'));
    let places = "Z * 0 0|J * 0|Y * 2 0 0 |Z 0 * 0|J 0 *|Y 0 * 0 0 |Y 0 2 * 0 ";
    for number in "|00|01|+1|-1|-0|1a|0x1|4294967296|4294967808|18446744073709551616".split('|') {
        check_rejected(&replay, places.replace('*', number).split('|'));
    }
    for value in "|-|00|-0|+1|01|2147483648|-2147483649".split('|') {
        check_rejected(&replay, "Z 0 0 *|Y 0 2 0 * ".replace('*', value).split('|'));
    }
    for bytes in [2_101, 2_102, 2_560, 5_000] {
        let line = format!("Y 0 2 0 0 {}", "00".repeat(bytes));
        check_rejected(&replay, [line.as_str()]);
    }
    let zeros = "0".repeat(1024);
    for bytes in [0, 1, 511, 512, 513, 2_099, 2_100] {
        let line = format!("Y 0 2 0 -2147483648 {}", "00".repeat(bytes));
        assert_eq!(accept(&mut replay, &line), format!("0 {zeros}"), "{bytes}");
    }
    check(&mut replay, "Y 0 4294967295 0 2147483647  -> 2");
}

/// Without a replica there is no journal; a refused restart makes none.
#[test]
fn restarts_that_make() {
    let mut replay = Replay::default();
    check_rejected(&replay, ["Z 3 0 0", "J 3 0", "Q 3"]);
    check(&mut replay, "Y 3 7 0 0  -> 2\n Y 3 2 2 0  -> 2");
    assert!(replay == Replay::default());
    accept(&mut replay, "Y 3 2 1 5 ");
    let mut other = Replay::default();
    check(&mut other, "M 3 2 1 5 -> 0");
    assert!(replay == other);
}

#[test]
fn first_bytes_of_the_journal() {
    let mut replay = after(3);
    for place in 0..2 {
        for slot in 0..3 {
            let line = format!("J {place} {slot}");
            assert_eq!(accept(&mut replay, &line), digits(slot));
        }
    }
    check_rejected(
        &replay,
        ["J 0 3", "J 0 4294967295", "Z 0 1537 0", "Z 0 4294967295 0"],
    );
    // Each cut leaves the whole blocks before it, and what is behind them is gone.
    let zeros = "0".repeat(1024);
    for (bytes, due) in [
        (1_536, format!("3 {}", digits(2))),
        (1_535, format!("2 {}", digits(0))),
        (512, format!("1 {}", digits(0))),
        (511, format!("0 {zeros}")),
    ] {
        assert_eq!(accept(&mut replay, &format!("Z 0 {bytes} 9")), due);
        let blocks = bytes / 512;
        let report = format!("{blocks} 0 0 0 0 0 0 0");
        assert_eq!(accept(&mut replay, "Q 0"), report);
        let behind = format!("J 0 {blocks}|Z 0 {} 9", 512 * blocks + 1);
        check_rejected(&replay, behind.split('|'));
    }
    assert_eq!(accept(&mut replay, "V 0"), ["9"; ITEMS].join(" "));
    // The other's is as it was; blocks given back are not counted, and those sent are kept.
    assert_eq!(
        accept(&mut replay, "Z 1 1536 7"),
        format!("3 {}", digits(1))
    );
    assert_eq!(replay.sent(), 3);
    check(&mut replay, "D 0 2 -> 18\n D 0 0 -> 19\n D 0 1 -> 0");
}

#[test]
fn a_refused_restart_leaves_all() {
    let mut replay = after(2);
    let line = format!("Y 0 2 2 0 {}", digits(0));
    assert_eq!(replay.answer(line.as_bytes()), "2");
    assert!(replay == after(2));
}

/// 128 blocks are kept. One more, and the journal is outgrown until the place is made anew.
#[test]
fn outgrown_journals() {
    let whole = after(128);
    let cut = |replay: &Replay, line: &str| replay.clone().answer(line.as_bytes());
    assert_eq!(cut(&whole, "J 1 127"), format!("0 {}", digits(127)));
    let last = format!("0 128 {}", digits(126));
    assert_eq!(cut(&whole, "Z 0 65536 7"), last);
    assert_eq!(cut(&whole, "Z 0 65537 7"), "?");

    // By a send, at the other by a work.
    let mut replay = whole.clone();
    accept(&mut replay, "S 0");
    check_rejected(&replay, ["J 0 0", "J 0 128", "Z 0 0 7", "Z 0 512 7"]);
    accept(&mut replay, "D 1 128");
    assert_eq!(
        cut(&replay, "Z 1 65536 7"),
        format!("0 128 {}", digits(127))
    );
    accept(&mut replay, "K 1");
    check_rejected(&replay, ["J 1 0", "Z 1 0 7"]);
    assert_eq!(accept(&mut replay, "Q 1"), "129 0 0 0 0 0 0 0");

    // What is refused keeps it outgrown, what is accepted does not.
    check(&mut replay, "M 0 7 0 0 -> 2\n Y 0 7 0 0  -> 2\n J 0 0 -> ?");
    let mut made = replay.clone();
    check(&mut made, "M 0 2 0 7 -> 0\n J 0 0 -> ?");
    assert_eq!(cut(&made, "Z 0 0 7"), format!("0 0 {}", "0".repeat(1024)));
    let line = format!("Y 0 2 0 7 {}", digits(0));
    assert_eq!(accept(&mut replay, &line), format!("1 {}", digits(0)));
    assert_eq!(accept(&mut replay, "J 0 0"), digits(0));

    // The blocks that a restart took up count.
    let mut replay = whole;
    accept(&mut replay, "Z 0 65535 7");
    accept(&mut replay, "D 0 127");
    accept(&mut replay, "K 0");
    assert_eq!(accept(&mut replay, "J 0 127"), digits(127));
    accept(&mut replay, "S 0");
    check_rejected(&replay, ["J 0 0"]);
}

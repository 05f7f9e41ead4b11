//! The format, line by line.

mod givings;
mod notices;
mod restarts;
mod stations;

use super::*;
use crate::replica::ITEMS;

/// What `run` prints for an input.
fn print(input: &[u8]) -> String {
    let mut output = Vec::new();
    run(input, &mut output).unwrap();
    String::from_utf8(output).unwrap()
}

/// Plays lines, separated by line feeds, and compares each answer: `line -> answer`.
fn check(replay: &mut Replay, script: &str) {
    for step in script.trim().lines() {
        let (line, answer) = step.trim().split_once(" -> ").unwrap();
        assert_eq!(replay.answer(line.as_bytes()), answer, "{line}");
    }
}

/// That lines print `?` and change nothing.
fn check_rejected<'a>(replay: &Replay, lines: impl IntoIterator<Item = &'a str>) {
    for line in lines {
        let mut after = replay.clone();
        assert_eq!(after.answer(line.as_bytes()), "?", "{line:?}");
        assert!(after == *replay, "{line:?} changed something");
    }
}

/// Replica 0 of 2 at place 0, with ticket 1 open, and one block sent.
fn made() -> Replay {
    let mut replay = Replay::default();
    for line in ["M 0 2 0 7", "S 0", "B 0"] {
        assert!(replay.answer(line.as_bytes()).starts_with('0'), "{line}");
    }
    replay
}

#[test]
fn every_call() {
    let mut replay = Replay::default();
    check(
        &mut replay,
        "M 0 2 0 -7 -> 0
         M 4 2 1 -7 -> 0
         B 4 -> 0 1
         W 4 1 5 40 -> 0
         R 4 1 5 -> 0 40
         R 4 1 6 -> 0 -7
         C 4 1 -> 0 0
         B 4 -> 0 2
         W 4 2 9 41 -> 0
         B 4 -> 0 3
         C 4 3 -> 0 1
         B 4 -> 0 4
         X 4 4 -> 0
         B 0 -> 0 1
         W 0 1 5 50 -> 0
         W 0 1 9 -2147483648 -> 0
         C 0 1 -> 0 0
         B 0 -> 0 2
         W 0 2 6 60 -> 0
         C 0 2 -> 0 0
         Q 0 -> 0 0 0 2 2 0 0 0 0
         S 4 -> 11",
    );
    let sent = replay.answer(b"S 0");
    let block = sent.strip_prefix("0 ").unwrap().to_string();
    assert!(block.starts_with("02000202000000000000000000000000010000000200000005000000"));
    assert_eq!(block.len(), 1024);
    assert_eq!(block, hex(replay.block(0).unwrap()));
    check(
        &mut replay,
        "F 4 0 4095 -> 14
         D 4 0 -> 0
         K 4 -> 0 0 1 0 2 1 2
         K 4 -> 0 0 2 1 0
         K 4 -> 21
         Q 4 -> 0 1 2 4 0 0 1 2 1",
    );
    assert_eq!(replay.answer(format!("H 0 {block}").as_bytes()), "0");
    check(
        &mut replay,
        "K 0 -> 0 0 1 0 0
         K 0 -> 0 0 2 1 0
         Q 0 -> 0 1 2 2 0 2 0 0 0",
    );
    let mut values = ["-7"; ITEMS];
    (values[5], values[6], values[9]) = ("50", "60", "-2147483648");
    let values = format!("0 {}", values.join(" "));
    assert_eq!(replay.answer(b"V 0"), values);
    assert_eq!(replay.answer(b"V 4"), values);
}

#[test]
fn lines_end_at_line_feeds() {
    assert_eq!(print(b""), "");
    assert_eq!(print(b"\n"), "?\n");
    assert_eq!(print(b"\n\n"), "?\n?\n");
    assert_eq!(print(b"\n?"), "?\n?\n");
    assert_eq!(print(b"M 0 2 0 0"), "0\n");
    assert_eq!(print(b"M 0 2 0 0\n"), "0\n");
    assert_eq!(print(b"M 0 2 0 0\nB 0\nB 0"), "0\n0 1\n0 2\n");
    assert_eq!(print(b"M 0 2 0 0\r\nB 0\r\n"), "?\n?\n");
    assert_eq!(print(b"M 0 2 0 0\rB 0\n"), "?\n");
    assert_eq!(print(b"M 0 2 0 0\n\nB 0\n"), "0\n?\n0 1\n");
    let long = format!("M 0 2 0 0\nB 0{}\nB 0", " ".repeat(100_000));
    assert_eq!(print(long.as_bytes()), "0\n?\n0 1\n");
}

#[test]
fn letters_and_fields() {
    let lines = "| |?|B|b 0|BB 0|A 0|B0| B 0|B 0 |B  0|B\t0|B 0\t|B 0\r|B 0\0|B 0 0|0 0|R 0 1|\
        R 0 1 5 |R 0 1 5 5|R 0 1  5|W 0 1 5|W 0 1 5 |W 0 1 5 7 7|C 0|C 0 |C 0 1 1|X 0|X 0 1 1|Q|\
        Q 0 0|S 0 0|D 0|D 0 |D 0 0 0|F 0 0|F 0 0 0 0|H 0|H 0 00 00|K 0 0|V 0 0|M 0 2 0|M 0 2 0 |\
        M 0 2 0 7 7|M  0 2 0 7|P|P |P 0|P  0 01|P 0 01 |P 0 01 01|p 0 01|PP 0 01";
    check_rejected(&made(), lines.split('|'));
    let input = b"M 0 2 0 0\nQ 0\xff\n\xff\n\0\nB 0\0\nB 0\n";
    assert_eq!(print(input), "0\n?\n?\n?\n?\n0 1\n");
}

#[test]
fn numbers() {
    let replay = made();
    // Cut to 32 or 64 bits, the last ones would be 0 or 1.
    let wrong = "|00|01|+1|-1|-0|1.0|0x1|1a|4294967296|4294967297|18446744073709551616|\
        18446744073709551617";
    let places = "Q *|R 0 * 5|R 0 1 *|W 0 * 5 7|W 0 1 * 7|C 0 *|X 0 *|M * 2 0 7|M 0 * 0 7|\
        M 0 2 * 7|D 0 *|F 0 * 0|F 0 0 *";
    for number in wrong.split('|') {
        let lines = places.replace('*', number);
        check_rejected(&replay, lines.split('|'));
    }
    for value in "|-|00|-0|+1|01|-01|--1|2147483648|-2147483649|4294967295".split('|') {
        let lines = "W 0 1 5 *|M 0 2 0 *".replace('*', value);
        check_rejected(&replay, lines.split('|'));
    }
    let lines = "Q 8|Q 10|Q 256|Q 4294967295|M 8 2 0 0|A 8 2 0|F 0 0 4096|F 0 0 8192|F 0 0 65536";
    check_rejected(&replay, lines.split('|'));
    check(
        &mut replay.clone(),
        "R 0 4294967295 5 -> 3
         R 0 1 4294967295 -> 2
         W 0 4294967295 127 0 -> 3
         W 0 1 4294967295 0 -> 2
         C 0 4294967295 -> 3
         X 0 0 -> 3
         M 0 4294967295 0 0 -> 2
         M 0 2 4294967295 0 -> 2
         W 0 1 5 2147483647 -> 0
         R 0 1 5 -> 0 2147483647
         W 0 1 5 -2147483648 -> 0
         R 0 1 5 -> 0 -2147483648
         W 0 1 5 0 -> 0
         R 0 1 5 -> 0 0
         F 0 0 0 -> 14
         F 0 0 4095 -> 14",
    );
}

#[test]
fn bytes() {
    let replay = made();
    let answer = |digits: &str| replay.clone().answer(format!("H 0 {digits}").as_bytes());
    for digits in "0|000|0A|A0|0g|g0|0/|:0|0`| 00|00 |0 0|00\r".split('|') {
        assert_eq!(answer(digits), "?", "{digits:?}");
    }
    // None: the line ends in the space.
    assert_eq!(answer(""), "1");
    for (bytes, due) in [
        (1, "1"),
        (511, "1"),
        (512, "14"),
        (513, "1"),
        (520, "1"),
        (521, "?"),
    ] {
        assert_eq!(answer(&"9f".repeat(bytes)), due, "{bytes} bytes");
    }
    for digits in [1023, 1025, 1039, 1041] {
        assert_eq!(answer(&"0".repeat(digits)), "?", "{digits} digits");
    }
    // 512 zeros have a right check and no form.
    assert_eq!(answer(&"0".repeat(1024)), "15");
}

/// A place without a replica, a refused make, an accepted one.
#[test]
fn makes() {
    let calls =
        "B 1|R 1 1 0|W 1 1 0 0|C 1 1|X 1 1|Q 1|S 1|D 1 0|F 1 0 0|H 1 00|H 1 |K 1|V 1|P 1 01|P 1 ";
    let mut replay = made();
    check_rejected(&replay, calls.split('|'));
    check(
        &mut replay,
        "M 1 7 0 0 -> 2\n M 1 2 2 0 -> 2\n M 0 1 0 0 -> 2",
    );
    assert!(replay == made());
    check(
        &mut replay,
        "M 1 3 1 5 -> 0
         Q 1 -> 0 0 0 0 0 0 0 0 0
         Q 0 -> 0 0 0 1 1 0 0 0 0
         M 0 3 1 5 -> 0
         Q 0 -> 0 0 0 0 0 0 0 0 0
         S 0 -> 11
         D 0 0 -> 16",
    );
    assert_eq!(replay.replica(0), replay.replica(1));
}

/// The last 64 blocks of the run are kept, of whatever replica, also of one that is made anew.
#[test]
fn kept_blocks() {
    let mut replay = Replay::default();
    check(&mut replay, "M 1 2 1 0 -> 0\n D 1 0 -> ?\n F 1 0 0 -> ?");
    for number in 0..70 {
        let line = format!("M {} 2 0 0", 2 + number % 2);
        assert_eq!(replay.answer(line.as_bytes()), "0");
        let line = format!("S {}", 2 + number % 2);
        assert!(replay.answer(line.as_bytes()).starts_with("0 01"));
        // A refused send is not counted.
        assert_eq!(replay.answer(line.as_bytes()), "12");
        let first = (number + 1_i32 - 64).max(0);
        for (i, due) in [
            (first - 1, "?"),
            (first, "14"),
            (number, "14"),
            (number + 1, "?"),
        ] {
            let line = format!("F 1 {i} 9");
            assert_eq!(replay.answer(line.as_bytes()), due, "{line} after {number}");
        }
    }
    assert_eq!(replay.sent(), 70);
    check(
        &mut replay,
        "D 1 5 -> ?\n D 1 70 -> ?\n D 1 6 -> 0\n D 1 69 -> 20",
    );
}

/// The bytes of a load.
#[test]
fn tables() {
    let replay = made();
    let answer = |digits: &str| replay.clone().answer(format!("P 0 {digits}").as_bytes());
    for digits in "0|010|0A|0g|g0|0/|:0|0`| 01|01 |01\r".split('|') {
        assert_eq!(answer(digits), "?", "{digits:?}");
    }
    for (bytes, due) in [
        (0, "1"),
        (1, "1"),
        (127, "1"),
        (128, "0"),
        (129, "1"),
        (130, "1"),
        (131, "?"),
        (256, "?"),
    ] {
        assert_eq!(answer(&"08".repeat(bytes)), due, "{bytes} bytes");
    }
    assert_eq!(answer(&"09".repeat(128)), "2");
    assert_eq!(answer(&"00".repeat(128)), "2");
    let mut loaded = replay.clone();
    assert_eq!(
        loaded.answer(format!("P 0 {}", "08".repeat(128)).as_bytes()),
        "0"
    );
    assert_eq!(loaded.replica(0).unwrap().classes, [8; ITEMS]);
    check(&mut loaded, "M 0 2 0 7 -> 0");
    assert_eq!(loaded.replica(0).unwrap().classes, [0; ITEMS]);
}

use super::*;
use crate::block;

/// The shortest write, and how many lengths there are up to the longest.
const SHORTEST: usize = "W 0 1 5 7".len();
const LENGTHS: usize = "W 0 4294967295 4294967295 -2147483648".len() + 1 - SHORTEST;

fn print(input: &[u8]) -> String {
    let mut output = Vec::new();
    run(input, &mut output).unwrap();
    String::from_utf8(output).unwrap()
}

#[test]
fn the_seven_lines() {
    let due = "0\n0\n0\n0\n0\n0\n0 0 0 1\n1 1 1 0\n";
    assert_eq!(print(SEVEN.as_bytes()), due);
    assert_eq!(print(SEVEN.trim_end().as_bytes()), due);
}

/// Nothing but the one line where the first is not right, whatever follows.
#[test]
fn first_lines() {
    let wrong =
        "|\n|\nN 2|N|N |N 0|N 1|N 5|N 6|N 02|N +2|N 2 | N 2|N  2|N 2\r|N 2 0|n 2|N2|NN 2|M 2|N 22|\
        N 4294967298|N 2\0|B 0|?";
    for first in wrong.split('|') {
        for rest in ["", "\n", "\nB 0\nS 0", "\nN 2\nB 0\n"] {
            assert_eq!(
                print(format!("{first}{rest}").as_bytes()),
                "27\n",
                "{first:?}, {rest:?}"
            );
        }
    }
    assert_eq!(print(b"N 2"), "0 0 0 0\n1 0 0 0\n");
    assert_eq!(print(b"N 2\n"), "0 0 0 0\n1 0 0 0\n");
    assert_eq!(print(b"N 3\n"), "0 0 0 0\n1 0 0 0\n2 0 0 0\n");
    assert_eq!(print(b"N 4"), "0 0 0 0\n1 0 0 0\n2 0 0 0\n3 0 0 0\n");
}

#[test]
fn lines_end_at_line_feeds() {
    assert_eq!(print(b"N 2\n\n"), "27\n0 0 0 0\n1 0 0 0\n");
    assert_eq!(print(b"N 2\n\nB 1"), "27\n0\n0 0 0 0\n1 0 0 1\n");
    assert_eq!(print(b"N 2\nB 1\r\nB 1"), "27\n0\n0 0 0 0\n1 0 0 1\n");
    let long = format!("N 2\nB 0{}\nB 0", " ".repeat(100_000));
    assert_eq!(print(long.as_bytes()), "27\n0\n0 0 0 1\n1 0 0 0\n");
}

/// Beside the writes of every length and the limits, each line is 27, and leaves one transaction, without
/// writes.
#[test]
fn every_way_of_being_no_line() {
    let text = every_refusal();
    let lines: Vec<&[u8]> = text.split(|&byte| byte == b'\n').collect();
    let (lines, limits) = lines.split_at(lines.len() - 10);
    let (lines, lengths) = lines.split_at(lines.len() - LENGTHS * 5);
    let others = &lines[2..];
    assert!(others.len() > 250);
    let mut week = Week::begin(lines[0]).unwrap();
    assert_eq!(week.answer(lines[1]), 0);
    let before = week.clone();
    for line in others {
        assert_eq!(
            week.answer(line),
            NO_LINE,
            "{:?}",
            line.escape_ascii().to_string()
        );
    }
    assert!(week == before);
    for (line, length) in lengths.chunks(5).zip(SHORTEST..) {
        assert_eq!(line[0].len(), length);
        let due = match length {
            ..=19 => 0,
            ..=29 => 3,
            _ => 2,
        };
        // A digit more is another value, until there are too many.
        let digit = if length < 19 { due } else { NO_LINE };
        let answers: Vec<u8> = line.iter().map(|line| week.answer(line)).collect();
        assert_eq!(answers, [due, NO_LINE, digit, NO_LINE, NO_LINE], "{length}");
    }
    let answers: Vec<u8> = limits.iter().map(|line| week.answer(line)).collect();
    assert_eq!(answers, [3, 2, 2, 3, 3, NOT_KEPT, 0, 0, 0, 0]);
}

/// A block is kept until the 16th send after its own, and refused by 26 from then on, as are slots not sent.
#[test]
fn sixteen_blocks() {
    let mut week = Week::begin(b"N 2").unwrap();
    for slot in 0..40 {
        assert_eq!(week.answer(format!("D 0 {slot}").as_bytes()), NOT_KEPT);
        assert_eq!(week.answer(format!("S {}", slot % 2).as_bytes()), 0);
        assert_eq!(week.answer(format!("S {}", slot % 2).as_bytes()), 12);
        for of in 0..slot + 20 {
            let answer = week.clone().answer(format!("D 1 {of}").as_bytes());
            let due = match of {
                _ if of > slot || of + 16 <= slot => NOT_KEPT,
                _ if of == slot => 0,
                _ => 17,
            };
            assert_eq!(answer, due, "slot {of} when {slot} was sent");
        }
        for k in 0..2 {
            assert_eq!(week.answer(format!("D {k} {slot}").as_bytes()), 0);
            assert_eq!(week.answer(format!("D {k} {slot}").as_bytes()), 20);
            assert_eq!(week.answer(format!("K {k}").as_bytes()), 0);
        }
    }
}

/// 27 before 26 before the engine's number.
#[test]
fn order() {
    let mut week = Week::begin(b"N 2").unwrap();
    for (line, due) in [
        ("D 2 9", NO_LINE),
        ("D 0 9", NOT_KEPT),
        ("D 0 09", NO_LINE),
        ("W 0 9 128 0", 2),
        ("W 0 9 127 0", 3),
        ("W 2 9 128 0", NO_LINE),
        ("W 0 9 128 00", NO_LINE),
        ("S 1", 11),
        ("S 2", NO_LINE),
        ("K 0", 21),
        ("C 0 4294967295", 3),
    ] {
        assert_eq!(week.answer(line.as_bytes()), due, "{line}");
    }
}

/// In random weeks the blocks of the slots are sent in order, once each, so that those kept are the last
/// slots; and no deliver is refused by other numbers than 17 and 20.
#[test]
fn random_weeks() {
    let mut seen = [0_usize; 28];
    for seed in 0..60 {
        let text = seeded(seed, 800);
        let mut lines = text.split(|&byte| byte == b'\n');
        let mut week = Week::begin(lines.next().unwrap()).unwrap();
        let mut sent = 0;
        for line in lines {
            let answer = week.answer(line);
            seen[usize::from(answer)] += 1;
            sent += u32::from(line.starts_with(b"S") && answer == 0);
            let kept: Vec<u32> = (sent.saturating_sub(16)..sent).collect();
            assert_eq!(week.kept(), kept, "seed {seed}");
        }
        for (slot, bytes) in &week.kept {
            assert_eq!(block::read(bytes).unwrap().slot, *slot);
        }
    }
    println!("{seen:?}");
    let due = [0, 2, 3, 4, 5, 7, 8, 9, 10, 11, 12, 17, 20, 21, 26, 27];
    for (number, &count) in seen.iter().enumerate() {
        assert_eq!(count > 0, due.contains(&number), "{number}: {count}");
    }
}

//! Notices: their lines, the journal of a slot that is passed as out, and what a restart is lent.

use super::*;
use crate::notice::Notice;
use crate::samples;
use crate::samples::{block_of, Random, Writes};

#[test]
fn letters_and_fields() {
    let lines =
        "*|* 0|* 0 1|* 0 1 |* 0 1 2 |* 0 1 2 3|*  0 1 2|* 0  1 2|* 0 1  2|*0 1 2|** 0 1 2|* 8 1 2|\
        * 0 01 2|* 0 1 02|* 0 -1 2|* 0 1 -2|* 0 +1 2|* 0 1 4294967296|* 0 4294967296 1|* 0 1 2\r";
    for letter in ["O", "U", "o", "u"] {
        check_rejected(&made(), lines.replace('*', letter).split('|'));
    }
    // Where nothing is made.
    check_rejected(&made(), ["O 1 0 0", "U 1 0 1", "o 0 0 2", "u 0 0 2"]);
    check(
        &mut made(),
        "O 0 4294967295 0 -> 2
         U 0 0 4294967295 -> 2
         O 0 1 4294967295 -> 2
         U 0 1 99999999 -> 28
         O 0 1 1 -> 0
         U 0 1 99999999 -> 0",
    );
}

/// The notices of a place are lent to its `Z`, and gone after `M`, `A` and `Y`; a refused one leaves them.
#[test]
fn lent() {
    let mut replay = Replay::default();
    check(
        &mut replay,
        "M 0 2 1 0 -> 0\n O 0 0 0 -> 0\n K 0 -> 0 0 0 1 0\n O 0 1 3 -> 0",
    );
    let notices = [Notice::out(0, 0), Notice::out(1, 3)];
    let taken = |replay: &Replay| replay.replica(0).unwrap().notices.clone();
    assert_eq!(taken(&replay), notices);
    let next = hex(&block_of(2, 0, &[]));
    check(&mut replay, &format!("J 0 0 -> 0 {next}"));
    let none = "0".repeat(1024);
    check(
        &mut replay,
        &format!("Z 0 512 0 -> 0 1 {none}\n Y 0 7 0 0 00 -> 2\n M 0 2 2 0 -> 2"),
    );
    assert_eq!(taken(&replay), notices);
    for line in [
        "M 0 2 1 0 -> 0",
        "A 0 2 0 -> 0",
        &format!("Y 0 2 1 0 00 -> 0 0 {none}"),
    ] {
        let mut anew = replay.clone();
        check(&mut anew, line);
        assert_eq!(taken(&anew), []);
    }
}

/// A journal that is outgrown by the *next* of out slots, which need no block.
#[test]
fn a_journal_outgrown() {
    let mut replay = Replay::default();
    check(&mut replay, "M 0 2 1 0 -> 0\n O 0 0 0 -> 0\n O 0 1 1 -> 0");
    for _ in 0..JOURNAL {
        assert!(replay.answer(b"K 0").starts_with("0 "));
    }
    let last = hex(&block_of(2, JOURNAL as u32 - 1, &[]));
    check(
        &mut replay,
        &format!("J 0 127 -> 0 {last}\n K 0 -> 0 0 0 1 0\n J 0 127 -> ?"),
    );
    check(&mut replay, "Z 0 0 0 -> ?\n Z 0 65536 0 -> ?");
}

/// The line of a call is that call.
#[test]
fn lines_of_calls() {
    let (ticket, item, value) = (7, 127, -1);
    let records: [Writes; 1] = [(1, &[(5, 50)])];
    let calls = [
        Call::Begin,
        Call::Read { ticket, item },
        Call::Write {
            ticket,
            item,
            value,
        },
        Call::Ask { ticket },
        Call::Withdraw { ticket },
        Call::Report,
        Call::Send,
        Call::Deliver {
            bytes: block_of(2, 1, &records).to_vec(),
        },
        Call::Work,
        Call::Load {
            classes: samples::classes(&mut Random::new(3)),
        },
        Call::Notice(Notice::out(4, 5)),
        Call::Notice(Notice::back(0, u32::MAX)),
    ];
    for call in calls {
        let text = line(6, &call);
        let Some((6, parse::Line::Call(found))) = parse::line(text.as_bytes()) else {
            panic!("{text} is no call");
        };
        assert_eq!(found, call);
    }
}

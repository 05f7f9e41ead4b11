//! The answers of the parts.

use super::*;
use crate::replay::Replay;

/// The answers to the lines of a part.
fn answers(part: impl Fn(&mut List)) -> Vec<String> {
    let mut list = List::default();
    part(&mut list);
    let mut replay = Replay::default();
    let text = String::from_utf8(list.lines()).unwrap();
    let answers = text.split('\n').map(|line| replay.answer(line.as_bytes()));
    answers.collect()
}

#[test]
fn lines_that_are_none() {
    let answers = answers(lines);
    let (rejected, rest) = answers[2..].split_at(LINES.split('|').count());
    assert!(rejected.iter().all(|one| one == "?"), "{answers:#?}");
    let values = |value: &str| format!("0{}", format!(" {value}").repeat(128));
    let due = ["0 0 0 1 1 0 0 0 0", "0 3", "0", &values("-2147483648"), "0"];
    assert_eq!(rest[..5], due);
    assert_eq!(rest[5], values("2147483647"));
    assert_eq!(rest[6..], ["2", "2", "2", "2", "?", "?", "?"]);
}

/// No sender is the station itself, in groups of each size.
#[test]
fn blocks_of_every_sender() {
    for n in 2..=6 {
        let answers = answers(|list| every_sender(list, n));
        let size = n as usize;
        // Slot n is beyond the places; the others are taken, the last slot not twice.
        let taken = ["18"].into_iter().chain(vec!["0"; size]);
        let taken: Vec<&str> = taken.chain(["20", "16"]).collect();
        assert_eq!(answers[2..size + 5], taken);
        let due = ["0 0 7 0 0", "0 0 3 1 0", "0 1 7 0 0", "0 2", "0 -9", "0 1"];
        assert_eq!(answers[size + 5..][..6], due, "{answers:#?}");
        assert_eq!(answers[size + 11..][..2], ["17", "0"]);
        let works = &answers[size + 13..][..2 * size];
        assert_eq!(works[0], "0 1 3 1 0");
        assert_eq!(works[2 * size - 2], "0 0 3 1 0");
        assert_eq!(works[2 * size - 1], "21");
        let last = 100 + n;
        let rest = answers[3 * size + 13..].join(", ");
        let due = format!(
            "0 3, 0 -9, 0 1, 0 {last}, 0 1, 0 1, 3, 0 1, 0, 3, 0 {} {} 3 0 0 2 0 1, 0 ",
            n + 1,
            2 * n + 2
        );
        assert!(rest.starts_with(&due), "{rest}, not {due}");
    }
}

#[test]
fn before_any_other_reason() {
    let due =
        "0 25 25 0 1 0 2 0 3 0 4 0 5 0 6 5 25 25 25 25 25 3 2 3 3 21 25 0 0 0 1 0 0 25 25 25 25 \
        0 0 2 1 0 25 25 0 0 1 0 7 0 1 0 0 25 0 1 2 7 5 0 1 0 1 ? ? ?";
    assert_eq!(answers(only_reads).join(" "), due);
}

#[test]
fn places_made_anew() {
    let answers = answers(made_anew);
    let short: Vec<&str> = answers.iter().map(|one| &one[..one.len().min(9)]).collect();
    let due = "0, 0 1, 0, 0 0, 0 0200020, 0 0200020, 0, ?, ?, 0 1, 0, 0 0 1 1 0, 21, 0 1 1 1 1, 0 4, 2, 2, 2, \
        0 1 1 1 1, 0 4, 0, ?, 3, 0 1, 0, 0, 25, 0 0 00000, 0 1, 0, ?, 0 0 00000, 0, 0 8 8 8 8";
    assert_eq!(short.join(", "), due);
}

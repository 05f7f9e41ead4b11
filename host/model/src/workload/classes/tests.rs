//! The answers of the parts.

use super::*;
use crate::replay::Replay;

/// The answers to the lines of a part, those of `P` with their bytes left out.
fn answers(part: fn(&mut List)) -> Vec<String> {
    let mut list = List::default();
    part(&mut list);
    let mut replay = Replay::default();
    let text = String::from_utf8(list.lines()).unwrap();
    let answer = |line: &str| {
        let short = line.get(..24).unwrap_or(line);
        format!("{short} -> {}", replay.answer(line.as_bytes()))
    };
    text.split('\n').map(answer).collect()
}

/// What is printed, without the line.
fn printed(answers: &[String]) -> Vec<&str> {
    let printed = answers.iter().map(|one| one.rsplit_once(" -> ").unwrap().1);
    printed.collect()
}

#[test]
fn lengths_and_lines() {
    let answers = answers(lines);
    let printed = printed(&answers);
    let (rejected, lengths) = printed[1..].split_at(LINES.split('|').count());
    assert!(rejected.iter().all(|&one| one == "?"), "{answers:#?}");
    let due = ["1", "1", "1", "1", "0", "1", "1", "?", "?", "?"];
    assert_eq!(lengths, due);
}

#[test]
fn refused_tables() {
    let answers = answers(tables);
    let printed = printed(&answers);
    let due = "2 2 0 0 0 0 2 2 2 2 2 2 0 0";
    assert_eq!(printed[2..16].join(" "), due);
    let due = "2 1 23 1 2 1 0 7";
    assert_eq!(printed[17..25].join(" "), due, "{answers:#?}");
    assert_eq!(printed[26..28], ["0", "0"]);
}

/// After each writeset: held items, another's items, a ninth item, a stale one.
#[test]
fn the_order_of_a_write() {
    let answers = answers(writes);
    let from = answers
        .iter()
        .position(|one| one.starts_with("K 1"))
        .unwrap();
    let steps: Vec<String> = printed(&answers)[from..]
        .chunks(14)
        .map(|step| step[1..13].join(", "))
        .collect();
    let due = [
        "7, 7, 0 1, 7, 7, 7, 7, 7, 7, 7, 2, 3",
        "0, 7, 0 1, 8, 7, 7, 10, 7, 9, 3, 2, 3",
        "0, 0, 0 5, 8, 8, 8, 10, 10, 3, 3, 2, 3",
    ];
    assert_eq!(steps, due);
}

//! The answers of the worked lists.

use super::*;
use crate::replay::Replay;
use crate::workload::{classes, givings, notices, restarts, staleness, stations};

/// All of them.
fn lists() -> impl Iterator<Item = (&'static str, &'static str)> {
    let (first, second) = (restarts::worked::LISTS, classes::worked::LISTS);
    let lists = first.into_iter().chain(second);
    let lists = lists.chain(stations::worked::LISTS);
    let lists = lists.chain(staleness::LISTS);
    let lists = lists.chain(notices::worked::LISTS);
    lists.chain(givings::worked::LISTS)
}

/// Whether an answer is of a pattern.
fn is_of(answer: &str, pattern: &str) -> bool {
    if let Some(start) = pattern.strip_suffix('*') {
        return answer.starts_with(start);
    }
    let (found, due): (Vec<_>, Vec<_>) =
        (answer.split(' ').collect(), pattern.split(' ').collect());
    let same = |(found, due): (&&str, &&str)| match due.strip_prefix('#') {
        None => found == due,
        Some(rest) => {
            let start = rest.strip_suffix("..#").unwrap_or_default();
            let is_digit = |c| matches!(c, '0'..='9' | 'a'..='f');
            found.len() == 2 * BLOCK && found.starts_with(start) && found.chars().all(is_digit)
        }
    };
    found.len() == due.len() && found.iter().zip(&due).all(same)
}

#[test]
fn patterns() {
    let zeros = "0".repeat(1024);
    let good = [("0 1 2", "0 1 2"), ("0 1 2", "0 *"), ("?", "?")];
    assert!(good.iter().all(|(answer, pattern)| is_of(answer, pattern)));
    let bad = [
        ("0 1 2", "0 1"),
        ("0 1", "0 1 2"),
        ("0", "1"),
        ("17", "*7"),
        ("0 00", "0 #"),
    ];
    assert!(!bad.iter().any(|(answer, pattern)| is_of(answer, pattern)));
    assert!(is_of(&zeros, "#") && is_of(&zeros, "#00..#") && !is_of(&zeros, "#01..#"));
}

#[test]
fn worked_lists() {
    for (name, text) in lists() {
        let mut replay = Replay::default();
        for (line, pattern) in steps(text, 0) {
            let answer = replay.answer(line.as_bytes());
            assert!(
                is_of(&answer, &pattern),
                "{name}: {line} -> {answer}, not {pattern}"
            );
        }
    }
}

/// In the list the same lines print the same, but for the numbers of the blocks sent.
#[test]
fn worked_lists_in_the_list() {
    let mut list = List::default();
    list.calls("M 5 2 0 0, S 5");
    let before = list.text.len();
    play(&mut list, &lists().collect::<Vec<_>>());
    let text = String::from_utf8(list.text[before..].to_vec()).unwrap();
    let mut lines = text.lines();
    let mut replay = Replay::default();
    replay.answer(b"M 5 2 0 0");
    replay.answer(b"S 5");
    for (name, text) in lists() {
        for (_, pattern) in steps(text, 0) {
            let answer = replay.answer(lines.next().unwrap().as_bytes());
            assert!(is_of(&answer, &pattern), "{name}");
        }
    }
    assert_eq!(lines.next(), None);
}

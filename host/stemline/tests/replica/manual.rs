//! The manual page of `replay` says what the program does.

use model::replay::{run, JOURNAL, KEPT, MAX_BYTES, MAX_JOURNAL, MAX_TABLE, NOTICES, PLACES};
use stemline::Refusal;

const PAGE: &str = include_str!("../../../../docs/replay.1");
const FORMAT: &str = include_str!("../../../model/src/replay.rs");

/// The lines between two comments of the page.
fn between(begin: &str) -> Vec<&'static str> {
    let lines = PAGE.lines().skip_while(|line| !line.ends_with(begin));
    let lines: Vec<_> = lines
        .skip(1)
        .take_while(|line| !line.starts_with(".\\\""))
        .collect();
    assert!(!lines.is_empty(), "{begin}");
    lines
}

/// Each call of the format has an entry, and the page has no others.
#[test]
fn every_call() {
    let rows = FORMAT
        .lines()
        .filter_map(|line| line.strip_prefix("//! | `"));
    let calls: Vec<&str> = rows.filter_map(|row| row.split('`').next()).collect();
    let entries = PAGE.lines().zip(PAGE.lines().skip(1));
    let entries = entries.filter(|(line, _)| *line == ".TP");
    let entries: Vec<&str> = entries
        .filter_map(|(_, line)| line.strip_prefix(".B "))
        .collect();
    assert_eq!(entries, calls);
    assert_eq!(calls.len(), 21);
}

/// Each number with its words, and the page has no others.
#[test]
fn every_number() {
    // There is no 22 any more, and no 24; 26 and 27 are the program `week`'s.
    let numbers = (1..=21).chain([23, 25]).chain(28..=31);
    let due: Vec<String> = numbers
        .map(|number| {
            let words = Refusal::from_number(number).unwrap().words();
            format!("{number:2}  {words}")
        })
        .collect();
    let is_number = |line: &&str| {
        let (number, rest) = line.split_at_checked(2).unwrap_or_default();
        number.trim().parse::<u8>().is_ok() && rest.starts_with("  ")
    };
    let found: Vec<&str> = PAGE.lines().filter(is_number).collect();
    assert_eq!(found, due);
}

/// In the order in which they stand there.
#[test]
fn every_limit() {
    let (_, mut limits) = PAGE.split_once("\n.SH LIMITS\n").unwrap();
    for (words, limit) in [
        ("Places: ", PLACES),
        ("the last ", KEPT),
        ("Blocks of a journal: ", JOURNAL),
        ("\n.BR Z :\n", NOTICES),
        ("at most ", MAX_BYTES),
        ("\n.B Y\n", MAX_JOURNAL),
        ("\n.B P\n", MAX_TABLE),
    ] {
        (_, limits) = limits.split_once(words).expect(words);
        let digits = limits.split(|c: char| !c.is_ascii_digit() && c != ',');
        let number = digits.into_iter().next().unwrap().replace(',', "");
        assert_eq!(number, limit.to_string(), "{words}");
    }
}

/// The example, with `...` for a block.
#[test]
fn the_example() {
    let calls = between("the calls ..").join("\n");
    let mut printed = Vec::new();
    run(calls.as_bytes(), &mut printed).unwrap();
    let printed = String::from_utf8(printed).unwrap();
    let shown = printed.lines().map(|line| match line.len() {
        1_026 => "0 ...",
        _ => line,
    });
    assert_eq!(shown.collect::<Vec<_>>(), between("and the answers .."));
}

#[test]
fn the_version() {
    let version = concat!("\"Stemline ", env!("CARGO_PKG_VERSION"), "\"");
    assert!(PAGE.lines().next().unwrap().contains(version));
}

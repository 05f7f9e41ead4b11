//! The stored input and output of the program `replay`, and the stored sends: the model writes the same.
//! And the list that `scripts/story` plays.

use std::collections::BTreeMap;
use std::path::Path;

use model::block::{self, Record, ENTRIES};
use model::replay::{self, Replay, PLACES};
use model::workload;

/// A file of the repository.
fn file(name: &str) -> Vec<u8> {
    let path = Path::new(env!("CARGO_MANIFEST_DIR"))
        .join("../..")
        .join(name);
    std::fs::read(&path).unwrap_or_else(|error| panic!("{}: {error}", path.display()))
}

/// That a stored file has this text. A difference is named by its first line.
fn check(name: &str, text: &[u8]) {
    let stored = file(name);
    let lines = |text: &[u8]| -> Vec<String> {
        let lines = text.split(|&byte| byte == b'\n');
        lines.map(|line| line.escape_ascii().to_string()).collect()
    };
    let (found, due) = (lines(&stored), lines(text));
    for (at, (found, due)) in found.iter().zip(&due).enumerate() {
        assert_eq!(found, due, "{name}, line {}", at + 1);
    }
    assert_eq!(found.len(), due.len(), "{name}: number of lines");
}

fn output(input: &[u8]) -> Vec<u8> {
    let mut output = Vec::new();
    replay::run(input, &mut output).unwrap();
    output
}

#[test]
fn stored_input() {
    check("crates/replay/stdin", &workload::calls());
}

#[test]
fn stored_output() {
    check(
        "crates/replay/stdout",
        &output(&file("crates/replay/stdin")),
    );
}

/// Replica 0 of two sends none to six full writesets, with both ends of the range in each, then six to one
/// that are not full.
#[test]
fn stored_sends() {
    let input = file("examples/sends.calls");
    check("examples/sends.out", &output(&input));
    let mut replay = Replay::default();
    for line in input.split(|&byte| byte == b'\n') {
        replay.answer(line);
    }
    let sent = (0..replay.sent()).map(|i| block::decode(replay.block(i).unwrap()).unwrap());
    let own = sent.filter(|message| message.sender == 0);
    let own: Vec<Vec<Record>> = own.map(|message| message.records).collect();
    let counts: Vec<usize> = own.iter().map(Vec::len).collect();
    assert_eq!(counts, [0, 1, 2, 3, 4, 5, 6, 6, 5, 4, 3, 2, 1]);
    for Record { entries, .. } in own[..7].iter().flatten() {
        assert_eq!(entries.len(), ENTRIES);
        for end in [i32::MIN, i32::MAX] {
            assert!(entries.iter().any(|entry| entry.value == end));
        }
    }
    for Record { entries, .. } in own[7..].iter().flatten() {
        assert!(entries.len() < ENTRIES);
    }
}

/// The worked lists of document 02's Req 10. What each line must print is in the list itself
/// (`workload::notices`).
#[test]
fn stored_notices() {
    let input = workload::worked_notices();
    check("examples/notices.calls", &input);
    check("examples/notices.out", &output(&input));
}

/// Those of Req 11 and 12 (`workload::givings`).
#[test]
fn stored_givings() {
    let input = workload::worked_givings();
    check("examples/givings.calls", &input);
    check("examples/givings.out", &output(&input));
}

/// What the answers of a list amount to.
#[derive(Debug, Default)]
struct Totals {
    /// Lines that are calls.
    calls: usize,
    /// Lines that are none.
    rejected: usize,
    /// By refusal number.
    refused: BTreeMap<u32, usize>,
    /// Writesets in blocks sent, committed at any replica, and committed at the sender.
    sent: usize,
    committed: usize,
    own: usize,
    /// Transactions aborted by a work.
    aborted: usize,
    /// Restarts by the place's own journal, restarts by other bytes, and those of either that had a
    /// block to give back.
    cuts: usize,
    restarts: usize,
    given_back: usize,
    /// Stations made.
    stations: usize,
    /// Notices taken.
    notices: usize,
    /// Givings that went through.
    givings: usize,
}

fn totals(input: &[u8], output: &[u8]) -> Totals {
    let mut totals = Totals::default();
    // The own number of the replica at each place; a station has none.
    let mut own = [None; PLACES];
    let answers = std::str::from_utf8(output).unwrap().lines();
    for (line, answer) in input.split(|&byte| byte == b'\n').zip(answers) {
        let answer: Vec<&str> = answer.split(' ').collect();
        if answer == ["?"] {
            totals.rejected += 1;
            continue;
        }
        totals.calls += 1;
        let number = answer[0].parse().unwrap();
        if number > 0 {
            *totals.refused.entry(number).or_default() += 1;
            continue;
        }
        // A line that is a call is text.
        let line: Vec<&str> = std::str::from_utf8(line).unwrap().split(' ').collect();
        let place: usize = line[1].parse().unwrap();
        match line[0] {
            "M" => own[place] = Some(line[3]),
            "A" => {
                own[place] = None;
                totals.stations += 1;
            }
            "Z" | "Y" => {
                if line[0] == "Y" {
                    own[place] = Some(line[3]);
                    totals.restarts += 1;
                } else {
                    totals.cuts += 1;
                }
                totals.given_back += usize::from(!answer[2].starts_with("00"));
            }
            "O" | "U" => totals.notices += 1,
            "G" => totals.givings += 1,
            "S" => totals.sent += usize::from_str_radix(&answer[1][6..8], 16).unwrap(),
            "K" => {
                totals.committed += usize::from(answer[2] != "0");
                totals.own += usize::from(answer[2] != "0" && own[place] == Some(answer[1]));
                totals.aborted += answer[4].parse::<usize>().unwrap();
            }
            _ => {}
        }
    }
    totals
}

/// The list that is to be stored.
#[test]
fn totals_of_the_list() {
    let input = workload::calls();
    let output = output(&input);
    assert_ne!(input.last(), Some(&b'\n'), "the last line has a line feed");
    let lines = |text: &[u8]| text.iter().filter(|&&byte| byte == b'\n').count();
    assert_eq!(
        lines(&input) + 1,
        lines(&output),
        "one answer for each line"
    );
    let is_of = |line: &[u8], letters: &[u8]| matches!(line, [letter, b' ', ..] if letters.contains(letter));
    let has = |list: &[u8], letters: &[u8]| {
        let mut lines = list.split(|&byte| byte == b'\n');
        lines.any(|line| is_of(line, letters))
    };
    let before = workload::calls_without_givings();
    assert!(input.starts_with(&before) && !has(&before, b"G"));
    let earlier = workload::calls_without_notices();
    assert!(before.starts_with(&earlier) && !has(&earlier, b"OU"));
    assert!(earlier.starts_with(&workload::calls_without_restarts()));

    let totals = totals(&input, &output);
    println!("{totals:?}");
    assert!(totals.calls >= 20_000, "{totals:?}");
    assert!(totals.rejected > 300, "{totals:?}");
    // Slots are not spent in a list of this length, and there is no 22 and no 24; 26 and 27 are of weeks.
    let due: Vec<u32> = (1..32)
        .filter(|n| ![13, 22, 24, 26, 27].contains(n))
        .collect();
    assert!(totals.refused.keys().eq(&due), "{totals:?}");
    assert!(totals.cuts > 200 && totals.restarts > 80, "{totals:?}");
    assert!(totals.given_back > 150, "{totals:?}");
    assert!(totals.stations > 20, "{totals:?}");
    assert!(totals.notices > 300, "{totals:?}");
    assert!(totals.givings > 300, "{totals:?}");
    assert!(
        totals.refused[&30] > 50 && totals.refused[&31] > 200,
        "{totals:?}"
    );
    assert!(
        totals.refused[&28] > 200 && totals.refused[&29] > 50,
        "{totals:?}"
    );
    assert!(totals.refused[&25] > 50, "{totals:?}");
    assert!(totals.own > 1_000, "{totals:?}");
    assert!(
        totals.sent >= totals.own && totals.committed > 3_000,
        "{totals:?}"
    );
    assert!(
        totals.aborted > 500 && totals.refused[&9] > 200,
        "{totals:?}"
    );
}

/// The story shows what it says: a block before its turn, one with a flipped bit, a stale write, an
/// abort, and writes and a load while a block is applied; and in the end the three replicas are at one turn with the same values.
#[test]
fn the_story() {
    let text = String::from_utf8(file("examples/story.calls")).unwrap();
    let calls: Vec<&str> = text.lines().filter(|line| !line.starts_with('#')).collect();
    let input = calls.join("\n").into_bytes();
    let totals = totals(&input, &output(&input));
    assert_eq!((totals.calls, totals.rejected), (calls.len(), 0));
    let refused: Vec<(u32, usize)> = totals.refused.into_iter().collect();
    assert_eq!(refused, [(7, 2), (9, 1), (14, 1), (21, 2), (23, 1)]);
    assert_eq!((totals.sent, totals.own, totals.committed), (10, 10, 30));
    assert_eq!(totals.aborted, 1);

    let mut replay = Replay::default();
    for call in calls {
        replay.answer(call.as_bytes());
    }
    let replicas = [0, 1, 2].map(|place| replay.replica(place).unwrap());
    for replica in replicas {
        assert_eq!(replica.values(), replicas[0].values());
        let shown = [5, 10, 20, 67, 70].map(|item| replica.values()[item]);
        assert_eq!(shown, [82, 80, 73, -15, -9]);
        let report = replica.report();
        assert_eq!((report.turn, report.commits, report.open), (9, 10, 0));
    }
}

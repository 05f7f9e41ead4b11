//! What `scripts/picture` draws: each send, delivery, commit and refusal of a list once, and the values that its
//! replicas hold. It needs `python3`; where there is none, that is said, and nothing is tested.

mod bad;
mod blocks;
mod docs;
mod lists;
mod marks;

use std::collections::BTreeMap;
use std::io::Write;
use std::path::{Path, PathBuf};
use std::process::{Command, Output};
use std::{fs, io};

use model::replay::{Replay, PLACES};
use model::week::{self, Week};

use crate::lists::List;
use crate::marks::{counts, due, last_values, marks, refusals, words_of_refusals, Mark};

fn top() -> PathBuf {
    let top = Path::new(env!("CARGO_MANIFEST_DIR")).join("../..");
    top.canonicalize().unwrap()
}

/// A file of the repository.
fn file(name: &str) -> String {
    let path = top().join(name);
    fs::read_to_string(&path).unwrap_or_else(|error| panic!("{}: {error}", path.display()))
}

/// What a script in Python does; none where there is no `python3`.
fn python(script: &str, words: &[&str]) -> Option<Output> {
    let mut command = Command::new("python3");
    command.arg("-B").arg(top().join(script)).args(words);
    match command.current_dir(top()).output() {
        Ok(output) => Some(output),
        Err(_) => {
            let words = b"python3: NOT found; what scripts/picture draws is not tested\n";
            io::stderr().write_all(words).unwrap();
            None
        }
    }
}

/// A file for one test.
fn room(name: &str) -> String {
    let path = Path::new(env!("CARGO_TARGET_TMPDIR")).join(name);
    path.to_str().unwrap().to_string()
}

/// Draws a list; none where there is no `python3`.
fn drawn(test: &str, list: &List, options: &[&str]) -> Option<String> {
    let [calls, answers, picture] =
        ["calls", "out", "svg"].map(|kind| room(&format!("{test}.{kind}")));
    // A last line without line feed counts, but not an empty one.
    let end = if list.calls.last().is_some_and(String::is_empty) {
        "\n"
    } else {
        ""
    };
    fs::write(&calls, list.calls.join("\n") + end).unwrap();
    fs::write(&answers, list.answers.join("\n") + "\n").unwrap();
    let _ = fs::remove_file(&picture);
    let words = [&[&calls[..], &answers, &picture], options].concat();
    let said = python("scripts/picture", &words)?;
    let error = String::from_utf8_lossy(&said.stderr);
    assert!(said.status.success() && error.is_empty(), "{test}: {error}");
    assert!(said.stdout.is_empty(), "{test}");
    Some(fs::read_to_string(&picture).unwrap())
}

/// That a list's picture has what the list has.
fn check(test: &str, list: &List) {
    check_part(test, list, 1, list.calls.len());
}

fn check_part(test: &str, list: &List, first: usize, last: usize) {
    let lines = [first, last].map(|line| line.to_string());
    let options = ["--from", &lines[0], "--to", &lines[1], "--items", "0,5,10"];
    if let Some(picture) = drawn(test, list, &options) {
        check_marks(test, list, first, last, &picture);
        check_values(test, list, first, last, &picture);
    }
}

fn check_marks(test: &str, list: &List, first: usize, last: usize, picture: &str) {
    let lines = format!("{test}, lines {first} to {last}");
    assert_eq!(marks(picture), due(list, first, last), "{lines}");
    let found = words_of_refusals(picture);
    assert_eq!(found, refusals(list, first, last), "{lines}");
    let found = blocks::drawn(picture);
    assert_eq!(found, blocks::due(list, first, last), "{lines}");
}

/// The value of an item at each place that is made.
fn values(replay: &Replay, item: usize) -> Vec<(usize, i64)> {
    let made = (0..PLACES).filter_map(|place| Some((place, replay.replica(place)?.values()[item])));
    made.map(|(place, value)| (place, value.into())).collect()
}

/// That the last value of each item and place, and how long the copies differ, is what the model has.
fn check_values(test: &str, list: &List, first: usize, last: usize, picture: &str) {
    let (mut replay, mut differ, mut calls) = (Replay::default(), BTreeMap::new(), 0);
    for (at, call) in list.calls[..last].iter().enumerate() {
        let answer = replay.answer(call.as_bytes());
        assert_eq!(answer, list.answers[at], "{test}, line {}", at + 1);
        if at + 1 < first || call.starts_with('#') {
            continue;
        }
        calls += 1;
        for item in [0, 5, 10] {
            let found = values(&replay, item);
            let differs = found.iter().any(|one| one.1 != found[0].1);
            *differ.entry(item).or_insert(0) += usize::from(differs);
        }
    }
    let drawn = last_values(picture);
    for (item, differ) in differ {
        let held = values(&replay, item);
        for &(place, value) in &held {
            assert_eq!(
                drawn[&(item, place)],
                value,
                "{test}, item {item} at {place}"
            );
        }
        let words = match differ {
            0 => "the copies never differ".to_string(),
            _ => format!("the copies differ during {differ} of {calls} call"),
        };
        assert!(
            held.len() == 1 || picture.contains(&words),
            "{test}, item {item}: {words}"
        );
    }
}

#[test]
fn stored_lists() {
    for name in ["stems", "early", "sends", "notices", "givings"] {
        let [calls, answers] =
            ["calls", "out"].map(|kind| file(&format!("examples/{name}.{kind}")));
        check(name, &List::stored(&calls, &answers));
    }
    let story = file("examples/story.calls");
    check("story", &List::of(story.lines().map(str::to_string)));
}

/// Parts of the list of the program `replay`, a thousand calls each, with all that a list can have.
#[test]
fn parts_of_the_stored_list() {
    let input = fs::read(top().join("crates/replay/stdin")).unwrap();
    let list = List::stored(
        &String::from_utf8_lossy(&input),
        &file("crates/replay/stdout"),
    );
    for first in [1, 20_000, list.calls.len() - 999] {
        let lines = [first, first + 999].map(|line| line.to_string());
        if let Some(picture) = drawn("part", &list, &["--from", &lines[0], "--to", &lines[1]]) {
            check_marks("part", &list, first, first + 999, &picture);
        }
    }
}

/// Groups, and one place of each as a recorder writes it. Every kind of mark is in them.
#[test]
fn seeded_lists() {
    let mut all = Vec::new();
    for seed in [1, 3, 5, 7, 9] {
        let list = lists::seeded(seed);
        check("seeded", &list);
        check_part("seeded-part", &list, 250, 330);
        for place in [0, 1, 7] {
            check("recorded", &lists::recorded(&list, place));
        }
        all.extend(due(&list, 1, list.calls.len()));
    }
    let counts = counts(&all);
    println!("{counts:?}");
    assert_eq!(counts.len(), 16, "{counts:?}");
    assert!(counts.values().all(|&count| count >= 3), "{counts:?}");
}

/// That the picture of a week has what the week has, and ends with the values of its replicas. It gives the marks.
fn check_week(test: &str, list: &List, week: &Week) -> Vec<Mark> {
    let name = format!("week-{test}");
    let Some(picture) = drawn(&name, list, &["--items", "0,1,2,3,4,5,127"]) else {
        return Vec::new();
    };
    check_marks(test, list, 1, list.calls.len(), &picture);
    let values = last_values(&picture);
    assert_eq!(values.len(), 7 * week.replicas().len(), "{test}");
    for ((item, place), value) in values {
        let held = week.replicas()[place].values()[item];
        assert_eq!(value, held.into(), "{test}, item {item} at {place}");
    }
    marks(&picture)
}

/// Seeded weeks. They print numbers alone, and every kind of mark that a week can have is in them.
#[test]
fn weeks() {
    let mut all = Vec::new();
    for seed in 0..5 {
        let (list, week) = lists::week(&week::seeded(seed, 400));
        all.extend(check_week(&format!("seed-{seed}"), &list, &week));
    }
    let counts = counts(&all);
    println!("{counts:?}");
    // None where there is no python3.
    assert!(counts.len() == 8 || all.is_empty(), "{counts:?}");
}

#[test]
fn stored_weeks() {
    for name in ["seven", "refusals", "forgotten"] {
        let input = fs::read(top().join(format!("examples/week-{name}.lines"))).unwrap();
        let (list, week) = lists::week(&input);
        let printed = file(&format!("examples/week-{name}.out"));
        assert!(printed.lines().eq(&list.answers), "{name}");
        check_week(name, &list, &week);
    }
}

//! The marks of a picture, and those that a list has by its calls and answers alone.

use std::collections::BTreeMap;

use model::replay::{Replay, PLACES};
use model::replica::Replica;

use crate::lists::List;

/// The elements of a picture with this start, each up to its first `>`.
pub fn elements<'a>(picture: &'a str, start: &str) -> Vec<&'a str> {
    let parts = picture.split(start).skip(1);
    parts.map(|part| part.split('>').next().unwrap()).collect()
}

pub fn attribute<'a>(element: &'a str, name: &str) -> &'a str {
    let value = element.split(&format!(" {name}=\"")).nth(1).expect(element);
    value.split('"').next().unwrap()
}

/// What it is, its line, and its lane where it has one.
pub type Mark = (String, usize, Option<usize>);

/// The number of an attribute, where the element has it.
pub fn number(element: &str, name: &str) -> Option<usize> {
    let has = element.contains(&format!(" {name}=\""));
    has.then(|| attribute(element, name).parse().unwrap())
}

/// The marks of a picture, in order.
pub fn marks(picture: &str) -> Vec<Mark> {
    let found = elements(picture, "<g class=\"mark ")
        .into_iter()
        .map(|element| {
            let kind = element.split('"').next().unwrap();
            let line = number(element, "data-line").expect(element);
            (kind.to_string(), line, number(element, "data-place"))
        });
    // A transaction that a restart ends stands in no answer.
    let mut found: Vec<Mark> = found.filter(|(kind, ..)| kind != "lost").collect();
    found.sort();
    found
}

/// The marks of these lines, counted from the calls and answers alone.
pub fn due(list: &List, first: usize, last: usize) -> Vec<Mark> {
    let mut found = Vec::new();
    let mut replay = Replay::default();
    for (at, (call, answer)) in list.calls.iter().zip(&list.told).enumerate() {
        let fields: Vec<&str> = call.split(' ').collect();
        let letter = fields[0];
        let out = is_out(&replay, &fields);
        let before = turn(&replay, &fields);
        replay.answer(call.as_bytes());
        let given = turn(&replay, &fields) != before;
        let answer: Vec<&str> = answer.split(' ').collect();
        let kinds: &[&str] = match (letter, answer[0]) {
            (_, "?") if call.starts_with('#') => &[],
            (_, "?") => &["unknown"],
            ("G", "0") if given => &["give"],
            ("G", "0") => &["look"],
            ("G", _) if given => &["give", "refusal"],
            ("W", "9") => &["refusal", "stale"],
            (_, number) if number != "0" => &["refusal"],
            ("S", _) => &["send"],
            ("D" | "F" | "H", _) => &["deliver"],
            ("K", _) if out => &["out"],
            ("K", _) if answer[2] == "0" => &["pass"],
            ("K", _) => &["commit"],
            ("M" | "A", _) => &["make"],
            ("Z" | "Y", _) => &["restart"],
            ("V" | "Q" | "J" | "P", _) => &["look"],
            ("O" | "U", _) => &["notice"],
            ("X", _) => &["withdrawn"],
            ("C", _) if answer[1] == "1" => &["read-only"],
            _ => &[],
        };
        let aborted = match (letter, answer[0]) {
            ("K", "0") => answer.len() - 5,
            ("G", _) => answer.len().saturating_sub(3),
            _ => 0,
        };
        let kinds = kinds.iter().chain(&["aborted"; 6][..aborted]);
        // A line that is no call is at no place, whatever its fields are.
        let place = match answer[0] {
            "?" | "27" => None,
            _ => fields[1].parse().ok(),
        };
        if (first..=last).contains(&(at + 1)) {
            found.extend(kinds.map(|kind| (kind.to_string(), at + 1, place)));
        }
    }
    found.sort();
    found
}

/// Whether the turn of the place that a call is at is a slot that is out there. A week has no notices.
pub fn is_out(replay: &Replay, fields: &[&str]) -> bool {
    replica(replay, fields).is_some_and(|replica| replica.out_next().is_some())
}

/// The turn of the place that a call is at.
pub fn turn(replay: &Replay, fields: &[&str]) -> Option<u32> {
    replica(replay, fields).map(|replica| replica.turn)
}

fn replica<'a>(replay: &'a Replay, fields: &[&str]) -> Option<&'a Replica> {
    let place = fields.get(1)?.parse().ok()?;
    (place < PLACES).then(|| replay.replica(place)).flatten()
}

/// How often each refusal number stands in the picture with words.
pub fn words_of_refusals(picture: &str) -> BTreeMap<String, usize> {
    let mut counts = BTreeMap::new();
    for text in picture.split("class=\"small halo wrong\">").skip(1) {
        let text = text.split('<').next().unwrap();
        let (number, words) = text.split_once(' ').unwrap();
        if number.parse::<u32>().is_ok() && !words.is_empty() {
            *counts.entry(number.to_string()).or_default() += 1;
        }
    }
    counts
}

/// How often each refusal number is answered in these lines.
pub fn refusals(list: &List, first: usize, last: usize) -> BTreeMap<String, usize> {
    let mut counts = BTreeMap::new();
    for answer in &list.told[first - 1..last] {
        let number = answer.split(' ').next().unwrap();
        if number != "0" && number != "?" {
            *counts.entry(number.to_string()).or_default() += 1;
        }
    }
    counts
}

/// How many marks of each kind there are.
pub fn counts(marks: &[Mark]) -> BTreeMap<&str, usize> {
    let mut counts = BTreeMap::new();
    for (kind, ..) in marks {
        *counts.entry(kind.as_str()).or_default() += 1;
    }
    counts
}

/// The value that an item has at a place at the end of a picture, by item and place.
pub fn last_values(picture: &str) -> BTreeMap<(usize, usize), i64> {
    let values = elements(picture, "<g class=\"value\"")
        .into_iter()
        .map(|element| {
            let number = |name| attribute(element, name).parse::<i64>().unwrap();
            let at = (number("data-item") as usize, number("data-place") as usize);
            (at, number("data-value"))
        });
    values.collect()
}

//! The answers of the parts.

use super::*;
use crate::workload::tests::shown as answers;

#[test]
fn lines_that_are_none() {
    let rejected = LINES.split('|').count() + 2;
    let due = format!(
        "0, 0, 0, {}0 1 0, 31 1, 0 1 0, 30, 31 1, 31 1, 30, 0 0",
        "?, ".repeat(rejected)
    );
    assert_eq!(answers(lines), due);
}

/// By the number of replicas and the returner's: of all that are level the first behind it, of rising turns the
/// last other one, of falling ones the first; then nobody, the last, and one of odd number.
#[test]
fn who_gives() {
    for n in 2..=6u32 {
        let mut due = vec!["0".to_string(); n as usize];
        for own in 0..n {
            let others = || (0..n).filter(|&g| g != own);
            let round = || (own + 1..n).chain(0..own);
            let behind = round().next();
            let odd = round().find(|g| g % 2 == 1);
            let first = others().next();
            let last = others().next_back();
            let ends = others().find(|&g| g + 1 == n);
            let eighth = round().find(|g| [1, 2, 4, 5].contains(g)).or(first);
            let lacks = |g: Option<u32>| g.map_or("30".to_string(), |g| format!("31 {g}"));
            due.extend([behind, last, first, None, ends, odd, eighth].map(lacks));
            due.push(format!("0 {} 0", behind.unwrap()));
        }
        assert_eq!(answers(|list| choices(list, n)), due.join(", "));
    }
}

#[test]
fn whose_window() {
    let taken = |k| format!("0, 0 {k} 0 1 0, 21");
    let due = [
        "0, 0, 0, 0 1, 0, 0 0, 0 #0".to_string(),
        [taken(0), taken(0), taken(0)].join(", "),
        "0 #1".to_string(),
        [taken(1), taken(1), taken(1)].join(", "),
        "0, 0 1 0, 31 1, 19 2 0, 19 2 0, 0 0".to_string(),
        "0, 31 1, 0 0, 19 2 0, 0 0".to_string(),
        "0, 0 #0, 0, 0, 0 0 0 1 0, 16 2 0, 0 0, 31 2".to_string(),
        "0, ?, 0 1 0, 30, 0 1 0, 0 1 0".to_string(),
        "0, 0, 0, ?, 31 0, 31 5, 0 0 0".to_string(),
    ];
    assert_eq!(answers(places), due.join(", "));
}

/// A window of so many slots, whose owner is said to be at turn 1, then 3, 4 and 2; and where that leads.
#[test]
fn windows_of_places_made_anew() {
    let sent =
        "0, 0, 0 1, 0, 0 0, 0 #0, 0, 0 0 1 1 0, 0 1 0 1 0, 21, 0 #2, 0, 0 0 0 1 0, 0 1 0 1 0, 21";
    let given = |made: &str, slots: u32| {
        let gives = |to: u32| if to <= slots { "0 0 0" } else { "31 0" };
        let gives = [1, 3, 4, 2].map(gives).join(", ");
        format!("{sent}, {made}, 0, 0, {gives}, 0 {slots}, 0 1 1 1 1")
    };
    let due = [
        given("0", 0),
        format!("{sent}, 0, 0, 0, ?, ?, ?, ?, 0 0, 0 1 1 1 1"),
        given("0 0 none", 0),
        given("0 2 #0", 2),
        given("0 1 #0", 1),
        given("0 1 #0", 1),
        given("0 3 #2", 3),
        given("2", 4),
        given("2", 4),
    ];
    assert_eq!(answers(made_anew), due.join(", "));
}

#[test]
fn what_ends_it() {
    let passed = "0 1 0 1 0, 0 2 0 1 0, 21";
    let made = format!(
        "0, 0, 0, 0 1, 0, 0, 0 0, 0 #0, 0, 0 0 1 1 0, {passed}, 0 #3, 0, 0 0 0 1 0, {passed}, \
         0, 0 1, 0 2, 0, 0"
    );
    let due = [
        format!("{made}, 19 0 2 1 2, 0 1, 19 0 0, 0, 0 0 0, 0 4, 0 1 1 1 1"),
        format!("{made}, 19 0 2 1 2, 0 2, 19 0 0, 0, 0 0 0, 0 4, 0 1 1 1 1"),
        format!("{made}, 16 0 0, 0 0, 16 0 0, 0, 16 0 0, 0 0, 0 1 1 1 1"),
        "0, 0, 0, 0, 0 0 0, 0 4, 0 1 1 1 1, 0 #0, 0 #3".to_string(),
    ];
    assert_eq!(answers(ended), due.join(", "));
}

#[test]
fn an_own_block() {
    let due = "0, 0, 0 1, 0 2, 0, 0, 0 0, 0 0, 0 #0, 0, 0 0 2 0 0, 0 0 1 1 0, 21, \
        0 3, 0, 0 0, 0 1 0, 0 1, 0 #0, ?, 0 #1, 0, 0 1 0 1 0, 21, \
        0 1 0, 0 2, 0, 19 1 0, 0 0, 0 #0, 19 1 0, 0 0, 0 1 1 1 1";
    assert_eq!(answers(own_blocks), due);
}

#[test]
fn one_that_was_out() {
    let answers = answers(out_of_oneself);
    let due = "0 9, 0 0 1 2, 0 9, 0 #7, 0 #8, ?, 0 8 none, 0 0 0, 0 4 4 4 4, \
        0 1, 0, 0 0, 0 #9, 0, 0 1 1 1 0, 21, 0 1 0, 0 4 4 4 4, 0 10, 0 10";
    assert!(answers.ends_with(due), "{answers}");
}

#[test]
fn a_journal_outgrown() {
    let go_on = |slots: &[u32]| -> String {
        let round = |slot: &u32| format!("0 #{slot}, 0, 0 0 0 1 0, 0 1 0 1 0, 21, ");
        slots.iter().map(round).collect()
    };
    let slots: Vec<u32> = (0..=128).step_by(2).collect();
    let due = format!(
        "0, 0, 0, 0, {}0 0 0, {}0 0 0, 0 #127, ?, 0 128 none, {}0 0 0, 0 130, ?, ?, ?, 0, 31 0",
        go_on(&slots[..32]),
        go_on(&slots[32..64]),
        go_on(&slots[64..]),
    );
    assert_eq!(answers(outgrown), due);
}

#[test]
fn far_turns() {
    let each = "31 0, 0 0, 0";
    let due = format!(
        "0, 0, 0 #0, 0, 0 0 0 1 0, 21, 0 0 0, 0 1, 0{}",
        format!(", {each}").repeat(8)
    );
    assert_eq!(answers(spent), due);
}

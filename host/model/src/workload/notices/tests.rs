//! The answers of the parts.

use super::*;
use crate::workload::tests::shown as answers;

#[test]
fn lines_that_are_none() {
    let answers = answers(lines);
    let rejected = 4 * LINES.split('|').count() + 2;
    let due = format!("0, {}0 0, 2, 2, 2, 0, 0", "?, ".repeat(rejected));
    assert_eq!(answers, due);
}

#[test]
fn in_range() {
    for n in 2..=6 {
        let at_each = "2, 2, 2, 2, 2, 2, 0, 28, 0, 0, 28";
        assert_eq!(
            answers(|list| ranges(list, n)),
            format!("0, 0, {at_each}, {at_each}")
        );
    }
}

#[test]
fn what_follows_on_what() {
    let due = "0, 28, 0, 28, 28, 28, 28, 28, 0, 28, 28, 0 #0, 0, 0 0 0 1 0, 21, 28, 28, 28, \
        0, 0 1 1 1 0, 21, 0 #2, 0, 0 0 0 1 0, 0 1 0 1 0, 21, \
        0 4, 28, 0, 28, 0, 0, 29, 0 0 0 1 0, 21, 28, 0, 28, 11, 0 5";
    assert_eq!(answers(follow_on), due);
}

#[test]
fn blocks_that_are_here() {
    let due = "0, 0 1, 0, 0 0, 0 #0, 28, 0, 0, 0, 28, 28, 0 0 1 1 0, 0 1, \
        0, 28, 28, 0, 0 1 0 1 0, 0 2 1 0 0, 28, 3, 0 2 2 1 0, 28, 0, \
        0 2, 0, 0 0, 0 #3, 21, 0 #3, 12, 0 3";
    assert_eq!(answers(blocks_here), due);
}

/// At replica 0 of 3, at replica 2, and at a station: they differ in what a send is refused by.
#[test]
fn the_order_of_a_deliver_and_a_send() {
    let at = |sends: [&str; 4]| {
        let [first, second, third, fourth] = sends;
        format!(
            "0, 0, 0, {first}, 0 0 0 1 0, {second}, 1, 14, 16, 17, 29, 29, 29, 29, 29, 18, 18, 18, 0, 20, \
             0 1 9 1 0, {third}, 0 2 0 1 0, {fourth}, 0 0 0 1 0, 21, 0 4"
        )
    };
    let due = [
        at(["29", "11", "11", "29"]),
        at(["11", "11", "29", "11"]),
        at(["25"; 4]),
    ];
    assert_eq!(answers(deliveries), format!("0, 0, 0, {}", due.join(", ")));
}

#[test]
fn notices_that_are_kept() {
    let answers = answers(kept);
    let passed = (0..6).map(|k| format!("0 {k} 0 1 0, "));
    let turn = format!("{0}{1}{0}", "0, ".repeat(6), passed.collect::<String>());
    let due = format!(
        "0, {turn}{turn}0 12 none, 0, 0, 0, 0, 0, 0, 0, 0 12 none, 0, 0 12 none, 28, 0 12 none, 0, ?, ?, 0 #11, \
         0 0 0 1 0, ?, 2, ?, 0, 0 0 none, 0, 2, 29, 0 0 none, 0, 0 0 0 1 0, 0 1 none, 0 1"
    );
    assert_eq!(answers, due);
}

/// By a make, a station and other bytes they are gone; by a restart of the place, and by a refused make, not.
#[test]
fn places_made_anew() {
    let taken = "0, 0, 0, 0, ";
    let (gone, there) = ("0, 28, 0, 0, 29", "28, 28, 28, 0, 29");
    let due = format!(
        "{taken}0, {gone}, {taken}0, {gone}, {taken}0 0 none, {gone}, {taken}0 0 none, {there}, {taken}2, {there}"
    );
    assert_eq!(answers(made_anew), due);
}

#[test]
fn notices_at_a_station() {
    let due =
        "0, 0 1, 0, 28, 28, 0, 28, 0 0 1 1 0, 25, 0 1 0 1 0, ?, ?, 28, 29, 0, 28, 25, 0 4, 0, 0, \
        0 0 0 1 0, 28, 0 1 1 1 0, 0 0 0 1 0, 21, 0 2, 0 51, 0 5";
    assert_eq!(answers(station), due);
}

#[test]
fn given_back() {
    let due = "0, 0, 0, 0, 0 #0, 0, 0 0 0 1 0, 21, 0, 0 0 0 1 0, 21, \
        0 #1, 0, 0 1 0 1 0, 0 0 0 1 0, 21, 0, 0 1 0 1 0, 0 0 0 1 0, 21, \
        0 3, 0 3, 0 #2, 0 #2, 0 3 #0, 0 3 #1, 0 3, 11, \
        0 #3, 0, 0 1 0 1 0, 0 0 0 1 0, 21, 0, 0 1 0 1 0, 0 0 0 1 0, 21, \
        0 5 #0, 0 #4, 0, 28, 11, 0 5 #3, 0, 0 5 #0, 0, 0 1 1 1 0, 0 5 #0, 0 5, 21, 11, 0 5";
    assert_eq!(answers(cuts), due);
}

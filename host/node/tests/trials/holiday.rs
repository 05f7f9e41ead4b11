//! A studio that is closed for a while, by notices.

use std::fs::OpenOptions;
use std::io::Write;
use std::time::Duration;

use serde_json::json;
use trial::group::Group;
use trial::{until, verdict};

use super::{able, group, Designer, MOST};

/// Writes a notice behind the others, and has those nodes that run take it.
fn say(group: &mut Group, notice: &str) {
    let mut file = OpenOptions::new()
        .append(true)
        .open(group.notices())
        .unwrap();
    writeln!(file, "{notice}").unwrap();
    for node in &mut group.nodes {
        if node.process.is_running() {
            let told = node
                .client(MOST)
                .unwrap()
                .ask(&json!({"do": "notices"}))
                .unwrap();
            assert_eq!(told["told"], "notices", "{told}");
        }
    }
}

/// The turn of a node.
fn turn(group: &Group, node: usize) -> u64 {
    group.nodes[node].place().map_or(0, |place| place.0)
}

/// The others go on without it; it is given what it missed, comes back, and goes on with them.
#[test]
fn a_studio_on_holiday() {
    if !able() {
        return;
    }
    let mut group = group("holiday", 1);
    group.start().unwrap();
    let mut designer = Designer::new();
    (0..3).for_each(|node| designer.commits(&group, node));
    group.nodes[2].process.end(MOST).unwrap();
    // The others come to its slot, for which it has made no block, and wait.
    let at = || [0, 1, 3].map(|node| turn(&group, node));
    until("the others wait for the closed one", MOST, || {
        let made = verdict::blocks(&group.journal(2)).unwrap().len() as u64;
        at().iter()
            .all(|&turn| turn % 3 == 2 && turn >= made && turn == at()[0])
    })
    .unwrap();
    let (out, first) = (turn(&group, 0), designer.asked.len());
    say(&mut group, &format!("Out 2 from {out}"));
    while turn(&group, 0) < out + 200 {
        (0..2).for_each(|node| designer.commits(&group, node));
    }
    assert!(designer.asked.len() > first + 2);
    group.nodes[2].process.start().unwrap();
    until("it has what it missed", MOST, || {
        turn(&group, 2) + 3 > turn(&group, 0)
    })
    .unwrap();
    // So far ahead that nobody is there before it is said to all.
    let back = turn(&group, 0) + 40;
    say(&mut group, &format!("Back 2 at {back}"));
    until("all are behind the notice", MOST, || {
        std::thread::sleep(Duration::from_millis(50));
        (0..4).all(|node| turn(&group, node) > back)
    })
    .unwrap();
    let journals = group.journals();
    let count = designer.verdict(group, &journals);
    assert_eq!(
        (count.not, count.unknown_committed + count.unknown_not),
        (0, 0)
    );
}

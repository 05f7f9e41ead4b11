//! Stations on the sheet, sentence by sentence: answers that no right station gives.

use model::replica::Report;
use model::trace::{Answer, Call};

use super::{sent, Script};
use crate::common::{block_of, start_values};

/// The number of the station.
const STATION: usize = 2;

/// A station beside the group of which replica 0 has sent item 5 as 40 under ticket 1 for slot 0.
fn with_station() -> Script {
    let mut script = sent();
    assert_eq!(script.observer.add_station(), STATION);
    script.reports.push(Report::default());
    script.values.push(start_values());
    script
}

#[test]
fn as_a_replica() {
    let mut script = with_station();
    script.begin(STATION, 1, &[]);
    script.read(STATION, 1, 5, -550);
    script.work(STATION, 0, 1, &[], &[(5, 40)]);
    script.read(STATION, 1, 5, -550);
    script.begin(STATION, 2, &[]);
    script.read(STATION, 2, 5, 40);
    script.end(STATION, 1);
    script.write(STATION, 2, 5, 1, Err(25));
    script.observer.feed(STATION, &Call::Send, &Err(25));
    script.broken(&[]);
    assert!(script.observer.premise());
    // Its tickets are its own: replica 0 has a ticket 1 too.
    script.read(0, 1, 5, 40);
    script.broken(&[]);
}

#[test]
fn premise_of_its_delivers() {
    let mut script = with_station();
    let mut deliver = |bytes: &[u8]| {
        let call = Call::Deliver {
            bytes: bytes.to_vec(),
        };
        script.observer.feed(STATION, &call, &Ok(Answer::Done));
        script.observer.premise()
    };
    assert!(deliver(&block_of(2, 0, &[(1, &[(5, 40)])])));
    assert!(!deliver(&block_of(2, 0, &[])));
}

#[test]
fn commits() {
    let mut script = with_station();
    script.work(STATION, 0, 2, &[], &[(5, 40)]);
    script.broken(&["station 0: its commit 1 is ticket 2 of replica 0"]);
    let mut script = with_station();
    script.work(STATION, 0, 0, &[], &[]);
    script.broken(&["station 0: 1 writesets were sent for slots below its turn 1"]);
    let mut script = with_station();
    script.work(STATION, 0, 1, &[], &[(5, 40)]);
    script.reports[STATION].commits = 0;
    script.broken(&[
        "station 0: it reports 0 commits, its works named 1",
        "station 0: item 5 is 40, after 0 writesets",
    ]);
}

#[test]
fn values_and_reads() {
    let mut script = with_station();
    script.work(STATION, 0, 1, &[], &[]);
    script.broken(&["station 0: item 5 is -550, after 1 writesets"]);
    let mut script = with_station();
    script.begin(STATION, 1, &[]);
    script.work(STATION, 0, 1, &[], &[(5, 40)]);
    script.read(STATION, 1, 5, 40);
    script.broken(&["station 0: ticket 1 read 40 from item 5, after 0 writesets"]);
    let mut script = with_station();
    script.read(STATION, 1, 5, -550);
    script.broken(&["station 0: ticket 1 was read and never given"]);
}

#[test]
fn a_station_that_writes_or_sends() {
    let mut script = with_station();
    script.begin(STATION, 1, &[]);
    script.write(STATION, 1, 5, 1, Ok(Answer::Done));
    script.broken(&["station 0: a write was accepted"]);
    // It is not in the note, and there is no line for the ask.
    script.ask(STATION, 1);
    script.broken(&["a write was accepted", "an ask did not end as read-only"]);
    let mut script = with_station();
    script.send(STATION, 1, &[]);
    script.broken(&["station 0: a send was accepted"]);
    script.send(1, 1, &[]);
    script.broken(&["station 0: a send was accepted"]);
}

#[test]
fn other_numbers() {
    for number in [1, 2, 3, 4, 7, 8, 9, 10] {
        let mut script = with_station();
        script.write(STATION, 1, 5, 1, Err(number));
        script.broken(&[&format!("station 0: a write was refused by {number}")]);
    }
    for number in [1, 11, 12, 13] {
        let mut script = with_station();
        script.observer.feed(STATION, &Call::Send, &Err(number));
        script.broken(&[&format!("station 0: a send was refused by {number}")]);
    }
    let deliver = Call::Deliver { bytes: vec![] };
    let ask = Call::Ask { ticket: 1 };
    for (call, number) in [(&deliver, 19), (&deliver, 25), (&ask, 4), (&ask, 25)] {
        let mut script = with_station();
        script.observer.feed(STATION, call, &Err(number));
        script.broken(&[&format!("station 0: a call was refused by {number}")]);
        // A replica may.
        let mut script = with_station();
        script.observer.feed(0, call, &Err(number));
        script.broken(&[]);
    }
    for (call, number) in [(&deliver, 18), (&deliver, 1), (&ask, 3), (&Call::Work, 21)] {
        let mut script = with_station();
        script.observer.feed(STATION, call, &Err(number));
        script.broken(&[]);
    }
}

#[test]
fn aborted_at_a_station() {
    let mut script = with_station();
    script.begin(STATION, 1, &[]);
    script.work(STATION, 0, 1, &[1], &[(5, 40)]);
    script.broken(&["station 0: a work aborted ticket 1, which shares no item"]);
}

/// One that is made anew is another, with notes and commits of its own.
#[test]
fn made_anew() {
    let mut script = with_station();
    script.begin(STATION, 1, &[]);
    script.work(STATION, 0, 1, &[], &[(5, 40)]);
    assert_eq!(script.observer.add_station(), 3);
    script.reports.push(Report::default());
    script.values.push(start_values());
    script.broken(&[]);
    script.begin(3, 1, &[]);
    script.work(3, 0, 1, &[], &[(5, 40)]);
    script.read(3, 1, 5, -550);
    script.broken(&[]);
    script.work(3, 0, 1, &[], &[]);
    script.broken(&["station 1: its commit 2 is ticket 1 of replica 0"]);
}

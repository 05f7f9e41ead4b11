//! The observer, sentence by sentence of demand 3: lists of calls and answers that no right group
//! gives, each of which breaks one sentence.

mod notices;
mod restarts;
mod stations;

use model::observer::Observer;
use model::replica::{Report, Work, ITEMS};
use model::trace::{Answer, Call};

use crate::common::{block_of, start_values, Writes};

/// An observed group, and stations beside it, of which only the answers exist.
struct Script {
    n: u32,
    observer: Observer,
    reports: Vec<Report>,
    values: Vec<[i32; ITEMS]>,
}

impl Script {
    fn new() -> Script {
        Script::of(2)
    }

    fn of(n: usize) -> Script {
        Script {
            n: n as u32,
            observer: Observer::new(n, start_values()),
            reports: vec![Report::default(); n],
            values: vec![start_values(); n],
        }
    }

    /// Replica and ticket begin and write.
    fn begin(&mut self, replica: usize, ticket: u32, writes: &[(u32, i32)]) {
        let answer = Ok(Answer::Ticket(ticket));
        self.observer.feed(replica, &Call::Begin, &answer);
        for &(item, value) in writes {
            self.write(replica, ticket, item, value, Ok(Answer::Done));
        }
    }

    fn write(&mut self, k: usize, ticket: u32, item: u32, value: i32, answer: Result<Answer, u8>) {
        let call = Call::Write {
            ticket,
            item,
            value,
        };
        self.observer.feed(k, &call, &answer);
    }

    fn read(&mut self, replica: usize, ticket: u32, item: u32, value: i32) {
        let call = Call::Read { ticket, item };
        self.observer
            .feed(replica, &call, &Ok(Answer::Value(value)));
    }

    fn ask(&mut self, replica: usize, ticket: u32) {
        let answer = Ok(Answer::ReadOnly(false));
        self.observer.feed(replica, &Call::Ask { ticket }, &answer);
    }

    /// An ask that ends a ticket without writes.
    fn end(&mut self, member: usize, ticket: u32) {
        let answer = Ok(Answer::ReadOnly(true));
        self.observer.feed(member, &Call::Ask { ticket }, &answer);
    }

    fn send(&mut self, replica: usize, slot: u32, records: &[Writes]) {
        let block = Box::new(block_of(self.n, slot, records));
        self.observer
            .feed(replica, &Call::Send, &Ok(Answer::Block(block)));
    }

    /// A work that moves the turn, with the values that it changes.
    fn work(
        &mut self,
        k: usize,
        sender: u8,
        ticket: u32,
        aborted: &[u32],
        values: &[(usize, i32)],
    ) {
        let work = Work {
            sender,
            ticket,
            moved: true,
            aborted: aborted.to_vec(),
        };
        self.observer.feed(k, &Call::Work, &Ok(Answer::Work(work)));
        self.reports[k].turn += 1;
        self.reports[k].commits += u32::from(ticket != 0);
        for &(item, value) in values {
            self.values[k][item] = value;
        }
    }

    fn violations(&self) -> Vec<String> {
        let ends = self
            .reports
            .iter()
            .copied()
            .zip(self.values.iter().copied());
        self.observer.violations(&ends.collect::<Vec<_>>())
    }

    /// That exactly these sentences are broken, each named by a part of it.
    fn broken(&self, parts: &[&str]) {
        let violations = self.violations();
        assert_eq!(violations.len(), parts.len(), "{violations:#?}");
        for (violation, part) in violations.iter().zip(parts) {
            assert!(violation.contains(part), "{violations:#?}");
        }
    }
}

/// Replica 0 sends item 5 as 40 under ticket 1 for slot 0.
fn sent() -> Script {
    let mut script = Script::new();
    script.begin(0, 1, &[(5, 40)]);
    script.ask(0, 1);
    script.send(0, 0, &[(1, &[(5, 40)])]);
    script
}

#[test]
fn nothing_broken() {
    let mut script = sent();
    script.broken(&[]);
    script.work(0, 0, 1, &[], &[(5, 40)]);
    script.broken(&[]);
    script.work(1, 0, 1, &[], &[(5, 40)]);
    script.begin(1, 1, &[(5, 41), (6, 1)]);
    script.read(1, 1, 5, 41);
    script.read(1, 1, 0, -600);
    script.ask(1, 1);
    script.send(1, 1, &[(1, &[(5, 41), (6, 1)])]);
    script.work(0, 1, 1, &[], &[(5, 41), (6, 1)]);
    script.broken(&[]);
    assert!(script.observer.premise());
}

#[test]
fn premise() {
    let mut script = sent();
    let mut deliver = |bytes: &[u8], answer| {
        let bytes = bytes.to_vec();
        script.observer.feed(1, &Call::Deliver { bytes }, &answer);
        script.observer.premise()
    };
    assert!(deliver(
        &block_of(2, 0, &[(1, &[(5, 40)])]),
        Ok(Answer::Done)
    ));
    assert!(deliver(&block_of(2, 1, &[]), Err(18)));
    assert!(!deliver(&block_of(2, 0, &[]), Ok(Answer::Done)));
}

#[test]
fn a_slot_sent_twice() {
    let mut script = Script::new();
    script.send(0, 0, &[]);
    script.send(0, 0, &[]);
    script.broken(&["slot 0 was sent twice"]);
}

#[test]
fn a_block_with_other_records() {
    let wrong: [&[Writes]; 5] = [
        &[],
        &[(2, &[(5, 40)])],
        &[(1, &[(5, 41)])],
        &[(1, &[(5, 40), (6, 0)])],
        &[(1, &[(5, 40)]), (2, &[(6, 0)])],
    ];
    for records in wrong {
        let mut script = Script::new();
        script.begin(0, 1, &[(5, 39), (5, 40)]);
        script.ask(0, 1);
        script.send(0, 0, records);
        script.broken(&["slot 0 does not hold what was asked"]);
    }
}

#[test]
fn asked_in_another_order() {
    let mut script = Script::new();
    script.begin(0, 1, &[(5, 40)]);
    script.begin(0, 2, &[(6, 40)]);
    script.ask(0, 2);
    script.ask(0, 1);
    script.send(0, 0, &[(1, &[(5, 40)]), (2, &[(6, 40)])]);
    script.broken(&["slot 0 does not hold what was asked"]);
}

#[test]
fn aborted_and_sent_nevertheless() {
    let mut script = sent();
    script.begin(1, 1, &[(5, 1)]);
    script.ask(1, 1);
    script.work(1, 0, 1, &[1], &[(5, 40)]);
    script.send(1, 1, &[(1, &[(5, 1)])]);
    script.broken(&["slot 1 does not hold what was asked"]);
}

#[test]
fn commits_that_are_not_reported() {
    let mut script = sent();
    script.work(0, 0, 1, &[], &[]);
    script.reports[0].commits = 0;
    script.broken(&["reports 0 commits, its works named 1"]);
}

#[test]
fn commits_out_of_the_sequence() {
    let mut script = sent();
    script.work(1, 0, 2, &[], &[(5, 40)]);
    script.broken(&["its commit 1 is ticket 2 of replica 0"]);
    let mut script = sent();
    script.work(1, 1, 1, &[], &[(5, 40)]);
    script.broken(&["its commit 1 is ticket 1 of replica 1"]);
    let mut script = Script::new();
    script.work(1, 0, 1, &[], &[]);
    script.broken(&["the sequence has None"]);
}

#[test]
fn a_slot_passed_over() {
    let mut script = sent();
    script.work(1, 0, 0, &[], &[]);
    script.broken(&["1 writesets were sent for slots below its turn 1"]);
}

#[test]
fn values_that_differ() {
    let mut script = sent();
    script.work(1, 0, 1, &[], &[]);
    script.broken(&["item 5 is -550, after 1 writesets of the sequence it is 40"]);
    let mut script = sent();
    script.work(1, 0, 1, &[], &[(5, 40), (6, 0)]);
    script.broken(&["item 6 is 0"]);
}

#[test]
fn reads_of_another_value() {
    let mut script = sent();
    script.read(0, 1, 5, -550);
    script.broken(&["to which it wrote 40"]);
    let mut script = sent();
    script.begin(1, 1, &[]);
    script.work(1, 0, 1, &[], &[(5, 40)]);
    script.read(1, 1, 5, -550);
    script.broken(&[]);
    script.read(1, 1, 5, 40);
    script.broken(&["read 40 from item 5, after 0 writesets"]);
    let mut script = sent();
    script.work(1, 0, 1, &[], &[(5, 40)]);
    script.begin(1, 1, &[]);
    script.read(1, 1, 5, 40);
    script.broken(&[]);
    script.read(1, 1, 5, -550);
    script.broken(&["read -550 from item 5, after 1 writesets"]);
}

#[test]
fn a_snapshot_behind_its_place() {
    // A commit that nobody sent counts in the snapshot of the ticket that is first in the sequence.
    let mut script = Script::new();
    script.work(1, 0, 1, &[], &[]);
    script.begin(1, 1, &[(6, 1)]);
    script.ask(1, 1);
    script.send(1, 1, &[(1, &[(6, 1)])]);
    script.values[1][6] = 1;
    script.broken(&[
        "its commit 1 is ticket 1 of replica 0",
        "began after 1 writesets and is at 1 of the sequence",
    ]);
}

#[test]
fn an_item_written_since_the_snapshot() {
    let mut script = sent();
    script.begin(1, 1, &[(5, 41)]);
    script.ask(1, 1);
    script.work(1, 0, 1, &[], &[(5, 40)]);
    script.send(1, 1, &[(1, &[(5, 41)])]);
    script.broken(&["but 1 writes its item 5"]);
    // With another item it is right.
    let mut script = sent();
    script.begin(1, 1, &[(6, 41)]);
    script.ask(1, 1);
    script.work(1, 0, 1, &[], &[(5, 40)]);
    script.send(1, 1, &[(1, &[(6, 41)])]);
    script.broken(&[]);
}

#[test]
fn aborted_without_a_shared_item() {
    let mut script = sent();
    script.begin(1, 1, &[(6, 41)]);
    script.work(1, 0, 1, &[1], &[(5, 40)]);
    script.broken(&["ticket 1, which shares no item with ticket 1 of replica 0"]);
    // By a message without records, and a ticket that was never given.
    let mut script = Script::new();
    script.begin(1, 1, &[(6, 41)]);
    script.work(1, 0, 0, &[1], &[]);
    script.broken(&["ticket 1, which shares no item"]);
    let mut script = sent();
    script.work(1, 0, 1, &[7], &[(5, 40)]);
    script.broken(&["ticket 7, which shares no item"]);
}

#[test]
fn aborted_after_the_send() {
    let mut script = sent();
    script.work(0, 0, 1, &[1], &[(5, 40)]);
    script.broken(&["aborted ticket 1, which was sent"]);
}

#[test]
fn stale_after_the_send() {
    let mut script = sent();
    script.write(0, 1, 9, 0, Err(4));
    script.write(1, 1, 9, 0, Err(9));
    script.broken(&[]);
    script.write(0, 1, 9, 0, Err(9));
    script.broken(&["a write under ticket 1, which was sent, gave 9"]);
}

#[test]
fn tickets_never_given() {
    let mut script = Script::new();
    script.write(0, 1, 5, 0, Ok(Answer::Done));
    script.read(0, 1, 5, 0);
    script.ask(0, 1);
    script.broken(&["was written", "was read", "was asked"]);
}

//! The list of calls that is stored as the input of the program `replay`, in the format of
//! [`crate::replay`]. It is the same on every machine.

mod cases;
mod classes;
mod givings;
mod malformed;
mod notices;
mod random;
mod recorded;
mod refusals;
mod restarts;
mod staleness;
mod stations;
mod story;
mod worked;

use crate::replay::{hex, Replay};
use crate::replica::Replica;

/// The list. Its last line has no line feed.
pub fn calls() -> Vec<u8> {
    let mut list = List::default();
    without_givings(&mut list);
    givings::all(&mut list);
    recorded::with_givings(&mut list);
    list.lines()
}

/// The worked lists of document 02's Req 11 and 12 alone, as a list.
pub fn worked_givings() -> Vec<u8> {
    let mut list = List::default();
    worked::play(&mut list, &givings::worked::LISTS);
    list.lines()
}

/// The list up to the first giving.
pub fn calls_without_givings() -> Vec<u8> {
    let mut list = List::default();
    without_givings(&mut list);
    list.lines()
}

fn without_givings(list: &mut List) {
    without_notices(list);
    notices::all(list);
    recorded::all(list);
}

/// The worked lists of document 02's Req 10 alone, as a list.
pub fn worked_notices() -> Vec<u8> {
    let mut list = List::default();
    worked::play(&mut list, &notices::worked::LISTS);
    list.lines()
}

/// The list up to the first notice.
pub fn calls_without_notices() -> Vec<u8> {
    let mut list = List::default();
    without_notices(&mut list);
    list.lines()
}

fn without_notices(list: &mut List) {
    without_restarts(list);
    restarts::all(list);
    random::with_cuts(list);
    classes::all(list);
    random::with_tables(list);
    stations::all(list);
    random::with_stations(list);
    staleness::all(list);
}

/// The list up to the first restart.
pub fn calls_without_restarts() -> Vec<u8> {
    let mut list = List::default();
    without_restarts(&mut list);
    list.lines()
}

fn without_restarts(list: &mut List) {
    malformed::not_made(list);
    cases::all(list);
    refusals::all(list);
    story::all(list);
    malformed::all(list);
    random::all(list);
}

/// A list in the making. Each line is played at once, so that the next may depend on its answer.
#[derive(Default)]
struct List {
    text: Vec<u8>,
    replay: Replay,
}

impl List {
    /// The lines, the last one without a line feed.
    fn lines(mut self) -> Vec<u8> {
        self.text.pop();
        self.text
    }

    /// Adds a line of any bytes but a line feed, and gives what it prints.
    fn line(&mut self, line: &[u8]) -> String {
        self.text.extend_from_slice(line);
        self.text.push(b'\n');
        self.replay.answer(line)
    }

    fn call(&mut self, line: &str) -> String {
        self.line(line.as_bytes())
    }

    /// Adds several calls, separated by commas.
    fn calls(&mut self, lines: &str) {
        for line in lines.split(',') {
            self.call(line.trim());
        }
    }

    /// Begins a transaction with these writes, asks for its commit, and gives its ticket.
    fn ask(&mut self, place: usize, writes: &[(u32, i32)]) -> u32 {
        self.call(&format!("B {place}"));
        let ticket = self.replica(place).report().tickets;
        for (item, value) in writes {
            self.call(&format!("W {place} {ticket} {item} {value}"));
        }
        self.call(&format!("C {place} {ticket}"));
        ticket
    }

    /// Sends, and gives the number of the block. The call must be one that is accepted.
    fn send(&mut self, place: usize) -> u64 {
        let number = self.replay.sent();
        self.call(&format!("S {place}"));
        assert_eq!(self.replay.sent(), number + 1, "no block of place {place}");
        number
    }

    /// Delivers a block of the run.
    fn deliver(&mut self, place: usize, number: u64) {
        self.call(&format!("D {place} {number}"));
    }

    /// Delivers any bytes, and gives what that prints.
    fn deliver_bytes(&mut self, place: usize, bytes: &[u8]) -> String {
        self.call(&format!("H {place} {}", hex(bytes)))
    }

    /// Delivers a block of the run and works until nothing waits at the turn.
    fn take(&mut self, place: usize, number: u64) {
        self.deliver(place, number);
        self.work_off(place);
    }

    /// Works until nothing waits at the turn.
    fn work_off(&mut self, place: usize) {
        while self.call(&format!("K {place}")).starts_with("0 ") {}
    }

    /// The replica or station at a place where one is made.
    fn replica(&self, place: usize) -> &Replica {
        let replica = self.replay.replica(place);
        replica.unwrap_or_else(|| panic!("no replica is made at place {place}"))
    }
}

#[cfg(test)]
mod tests;

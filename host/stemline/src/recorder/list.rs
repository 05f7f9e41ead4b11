//! The list of calls, and that of their answers, as text.

use std::io::{self, Write};

use crate::ffi::WorkReply;
use crate::{Refusal, Report, ITEMS, TABLE};

#[derive(Debug)]
pub(super) struct List<C, A> {
    pub calls: C,
    pub answers: A,
    /// Where the replica stands in the list.
    place: u32,
    /// What the replica's items start with, and what all items start with in the list.
    start: [i32; ITEMS],
    pub value: i32,
    /// Whether the list's replica reports what this one does.
    pub reports: bool,
    pub left_out: u64,
    pub stopped: Option<String>,
}

impl<C: Write, A: Write> List<C, A> {
    /// Of replica `place`.
    pub fn new(place: u32, start: &[i32; ITEMS], calls: C, answers: A) -> List<C, A> {
        let count = |value: &&i32| start.iter().filter(|other| other == value).count();
        List {
            calls,
            answers,
            place,
            start: *start,
            value: start.iter().max_by_key(count).copied().unwrap_or(0),
            reports: true,
            left_out: 0,
            stopped: None,
        }
    }

    /// Whether a value of an item may be the one that it starts with, and is another in the list.
    pub fn is_start(&self, item: usize, value: i32) -> bool {
        value == self.start[item] && value != self.value
    }

    /// Writes a call and its answer. Each argument has a space in front.
    pub fn record(&mut self, letter: char, arguments: &str, answer: &str) {
        if self.stopped.is_some() {
            return;
        }
        let place = self.place;
        let call = format!("{letter} {place}{arguments}\n");
        let written = self.calls.write_all(call.as_bytes());
        self.done("calls", written);
        if self.stopped.is_none() {
            let written = self.answers.write_all(format!("{answer}\n").as_bytes());
            self.done("answers", written);
        }
    }

    /// Writes a call that is lent bytes, if a line takes so many: more are refused by their length.
    pub fn record_bytes(
        &mut self,
        letter: char,
        bytes: &[u8],
        most: usize,
        answer: &Result<(), Refusal>,
    ) {
        if bytes.len() > most {
            self.left_out += 1;
            return;
        }
        let shown = answered(answer, |()| String::new());
        self.record(letter, &format!(" {}", hex(bytes)), &shown);
    }

    pub fn flush(&mut self) {
        let flushed = self.calls.flush();
        self.done("calls", flushed);
        let flushed = self.answers.flush();
        self.done("answers", flushed);
    }

    fn done(&mut self, what: &str, result: io::Result<()>) {
        if let (Err(error), None) = (result, &self.stopped) {
            self.stopped = Some(format!("the {what} cannot be written: {error}"));
        }
    }
}

/// A refusal's number, or 0 and what is behind it.
pub(super) fn answered<T>(answer: &Result<T, Refusal>, show: impl Fn(&T) -> String) -> String {
    match answer {
        Ok(given) => format!("0{}", show(given)),
        Err(refusal) => refusal.number().to_string(),
    }
}

pub(super) fn report(of: &Report) -> String {
    format!(
        "0 {} {} {} {} {} {} {} {}",
        of.turn,
        of.commits,
        of.tickets,
        of.open_count,
        of.committed,
        of.read_only,
        of.aborted,
        of.withdrawn
    )
}

pub(super) fn work(of: &WorkReply) -> String {
    if of.number != 0 {
        return of.number.to_string();
    }
    let count = TABLE.min(usize::from(of.count));
    let aborted = of.aborted[..count].iter().map(|t| format!(" {t}"));
    let (moved, aborted) = (u8::from(of.moved), aborted.collect::<String>());
    format!("0 {} {} {moved} {count}{aborted}", of.sender, of.ticket)
}

/// Bytes as lowercase hexadecimal digits.
pub(super) fn hex(bytes: &[u8]) -> String {
    bytes.iter().map(|byte| format!("{byte:02x}")).collect()
}

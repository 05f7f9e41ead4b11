//! Answers in words.

use std::ops::Range;

use super::parse::Who;
use super::Words;
use crate::block::{self, Message, BLOCK};
use crate::giving::Given;
use crate::notice::{Kind, Notice};
use crate::refusal::NOT_IN_WINDOW;
use crate::replica::{Report, Restarted, Work, ITEMS};
use crate::trace::{Answer, Call};

/// What a replica or the station answers to a call. `out` is the slot that its turn was at, if that was
/// out there.
pub(super) fn answer(
    who: Who,
    call: &Call,
    answer: &Result<Answer, u8>,
    out: Option<u32>,
    words: Words,
) -> String {
    let said = match answer {
        Err(number) => return refusal(who, *number, words),
        Ok(Answer::Done) => done(call),
        Ok(Answer::Ticket(ticket)) => format!("begins ticket {ticket}"),
        Ok(Answer::Value(value)) => format!("reads {value}"),
        Ok(Answer::ReadOnly(read_only)) => asked(call, *read_only),
        Ok(Answer::Report(numbers)) => report(numbers),
        Ok(Answer::Block(block)) => format!("sends {}", contents(block)),
        Ok(Answer::Work(work)) => worked(work, out),
    };
    format!("{who} {said}")
}

pub(super) fn refusal(who: Who, number: u8, words: Words) -> String {
    format!("{who} refuses by {number}: {}", words(number))
}

/// A call that is accepted, and no more.
fn done(call: &Call) -> String {
    match call {
        Call::Write {
            ticket,
            item,
            value,
        } => format!("writes {value} to item {item} under ticket {ticket}"),
        Call::Withdraw { ticket } => format!("ends ticket {ticket} as withdrawn"),
        Call::Deliver { bytes } => match bytes.as_slice().try_into() {
            Ok(block) => format!("keeps the block of slot {}", block::header(block).slot),
            Err(_) => "keeps bytes that are no block".to_string(),
        },
        Call::Load { .. } => "loads the classes".to_string(),
        Call::Notice(Notice { kind, about, slot }) => match kind {
            Kind::Out => format!("takes it that replica {about} is out from slot {slot}"),
            Kind::Back => format!("takes it that replica {about} is back at slot {slot}"),
        },
        other => format!("accepts {other:?}"),
    }
}

fn asked(call: &Call, read_only: bool) -> String {
    let ticket = match call {
        Call::Ask { ticket } => *ticket,
        _ => 0,
    };
    match read_only {
        true => format!("ends ticket {ticket} as read-only: it wrote nothing"),
        false => format!("keeps ticket {ticket} for its next block"),
    }
}

fn report(of: &Report) -> String {
    format!(
        "reports turn {}, commits {}, tickets {}: open {}, committed {}, read-only {}, aborted {}, withdrawn {}",
        of.turn, of.commits, of.tickets, of.open, of.committed, of.read_only, of.aborted, of.withdrawn
    )
}

fn worked(work: &Work, out: Option<u32>) -> String {
    let sender = work.sender;
    let mut said = match (work.ticket, out) {
        (0, Some(slot)) => format!("passes slot {slot} of replica {sender}, which is out"),
        (0, None) => format!("passes over the block of replica {sender}"),
        (ticket, _) => format!("commits ticket {ticket} of replica {sender}"),
    };
    said += &aborts(&work.aborted);
    said += match work.moved {
        true => "; the turn moves",
        false => "; the turn stays",
    };
    said
}

fn aborts(tickets: &[u32]) -> String {
    match tickets {
        [] => String::new(),
        [ticket] => format!("; aborts its own ticket {ticket}"),
        _ => format!("; aborts its own tickets {}", list(tickets)),
    }
}

/// A giving at a replica, in which the turn passed these slots.
pub(super) fn given(k: usize, given: &Given, slots: Range<u32>, words: Words) -> String {
    let who = Who::Replica(k);
    let giver = given
        .giver
        .map_or(String::new(), |g| format!("replica {g}"));
    let what = match slots.len() {
        0 => "nothing".to_string(),
        1 => format!("slot {}", slots.start),
        _ => format!("slots {} to {}", slots.start, slots.end - 1),
    };
    let gives = format!("{giver} gives {what}{}", aborts(&given.aborted));
    match (given.number, given.giver) {
        (0, _) => format!("{who} comes back: {gives}"),
        (NOT_IN_WINDOW, _) => format!("{}; {giver} is asked", refusal(who, NOT_IN_WINDOW, words)),
        (number, Some(_)) => format!("{}; before that {gives}", refusal(who, number, words)),
        (number, None) => refusal(who, number, words),
    }
}

/// Slot and writesets of a block that was handed out.
fn contents(bytes: &[u8; BLOCK]) -> String {
    let header = block::header(bytes);
    let Ok(Message { slot, records, .. }) = block::decode(bytes) else {
        return format!("a block of slot {} that is not well formed", header.slot);
    };
    if records.is_empty() {
        return format!("the block of slot {slot}, without writesets");
    }
    let writesets = records.iter().map(|record| {
        let entries = record.entries.iter();
        let sets = entries.map(|e| format!("item {} to {}", e.item, e.value));
        format!("ticket {} sets {}", record.ticket, list(sets))
    });
    let writesets: Vec<String> = writesets.collect();
    format!("the block of slot {slot}: {}", writesets.join("; "))
}

pub(super) fn restarted(k: usize, answer: &Restarted) -> String {
    let blocks = match answer.count {
        1 => "1 block".to_string(),
        count => format!("{count} blocks"),
    };
    let last = match answer.gave_back() {
        true => format!("hands out once more {}", contents(&answer.block)),
        false => "has no own block to hand out".to_string(),
    };
    format!("replica {k} restarts with {blocks} of its journal, and {last}")
}

pub(super) fn journal(k: usize, disk: &[u8]) -> String {
    let (blocks, rest) = disk.as_chunks::<BLOCK>();
    let mut held: Vec<String> = blocks
        .iter()
        .map(|block| format!("slot {}", block::header(block).slot))
        .collect();
    if !rest.is_empty() {
        held.push(format!("{} bytes", rest.len()));
    }
    match held.is_empty() {
        true => format!("the journal of replica {k} is empty"),
        false => format!("the journal of replica {k} has {}", list(held)),
    }
}

/// The values that are not those of the make.
pub(super) fn values(who: &str, values: &[i32; ITEMS], start: i32) -> String {
    let changed = values.iter().enumerate().filter(|(_, &v)| v != start);
    let changed: Vec<String> = changed.map(|(i, v)| format!("item {i} at {v}")).collect();
    match changed.is_empty() {
        true => format!("{who} all items at {start}"),
        false => format!("{who} {}, the others at {start}", list(changed)),
    }
}

fn list<T: ToString>(things: impl IntoIterator<Item = T>) -> String {
    let things: Vec<String> = things.into_iter().map(|thing| thing.to_string()).collect();
    things.join(", ")
}

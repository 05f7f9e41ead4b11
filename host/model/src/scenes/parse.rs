//! The lines of a scene, and its commands.

mod rest;

use std::fmt;
use std::ops::RangeInclusive;

use self::rest::Rest;
use crate::block::{BLOCK, ENTRIES, RECORDS};
use crate::giving::DOWN;
use crate::notice::Notice;
use crate::replica::ITEMS;
use crate::trace::Call;

/// The lengths that bytes can be brought to.
const LENGTHS: RangeInclusive<usize> = 0..=2 * BLOCK;

/// A line of a file, and what it is.
pub(super) struct FileLine<'a> {
    pub text: &'a str,
    pub content: Line,
}

#[derive(Debug)]
pub(super) enum Line {
    /// A comment, or an empty line.
    Remark,
    Command(Command),
    Dashes,
    Answer,
}

#[derive(Debug)]
pub(super) enum Command {
    Make {
        n: u32,
        value: i32,
    },
    /// A station; beside the group that is there, if no size is said.
    MakeStation {
        n: Option<u32>,
    },
    Stabilize,
    Values,
    Bytes {
        slot: u32,
        range: RangeInclusive<usize>,
    },
    At(Who, Local),
}

/// Where something is done.
#[derive(Clone, Copy, Debug, PartialEq, Eq, PartialOrd, Ord)]
pub(super) enum Who {
    Replica(usize),
    Station,
}

impl fmt::Display for Who {
    fn fmt(&self, f: &mut fmt::Formatter) -> fmt::Result {
        match self {
            Who::Replica(k) => write!(f, "replica {k}"),
            Who::Station => f.write_str("the station"),
        }
    }
}

/// What is done at one replica, or at the station.
#[derive(Debug)]
pub(super) enum Local {
    Call(Call),
    Deliver(Carried),
    Take(Carried),
    Restart {
        bytes: Option<usize>,
        bit: Option<usize>,
        with: Option<Carried>,
    },
    Journal,
    Values,
    Late {
        slots: u32,
        tickets: u32,
    },
    Lose {
        ticket: u32,
    },
    /// Whether nothing comes to it by `stabilize`.
    Close(bool),
    /// A giving, told these turns; or those that the others have.
    Give {
        turns: Option<Vec<u32>>,
    },
    /// Sends and works, until the turn is this.
    Alone {
        to: u32,
    },
}

/// Bytes on their way to a replica.
#[derive(Debug)]
pub(super) struct Carried {
    pub block: Source,
    pub changes: Vec<Change>,
}

/// Ticket and entries of a writeset.
pub(super) type Writeset = (u32, Vec<(u8, i32)>);

#[derive(Debug)]
pub(super) enum Source {
    /// The block handed out for a slot.
    Slot(u32),
    /// One that nobody sent.
    Forged {
        slot: u32,
        n: u32,
        records: Vec<Writeset>,
    },
}

#[derive(Debug)]
pub(super) enum Change {
    Bit(usize),
    Byte(usize, u8),
    Word(usize, u16),
    Checked,
    Length(usize),
}

/// The lines of a scene; or the number of a wrong one, counted from 1, and what is wrong with it.
pub(super) fn lines(text: &str) -> Result<Vec<FileLine<'_>>, (usize, String)> {
    let wrong = |line: usize, words: &str| Err((line, words.to_string()));
    if !text.starts_with("# ") {
        let words = "the file begins with what it shows, behind a # and a space";
        return wrong(1, words);
    }
    let mut lines = Vec::new();
    // The commands that have no dashes yet; whether answers follow; the dashes so far.
    let (mut open, mut answers, mut dashes) = (0, false, 0);
    for (text, number) in text.lines().zip(1..) {
        let content = match text {
            "----" if open == 0 => return wrong(number, "no command stands before the dashes"),
            "----" => {
                (open, answers, dashes) = (0, true, dashes + 1);
                Line::Dashes
            }
            "" if open > 0 => return wrong(number, "dashes stand behind commands"),
            "" => {
                answers = false;
                Line::Remark
            }
            _ if answers => Line::Answer,
            _ if text.starts_with('#') => Line::Remark,
            _ => {
                open += 1;
                Line::Command(command(text).map_err(|words| (number, words))?)
            }
        };
        lines.push(FileLine { text, content });
    }
    match (open, dashes) {
        (1.., _) => wrong(lines.len(), "dashes stand behind commands"),
        (0, 0) => wrong(lines.len(), "the scene has no dashes, and so no answers"),
        _ => Ok(lines),
    }
}

/// The commands at one replica, whose number stands behind them, or at the station.
const LOCAL: [&str; 22] = [
    "begin", "read", "write", "ask", "withdraw", "report", "send", "deliver", "take", "work",
    "load", "out", "back", "restart", "journal", "values", "late", "lose", "close", "open", "give",
    "alone",
];

fn command(line: &str) -> Result<Command, String> {
    let mut rest = Rest::of(line);
    let name = rest.next().unwrap_or_default();
    let command = match name {
        "make" if rest.takes("station") => Command::MakeStation {
            n: rest.maybe("of")?,
        },
        "make" => Command::Make {
            n: rest.number()?,
            value: rest.maybe("value")?.unwrap_or(0),
        },
        "stabilize" => Command::Stabilize,
        "values" if rest.peek().is_none() => Command::Values,
        "bytes" => Command::Bytes {
            slot: rest.named("slot")?,
            range: rest.range("from", BLOCK - 1)?,
        },
        _ if LOCAL.contains(&name) => {
            let who = match rest.takes("station") {
                true => Who::Station,
                false => Who::Replica(rest.number()?),
            };
            Command::At(who, local(name, &mut rest)?)
        }
        _ => return Err(unknown(name)),
    };
    rest.end()?;
    Ok(command)
}

fn unknown(name: &str) -> String {
    format!("{name:?} is no command")
}

fn local(name: &str, rest: &mut Rest) -> Result<Local, String> {
    Ok(match name {
        "deliver" => Local::Deliver(carried(rest)?),
        "take" => Local::Take(carried(rest)?),
        "restart" => Local::Restart {
            bytes: rest.maybe("bytes")?,
            bit: rest.maybe("bit")?,
            with: rest.takes("with").then(|| carried(rest)).transpose()?,
        },
        "journal" => Local::Journal,
        "close" => Local::Close(true),
        "open" => Local::Close(false),
        "values" => Local::Values,
        "give" => Local::Give {
            turns: rest.takes("turns").then(|| turns(rest)).transpose()?,
        },
        "alone" => Local::Alone {
            to: rest.named("to")?,
        },
        "late" => Local::Late {
            slots: rest.named("slots")?,
            tickets: rest.named("tickets")?,
        },
        "lose" => Local::Lose {
            ticket: rest.named("ticket")?,
        },
        _ => Local::Call(call(name, rest)?),
    })
}

/// The calls that have all their arguments in the line.
fn call(name: &str, rest: &mut Rest) -> Result<Call, String> {
    Ok(match name {
        "read" => Call::Read {
            ticket: rest.named("ticket")?,
            item: rest.named("item")?,
        },
        "write" => Call::Write {
            ticket: rest.named("ticket")?,
            item: rest.named("item")?,
            value: rest.named("value")?,
        },
        "ask" => Call::Ask {
            ticket: rest.named("ticket")?,
        },
        "withdraw" => Call::Withdraw {
            ticket: rest.named("ticket")?,
        },
        "report" => Call::Report,
        "send" => Call::Send,
        "work" => Call::Work,
        "load" => Call::Load {
            classes: classes(rest)?,
        },
        "out" => {
            let about = rest.named("replica")?;
            Call::Notice(Notice::out(about, rest.named("from")?))
        }
        "back" => {
            let about = rest.named("replica")?;
            Call::Notice(Notice::back(about, rest.named("at")?))
        }
        "begin" => Call::Begin,
        _ => return Err(unknown(name)),
    })
}

/// Turns that are told, one at least.
fn turns(rest: &mut Rest) -> Result<Vec<u32>, String> {
    let mut turns = Vec::new();
    while turns.is_empty() || rest.peek().is_some() {
        turns.push(match rest.takes("down") {
            true => DOWN,
            false => rest.number()?,
        });
    }
    Ok(turns)
}

/// Bytes to deliver: whose block, and what is changed of it.
fn carried(rest: &mut Rest) -> Result<Carried, String> {
    let block = match rest.takes("forged") {
        false => Source::Slot(rest.named("slot")?),
        true => Source::Forged {
            slot: rest.named("slot")?,
            n: {
                rest.word("of")?;
                // It is one byte of the block.
                rest.within(1..=255)? as u32
            },
            records: records(rest)?,
        },
    };
    let mut changes = Vec::new();
    while let Some(change) = change(rest)? {
        changes.push(change);
    }
    Ok(Carried { block, changes })
}

fn records(rest: &mut Rest) -> Result<Vec<Writeset>, String> {
    let mut records = Vec::new();
    while let Some(ticket) = rest.maybe("ticket")? {
        let mut entries = Vec::new();
        while let Some(item) = rest.maybe("item")? {
            entries.push((item, rest.named("value")?));
        }
        if entries.len() > ENTRIES {
            return Err(format!("a record has room for {ENTRIES} items"));
        }
        records.push((ticket, entries));
    }
    match records.len() > RECORDS {
        true => Err(format!("a block has room for {RECORDS} tickets")),
        false => Ok(records),
    }
}

fn change(rest: &mut Rest) -> Result<Option<Change>, String> {
    Ok(Some(if rest.takes("bit") {
        Change::Bit(rest.within(0..=8 * BLOCK - 1)?)
    } else if rest.takes("byte") {
        Change::Byte(rest.within(0..=BLOCK - 1)?, rest.named("to")?)
    } else if rest.takes("word") {
        Change::Word(rest.within(0..=BLOCK / 2 - 1)?, rest.named("to")?)
    } else if rest.takes("checked") {
        Change::Checked
    } else if rest.takes("length") {
        Change::Length(rest.within(LENGTHS)?)
    } else {
        return Ok(None);
    }))
}

/// A table of classes: one for all items, then others for some.
fn classes(rest: &mut Rest) -> Result<Vec<u8>, String> {
    let mut classes = vec![rest.named("class")?; ITEMS];
    while rest.peek() == Some("items") {
        let items = rest.range("items", ITEMS - 1)?;
        classes[items].fill(rest.named("class")?);
    }
    if rest.takes("length") {
        classes.resize(rest.within(LENGTHS)?, 1);
    }
    Ok(classes)
}

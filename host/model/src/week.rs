//! The program `week` by the model (document 02, Req 09): a week of designers as lines, and the text that
//! it prints.
//!
//! The first line is `N n`, n from 2 to 4, and prints nothing: it makes the replicas 0 to n − 1, all values
//! 0. Any other first line, or none, prints `27`, and that is all. Each later line prints one number, 0
//! where its call is accepted:
//!
//! | Line | Call |
//! |---|---|
//! | `B k` | begin |
//! | `W k ticket item value` | write |
//! | `C k ticket` | ask |
//! | `S k` | send; the block is kept |
//! | `D k slot` | deliver the block of that slot, of those kept |
//! | `K k` | work |
//!
//! The blocks of the last 16 accepted sends are kept, over all replicas. At the end each replica prints
//! `k turn commits open`.
//!
//! A number that refuses the call is the engine's. Before it come these two, which change nothing:
//!
//! - 27: a line that is none of the six, or whose k is not below n. One space stands between fields, and
//!   none at an end. A number is written as it would be printed and is of 32 bits, signed for a value,
//!   unsigned for the others. A line ends at a line feed and nowhere else, and may be of any length; a
//!   last line without line feed counts, an empty rest behind the last line feed does not.
//! - 26: `D` of a block that is not kept.

mod weeks;

use std::collections::VecDeque;
use std::io::{self, BufRead, Write};

use crate::block::BLOCK;
use crate::replay::parse::number;
use crate::replica::{Replica, ITEMS};

pub use self::weeks::{every_refusal, examples, forgotten_blocks, seeded, stored, SEVEN};

/// The blocks that are kept.
pub const KEPT: usize = 16;
/// The most replicas of a week.
pub const MOST: u32 = 4;
/// The block of that slot is not kept.
pub const NOT_KEPT: u8 = 26;
/// No line of the format.
pub const NO_LINE: u8 = 27;

/// Prints what the lines of the input give.
pub fn run(mut input: impl BufRead, mut output: impl Write) -> io::Result<()> {
    let mut line = Vec::new();
    input.read_until(b'\n', &mut line)?;
    let Some(mut week) = Week::begin(text(&line)) else {
        writeln!(output, "{NO_LINE}")?;
        return output.flush();
    };
    line.clear();
    while input.read_until(b'\n', &mut line)? > 0 {
        writeln!(output, "{}", week.answer(text(&line)))?;
        line.clear();
    }
    output.write_all(week.table().as_bytes())?;
    output.flush()
}

/// A line without its line feed.
fn text(line: &[u8]) -> &[u8] {
    line.strip_suffix(b"\n").unwrap_or(line)
}

/// The replicas of a week, and the blocks sent last, each with its slot.
#[derive(Clone, Debug, PartialEq, Eq)]
pub struct Week {
    replicas: Vec<Replica>,
    kept: VecDeque<(u32, [u8; BLOCK])>,
}

/// What a line asks of a replica.
enum Line {
    Begin,
    Write { ticket: u32, item: u32, value: i32 },
    Ask { ticket: u32 },
    Send,
    Deliver { slot: u32 },
    Work,
}

impl Week {
    /// The week whose first line this is, if it can be one.
    pub fn begin(first: &[u8]) -> Option<Week> {
        let n: u32 = number(first.strip_prefix(b"N ")?)?;
        if !(2..=MOST).contains(&n) {
            return None;
        }
        let replicas = (0..n).map(|own| Replica::make(n, own, &[0; ITEMS]).ok());
        Some(Week {
            replicas: replicas.collect::<Option<_>>()?,
            kept: VecDeque::new(),
        })
    }

    /// Plays one line, without its line feed, and gives the number that it prints.
    pub fn answer(&mut self, line: &[u8]) -> u8 {
        match self.play(line) {
            Ok(()) => 0,
            Err(number) => number,
        }
    }

    /// The replicas, by number.
    pub fn replicas(&self) -> &[Replica] {
        &self.replicas
    }

    /// The slots of the blocks that are kept, the oldest first.
    pub fn kept(&self) -> Vec<u32> {
        self.kept.iter().map(|&(slot, _)| slot).collect()
    }

    /// What is printed at the end.
    pub fn table(&self) -> String {
        let rows = self.replicas.iter().enumerate().map(|(k, replica)| {
            let report = replica.report();
            format!("{k} {} {} {}\n", report.turn, report.commits, report.open)
        });
        rows.collect()
    }

    fn play(&mut self, line: &[u8]) -> Result<(), u8> {
        let (k, line) = parse(line).ok_or(NO_LINE)?;
        let replica = self.replicas.get_mut(k as usize).ok_or(NO_LINE)?;
        match line {
            Line::Begin => replica.begin().map(|_| ()),
            Line::Write {
                ticket,
                item,
                value,
            } => replica.write(ticket, item, value),
            Line::Ask { ticket } => replica.ask(ticket).map(|_| ()),
            Line::Send => {
                let slot = replica.turn;
                let block = replica.send()?;
                self.kept.push_back((slot, block));
                if self.kept.len() > KEPT {
                    self.kept.pop_front();
                }
                Ok(())
            }
            Line::Deliver { slot } => {
                let found = self.kept.iter().find(|(of, _)| *of == slot);
                let (_, block) = found.ok_or(NOT_KEPT)?;
                replica.deliver(block)
            }
            Line::Work => replica.work().map(|_| ()),
        }
    }
}

/// The replica that a line names, and what it asks of it, if it is one of the six.
fn parse(line: &[u8]) -> Option<(u32, Line)> {
    let fields: Vec<&[u8]> = line.split(|&byte| byte == b' ').collect();
    let [letter, k, arguments @ ..] = fields.as_slice() else {
        return None;
    };
    let content = match (*letter, arguments) {
        (b"B", []) => Line::Begin,
        (b"W", [ticket, item, value]) => Line::Write {
            ticket: number(ticket)?,
            item: number(item)?,
            value: number(value)?,
        },
        (b"C", [ticket]) => Line::Ask {
            ticket: number(ticket)?,
        },
        (b"S", []) => Line::Send,
        (b"D", [slot]) => Line::Deliver {
            slot: number(slot)?,
        },
        (b"K", []) => Line::Work,
        _ => return None,
    };
    Some((number(k)?, content))
}

#[cfg(test)]
mod tests;

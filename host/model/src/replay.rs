//! The program `replay` by the model: a list of calls as text, and the text that it prints.
//!
//! One call to a line, and one line printed for each; k is the place of a replica or station, 0 to 7.
//!
//! | Line | Call | Prints |
//! |---|---|---|
//! | `M k n own v` | make, all 128 values v | `0` |
//! | `A k n v` | make a station, all 128 values v | `0` |
//! | `B k` | begin | `0 ticket` |
//! | `R k ticket item` | read | `0 value` |
//! | `W k ticket item v` | write | `0` |
//! | `C k ticket` | ask | `0 1` where it ended as read-only, else `0 0` |
//! | `X k ticket` | withdraw | `0` |
//! | `Q k` | report | `0 turn commits tickets open committed read-only aborted withdrawn` |
//! | `S k` | send | `0` and the block, 1,024 hexadecimal digits |
//! | `D k i` | deliver block i | `0` |
//! | `F k i b` | deliver block i with bit b changed: bit b mod 8 of byte b / 8 | `0` |
//! | `H k hex` | deliver these bytes | `0` |
//! | `K k` | work | `0 sender ticket moved count`, then that many aborted tickets |
//! | `V k` | the 128 values | `0` and the values |
//! | `Z k b v` | restart from the first b bytes of the journal, with the N and own number that the replica has, all 128 values v | `0 c` and a block: c the blocks committed, and the block given back |
//! | `Y k n own v hex` | restart from these bytes as journal, all 128 values v | as `Z` |
//! | `J k i` | block i, from 0, of the journal | `0` and the block |
//! | `P k hex` | load: these bytes as the classes of the items | `0` |
//! | `O k r s` | the notice Out r from s | `0` |
//! | `U k r s` | the notice Back r at s | `0` |
//! | `G k t0 t1 ..` | a giving, told these turns, one for each replica | `0 giver count`, then that many aborted tickets |
//!
//! The journal of a place holds what was appended there: by `S` its block, by `K` and the works of `G`
//! that of another whose slot it left, or the *next* of a slot that it passed as out; after an accepted
//! `M` it is empty, after an accepted `Z` or `Y` it is the c blocks. It has room for 128 blocks. One more
//! is not kept, and the journal is *outgrown* then until the next accepted `M` or `Y`.
//!
//! `Z` is lent the notices (document 02, Req 10) that were taken at the place, in order, of which 32 are
//! kept; `Y` is lent none.
//!
//! `G` (document 02, Req 11) is lent the window of the giver that the turns name: the replica with number
//! g stands at place g. 4294967295 is told of one that is down.
//!
//! A station (document 02, Req 05) has no number of its own, and no journal: `W` and `S` are refused
//! there by 25, whatever their numbers are.
//!
//! A refused call prints its number instead; but behind 31 `G` names the giver, and where a deliver was
//! refused all that it prints behind 0. These print `?` and change nothing:
//!
//! - A line that is none of the above, be it empty or of any length. Letters are capital. Fields are
//!   what single spaces separate, so two spaces in a row, or one at an end, make an empty field. A
//!   line ends at a line feed and nowhere else, so a tab or a carriage return is part of a field.
//!   A last line without line feed counts; an empty rest behind the last line feed does not.
//! - A number that is not written as it would be printed: with a plus sign, a zero in front, `-0`,
//!   or out of range. k is 0 to 7, b of `F` 0 to 4095; n, own, tickets, items, b of `Z`, i, r and s
//!   are any 32-bit unsigned numbers, v any 32-bit signed one.
//! - Bytes that are not lowercase, not whole, or more than 520, in `Y` more than 2,100, in `P` more than
//!   130. None are written as an empty field: the line ends in the space.
//! - A call other than `M`, `A` and `Y` at a place where nothing is made. A refused one of these makes
//!   nothing, and leaves what is there as it is; an accepted one puts a new one in its place.
//! - `D` and `F` of a block that is not kept. Accepted sends count from 0 over the whole run, at
//!   whatever place, and the blocks of the last 64 are kept, also when their replica is made anew.
//!   Blocks that a restart gives back are not counted.
//! - `Z` of more bytes than the journal has, `J` of a block that it has not, and both where it is
//!   outgrown; `Z` where more than 32 notices were taken since the last accepted `M` or `Y`.
//! - `Z`, `J`, `P` and `G` at a station; `G` with another number of turns than the place has replicas, and
//!   where the giver's place is not a replica that is made.

mod lines;
pub(crate) mod parse;
mod place;

use std::collections::VecDeque;
use std::io::{self, BufRead, Write};

use self::parse::Line;
use self::place::Place;
use crate::block::BLOCK;
use crate::giving::{self, Given};
use crate::notice::Notice;
use crate::refusal::{NOBODY_UP, NOT_IN_WINDOW};
use crate::replica::Replica;
use crate::trace::{Answer, Call};
use crate::window::Window;

pub use self::lines::{giving_line, line};
pub use self::place::{JOURNAL, NOTICES};

/// The places for replicas and stations.
pub const PLACES: usize = 8;
/// The blocks that are kept.
pub const KEPT: usize = 64;
/// The most bytes in a line that delivers them.
pub const MAX_BYTES: usize = 520;
/// The most bytes in a line that restarts from them.
pub const MAX_JOURNAL: usize = 2_100;
/// The most bytes in a line that loads them.
pub const MAX_TABLE: usize = 130;

/// Prints the answer to every line of the input.
pub fn run(mut input: impl BufRead, mut output: impl Write) -> io::Result<()> {
    let mut replay = Replay::default();
    let mut line = Vec::new();
    while input.read_until(b'\n', &mut line)? > 0 {
        let text = line.strip_suffix(b"\n").unwrap_or(&line);
        writeln!(output, "{}", replay.answer(text))?;
        line.clear();
    }
    output.flush()
}

/// A run: the replicas, the stations and the blocks sent.
#[derive(Clone, Debug, Default, PartialEq, Eq)]
pub struct Replay {
    places: [Option<Place>; PLACES],
    /// The blocks sent last.
    kept: VecDeque<[u8; BLOCK]>,
    sent: u64,
}

impl Replay {
    /// Plays one line, without its line feed, and gives what it prints.
    pub fn answer(&mut self, line: &[u8]) -> String {
        match self.play(line) {
            Some(Ok(answer)) => answer,
            Some(Err(number)) => number.to_string(),
            None => "?".to_string(),
        }
    }

    /// The replica or station at a place.
    pub fn replica(&self, place: usize) -> Option<&Replica> {
        Some(&self.places[place].as_ref()?.replica)
    }

    /// The journal of a place, if it is not outgrown.
    pub fn journal(&self, place: usize) -> Option<&[u8]> {
        self.places[place].as_ref()?.journal()
    }

    /// The number of blocks sent in the run.
    pub fn sent(&self) -> u64 {
        self.sent
    }

    /// The block sent as number `i`, counted from 0, if it is kept.
    pub fn block(&self, i: u64) -> Option<&[u8; BLOCK]> {
        let first = self.sent - self.kept.len() as u64;
        self.kept.get(usize::try_from(i.checked_sub(first)?).ok()?)
    }

    /// `None` is printed as `?`.
    fn play(&mut self, line: &[u8]) -> Option<Result<String, u8>> {
        let (place, line) = parse::line(line)?;
        let call = match line {
            Line::Make { n, own, value } => {
                return Some(self.put(place, Place::make(n, own, value)));
            }
            Line::Station { n, value } => {
                return Some(self.put(place, Place::station(n, value)));
            }
            Line::Cut { bytes, value } => {
                let made = self.places[place].as_ref()?;
                let journal = made.journal()?.get(..bytes as usize)?.to_vec();
                let notices = made.notices()?.to_vec();
                let (n, own) = (made.replica.inbox.len() as u32, made.replica.own?.into());
                return Some(self.restart(place, (n, own), value, journal, &notices));
            }
            Line::Restart {
                n,
                own,
                value,
                journal,
            } => return Some(self.restart(place, (n, own), value, journal, &[])),
            Line::Journal { i } => {
                let block = self.places[place].as_ref()?.block(i as usize)?;
                return Some(Ok(accepted(&[hex(block)])));
            }
            Line::Give { turns } => return self.give(place, &turns).map(Ok),
            Line::Values => return Some(Ok(accepted(self.replica(place)?.values()))),
            Line::Call(call) => call,
            Line::Deliver { i, bit } => {
                let mut bytes = self.block(i)?.to_vec();
                if let Some(bit) = bit {
                    bytes[bit / 8] ^= 1 << (bit % 8);
                }
                Call::Deliver { bytes }
            }
        };
        let made = self.places[place].as_mut()?;
        if made.replica.is_station() && matches!(call, Call::Load { .. }) {
            return None;
        }
        let answer = made.call(&call);
        if let Ok(Answer::Block(block)) = &answer {
            self.kept.push_back(**block);
            if self.kept.len() > KEPT {
                self.kept.pop_front();
            }
            self.sent += 1;
        }
        Some(answer.map(|answer| show(&answer)))
    }

    /// A giving at a place, and what that prints.
    fn give(&mut self, place: usize, turns: &[u32]) -> Option<String> {
        let window = match self.replica(place)?.giver(turns) {
            Ok(giver) => {
                let giver = self.replica(giver.into())?;
                (!giver.is_station()).then(|| giver.window.clone())?
            }
            // It is not looked at.
            Err(NOBODY_UP) => Window::empty(0),
            Err(_) => return None,
        };
        let returner = self.places[place].as_mut()?;
        Some(show_given(&giving::give(returner, turns, &window)))
    }

    /// Puts what is just made at a place, and gives what that prints.
    fn put(&mut self, place: usize, made: Result<Place, u8>) -> Result<String, u8> {
        self.places[place] = Some(made?);
        Ok(accepted::<u32>(&[]))
    }

    /// Puts a restarted replica, by its group's size and its number, at a place, and gives what that
    /// prints.
    fn restart(
        &mut self,
        place: usize,
        number: (u32, u32),
        value: i32,
        journal: Vec<u8>,
        notices: &[Notice],
    ) -> Result<String, u8> {
        let (made, count, block) = Place::restart(number, value, journal, notices)?;
        self.places[place] = Some(made);
        Ok(accepted(&[count.to_string(), hex(&block)]))
    }
}

/// An accepted call's answer as it is printed.
pub fn show(answer: &Answer) -> String {
    match answer {
        Answer::Done => accepted::<u32>(&[]),
        Answer::Ticket(ticket) => accepted(&[ticket]),
        Answer::Value(value) => accepted(&[value]),
        Answer::ReadOnly(read_only) => accepted(&[u8::from(*read_only)]),
        Answer::Report(report) => accepted(&[
            report.turn,
            report.commits,
            report.tickets,
            report.open,
            report.committed,
            report.read_only,
            report.aborted,
            report.withdrawn,
        ]),
        Answer::Block(block) => accepted(&[hex(&**block)]),
        Answer::Work(work) => {
            let (moved, count) = (u32::from(work.moved), work.aborted.len() as u32);
            let mut numbers = vec![u32::from(work.sender), work.ticket, moved, count];
            numbers.extend(&work.aborted);
            accepted(&numbers)
        }
    }
}

/// What a giving answers as it is printed.
pub fn show_given(given: &Given) -> String {
    let mut fields = vec![u32::from(given.number)];
    fields.extend(given.giver.map(u32::from));
    if ![NOBODY_UP, NOT_IN_WINDOW].contains(&given.number) {
        fields.push(given.aborted.len() as u32);
        fields.extend(&given.aborted);
    }
    let fields: Vec<String> = fields.iter().map(u32::to_string).collect();
    fields.join(" ")
}

/// 0 and what follows it, separated by spaces.
fn accepted<T: ToString>(fields: &[T]) -> String {
    let mut text = "0".to_string();
    for field in fields {
        text.push(' ');
        text.push_str(&field.to_string());
    }
    text
}

/// Bytes as lowercase hexadecimal digits.
pub fn hex(bytes: &[u8]) -> String {
    bytes.iter().map(|byte| format!("{byte:02x}")).collect()
}

#[cfg(test)]
mod tests;

//! A replica that writes down its calls and answers, for the program `replay`.

mod giving;
mod list;
mod rewrite;
mod station;

use std::io::Write;

use self::list::{answered, hex, List};
pub use self::station::StationRecorder;
use crate::ffi::WorkReply;
use crate::replica::{works, ONE_SLOT, WAITING};
use crate::{Asked, Notice, Refusal, Replica, Report, Restarted, Taken, Work, BLOCK, ITEMS};

/// The most bytes that a line of the list delivers, restarts from, and loads.
const DELIVERED: usize = 520;
const RESTARTED: usize = 2_100;
const LOADED: usize = 130;

/// A replica that writes each call and its answer as it makes them: the call into one sink, the answer
/// into another, a line to each, in the format of the program `replay` (`host/model/src/replay.rs`).
/// `scripts/recorded CALLS ANSWERS` plays the calls through that program, which is proved, and names the
/// first line that differs. The place in the list is the replica's own number, so that the lists of a
/// whole group can also stand in one file, one behind the other.
///
/// The calls are those of [`Replica`], and answer the same. Where a sink fails, recording stops, the
/// calls go on, and [`Recorder::stopped`] says why. Each line is a write: a sink that takes its time is
/// best a [`std::io::BufWriter`].
///
/// A list says no more than its format can. A call that it cannot say is left out, if it changes nothing,
/// and [`Recorder::left_out`] counts it:
///
/// - A list starts all items with one value, here the most frequent of the 128. The values decide nothing
///   but what is read: a read is left out where it gives an item's value to start with and that is
///   another; [`Recorder::values`] is, where an item still has such a value.
/// - A deliver of more than 520 bytes and a load of more than 130, both refused by 1.
/// - Reports after a restart from more than 128 blocks, see [`Recorder::restart`].
/// - A giving that is refused by 1 or 31, or gives nothing: see [`Recorder::give`].
///
/// ```
/// use stemline::{Recorder, Refusal, ITEMS};
///
/// fn main() -> Result<(), Refusal> {
///     let mut replica = Recorder::new(2, 0, &[0; ITEMS], Vec::new(), Vec::new())?;
///     let ticket = replica.begin()?;
///     replica.write(ticket, 5, 40)?;
///     let refused = replica.write(ticket, 128, 40);
///     assert_eq!(refused, Err(Refusal::OutOfRange));
///     assert_eq!(replica.stopped(), None);
///     let (_, calls, answers) = replica.into_parts();
///     assert_eq!(calls, b"M 0 2 0 0\nB 0\nW 0 1 5 40\nW 0 1 128 40\n");
///     assert_eq!(answers, b"0\n0 1\n0\n2\n");
///     Ok(())
/// }
/// ```
#[derive(Debug)]
pub struct Recorder<C: Write, A: Write> {
    replica: Replica,
    list: List<C, A>,
}

impl<C: Write, A: Write> Recorder<C, A> {
    /// As [`Replica::new`], with the sinks of the calls and the answers. Where it is refused, nothing is
    /// written.
    pub fn new(
        n: u32,
        own: u32,
        values: &[i32; ITEMS],
        calls: C,
        answers: A,
    ) -> Result<Recorder<C, A>, Refusal> {
        let replica = Replica::new(n, own, values)?;
        let mut list = List::new(own, values, calls, answers);
        let made = format!(" {n} {own} {}", list.value);
        list.record('M', &made, "0");
        Ok(Recorder { replica, list })
    }

    /// As [`Replica::restart`], with the sinks of the calls and the answers. Where it is refused, nothing
    /// is written.
    ///
    /// A line has room for a journal of 2,100 bytes, and for no notices. A longer one, or one with notices, is
    /// written by calls: a second replica, made for that, takes the notices and the others' blocks and sends
    /// the own ones once more, with tickets, writes and asks as they have them; then the list restarts it
    /// from these blocks. The program keeps 128, and 32 notices. Behind more the second replica goes on as it
    /// is, which differs from the restarted one in how its tickets ended, if in anything: then reports are
    /// left out. A journal that no replica could have written, with these notices, stops the recording, which
    /// [`Recorder::stopped`] tells; so does one from which more than 1,000,000 tickets are missing, each of
    /// which the list would begin and withdraw.
    #[allow(clippy::too_many_arguments)]
    pub fn restart(
        n: u32,
        own: u32,
        values: &[i32; ITEMS],
        journal: &[u8],
        notices: &[Notice],
        calls: C,
        answers: A,
    ) -> Result<(Recorder<C, A>, Restarted), Refusal> {
        let (replica, restarted) = Replica::restart(n, own, values, journal, notices)?;
        let answer = format!(
            "0 {} {}",
            restarted.blocks,
            hex(&restarted.last.unwrap_or([0; BLOCK]))
        );
        let list = if journal.len() <= RESTARTED && notices.is_empty() {
            let mut list = List::new(own, values, calls, answers);
            let lent = format!(" {n} {own} {} {}", list.value, hex(journal));
            list.record('Y', &lent, &answer);
            list
        } else {
            let mut second = Recorder::new(n, own, values, calls, answers)?;
            let taken = BLOCK * restarted.blocks as usize;
            second.take_up(&journal[..taken], notices, &replica, &answer);
            second.list
        };
        Ok((Recorder { replica, list }, restarted))
    }

    /// The replica, to look at. What is looked at here is not recorded.
    pub fn replica(&self) -> &Replica {
        &self.replica
    }

    /// As [`Replica::is_turn`]. It is no call, and not recorded.
    pub fn is_turn(&self) -> bool {
        self.replica.is_turn()
    }

    /// Why nothing more is recorded, in words; `None` while all is.
    pub fn stopped(&self) -> Option<&str> {
        self.list.stopped.as_deref()
    }

    /// How many calls were left out, because the format cannot say them. None of them changed anything.
    pub fn left_out(&self) -> u64 {
        self.list.left_out
    }

    /// Flushes both sinks. Where that fails, recording stops.
    pub fn flush(&mut self) {
        self.list.flush();
    }

    /// The replica and the two sinks, of the calls and of the answers; they are not flushed.
    pub fn into_parts(self) -> (Replica, C, A) {
        (self.replica, self.list.calls, self.list.answers)
    }

    /// As [`Replica::values`].
    pub fn values(&mut self) -> &[i32; ITEMS] {
        let values = self.replica.values();
        if (0..ITEMS).any(|item| self.list.is_start(item, values[item])) {
            self.list.left_out += 1;
        } else {
            let shown: String = values.iter().map(|value| format!(" {value}")).collect();
            self.list.record('V', "", &format!("0{shown}"));
        }
        values
    }

    /// As [`Replica::begin`].
    pub fn begin(&mut self) -> Result<u32, Refusal> {
        let answer = self.replica.begin();
        let shown = answered(&answer, |ticket| format!(" {ticket}"));
        self.list.record('B', "", &shown);
        answer
    }

    /// As [`Replica::read`].
    pub fn read(&mut self, ticket: u32, item: u32) -> Result<i32, Refusal> {
        let answer = self.replica.read(ticket, item);
        match answer {
            Ok(value) if self.list.is_start(item as usize, value) => self.list.left_out += 1,
            _ => {
                let shown = answered(&answer, |value| format!(" {value}"));
                self.list.record('R', &format!(" {ticket} {item}"), &shown);
            }
        }
        answer
    }

    /// As [`Replica::write`].
    pub fn write(&mut self, ticket: u32, item: u32, value: i32) -> Result<(), Refusal> {
        let answer = self.replica.write(ticket, item, value);
        let said = format!(" {ticket} {item} {value}");
        self.list.record('W', &said, &accepted(&answer));
        answer
    }

    /// As [`Replica::ask`].
    pub fn ask(&mut self, ticket: u32) -> Result<Asked, Refusal> {
        let answer = self.replica.ask(ticket);
        let shown = answered(&answer, |asked| match asked {
            Asked::ReadOnly => " 1".to_string(),
            Asked::Waiting => " 0".to_string(),
        });
        self.list.record('C', &format!(" {ticket}"), &shown);
        answer
    }

    /// As [`Replica::withdraw`].
    pub fn withdraw(&mut self, ticket: u32) -> Result<(), Refusal> {
        let answer = self.replica.withdraw(ticket);
        let said = format!(" {ticket}");
        self.list.record('X', &said, &accepted(&answer));
        answer
    }

    /// As [`Replica::report`].
    pub fn report(&mut self) -> Report {
        let report = self.replica.report();
        if self.list.reports {
            self.list.record('Q', "", &list::report(&report));
        } else {
            self.list.left_out += 1;
        }
        report
    }

    /// As [`Replica::send`].
    pub fn send(&mut self) -> Result<[u8; BLOCK], Refusal> {
        let answer = self.replica.send();
        let shown = answered(&answer, |block| format!(" {}", hex(block)));
        self.list.record('S', "", &shown);
        answer
    }

    /// As [`Replica::deliver`].
    pub fn deliver(&mut self, bytes: &[u8]) -> Result<(), Refusal> {
        let answer = self.replica.deliver(bytes);
        self.list.record_bytes('H', bytes, DELIVERED, &answer);
        answer
    }

    /// As [`Replica::work`].
    pub fn work(&mut self) -> Result<Work, Refusal> {
        Work::of(&self.step())
    }

    /// A work with all that it answers.
    fn step(&mut self) -> WorkReply {
        let reply = self.replica.step();
        self.list.record('K', "", &list::work(&reply));
        reply
    }

    /// As [`Replica::load`].
    pub fn load(&mut self, classes: &[u8]) -> Result<(), Refusal> {
        let answer = self.replica.load(classes);
        self.list.record_bytes('P', classes, LOADED, &answer);
        answer
    }

    /// As [`Replica::out`].
    pub fn out(&mut self, replica: u32, slot: u32) -> Result<(), Refusal> {
        let answer = self.replica.out(replica, slot);
        let said = format!(" {replica} {slot}");
        self.list.record('O', &said, &accepted(&answer));
        answer
    }

    /// As [`Replica::back`].
    pub fn back(&mut self, replica: u32, slot: u32) -> Result<(), Refusal> {
        let answer = self.replica.back(replica, slot);
        let said = format!(" {replica} {slot}");
        self.list.record('U', &said, &accepted(&answer));
        answer
    }

    /// As [`Replica::take`]; it is recorded as its deliver and its works.
    pub fn take(&mut self, bytes: &[u8]) -> Result<Taken, Refusal> {
        self.deliver(bytes)?;
        Ok(self.works(WAITING))
    }

    /// As [`Replica::take_slot`]; it is recorded as its deliver, if it has one, and its works.
    pub fn take_slot(&mut self, bytes: &[u8]) -> Result<Taken, Refusal> {
        if !self.replica.waits() {
            self.deliver(bytes)?;
        }
        Ok(self.works(ONE_SLOT))
    }

    fn works(&mut self, most: (usize, usize)) -> Taken {
        let waits = |recorder: &Self| recorder.replica.waits();
        works(self, most, waits, Recorder::work, |work| work.moved)
    }
}

fn accepted(answer: &Result<(), Refusal>) -> String {
    answered(answer, |()| String::new())
}

//! A station that writes down its calls and answers.

use std::io::Write;

use super::list::List;
use super::Recorder;
use crate::replica::{works, ONE_SLOT, WAITING};
use crate::{Memory, Refusal, Report, Station, Step, Taken, ITEMS};

/// The places of a list.
const PLACES: u32 = 8;

/// A station that writes each call and its answer as it makes them, as a [`Recorder`] does: what is said
/// there of sinks that fail and of what is left out holds here too. The calls are those of [`Station`].
///
/// A station has no number that would be its place in the list: that is given, 0 to 7. With 6 or 7, or any
/// that is no replica's number, its list can stand in one file with those of its group, one behind the
/// other.
///
/// ```
/// use stemline::{Refusal, StationRecorder, ITEMS};
///
/// fn main() -> Result<(), Refusal> {
///     let mut station = StationRecorder::new(2, 7, &[5; ITEMS], Vec::new(), Vec::new())?;
///     let ticket = station.begin()?;
///     assert_eq!(station.read(ticket, 9), Ok(5));
///     station.ask(ticket)?;
///     let (_, calls, answers) = station.into_parts();
///     assert_eq!(calls, b"A 7 2 5\nB 7\nR 7 1 9\nC 7 1\n");
///     assert_eq!(answers, b"0\n0 1\n0 5\n0 1\n");
///     Ok(())
/// }
/// ```
#[derive(Debug)]
pub struct StationRecorder<C: Write, A: Write> {
    /// Over the station's memory. Of its calls those are left out that a station has not.
    recorder: Recorder<C, A>,
}

impl<C: Write, A: Write> StationRecorder<C, A> {
    /// As [`Station::new`], with its place in the list and the sinks of the calls and the answers. Where it
    /// is refused, nothing is written. A list has no place above 7: there nothing is recorded, as
    /// [`StationRecorder::stopped`] says.
    pub fn new(
        n: u32,
        place: u32,
        values: &[i32; ITEMS],
        calls: C,
        answers: A,
    ) -> Result<StationRecorder<C, A>, Refusal> {
        let replica = Station::new(n, values)?.replica;
        let mut list = List::new(place, values, calls, answers);
        if place >= PLACES {
            list.stopped = Some(format!("a list has the places 0 to 7, and no {place}"));
        }
        let made = format!(" {n} {}", list.value);
        list.record('A', &made, "0");
        let recorder = Recorder { replica, list };
        Ok(StationRecorder { recorder })
    }

    /// All that the station holds. What is looked at here is not recorded.
    pub fn memory(&self) -> &Memory {
        self.recorder.replica.memory()
    }

    /// As [`Recorder::stopped`].
    pub fn stopped(&self) -> Option<&str> {
        self.recorder.stopped()
    }

    /// As [`Recorder::left_out`].
    pub fn left_out(&self) -> u64 {
        self.recorder.left_out()
    }

    /// As [`Recorder::flush`].
    pub fn flush(&mut self) {
        self.recorder.flush();
    }

    /// The station and the two sinks, of the calls and of the answers; they are not flushed.
    pub fn into_parts(self) -> (Station, C, A) {
        let (replica, calls, answers) = self.recorder.into_parts();
        (Station { replica }, calls, answers)
    }

    /// As [`Station::values`].
    pub fn values(&mut self) -> &[i32; ITEMS] {
        self.recorder.values()
    }

    /// As [`Station::begin`].
    pub fn begin(&mut self) -> Result<u32, Refusal> {
        self.recorder.begin()
    }

    /// As [`Station::read`].
    pub fn read(&mut self, ticket: u32, item: u32) -> Result<i32, Refusal> {
        self.recorder.read(ticket, item)
    }

    /// As [`Station::ask`].
    pub fn ask(&mut self, ticket: u32) -> Result<(), Refusal> {
        self.recorder.ask(ticket).map(|_| ())
    }

    /// As [`Station::withdraw`].
    pub fn withdraw(&mut self, ticket: u32) -> Result<(), Refusal> {
        self.recorder.withdraw(ticket)
    }

    /// As [`Station::report`].
    pub fn report(&mut self) -> Report {
        self.recorder.report()
    }

    /// As [`Station::deliver`].
    pub fn deliver(&mut self, bytes: &[u8]) -> Result<(), Refusal> {
        self.recorder.deliver(bytes)
    }

    /// As [`Station::work`].
    pub fn work(&mut self) -> Result<Step, Refusal> {
        Step::of(&self.recorder.step())
    }

    /// As [`Station::out`].
    pub fn out(&mut self, replica: u32, slot: u32) -> Result<(), Refusal> {
        self.recorder.out(replica, slot)
    }

    /// As [`Station::back`].
    pub fn back(&mut self, replica: u32, slot: u32) -> Result<(), Refusal> {
        self.recorder.back(replica, slot)
    }

    /// As [`Station::take`]; it is recorded as its deliver and its works.
    pub fn take(&mut self, bytes: &[u8]) -> Result<Taken<Step>, Refusal> {
        self.deliver(bytes)?;
        Ok(self.works(WAITING))
    }

    /// As [`Station::take_slot`]; it is recorded as its deliver, if it has one, and its works.
    pub fn take_slot(&mut self, bytes: &[u8]) -> Result<Taken<Step>, Refusal> {
        if !self.recorder.replica.waits() {
            self.deliver(bytes)?;
        }
        Ok(self.works(ONE_SLOT))
    }

    fn works(&mut self, most: (usize, usize)) -> Taken<Step> {
        let waits = |station: &Self| station.recorder.replica.waits();
        works(self, most, waits, StationRecorder::work, |step| step.moved)
    }
}

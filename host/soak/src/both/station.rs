//! The library's station in a pair.

use model::refusal::STATION_ONLY_READS;
use model::replica::Work;
use model::trace::{Answer, Call};
use stemline::{Refusal, Station, Step};

use super::{report, Both};

/// One call at a station, or at what has its calls; its answer as the model's, and `None` where a station
/// has no such call. An ask that is accepted has ended as read-only.
#[macro_export]
macro_rules! played_at_station {
    ($station:expr, $call:expr) => {{
        let played: Option<Result<Answer, Refusal>> = match *$call {
            Call::Begin => Some($station.begin().map(Answer::Ticket)),
            Call::Read { ticket, item } => Some($station.read(ticket, item).map(Answer::Value)),
            Call::Ask { ticket } => Some($station.ask(ticket).map(|()| Answer::ReadOnly(true))),
            Call::Withdraw { ticket } => Some($station.withdraw(ticket).map(|()| Answer::Done)),
            Call::Report => Some(Ok(Answer::Report(report($station.report())))),
            Call::Deliver { ref bytes } => Some($station.deliver(bytes).map(|()| Answer::Done)),
            Call::Work => Some($station.work().map(|step| Answer::Work(stepped(step)))),
            Call::Notice(notice) => Some($crate::noticed!($station, notice)),
            Call::Write { .. } | Call::Send | Call::Load { .. } => None,
        };
        played.map(|played| played.map_err(Refusal::number))
    }};
}

/// A station's step, as the model gives it: nobody is aborted.
pub fn stepped(step: Step) -> Work {
    Work {
        sender: step.sender,
        ticket: step.ticket,
        moved: step.moved,
        aborted: Vec::new(),
    }
}

/// One call at the library's station, its answer as the model's.
fn play(station: &mut Station, call: &Call) -> Option<Result<Answer, u8>> {
    played_at_station!(station, call)
}

impl Both {
    /// Stops where the station, which gets the call too, answers or holds something else than is due.
    pub(super) fn same_station(&mut self, call: &Call, due: &Result<Answer, u8>) {
        let Some(station) = &mut self.station else {
            return;
        };
        match play(station, call) {
            Some(answer) => assert_eq!(answer, *due, "{call:?}: the station's answer, the model's"),
            None => assert_eq!(*due, Err(STATION_ONLY_READS), "{call:?}: at a station"),
        }
        let same = station.memory() == self.library.memory();
        assert!(same, "{call:?}: the station's memory");
    }
}

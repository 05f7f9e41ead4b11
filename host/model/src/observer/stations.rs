//! Stations on the sheet (document 02, Req 05): notes, starts and commits like a replica's, and no
//! line, since a station sends nothing.

use super::{Observer, Standing};
use crate::refusal::{NOT_ACTIVE, NOT_SENT, STATION_ONLY_READS};
use crate::trace::{Answer, Call};

impl Observer {
    /// One more station, just made with the group's values. It gives the number under which its calls
    /// are fed: the replicas have the first ones. A station that is made anew is another one.
    pub fn add_station(&mut self) -> usize {
        self.commits.push(Vec::new());
        self.standings.push(Standing::at(self.first));
        self.commits.len() - 1
    }

    pub(super) fn is_station(&self, member: usize) -> bool {
        member >= self.queues.len()
    }

    /// A member in words. Stations count from 0 too.
    pub(super) fn name(&self, member: usize) -> String {
        match member.checked_sub(self.queues.len()) {
            Some(station) => format!("station {station}"),
            None => format!("replica {member}"),
        }
    }

    /// What a station answers and a replica need not: 25 to each write and send, and to nothing else;
    /// never 19, since it has no block of its own, and never 4, since every ask ends its transaction.
    /// False for a write or send, of which a station's sheet takes no notice.
    pub(super) fn feed_station(
        &mut self,
        member: usize,
        call: &Call,
        answer: &Result<Answer, u8>,
    ) -> bool {
        let (what, turned_away) = match call {
            Call::Write { .. } => ("a write", true),
            Call::Send => ("a send", true),
            _ => ("a call", false),
        };
        let refused = answer.as_ref().err().copied();
        let wrong = match refused {
            Some(STATION_ONLY_READS) => !turned_away,
            Some(NOT_SENT | NOT_ACTIVE) => true,
            _ => turned_away,
        };
        if wrong {
            let said = match refused {
                Some(number) => format!("refused by {number}"),
                None => "accepted".to_string(),
            };
            let text = format!("{}: {what} was {said}", self.name(member));
            self.broken.push(text);
        }
        if let Ok(Answer::ReadOnly(false)) = answer {
            let text = format!("{}: an ask did not end as read-only", self.name(member));
            self.broken.push(text);
        }
        !turned_away
    }
}

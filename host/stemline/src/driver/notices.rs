//! What the membership service says.

use super::{Driver, Event, Output};
use crate::{Failure, Notice, Refusal, SLOTS};

impl Driver {
    /// Takes a notice, now or as soon as it can be taken.
    pub(super) fn said(&mut self, notice: Notice) -> Result<(), Event> {
        if self.member.notices().contains(&notice) || self.pending.contains(&notice) {
            return Ok(());
        }
        self.pending.push(notice);
        self.settle()
    }

    /// Offers those that are not taken yet, of each replica the first one.
    pub(super) fn offer_notices(&mut self) -> Result<(), Event> {
        let mut later = Vec::new();
        for notice in std::mem::take(&mut self.pending) {
            let before = later.iter().any(|&other| about(other) == about(notice));
            if before || !self.offer(notice)? {
                later.push(notice);
            }
        }
        self.pending = later;
        Ok(())
    }

    /// Gives whether a notice is done with: taken, or refused for good.
    fn offer(&mut self, notice: Notice) -> Result<bool, Event> {
        match self.member.notice(notice) {
            Ok(()) => self.outputs.push(Output::Say(Event::Noticed(notice))),
            Err(Failure::Refused(Refusal::NoticeRefused)) if self.may_come(notice) => {
                return Ok(false);
            }
            Err(Failure::Refused(refusal)) => {
                let fatal = self.opening || self.own == Some(about(notice));
                let event = Event::NoticeRefused {
                    notice,
                    refusal,
                    fatal,
                };
                match fatal {
                    true => return Err(event),
                    false => self.outputs.push(Output::Say(event)),
                }
            }
            Err(failure) => return Err(failure.into()),
        }
        Ok(true)
    }

    /// Whether a notice that is refused by 28 can be taken later: an Out, where the Back before it is still ahead.
    fn may_come(&self, notice: Notice) -> bool {
        let Notice::Out { replica, slot } = notice else {
            return false;
        };
        let memory = self.member.memory();
        let until = memory.group.until.get(replica as usize);
        let turn = memory.turn.slot;
        until.is_some_and(|&back| turn < back && back < SLOTS && back <= slot)
    }
}

/// The replica that a notice is about.
fn about(notice: Notice) -> u32 {
    let (Notice::Out { replica, .. } | Notice::Back { replica, .. }) = notice;
    replica
}

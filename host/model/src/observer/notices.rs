//! Notices taken (document 02, Req 10): what the agreement asks of them at the end of a run.

use super::Observer;
use crate::block::{self, BLOCK};
use crate::notice::{self, Notice};

/// Where a member stands by its calls.
#[derive(Clone, Debug, Default)]
pub(super) struct Standing {
    pub turn: u32,
    /// In the order taken.
    pub notices: Vec<Notice>,
}

impl Standing {
    pub fn at(turn: u32) -> Standing {
        let notices = Vec::new();
        Standing { turn, notices }
    }
}

impl Observer {
    /// Of members that are as after so many slots.
    pub fn late(mut self, turn: u32) -> Observer {
        self.first = turn;
        self.standings.fill(Standing::at(turn));
        self
    }

    /// The notices that a member took, in order.
    pub fn notices(&self, member: usize) -> &[Notice] {
        &self.standings[member].notices
    }

    /// Whether the notices that a member took put a slot out.
    pub fn is_out(&self, member: usize, slot: u32) -> bool {
        notice::puts_out(self.notices(member), self.replicas(), slot)
    }

    /// The *next* of the slot that a member's turn is at, if that is out there.
    pub(super) fn out_next(&self, member: usize) -> Option<[u8; BLOCK]> {
        let turn = self.standings[member].turn;
        let next = || block::encode(&notice::next_of(self.replicas(), turn));
        self.is_out(member, turn).then(next)
    }

    /// Whether by now all members have taken, of each replica, a beginning of one list of notices, none
    /// has a turn above the slot of one that it lacks, and no block was handed out for a slot that the
    /// list puts out. An error says in words where not. In the middle of a run it need not hold.
    pub fn one_list(&self) -> Result<(), String> {
        for replica in 0..self.replicas() {
            // The longest one does, if any does: each must be a beginning of it.
            let list = self.longest(replica);
            self.beginnings(replica, &list)?;
            let mut slots = self
                .sent
                .keys()
                .filter(|&slot| slot % self.replicas() == replica);
            if let Some(slot) = slots.find(|&&s| notice::puts_out(&list, self.replicas(), s)) {
                return Err(format!(
                    "a block was handed out for slot {slot}, which is out"
                ));
            }
        }
        Ok(())
    }

    /// The longest list of notices about a replica that a member took.
    fn longest(&self, replica: u32) -> Vec<Notice> {
        let lists = (0..self.standings.len()).map(|member| self.about(member, replica));
        lists.max_by_key(Vec::len).unwrap_or_default()
    }

    fn about(&self, member: usize, replica: u32) -> Vec<Notice> {
        let about = notice::about(self.notices(member), replica);
        about.copied().collect()
    }

    /// That each member took a beginning of the list, and lacks nothing of it below its turn.
    fn beginnings(&self, replica: u32, list: &[Notice]) -> Result<(), String> {
        for (member, standing) in self.standings.iter().enumerate() {
            let taken = self.about(member, replica);
            let name = self.name(member);
            let Some(lacks) = list.strip_prefix(&taken[..]) else {
                return Err(format!("{name} took other notices about replica {replica}"));
            };
            if let Some(late) = lacks.iter().find(|notice| notice.slot < standing.turn) {
                let turn = standing.turn;
                return Err(format!("{name} lacks {late}, and its turn is {turn}"));
            }
        }
        Ok(())
    }

    fn replicas(&self) -> u32 {
        self.queues.len() as u32
    }
}

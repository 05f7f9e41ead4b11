//! How long an ask may wait (document 02, Req 06 and Req 10): it has ended when the asker's turn is
//! above its first slot after the ask's turn that Work does not pass as out.

use std::collections::BTreeMap;

use super::Tally;
use crate::trace::{Answer, Call};

/// What waits at each member, by the calls and answers alone.
#[derive(Clone, Debug, Default)]
pub(super) struct Waits {
    /// Per member by ticket the turn of the ask.
    asked: Vec<BTreeMap<u32, u32>>,
    /// What waited too long.
    broken: Vec<String>,
}

impl Waits {
    pub fn new(members: usize) -> Waits {
        Waits {
            asked: vec![BTreeMap::new(); members],
            ..Waits::default()
        }
    }

    pub fn add_member(&mut self) {
        self.asked.push(BTreeMap::new());
    }

    pub fn broken(&self) -> &[String] {
        &self.broken
    }

    /// Takes in a call at a member that was at a turn, whether that slot was out there, and what the
    /// answers amount to with this one.
    pub fn feed(
        &mut self,
        n: u32,
        k: usize,
        (turn, out): (u32, bool),
        call: &Call,
        answer: &Result<Answer, u8>,
        after: &Tally,
    ) {
        match (call, answer) {
            (Call::Ask { ticket }, Ok(Answer::ReadOnly(false))) => {
                self.asked[k].insert(*ticket, turn);
            }
            (_, Ok(Answer::Work(work))) if work.moved && turn % n == k as u32 && !out => {
                self.asked[k].retain(|ticket, _| after.open.contains(ticket));
                let late = self.asked[k].iter().filter(|(_, &asked)| asked < turn);
                self.broken.extend(late.map(|(ticket, asked)| {
                    format!(
                        "replica {k}: ticket {ticket}, asked at turn {asked}, is open after its slot \
                         {turn}"
                    )
                }));
            }
            _ => {}
        }
    }

    /// Nothing is open after a restart.
    pub fn feed_restart(&mut self, k: usize) {
        self.asked[k].clear();
    }
}

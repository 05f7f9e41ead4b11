//! A giving as lines of the list.

use std::io::Write;

use super::Recorder;
use crate::{Given, Refusal, Replica, Window};

impl<C: Write, A: Write> Recorder<C, A> {
    /// As [`Replica::window`]. It is no call, and not recorded.
    pub fn window(&self) -> &Window {
        self.replica.window()
    }

    /// As [`Replica::giver`]. It is no call of the list, and not recorded.
    pub fn giver(&self, turns: &[u32]) -> Result<u8, Refusal> {
        self.replica.giver(turns)
    }

    /// As [`Replica::give`]; it is recorded as its delivers and works, since its giver is not in the list. One that
    /// is refused by 30 has a line of its own.
    pub fn give(&mut self, turns: &[u32], window: &Window) -> Result<Given, Refusal> {
        let before = self.replica.clone();
        let answer = self.replica.give(turns, window);
        match answer {
            Ok(given) if self.replica != before || given.ended.is_some() => {
                let after = std::mem::replace(&mut self.replica, before);
                self.give_slots(&after, given.ended.is_some(), window);
                if self.replica != after {
                    let words = "a giving leaves another replica than its calls";
                    self.list.stopped.get_or_insert(words.to_string());
                    self.replica = after;
                }
            }
            Err(Refusal::NobodyUp) => {
                let told: String = turns.iter().map(|turn| format!(" {turn}")).collect();
                self.list.record('G', &told, "30");
            }
            _ => self.list.left_out += 1,
        }
        answer
    }

    /// The calls of a giving that has left this replica: slot by slot, up to its turn or to a deliver that is
    /// refused.
    fn give_slots(&mut self, after: &Replica, ended: bool, window: &Window) {
        while ended || self.replica != *after {
            let turn = self.replica.memory().turn.slot;
            let taken = self.take_slot(window.at(turn));
            if !taken.is_ok_and(|taken| taken.steps.iter().any(|step| step.moved)) {
                break;
            }
        }
    }
}

//! That a group can go on (document 02, Req 06 and Req 10), also without the replicas that are closed
//! and out.

use super::{Group, Subject};
use crate::notice::{self, Kind, Notice};
use crate::replica::SLOTS;
use crate::trace::Call;

impl<S: Subject> Group<S> {
    /// What waited longer than document 02 lets it.
    pub fn waited_too_long(&self) -> &[String] {
        self.waits.broken()
    }

    /// Lets every open replica take the notices that it can, and be given every block that it can take
    /// at its turn.
    pub fn bring_all(&mut self) {
        for k in self.open_replicas() {
            self.take_all(k);
            self.hand(k, usize::MAX);
        }
    }

    /// Whether some replica that counts can send, or work without a refusal; if one can, it does. `None`
    /// where document 02 does not promise it: a block is not given yet, a closed replica is still
    /// awaited, notices are not the same, slots are spent, or the agreement's premises do not hold.
    pub fn moves(&mut self) -> Option<bool> {
        let promised = self.observer.premise() && self.counted() && self.given() && self.alike();
        let left = |group: &Group<S>, k: usize| group.tallies[k].report.turn < SLOTS;
        let open = self.open_replicas();
        if !promised || !open.iter().any(|&k| left(self, k)) {
            return None;
        }
        let moves = [Call::Work, Call::Send];
        Some(open.into_iter().any(|k| {
            let mut moves = moves.iter();
            moves.any(|call| self.call(k, call).is_ok())
        }))
    }

    /// Whether every closed replica is out, by what the others took, and its slots before were all out
    /// or had a block handed out.
    fn counted(&self) -> bool {
        let n = self.replicas as u32;
        let open = self.open_replicas();
        let closed = (0..n).filter(|&k| self.is_closed(k as usize));
        { closed }.all(|k| {
            open.iter().all(|&other| {
                let taken = &self.tallies[other].notices;
                let last = notice::about(taken, k).next_back();
                let from = last
                    .filter(|last| last.kind == Kind::Out)
                    .map(|last| last.slot);
                // A group that begins late has no blocks of before.
                let first = self.blocks.keys().next().copied().unwrap_or(0);
                let passed = |slot: &u32| {
                    self.blocks.contains_key(slot) || notice::puts_out(taken, n, *slot)
                };
                from.is_some_and(|from| (first..from).filter(|s| s % n == k).all(|s| passed(&s)))
            })
        })
    }

    /// Whether every block handed out was given to every open replica since its make or last restart, by
    /// an answer other than 18 and 29. One below its turn would be refused by 17, and is as given.
    fn given(&self) -> bool {
        self.open_replicas().into_iter().all(|k| {
            let mut blocks = self.blocks.range(self.tallies[k].report.turn..);
            blocks.all(|(&slot, _)| self.given.contains(&(k, slot)))
        })
    }

    /// Whether all open replicas have taken the same notices about each.
    fn alike(&self) -> bool {
        let open = self.open_replicas();
        let about = |k: usize, replica: u32| -> Vec<Notice> {
            let about = notice::about(&self.tallies[k].notices, replica);
            about.copied().collect()
        };
        (0..self.replicas as u32).all(|replica| {
            let mut lists = open.iter().map(|&k| about(k, replica));
            let first = lists.next();
            { lists }.all(|list| Some(&list) == first.as_ref())
        })
    }
}

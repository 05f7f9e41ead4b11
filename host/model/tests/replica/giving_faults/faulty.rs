//! A replica of the model with a fault put around its window and its givings.

use std::cmp::Reverse;
use std::collections::VecDeque;

use model::block::{self, BLOCK};
use model::drive::{Gives, Machine, Powered, Subject};
use model::giving::{Given, DOWN};
use model::journal;
use model::replica::{Report, Restarted, ITEMS};
use model::trace::{Answer, Call, Restart};
use model::window::Window;

use super::Fault;

/// A replica with a fault.
pub struct Faulty {
    fault: Fault,
    pub machine: Machine,
    /// The last blocks that the turn has left, one more than a window has.
    left: VecDeque<[u8; BLOCK]>,
}

impl Faulty {
    /// Of one just made.
    pub fn of(machine: Machine, fault: Fault) -> Faulty {
        Faulty {
            fault,
            machine,
            left: VecDeque::new(),
        }
    }

    fn keep(&mut self, block: [u8; BLOCK]) {
        self.left.push_back(block);
        if self.left.len() > 65 {
            self.left.pop_front();
        }
    }

    /// A block as it is in the window: zeros, if it is not kept.
    fn kept(&self, block: [u8; BLOCK]) -> [u8; BLOCK] {
        let replica = &self.machine.replica;
        let header = block::header(&block);
        let own = replica.own == Some(header.sender);
        let out = replica.is_out(header.slot);
        let gone = match self.fault {
            Fault::OwnNotKept => own && !out,
            Fault::OthersNotKept => !own && !out,
            Fault::OutNotKept => out,
            _ => false,
        };
        match gone {
            true => [0; BLOCK],
            false => block,
        }
    }

    fn choose(&self, turns: &[u32]) -> Option<u8> {
        let replica = &self.machine.replica;
        let own = replica.own?;
        let mut others: Vec<(u8, u32)> = (0..).zip(turns.iter().copied()).collect();
        // From the one behind on, and round.
        others.rotate_left(usize::from(own) + 1);
        if self.fault != Fault::OwnCounted {
            others.retain(|&(k, _)| k != own);
        }
        if self.fault != Fault::DownCounted || others.iter().all(|&(_, turn)| turn == DOWN) {
            others.retain(|&(_, turn)| turn != DOWN);
        }
        match self.fault {
            Fault::TiesToLowest | Fault::LowestGives => others.sort_unstable(),
            Fault::TiesToHighest => others.sort_unstable_by_key(|&(k, _)| Reverse(k)),
            Fault::TiesDownward => others.reverse(),
            Fault::TiesNotRound => {
                let behind = others.iter().filter(|&&(k, _)| k > own).count();
                others[behind..].reverse();
            }
            _ => {}
        }
        if self.fault != Fault::LowestGives {
            // By turn alone: what is equal stays in its order.
            others.sort_by_key(|&(_, turn)| Reverse(turn));
        }
        others.first().map(|&(k, _)| k)
    }

    /// Whether 31 refuses a giving.
    fn lacks(&self, window: &Window, from: u32, to: u32) -> bool {
        let replica = &self.machine.replica;
        let in_place = |slot: u32| {
            let waiting = replica.inbox[slot as usize % replica.inbox.len()].as_ref();
            waiting.is_some_and(|message| message.slot == slot)
        };
        match self.fault {
            Fault::LackFoundLate => false,
            Fault::InPlaceSpared | Fault::OutSpared if to <= window.slots().end => {
                let spared = |slot: u32| match self.fault {
                    Fault::InPlaceSpared => in_place(slot),
                    _ => replica.is_out(slot),
                };
                let mut lacking = (from..to).filter(|&slot| window.block(slot).is_none());
                lacking.any(|slot| !spared(slot))
            }
            Fault::LastSpared => !window.has(from..to.saturating_sub(1)),
            Fault::LackingWhenLevel => !window.has(from..to) || window.slots().end < from,
            _ => !window.has(from..to),
        }
    }

    /// A call of a giving.
    fn calls(&mut self, given: &mut Given, call: Call) -> Result<Answer, u8> {
        let answer = self.call(&call);
        if let Ok(Answer::Work(work)) = &answer {
            if self.fault == Fault::LastAborted && !work.aborted.is_empty() {
                given.aborted.clear();
            }
            given.aborted.extend(&work.aborted);
        }
        given.calls.push((call, answer.clone()));
        answer
    }

    fn delivers(&self, slot: u32) -> bool {
        let replica = &self.machine.replica;
        let in_place = replica.inbox[slot as usize % replica.inbox.len()].is_some();
        let out = replica.is_out(slot);
        let in_place = in_place && self.fault != Fault::InPlaceDelivered;
        let out = out && self.fault != Fault::OutDelivered;
        !in_place && !out
    }

    fn deliver(&mut self, given: &mut Given, window: &Window, slot: u32) -> Result<(), u8> {
        if !self.delivers(slot) {
            return Ok(());
        }
        let Some(block) = window.block(slot) else {
            // Only where 31 was not tested before.
            return Err(31);
        };
        let bytes = block.to_vec();
        self.calls(given, Call::Deliver { bytes }).map(|_| ())
    }

    fn take_slot(&mut self, given: &mut Given, window: &Window, slot: u32) -> Result<(), u8> {
        let lacks = window.block(slot).is_none();
        if self.fault == Fault::LackFoundLate && lacks {
            return Err(31);
        }
        if self.fault != Fault::DeliversFirst {
            match self.deliver(given, window, slot) {
                Err(_) if self.fault == Fault::RefusalPassed => return Ok(()),
                answer => answer?,
            }
        }
        if self.fault == Fault::OneWork {
            return self.calls(given, Call::Work).map(|_| ());
        }
        while self.machine.replica.turn == slot {
            self.calls(given, Call::Work)?;
        }
        Ok(())
    }

    fn give_slots(&mut self, given: &mut Given, window: &Window, to: u32) -> Result<(), u8> {
        let from = self.machine.replica.turn;
        if self.fault == Fault::DeliversFirst {
            for slot in from..to {
                self.deliver(given, window, slot)?;
            }
        }
        for slot in from..to {
            self.take_slot(given, window, slot)?;
        }
        Ok(())
    }
}

impl Subject for Faulty {
    fn call(&mut self, call: &Call) -> Result<Answer, u8> {
        let replica = &self.machine.replica;
        let waiting = replica.out_next().or(replica.waiting());
        let answer = self.machine.call(call);
        if let (Ok(Answer::Work(work)), Some(block)) = (&answer, waiting) {
            if work.moved {
                self.keep(block);
            }
        }
        answer
    }
    fn report(&self) -> Report {
        self.machine.report()
    }
    fn values(&self) -> [i32; ITEMS] {
        self.machine.values()
    }
}

impl Gives for Faulty {
    fn window(&self) -> Window {
        let turn = self.machine.replica.turn;
        let most = match self.fault {
            Fault::OneLess => 63,
            Fault::OneMore => 65,
            _ => 64,
        };
        let mut blocks: VecDeque<_> = self.left.iter().map(|block| self.kept(*block)).collect();
        blocks.drain(..blocks.len().saturating_sub(most));
        let mut first = turn - blocks.len() as u32;
        if self.fault == Fault::KeptOnArrival {
            blocks.extend(self.machine.replica.waiting());
        }
        // At its ends there is nothing.
        while blocks.pop_front_if(|block| *block == [0; BLOCK]).is_some() {
            first += 1;
        }
        while blocks.pop_back_if(|block| *block == [0; BLOCK]).is_some() {}
        Window::of(first, blocks)
    }

    fn give(&mut self, turns: &[u32], window: &Window) -> Given {
        let mut given = Given::default();
        if let Err(number) = self.machine.replica.giver(turns) {
            if number != 30 || self.fault != Fault::OwnCounted {
                given.number = number;
                return given;
            }
        }
        given.giver = self.choose(turns);
        let Some(giver) = given.giver else {
            given.number = 30;
            return given;
        };
        let (from, told) = (self.machine.replica.turn, turns[usize::from(giver)]);
        let to = match self.fault {
            Fault::TrueTurn => window.slots().end,
            _ => told,
        };
        if self.lacks(window, from, to) {
            given.number = 31;
            return given;
        }
        let (machine, left) = (self.machine.clone(), self.left.clone());
        if let Err(number) = self.give_slots(&mut given, window, to) {
            given.number = number;
            if self.fault == Fault::TakenBack {
                (self.machine, self.left) = (machine, left);
                given.calls.clear();
            }
        }
        if self.fault != Fault::AsAborted {
            given.aborted.sort_unstable();
        }
        given
    }
}

impl Powered for Faulty {
    fn disk(&self) -> &[u8] {
        &self.machine.disk
    }
    fn floor(&self) -> usize {
        self.machine.floor
    }
    fn restart(&mut self, restart: &Restart) -> Result<Restarted, u8> {
        let restarted = self.machine.restart(restart)?;
        self.left.clear();
        let blocks: Vec<_> = journal::blocks(restart.n, &restart.journal).collect();
        match self.fault {
            Fault::NotRefilled => {}
            Fault::FirstRefilled => blocks.iter().take(64).for_each(|block| self.keep(**block)),
            _ => blocks.iter().for_each(|block| self.keep(**block)),
        }
        Ok(restarted)
    }
    fn ended(&mut self, call: &Call) {
        let floor = self.machine.floor;
        let _ = self.call(call);
        self.machine.floor = floor;
    }
}

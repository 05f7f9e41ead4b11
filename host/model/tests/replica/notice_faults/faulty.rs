//! A replica or station of the model with a fault put around it.

use model::block::{self, BLOCK, MAX_SLOT};
use model::drive::{Machine, Powered, Subject};
use model::journal;
use model::notice::{self, Kind, Notice};
use model::replica::{Report, Restarted, Stage, Work, ITEMS, SLOTS};
use model::trace::{Answer, Call, Restart};

use super::Fault;

/// A replica or station with a fault.
pub struct Faulty {
    fault: Fault,
    pub machine: Machine,
}

impl Faulty {
    /// Of one just made.
    pub fn of(machine: Machine, fault: Fault) -> Faulty {
        Faulty { fault, machine }
    }

    /// A work on an out slot.
    fn pass(&mut self) -> Result<Answer, u8> {
        let Machine {
            replica,
            disk,
            floor,
        } = &mut self.machine;
        let own = replica.own == replica.out_next().map(|next| next[1]);
        let before = disk.len();
        let answer = replica.call_journaled(&Call::Work, disk)?;
        let next = disk.split_off(before);
        let copies = match self.fault {
            Fault::OwnNextUnjournaled if own => 0,
            Fault::NextUnjournaled if !own => 0,
            Fault::NextTwice => 2,
            _ => 1,
        };
        disk.extend(next.repeat(copies));
        *floor = disk.len();
        Ok(answer)
    }

    fn deliver(&mut self, bytes: &[u8]) -> Result<Answer, u8> {
        let replica = &mut self.machine.replica;
        let n = replica.inbox.len() as u32;
        let answer = replica.deliver(bytes).map(|()| Answer::Done);
        match (self.fault, &answer) {
            (Fault::OutBeforePast, Err(17)) if replica.is_out(slot_of(bytes)) => Err(29),
            (Fault::OutBehindFar, Err(29)) if slot_of(bytes) >= replica.turn + n => Err(18),
            _ => answer,
        }
    }

    fn send(&mut self) -> Result<Answer, u8> {
        let replica = &mut self.machine.replica;
        let out = replica.is_out(replica.turn);
        match self.fault {
            Fault::OutBeforeTurn if out && replica.send() == Err(11) => return Err(29),
            Fault::SendsOut if out => {
                let notices = std::mem::take(&mut replica.notices);
                let answer = self.machine.call(&Call::Send);
                self.machine.replica.notices = notices;
                return answer;
            }
            _ => {}
        }
        self.machine.call(&Call::Send)
    }

    fn notice(&mut self, notice: Notice) -> Result<Answer, u8> {
        let replica = &mut self.machine.replica;
        let n = replica.inbox.len() as u32;
        let Notice { kind, about, slot } = notice;
        let turn = replica.turn;
        let last = notice::about(&replica.notices, about).next_back().copied();
        let is_out = last.is_some_and(|last| last.kind == Kind::Out);
        let early = last.map_or(0, |last| last.slot) > turn;
        let wrongly_refused = match self.fault {
            Fault::AtTheTurn => slot == turn,
            Fault::BackIsAbove => kind == Kind::Out && last == Some(Notice::back(about, turn)),
            _ => false,
        };
        let in_range = about < n && slot <= MAX_SLOT;
        if in_range && wrongly_refused {
            return Err(28);
        }
        // Without the one test that is missing.
        let mut without = replica.clone();
        match self.fault {
            Fault::BackAtAnyTurn if kind == Kind::Back => without.turn = 0,
            Fault::OutAtAnyTurn if kind == Kind::Out && !early => {
                without.turn = 0;
                // Its last Back is below the turn that it is, and so no bar.
                without
                    .notices
                    .retain(|taken| taken.about != about || is_out);
            }
            Fault::OutFromNowOn if kind == Kind::Out && is_out && early => without.notices.clear(),
            Fault::PlacedIgnored => without.inbox.fill(None),
            Fault::SentIgnored => {
                without.outbox = None;
                let own = |sender| Some(sender) == without.own;
                let not_own = |place: &mut Option<block::Message>| {
                    place.take_if(|message| own(message.sender));
                };
                without.inbox.iter_mut().for_each(not_own);
            }
            _ => {}
        }
        without.notice(notice)?;
        let taken = match (self.fault, kind) {
            (Fault::BackForgotten, Kind::Back) => Notice::back(about, MAX_SLOT),
            _ => notice,
        };
        replica.notices.push(taken);
        if self.fault == Fault::DropsAsked && kind == Kind::Out && replica.own == Some(about as u8)
        {
            let before = replica.open.len();
            replica.open.retain(|open| open.stage != Stage::Asked);
            replica.queue.clear();
            replica.aborted += (before - replica.open.len()) as u32;
        }
        self.machine.floor = self.machine.disk.len();
        Ok(Answer::Done)
    }
}

/// The slot of a block.
fn slot_of(bytes: &[u8]) -> u32 {
    let block = bytes.try_into().expect("it passed the tests of a block");
    block::header(block).slot
}

impl Subject for Faulty {
    fn call(&mut self, call: &Call) -> Result<Answer, u8> {
        let replica = &mut self.machine.replica;
        let n = replica.inbox.len() as u32;
        let out = replica.is_out(replica.turn);
        match *call {
            Call::Work if out && self.fault == Fault::OutAwaited => Err(21),
            Call::Work if out => self.pass(),
            Call::Work if self.fault == Fault::PastTheEnd && replica.turn == SLOTS => {
                let last = notice::about(&replica.notices, SLOTS % n).next_back();
                if last.is_none_or(|last| last.kind == Kind::Back) {
                    return Err(21);
                }
                replica.turn += 1;
                let sender = (SLOTS % n) as u8;
                let (ticket, moved, aborted) = (0, true, Vec::new());
                Ok(Answer::Work(Work {
                    sender,
                    ticket,
                    moved,
                    aborted,
                }))
            }
            Call::Deliver { ref bytes } => self.deliver(bytes),
            Call::Send => self.send(),
            Call::Notice(notice) => self.notice(notice),
            _ => self.machine.call(call),
        }
    }
    fn report(&self) -> Report {
        self.machine.report()
    }
    fn values(&self) -> [i32; ITEMS] {
        self.machine.values()
    }
}

impl Powered for Faulty {
    fn disk(&self) -> &[u8] {
        &self.machine.disk
    }
    fn floor(&self) -> usize {
        self.machine.floor
    }
    fn restart(&mut self, restart: &Restart) -> Result<Restarted, u8> {
        let mut lent = restart.clone();
        if self.fault == Fault::NoticesForgotten {
            lent.notices.clear();
        }
        let mut restarted = self.machine.restart(&lent)?;
        let own = notice::about(&restart.notices, restart.own).copied();
        let own: Vec<Notice> = own.collect();
        let looked_at = match self.fault {
            Fault::LastOutageAlone => {
                let last = own.iter().rposition(|notice| notice.kind == Kind::Out);
                &own[last.unwrap_or(0)..]
            }
            Fault::OwnNextGivenBack => &[],
            _ => &own[..],
        };
        let blocks = journal::blocks(restart.n, &restart.journal);
        let given = { blocks }
            .filter(|block| {
                let header = block::header(block);
                let out = notice::puts_out(looked_at, restart.n, header.slot);
                u32::from(header.sender) == restart.own && !out
            })
            .last();
        *restarted.block = given.copied().unwrap_or([0; BLOCK]);
        if restarted.gave_back() {
            self.machine.floor = self.machine.disk.len();
        }
        Ok(restarted)
    }
    fn ended(&mut self, call: &Call) {
        let floor = self.machine.floor;
        let _ = self.call(call);
        self.machine.floor = floor;
    }
}

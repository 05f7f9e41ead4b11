//! Groups whose members have a journal on a disk, and lose power.

use super::{start_values, Group, Subject};
use crate::block::{self, BLOCK};
use crate::giving::Returner;
use crate::journal;
use crate::replica::{Replica, Report, Restarted, ITEMS};
use crate::samples::Random;
use crate::trace::{Answer, Call, Restart};

/// A replica under test with the disk that its journal is on.
pub trait Powered: Subject {
    /// What was appended.
    fn disk(&self) -> &[u8];
    /// The bytes that a cut leaves at least: those on the disk when the last own block was handed out,
    /// the last notice taken, or the last out slot passed.
    fn floor(&self) -> usize;
    /// A restart, behind which the journal goes on.
    fn restart(&mut self, restart: &Restart) -> Result<Restarted, u8>;
    /// A call that a cut ends: nothing of it is left but what it appended, if that. A restart is next.
    fn ended(&mut self, call: &Call) {
        let _ = self.call(call);
    }
}

/// The model's replica and its disk.
#[derive(Clone, Debug, PartialEq, Eq)]
pub struct Machine {
    /// The replica.
    pub replica: Replica,
    /// What was appended.
    pub disk: Vec<u8>,
    /// The bytes that a cut leaves at least.
    pub floor: usize,
}

impl Machine {
    /// Of a replica just made.
    pub fn new(replica: Replica) -> Machine {
        Machine {
            replica,
            disk: Vec::new(),
            floor: 0,
        }
    }
}

impl Subject for Machine {
    fn call(&mut self, call: &Call) -> Result<Answer, u8> {
        let out = self.replica.is_out(self.replica.turn);
        let answer = self.replica.call_journaled(call, &mut self.disk);
        if journal::fixes(call, &answer, out) {
            self.floor = self.disk.len();
        }
        answer
    }
    fn report(&self) -> Report {
        self.replica.report()
    }
    fn values(&self) -> [i32; ITEMS] {
        *self.replica.values()
    }
}

impl Returner for Machine {
    fn replica(&self) -> &Replica {
        &self.replica
    }
    fn call(&mut self, call: &Call) -> Result<Answer, u8> {
        Subject::call(self, call)
    }
}

impl Powered for Machine {
    fn disk(&self) -> &[u8] {
        &self.disk
    }
    fn floor(&self) -> usize {
        self.floor
    }
    fn restart(&mut self, restart: &Restart) -> Result<Restarted, u8> {
        let restarted = restart.run(&mut self.replica)?;
        self.disk = restart.journal[..BLOCK * restarted.count as usize].to_vec();
        self.floor = journal::floor_after(self.floor, restart, &restarted);
        Ok(restarted)
    }
    fn ended(&mut self, call: &Call) {
        let floor = self.floor;
        let _ = Subject::call(self, call);
        self.floor = floor;
    }
}

impl<S: Powered> Group<S> {
    /// Cuts a replica's power and restarts it. The cut may end a call: of that nothing is left but what
    /// it appended, if that. `length` says how many bytes are left on the disk; it is given the floor
    /// and the bytes that are there.
    pub fn cut(
        &mut self,
        k: usize,
        ended: Option<Call>,
        length: impl FnOnce(usize, usize) -> usize,
    ) -> Restarted {
        if ended.is_some() {
            self.take_due(k);
        }
        let floor = self.members[k].floor();
        if let Some(call) = ended {
            self.members[k].ended(&call);
        }
        let disk = self.members[k].disk();
        let left = length(floor, disk.len());
        let restart = Restart {
            n: self.replicas as u32,
            own: k as u32,
            values: start_values().to_vec(),
            journal: disk[..left].to_vec(),
            notices: self.observer.notices(k).to_vec(),
        };
        let answer = self.members[k].restart(&restart);
        self.observer.feed_restart(k, &restart, &answer);
        self.tallies[k].feed_restart(&restart, &answer);
        self.waits.feed_restart(k);
        self.reached[k] = self.members[k].values();
        self.given.retain(|&(member, _)| member != k);
        self.seen.restarts += 1;
        let restarted = answer.expect("a restart is lent what the make was");
        if restarted.gave_back() {
            let slot = block::header(&restarted.block).slot;
            self.blocks.entry(slot).or_insert_with(|| {
                self.seen.sent_by_restart += 1;
                restarted.block.clone()
            });
        }
        restarted
    }

    /// A cut at a random replica, which ends a call or none and leaves some bytes at or above the floor.
    /// At a closed one no call is ended.
    pub fn random_cut(&mut self, random: &mut Random) {
        let any = random.below(self.replicas);
        let (k, ended) = match random.below(3) {
            _ if self.is_closed(any) => (any, None),
            0 => (any, None),
            1 => (any, Some(Call::Work)),
            _ => (self.sender().unwrap_or(any), Some(Call::Send)),
        };
        self.cut(k, ended, |floor, all| {
            let any = floor + random.below(all - floor + 1);
            random.pick(&[floor, all, any, any])
        });
    }
}

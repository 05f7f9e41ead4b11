//! A whole run by its seed, and what was seen in it.

use std::fmt;
use std::time::Duration;

use super::{Disk, Plan, Simulation};
use crate::driver::{Answer, Driver, Event, Input, Output};
use crate::Notice;

/// How long a group that is mended may take to come to rest, by its own clock.
const REST: Duration = Duration::from_secs(20);

/// Stands between the drivers and the rest, so that it can be tried whether a wrong driver is found out. The methods
/// that are not written change nothing.
pub trait Tamper {
    /// What a member is handed, `None` for nothing.
    fn input(&mut self, _member: usize, input: Input) -> Option<Input> {
        Some(input)
    }

    /// What a member gives.
    fn outputs(&mut self, _member: usize, outputs: Vec<Output>) -> Vec<Output> {
        outputs
    }

    /// A member is about to be started from this disk.
    fn starts(&mut self, _member: usize, _disk: &mut Disk) {}
}

/// Changes nothing.
#[derive(Clone, Copy, Debug, Default)]
pub struct Right;

impl Tamper for Right {}

/// How much was seen in runs, all of it without complaints.
#[derive(Clone, Copy, Debug, Default, PartialEq, Eq)]
pub struct Seen {
    /// Runs.
    pub runs: u64,
    /// Moments at which something happened.
    pub moments: u64,
    /// The slots that were processed.
    pub slots: u64,
    /// Starts of members, the first ones too.
    pub starts: u64,
    /// Cuts of the power.
    pub cuts: u64,
    /// Drivers that stopped because their disk failed.
    pub disks: u64,
    /// Partitions of the network.
    pub partitions: u64,
    /// Frames that were lost.
    pub lost: u64,
    /// Notices of the service.
    pub notices: u64,
    /// Givings.
    pub givings: u64,
    /// Blocks that came over a link that is not their sender's, and those that were dropped for that.
    pub forged: u64,
    /// See `forged`.
    pub dropped: u64,
    /// Clients that were told that they are committed.
    pub committed: u64,
    /// Clients that were told that they are aborted.
    pub aborted: u64,
    /// Clients that were told something else.
    pub others: u64,
}

impl Seen {
    pub(super) fn answer(&mut self, answer: &Answer) {
        match answer {
            Answer::Committed { .. } => self.committed += 1,
            Answer::Aborted { .. } => self.aborted += 1,
            _ => self.others += 1,
        }
    }

    pub(super) fn event(&mut self, event: &Event) {
        match event {
            Event::Disk(_) => self.disks += 1,
            Event::Given { .. } => self.givings += 1,
            Event::NotTheSender { .. } => self.dropped += 1,
            _ => {}
        }
    }

    /// Adds what was seen in others.
    pub fn add(&mut self, other: &Seen) {
        let Seen {
            runs,
            moments,
            slots,
            starts,
            cuts,
            disks,
            partitions,
            lost,
            notices,
            givings,
            forged,
            dropped,
            committed,
            aborted,
            others,
        } = other;
        self.runs += runs;
        self.moments += moments;
        self.slots += slots;
        self.starts += starts;
        self.cuts += cuts;
        self.disks += disks;
        self.partitions += partitions;
        self.lost += lost;
        self.notices += notices;
        self.givings += givings;
        self.forged += forged;
        self.dropped += dropped;
        self.committed += committed;
        self.aborted += aborted;
        self.others += others;
    }
}

/// `7 runs, 812 slots, 210 starts, ..`
impl fmt::Display for Seen {
    fn fmt(&self, f: &mut fmt::Formatter) -> fmt::Result {
        write!(
            f,
            "{} runs, {} slots, {} starts, {} cuts, ",
            self.runs, self.slots, self.starts, self.cuts
        )?;
        write!(
            f,
            "{} failed disks, {} partitions, ",
            self.disks, self.partitions
        )?;
        write!(
            f,
            "{} frames lost, {} notices, {} givings, ",
            self.lost, self.notices, self.givings
        )?;
        write!(
            f,
            "{} of {} forged blocks dropped; ",
            self.dropped, self.forged
        )?;
        write!(
            f,
            "told: {} committed, {} aborted, {} else",
            self.committed, self.aborted, self.others
        )
    }
}

/// What is wrong with a run, in words.
#[derive(Clone, PartialEq, Eq)]
pub struct Complaint {
    /// The seed of the run.
    pub seed: u64,
    /// What was seen, the first first.
    pub words: Vec<String>,
}

impl fmt::Display for Complaint {
    fn fmt(&self, f: &mut fmt::Formatter) -> fmt::Result {
        write!(f, "seed {}: {}", self.seed, self.words.join("\n    "))
    }
}

impl fmt::Debug for Complaint {
    fn fmt(&self, f: &mut fmt::Formatter) -> fmt::Result {
        fmt::Display::fmt(self, f)
    }
}

impl std::error::Error for Complaint {}

/// The run of a seed, with a plan of that seed too: see [`Plan::of`]. Gives what was seen, or what is wrong.
pub fn run(seed: u64) -> Result<Seen, Complaint> {
    play(Simulation::new(seed, Plan::of(seed)))
}

/// Plays a group by its plan: things go wrong for a while, then all is mended, and it comes to rest.
pub fn play(mut simulation: Simulation) -> Result<Seen, Complaint> {
    let end = simulation.now + simulation.plan.span;
    while simulation.now < end && simulation.sheet.complaints.is_empty() {
        let mean = simulation.plan.pace.as_micros() as u64;
        let pause = Duration::from_micros(1 + simulation.random.below(2 * mean));
        simulation.run(pause);
        if !simulation.apart.is_empty() && simulation.now >= simulation.apart_until {
            simulation.unite();
        }
        simulation.act();
    }
    simulation.rest()
}

impl Simulation {
    /// Mends all, lets the group come to rest, and gives the verdict: one sequence, of which each copy has committed
    /// a beginning and holds its values; all copies level and equal; every told outcome true, and every client told
    /// whose member was not cut.
    pub fn rest(mut self) -> Result<Seen, Complaint> {
        self.mend();
        let end = self.now + REST;
        while self.sheet.complaints.is_empty() && !self.is_at_rest() {
            if self.now >= end {
                self.not_at_rest();
                break;
            }
            self.run(Duration::from_millis(5));
            self.say_backs();
        }
        if self.sheet.complaints.is_empty() {
            self.verdict();
        }
        self.seen.runs = 1;
        match self.sheet.complaints.is_empty() {
            true => Ok(self.seen),
            false => Err(Complaint {
                seed: self.seed,
                words: self.sheet.complaints,
            }),
        }
    }

    /// From here on nothing goes wrong. Who is down is started; the others go on as they are. An idle group moves
    /// slowly, so that all can be level at a moment.
    fn mend(&mut self) {
        self.mending = true;
        self.plan.waits.idle = Duration::from_millis(200);
        for session in std::mem::take(&mut self.sessions) {
            session.leave(self);
        }
        for member in &mut self.members {
            member.disk.calm();
            match &mut member.driver {
                Some(driver) => driver.set_waits(self.plan.waits),
                None => member.starts = Some(self.now),
            }
        }
        self.unite();
    }

    fn say_backs(&mut self) {
        for replica in 0..self.group.replicas() {
            if self.is_out(replica) && self.is_level(replica) {
                let turns = self
                    .members
                    .iter()
                    .filter_map(|member| member.driver.as_ref());
                let first = turns.map(|driver| driver.digest().turn).max().unwrap_or(0);
                let reached = self.members.iter().map(|member| member.reached).max();
                let slot = first.max(reached.unwrap_or(0)) + 2 * self.group.replicas();
                self.say(Notice::Back { replica, slot });
            }
        }
    }

    fn incarnations(&self) -> Vec<Option<u64>> {
        let of =
            |member: &super::simulation::Member| member.driver.as_ref().map(|_| member.incarnation);
        self.members.iter().map(of).collect()
    }

    fn is_at_rest(&self) -> bool {
        let drivers: Vec<_> = self
            .members
            .iter()
            .filter_map(|m| m.driver.as_ref())
            .collect();
        let Some(first) = drivers.first().map(|driver| driver.digest()) else {
            return false;
        };
        let all_up = drivers.len() == self.members.len();
        let level = drivers.iter().all(|driver| driver.digest() == first);
        let in_again = !(0..self.group.replicas()).any(|k| self.is_out(k));
        let pending = drivers
            .iter()
            .any(|driver| driver.notices().len() < self.said.len());
        let waiting = self.sheet.waiting(&self.incarnations());
        all_up && level && in_again && !pending && waiting == 0
    }

    fn not_at_rest(&mut self) {
        let waiting = self.sheet.waiting(&self.incarnations());
        let line = |member: &super::simulation::Member| match &member.driver {
            Some(driver) => driver.digest().to_string(),
            None => "not started".to_string(),
        };
        let lines: Vec<_> = self.members.iter().map(line).collect();
        self.sheet.complain(format!(
            "it does not come to rest: {waiting} clients wait; {}",
            lines.join("; ")
        ));
    }

    fn verdict(&mut self) {
        let mut turn = 0;
        for member in 0..self.members.len() {
            let Some(driver) = &self.members[member].driver else {
                continue;
            };
            let digest = driver.digest();
            turn = turn.max(digest.turn);
            let contents = driver.contents();
            let at = (digest.turn, digest.commits);
            self.sheet.copy(member, at, &contents, &self.said);
        }
        self.seen.slots += u64::from(turn);
        let incarnations = self.incarnations();
        self.sheet.check(turn, &self.said, &incarnations);
    }
}

impl fmt::Debug for Simulation {
    fn fmt(&self, f: &mut fmt::Formatter) -> fmt::Result {
        let turns: Vec<_> = self
            .members
            .iter()
            .map(|m| m.driver.as_ref().map(Driver::digest))
            .collect();
        f.debug_struct("Simulation")
            .field("seed", &self.seed)
            .field("now", &self.now)
            .field("members", &turns)
            .finish()
    }
}

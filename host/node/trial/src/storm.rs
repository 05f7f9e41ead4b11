//! A group that is killed, cut off and slowed while designers work at it, and what comes of it.

use std::fmt;
use std::thread::sleep;
use std::time::Duration;

use model::samples::Random;

use crate::group::{tail, Group};
use crate::lines::Quality;
use crate::until;
use crate::verdict::{self, Count};
use crate::worker::{Asked, Worker};

/// Designers at each replica.
const WORKERS: usize = 2;
/// A group that can go on does so in that time.
const MOST: Duration = Duration::from_secs(30);

/// A group with designers at work.
pub struct Storm {
    /// The group.
    pub group: Group,
    workers: Vec<Worker>,
    asked: Vec<Asked>,
    random: Random,
    /// Processes killed.
    pub kills: usize,
}

/// What came of a storm.
pub struct Calm {
    /// Processes killed.
    pub kills: usize,
    /// Slots that the group has gone through.
    pub slots: usize,
    /// What designers were told, all of it true.
    pub count: Count,
}

impl fmt::Display for Calm {
    fn fmt(&self, f: &mut fmt::Formatter) -> fmt::Result {
        let Calm {
            kills,
            slots,
            count,
        } = self;
        let Count {
            committed,
            not,
            unknown_committed,
            unknown_not,
        } = count;
        let unknown = unknown_committed + unknown_not;
        write!(
            f,
            "{kills} kills, {slots} slots; told committed: {committed}, told not: {not}, "
        )?;
        write!(f, "not told: {unknown}, of which {unknown_committed} are committed; nothing lost, all journals one")
    }
}

impl Storm {
    /// Starts a group, and designers at each of its replicas.
    pub fn new(mut group: Group, seed: u64) -> Result<Storm, String> {
        group.start()?;
        let mut storm = Storm {
            workers: Vec::new(),
            asked: Vec::new(),
            random: Random::new(seed),
            kills: 0,
            group,
        };
        for number in 0..storm.group.plan.replicas * WORKERS {
            let node = number / WORKERS;
            let socket = &storm.group.nodes[node].socket;
            storm
                .workers
                .push(Worker::start(number, node, socket, seed));
        }
        storm.moves()?;
        Ok(storm)
    }

    /// Waits until each designer is told of one commit more.
    pub fn moves(&self) -> Result<(), String> {
        let before: Vec<usize> = self.workers.iter().map(Worker::committed).collect();
        let now = || self.workers.iter().map(Worker::committed);
        let moves = until("each designer has another commit", MOST, || {
            now().zip(&before).all(|(now, &before)| now > before)
        });
        moves.map_err(|words| {
            format!(
                "{words}: {before:?} before, {:?} now; {}",
                now().collect::<Vec<_>>(),
                self.group.tails()
            )
        })
    }

    /// Troubles some lines, kills some, starts them again, and lets it go on for a while; now and then all is well again
    /// and must move.
    pub fn step(&mut self) -> Result<(), String> {
        for node in &mut self.group.nodes {
            if !node.process.is_running() {
                return Err(format!(
                    "a node ended by itself: {}",
                    tail(&node.process.said())
                ));
            }
        }
        self.trouble()?;
        for k in self.victims() {
            self.group.nodes[k].process.kill();
            self.kills += 1;
        }
        self.pause(&[0, 10, 50, 150]);
        for node in &mut self.group.nodes {
            node.process.start().map_err(|error| error.to_string())?;
        }
        self.pause(&[0, 30, 100, 300, 1000]);
        if self.random.below(4) == 0 {
            self.heal()?;
            self.moves()?;
        }
        Ok(())
    }

    fn pause(&mut self, milliseconds: &[u64]) {
        sleep(Duration::from_millis(self.random.pick(milliseconds)));
    }

    /// Mostly one, at times two, a station, or all at once.
    fn victims(&mut self) -> Vec<usize> {
        let count = self.group.nodes.len();
        let one = self.random.below(count);
        match self.random.below(10) {
            0 => (0..count).collect(),
            1 | 2 => vec![one, (one + 1) % count],
            _ => vec![one],
        }
    }

    /// Makes the line of a pair worse, or all of them, or none.
    fn trouble(&mut self) -> Result<(), String> {
        let count = self.group.nodes.len();
        let (one, other) = (self.random.below(count), self.random.below(count));
        let milliseconds = Duration::from_millis;
        let slow = Quality {
            delay: milliseconds(20),
            jitter: milliseconds(20),
            ..Quality::default()
        };
        let losing = Quality {
            delay: milliseconds(1),
            loss: 100,
            ..Quality::default()
        };
        let cut = Quality {
            cut: true,
            ..Quality::default()
        };
        let lines = self.group.net.lines()?;
        match self.random.below(10) {
            0 => lines.set_pair(one, other, cut),
            1 => lines.set(one, other, cut),
            2 => lines.set_of(one, cut),
            3 => lines.set_of(one, slow),
            4 => lines.set_all(losing),
            5 => self.group.net.plug(one, false)?,
            6 | 7 => self.heal()?,
            _ => {}
        }
        Ok(())
    }

    /// Makes all lines perfect.
    pub fn heal(&self) -> Result<(), String> {
        self.group.net.set_all(Quality::default())?;
        (0..self.group.nodes.len()).try_for_each(|k| self.group.net.plug(k, true))
    }

    /// Lets the designers end, and adds what they were told.
    fn end_workers(&mut self) {
        for worker in self.workers.drain(..) {
            self.asked.extend(worker.end());
        }
    }

    /// Ends it: all is healed, started and let come to rest. All nodes must be at one place with the values of one
    /// sequence, end well, have journals that agree, and every outcome that was told must be true.
    pub fn end(mut self) -> Result<Calm, String> {
        self.heal()?;
        self.group.start()?;
        self.moves()?;
        self.end_workers();
        let commits = self.group.level(MOST)?;
        let mut values = Vec::new();
        for node in &self.group.nodes {
            values.push(
                node.client(MOST)?
                    .values()
                    .map_err(|error| error.to_string())?,
            );
        }
        self.group.end()?;
        let blocks = verdict::agreed(&self.group.journals())?;
        let sequence = verdict::sequence(&blocks);
        if sequence.len() as u64 != commits {
            return Err(format!(
                "{commits} commits, but {} in the journals",
                sequence.len()
            ));
        }
        let due: Vec<Option<i32>> = verdict::values(&sequence).into_iter().map(Some).collect();
        if let Some(k) = values.iter().position(|values| *values != due) {
            return Err(format!(
                "node {k} has other values than the sequence leaves: {:?}",
                values[k]
            ));
        }
        Ok(Calm {
            kills: self.kills,
            slots: blocks.len(),
            count: verdict::truth(&self.asked, &sequence)?,
        })
    }
}

//! Three replicas over files in a program that is killed again and again: at the end demand 3 holds, and
//! nothing that was handed out is lost.
//!
//! The program logs each call and its answer before it uses the answer, by one write for each line and
//! with no buffer of its own. What a write was given is the system's from then on and outlives the
//! program. So a kill can take the line of one call at most, of the one that it ended, and that one is no
//! call of the list. The power stays on; so that blocks are lost that were not durable, the journals are
//! cut between the runs, at any byte that a cut can leave.
//!
//! A membership service says now and then that a replica is out, and later that it is back. Meanwhile it does
//! little, and is given what it missed then. A giving is many calls: they are logged before it begins, and where a
//! kill comes in its middle, those count whose blocks are there.
//!
//! A station that nobody kills is fed between the runs from what of a journal is durable, takes the notices too,
//! and is where the group is at the end.

mod log;
pub mod program;
mod service;

use std::fs::{self, File, OpenOptions};
use std::path::{Path, PathBuf};
use std::process::{Command, Stdio};
use std::thread::sleep;
use std::time::Duration;

use model::block::{self, BLOCK};
use model::drive::start_values;
use model::notice::{self, Notice};
use model::samples::Random;
use model::trace::{Answer, Call};
use stemline::{Durable, Station, HEAD};

pub use self::log::{Log, Met};
use crate::both::report;
use crate::{noticed, studio};

/// Replicas of the group.
const N: usize = 3;

/// The journal of a replica in its folder.
pub fn journal(room: &Path, k: usize) -> PathBuf {
    room.join(format!("{k}.journal"))
}

/// A group over the files of a folder, whose program is killed.
pub struct Crash {
    room: PathBuf,
    random: Random,
    station: Station,
    /// The notices that the station has taken.
    heard: Vec<Notice>,
    /// What the killed program did.
    pub log: Log,
}

impl Crash {
    /// A new group, in a folder that is made anew.
    pub fn new(room: &Path, seed: u64) -> Crash {
        let _ = fs::remove_dir_all(room);
        fs::create_dir_all(room).unwrap();
        Crash {
            room: room.to_path_buf(),
            random: Random::new(seed),
            station: Station::new(N as u32, &start_values()).unwrap(),
            heard: Vec::new(),
            log: Log::new(room, start_values()),
        }
    }

    /// Starts the program, a command that comes to [`program::run`], and kills it; then cuts some journals.
    pub fn kill(&mut self, program: Command) {
        self.log.before_start();
        self.run_and_kill(program);
        self.log.after_kill();
        for k in 0..N {
            if self.random.below(2) == 0 || self.log.is_giving(k) {
                self.cut(k);
            }
        }
        self.log.take_in_giving();
        let k = self.random.below(N);
        let bytes = studio::lent(&journal(&self.room, k));
        let durable = self.log.observer.journal(k).floor();
        self.feed(&bytes[..durable]);
    }

    /// Gives the station the blocks of a journal from its turn on, and what was said. Of slots that are out it
    /// needs none.
    fn feed(&mut self, journal: &[u8]) {
        let said = service::said(&self.room);
        let (blocks, _) = journal.as_chunks::<BLOCK>();
        loop {
            let turn = self.station.report().turn;
            while let Some(notice) = service::due(&said, &self.heard, turn) {
                let taken: Result<Answer, _> = noticed!(self.station, notice);
                assert!(
                    taken.is_ok(),
                    "the station is stranded at turn {turn}: {notice}"
                );
                self.heard.push(notice);
            }
            let Some(block) = blocks.get(turn as usize) else {
                return;
            };
            match notice::puts_out(&self.heard, N as u32, turn) {
                true => drop(self.station.work().expect("a slot that is out")),
                // Step by step: a take would go on through slots that are out, and past a notice.
                false => {
                    self.station.deliver(block).expect("a block of its turn");
                    while !self.station.work().expect("that block").moved {}
                }
            }
        }
    }

    /// Lets the program run for a while, often a short one, and kills it.
    fn run_and_kill(&mut self, mut program: Command) {
        let said = self.room.join("said");
        let file = File::create(&said).unwrap();
        let seed = self.random.bits();
        program.env(program::ASKED, format!("{seed} {}", self.room.display()));
        program.stdout(file.try_clone().unwrap()).stderr(file);
        let mut child = program.stdin(Stdio::null()).spawn().unwrap();
        let most = self.random.pick(&[30_000, 100_000, 250_000]);
        sleep(Duration::from_micros(self.random.below(most) as u64));
        let ended = child.try_wait().unwrap();
        child.kill().unwrap();
        child.wait().unwrap();
        let said = || fs::read_to_string(&said).unwrap();
        assert!(ended.is_none(), "it ended by itself: {}", said());
    }

    /// Cuts a journal, at a byte at or above the floor. Of a giving in whose middle the kill came that is what has a
    /// copy, and what is behind is not durable, so that no slot that is out is passed there.
    fn cut(&mut self, k: usize) {
        let path = journal(&self.room, k);
        let file = OpenOptions::new().write(true).open(&path);
        let Ok(file) = file else {
            return;
        };
        let length = file.metadata().unwrap().len() as usize;
        let floor = self.log.observer.journal(k).floor();
        let Some(length) = length.checked_sub(HEAD).filter(|&blocks| blocks > 0) else {
            assert_eq!(floor, 0, "journal {k}: no blocks");
            return;
        };
        assert!(floor <= length, "journal {k}: {length} bytes of {floor}");
        let (mut floor, mut length) = (floor, length);
        if self.log.is_giving(k) {
            floor = floor
                .max(BLOCK * studio::copied(&path) as usize)
                .min(length);
            let notices = self.log.observer.notices(k);
            let is_out = |slot: &u32| notice::puts_out(notices, N as u32, *slot);
            let slots = floor.div_ceil(BLOCK) as u32..(length / BLOCK) as u32;
            let passed = slots.into_iter().find(is_out);
            length = passed.map_or(length, |slot| BLOCK * slot as usize);
        }
        let left = floor + self.random.below(length - floor + 1);
        file.set_len((HEAD + left) as u64).unwrap();
    }

    /// Opens the replicas a last time and lets them come to rest: then demand 3 holds, and nothing is lost.
    /// The folder goes.
    pub fn rest(mut self) -> Met {
        self.log.before_start();
        let opened = (0..N).map(|k| studio::open(&journal(&self.room, k), N as u32, k as u32));
        let (mut group, restarted): (Vec<_>, Vec<_>) = opened.unzip();
        for (k, restarted) in restarted.into_iter().enumerate() {
            self.log.restarted(k, None, restarted);
        }
        let said = service::said(&self.room);
        settle(&mut self.log, &said, &mut group);
        self.feed(&studio::lent(&journal(&self.room, 0)));
        self.check(&group);
        fs::remove_dir_all(&self.room).unwrap();
        Met {
            commits: group[0].report().commits.into(),
            ..self.log.met
        }
    }

    /// What the log says of the list of calls, and what is on the disk.
    fn check(&self, group: &[Durable]) {
        let log = &self.log;
        let end = |durable: &Durable| (report(durable.report()), *durable.values());
        let ends: Vec<_> = group.iter().map(end).collect();
        assert_eq!(log.observer.violations(&ends), [""; 0]);
        assert_eq!(log.observer.one_list(), Ok(()));
        assert!(log.observer.premise());
        let station = (self.station.report().turn, self.station.values());
        assert_eq!(station, (ends[0].0.turn, &ends[0].1), "the station");
        for (k, (report, values)) in ends.iter().enumerate() {
            assert_eq!((report.turn, values), (ends[0].0.turn, &ends[0].1));
            let bytes = studio::lent(&journal(&self.room, k));
            assert_eq!(bytes.len(), BLOCK * report.turn as usize);
            assert!(bytes == log.observer.journal(k).bytes(), "journal {k}");
            for block in &log.handed_out {
                let slot = block::header(block).slot as usize;
                assert!(bytes[BLOCK * slot..][..BLOCK] == **block, "slot {slot}");
            }
        }
    }
}

/// Works until nothing waits, with what was said before each.
fn work_off(log: &mut Log, said: &[Notice], k: usize, durable: &mut Durable) {
    while log.call(k, durable, &Call::Work).is_ok() {
        log.hear(said, k, durable);
    }
}

/// Lets all take what was said and send, and hands out all blocks, until two rounds are over and all are at one
/// turn. One that is out, or was, may be far behind: nobody waited for it.
fn settle(log: &mut Log, said: &[Notice], group: &mut [Durable]) {
    let turn = |durable: &Durable| durable.report().turn;
    let end = group.iter().map(turn).max().unwrap() + 2 * N as u32;
    // Slots that are out are passed behind the end too, by all.
    let rests = |group: &[Durable]| {
        let first = turn(&group[0]);
        first >= end && group.iter().all(|durable| turn(durable) == first)
    };
    let mut before = Vec::new();
    while !rests(group) {
        let turns: Vec<u32> = group.iter().map(turn).collect();
        assert!(
            turns != before,
            "at the turns {turns:?}, and not at {end}: a block is lost"
        );
        for (k, durable) in group.iter_mut().enumerate() {
            log.hear(said, k, durable);
            if turn(durable) < end {
                let _ = log.call(k, durable, &Call::Send);
            }
            for bytes in log.blocks_from(turn(durable)) {
                let _ = log.call(k, durable, &Call::Deliver { bytes });
                work_off(log, said, k, durable);
            }
            work_off(log, said, k, durable);
        }
        before = turns;
    }
}
